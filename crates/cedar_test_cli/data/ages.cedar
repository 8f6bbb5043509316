@id("adult")
permit(principal, action, resource)
when { principal.age >= 18 };
