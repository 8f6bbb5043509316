@id("two types")
permit(principal is User, action, resource)
when { principal is Admin };

@id("untested")
permit(principal, action, resource)
when { resource.level > 2 && resource has level };
