@id("adults")
permit(principal is User, action, resource)
when { principal.age };

@id("open\nDENY")
permit(principal, action == Action::"view", resource)
when { if resource.open then context.ok == "\u{202e}" else false }
unless { principal.age < 18 };

@id("overflow")
forbid(principal, action, resource)
when { principal.age + 9223372036854775807 > 0 };
