@id("owners read") // A comment stands on a line of its own, before the token that it stood before.
permit(principal, action in [Action::"read", Action::"list"], resource) when { resource has owner && resource.owner == principal };
