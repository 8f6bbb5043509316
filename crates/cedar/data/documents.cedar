@id("owner")
permit(principal, action, resource)
when { resource.owner == principal };

@id("staff")
permit(principal in Group::"staff", action == Action::"read", resource)
when { resource.status == "published" };

@id("sealed")
forbid(principal, action, resource)
when { resource.status == "sealed" };
