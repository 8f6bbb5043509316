@id("owner")
permit(principal, action, resource)
when { resource.owner == principal };

@id("sealed")
forbid(principal, action, resource)
when { resource.status == "sealed" };
