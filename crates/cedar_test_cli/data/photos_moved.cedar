// The policies of the photo service in another order.
@id("crowds")
permit(principal, action == Action::"view", resource)
when { resource.people > 10 && context.network == "home" };

@id("private")
forbid(principal, action, resource)
when { resource.tags.contains("private") }
unless { resource.owner == principal };

@id("owner")
permit(principal, action, resource)
when { resource.owner == principal };

@id("friends view")
permit(principal, action == Action::"view", resource in Album::"jane's trips")
when { principal in resource.owner.friends };
