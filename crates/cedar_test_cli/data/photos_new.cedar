// The photo service as it is to be: owners view only, and nobody is counted who wasn't before.
@id("friends view")
permit(principal, action == Action::"view", resource in Album::"jane's trips")
when { principal in resource.owner.friends };

@id("private")
forbid(principal, action, resource)
when { resource.tags.contains("private") }
unless { resource.owner == principal };

@id("owner views")
permit(principal, action == Action::"view", resource)
when { resource.owner == principal };

@id("crowds")
permit(principal, action == Action::"view", resource)
when { resource has people && resource.people > 10 && context.network == "home" };
