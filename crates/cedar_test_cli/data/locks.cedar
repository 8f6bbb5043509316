permit(principal, action, resource);

@id("locked")
forbid(principal, action, resource)
when { resource has locked && resource.locked };
