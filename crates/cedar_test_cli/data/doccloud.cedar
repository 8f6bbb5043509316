// Documents that are shared by lists of who may do what, and who is blocked.
@id("create")
permit(principal, action == Action::"CreateDocument", resource == Drive::"drive")
when { context.is_authenticated };

@id("view")
permit(principal, action == Action::"ViewDocument", resource)
when {
  principal == resource.owner ||
  (resource.publicAccess == "view" || resource.publicAccess == "edit") ||
  principal in resource.viewACL ||
  principal in resource.modifyACL ||
  principal in resource.manageACL
};

@id("modify")
permit(principal, action in [Action::"ModifyDocument"], resource)
when { principal == resource.owner || resource.publicAccess == "edit" || principal in resource.modifyACL };

@id("manage")
permit(principal, action in [Action::"AddToShareACL", Action::"DeleteDocument", Action::"EditIsPrivate"], resource)
when { principal == resource.owner || principal in resource.manageACL };

@id("groups")
permit(principal is User, action in [Action::"CreateGroup", Action::"DeleteGroup"], resource)
when { resource has owner && principal == resource.owner };

@id("blocked")
forbid(principal, action in [Action::"ViewDocument", Action::"ModifyDocument"], resource)
when {
  resource has owner &&
  principal has blocked &&
  (resource.owner.blocked.contains(principal) || principal.blocked.contains(resource.owner))
};

@id("authenticated")
forbid(principal, action, resource)
unless { context has is_authenticated && context.is_authenticated };
