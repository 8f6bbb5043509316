// Owners do everything with their documents.
@id("owner")
permit(principal, action, resource)
when { resource.owner == principal };

// Staff read what is published.
@id("staff")
permit(principal in Group::"staff", action == Action::"read", resource is Document)
when { resource has status && resource.status == "published" };

// Only some documents have reviewers: a user or a group.
@id("reviewers")
permit(principal, action in [Action::"read", Action::"comment"], resource)
when { resource has reviewers && principal in resource.reviewers };

// Nobody touches what is sealed.
@id("sealed")
forbid(principal, action, resource)
when { resource has status && resource.status == "sealed" };
