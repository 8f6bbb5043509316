// A wiki: what a policy can apply to stands in its scope.

// A type and a group at once.
@id("staff")
permit(principal is User in Group::"staff", action == Action::"view", resource);

// A group, a set of actions, and a type in a folder.
@id("editors")
permit(principal in Group::"editors", action in [Action::"edit", Action::"publish"], resource is Page in Folder::"site");

// A type alone. It errs where the context does not say the rate.
@id("robots")
permit(principal is Robot, action == Action::"index", resource is Page)
when { context.rate < 10 };

// Anybody, and a set of actions. It errs where the page does not say whether it is locked.
@id("locked")
forbid(principal, action in [Action::"edit", Action::"remove"], resource is Page in Folder::"archive")
when { resource.locked };

// A set of one action, and a type: visitors leave messages.
@id("guests")
permit(principal is Guest, action in [Action::"leave"], resource is Message);

// The empty set: no action is in it.
@id("nothing")
permit(principal is User, action in [], resource);
