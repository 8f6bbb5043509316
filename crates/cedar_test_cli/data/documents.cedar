// A document service.

// Sets of actions, and types: the team of a document views it and comments on it.
@id("team")
permit(principal is User, action in [Action::"view", Action::"comment"], resource is Document in Folder::"plans")
when { principal in resource.team };

// Attributes that may be missing, and patterns: what is public is viewed by all, but no draft.
@id("public")
permit(principal, action == Action::"view", resource)
when { resource has public && resource.public && !(resource.title like "*draft*") };

// The owner does everything.
@id("owner")
permit(principal, action, resource)
when { principal == resource.owner };

// Beyond office hours nobody edits. It errs where the context does not say the hour.
@id("office hours")
forbid(principal, action == Action::"edit", resource)
when { context.hour < 8 || context.hour >= 18 };

// Tags: what is sealed for good is not even its owner's.
@id("sealed")
forbid(principal, action, resource)
when { resource.hasTag("seal") && resource.getTag("seal") == "for good" };
