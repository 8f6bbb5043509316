@id("two types")
permit(principal is User, action, resource)
when { principal is Group };

forbid(principal, action, resource)
when { resource.kind == "photo" }
unless { resource.kind == "photo" || true };

permit(principal == User::"alice", action, resource)
when { principal == User::"jane" && resource.public };

permit(principal == ?principal, action, resource)
when { false };

permit(principal, action, resource)
when { resource.kind == "photo" && context.kind == "video" };
