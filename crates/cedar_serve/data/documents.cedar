// Staff reads what is a document.
@id("staff reads")
permit(principal in Group::"staff", action == Action::"read", resource is Document);

// An owner does everything with what is his or hers.
@id("owner")
permit(principal, action, resource)
when { resource has owner && resource.owner == principal };

// Nobody touches what is sealed but an auditor.
@id("sealed")
forbid(principal, action, resource)
when { resource has sealed && resource.sealed }
unless { context has role && context.role == "auditor" };

// Whoever prints does so by day. It errs where no hour is given.
@id("by day")
permit(principal, action == Action::"print", resource)
when { 8 <= context.hour && context.hour < 18 };

// Who is inside copies.
@id("inside")
permit(principal, action == Action::"copy", resource)
when { context has address && context.address.isInRange(ip("10.0.0.0/8")) };
