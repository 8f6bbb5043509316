// Presentations for customers.
@id("internal")
permit(principal is User, action in Action::"InternalPrezViewActions", resource is Presentation)
when { principal.job == Job::"internal" };

@id("owner or viewer")
permit(
  principal,
  action in [Action::"viewPresentation", Action::"duplicatePresentation", Action::"editPresentation"],
  resource
)
when { principal == resource.owner || principal in resource.viewers };

@id("customers")
forbid(principal, action == Action::"grantViewAccessToPresentation", resource)
unless {
  (context.target.job != Job::"customer" || principal == resource.owner) &&
  context.target.customerId != principal.customerId
};

@id("grant")
permit(principal is User, action == Action::"grantViewAccessToPresentation", resource is Presentation)
when { resource.owner == principal || principal in resource.editors };
