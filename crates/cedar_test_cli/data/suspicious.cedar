@id("untested")
permit(principal, action, resource)
when { context.level == 1 && context has level };

@id("tested")
permit(principal, action, resource)
when { context has level && context.level == 1 };

@id("sum")
forbid(principal is User, action, resource)
when { principal + 1 > 2 };

@id("again")
permit(principal, action, resource)
when { context has level && context.level == 1 };

@id("shares\n")
permit(principal == ?principal, action, resource)
when { resource.public && "a" };

@id("shares too")
permit(principal == ?principal, action, resource)
when { resource.public && "a" };
