permit(principal, action, resource);
forbid(principal, action, resource) when { context.b };
