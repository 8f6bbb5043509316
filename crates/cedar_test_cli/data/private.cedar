permit(principal, action, resource);
forbid(principal, action, resource) unless { context.ip.isPrivate() };
