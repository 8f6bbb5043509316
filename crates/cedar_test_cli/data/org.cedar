permit(principal, action, resource);
forbid(principal, action, resource) unless { principal in Org::"o" };
