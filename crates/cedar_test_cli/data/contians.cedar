permit(principal, action, resource);
forbid(principal, action, resource) when { resource.tags.contians("private") };
