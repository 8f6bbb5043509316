permit(principal, action, resource) when { resource.owner = principal };
permit(principal, action, resource);
forbid(principal, action, resource) unless { resource.tags.contains("open", 1) };
permit(principal action, resource);
