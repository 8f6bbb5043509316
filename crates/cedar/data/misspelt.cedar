permit(principal in Group::"staff", action == Action::"read", resource)
when { resource.status = "published" };

permit(principal, action, resource)
when { resource.readers.contians(principal) };
