// Repositories and their issues.
permit(principal, action == Action::"pull", resource) when { principal in resource.readers };
permit(principal, action == Action::"fork", resource) when { principal in resource.readers };
permit(principal, action == Action::"delete_issue", resource)
when { principal in resource.repo.readers && principal == resource.reporter };
permit(principal, action == Action::"edit_issue", resource)
when { principal in resource.repo.readers && principal == resource.reporter };
permit(principal, action == Action::"assign_issue", resource) when { principal in resource.repo.triagers };
permit(principal, action == Action::"push", resource) when { principal in resource.writers };
permit(principal, action == Action::"edit_issue", resource) when { principal in resource.repo.writers };
permit(principal, action == Action::"add_reader", resource) when { principal in resource.admins };
