permit(principal, action in [Action::"read", Action::"write"], resource);
