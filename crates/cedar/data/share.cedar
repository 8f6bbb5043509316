@id("share")
permit(principal in ?principal, action == Action::"read", resource == ?resource);
