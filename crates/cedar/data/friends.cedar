@id("friends")
permit(principal in ?principal, action, resource == ?resource);
