permit(principal == User::"alice", action, resource);
@id("shares")
permit(principal == ?principal, action, resource);
