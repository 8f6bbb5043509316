// Who asks from where.
@id("office")
permit(principal, action, resource) when { context.src_ip.isInRange(ip("10.0.0.0/8")) };
permit(principal == User::"root", action, resource);
@id("vpn")
forbid(principal, action == Action::"delete", resource) unless { context.src_ip.isLoopback() };
