// What holds of IP addresses and ranges of them: a line that does not hold, or that errs, forbids or is told.
permit(principal, action, resource);

// The same are two of one family, address and prefix, however they are written.
forbid(principal, action, resource) unless { ip("127.0.0.1") == ip("127.0.0.1/32") };
forbid(principal, action, resource) unless { ip("::1") == ip("0:0:0:0:0:0:0:1/128") };
forbid(principal, action, resource) unless { ip("2001:DB8::0a") == ip("2001:0db8:0000::a") };
forbid(principal, action, resource) unless { ip("1:0:0:4:0:0:0:8") == ip("1::4:0:0:0:8") };
forbid(principal, action, resource) unless { ip("1:2:3:4:5:6:7::") == ip("1:2:3:4:5:6:7:0") };
forbid(principal, action, resource) unless { ip("0000:0000:0000:0000:0000:0000:0000:0001/128") == ip("::1") };
forbid(principal, action, resource) when { ip("10.0.0.0/8") == ip("10.0.0.1/8") };
forbid(principal, action, resource) when { ip("10.0.0.0/8") == ip("10.0.0.0/9") };
forbid(principal, action, resource) when { ip("0.0.0.0/0") == ip("::/0") };

// Families.
forbid(principal, action, resource) unless { ip("127.0.0.1/24").isIpv4() && !ip("127.0.0.1/24").isIpv6() };
forbid(principal, action, resource) unless { ip("ffee::").isIpv6() && !ip("ffee::").isIpv4() };

// Loopback and multicast are ranges of which each address is.
forbid(principal, action, resource) unless { ip("127.0.0.2").isLoopback() && ip("127.0.0.0/8").isLoopback() };
forbid(principal, action, resource) unless { ip("::1").isLoopback() && ip("::1/128").isLoopback() };
forbid(principal, action, resource) when { ip("127.0.0.0/7").isLoopback() || ip("128.0.0.1").isLoopback() };
forbid(principal, action, resource) when { ip("::1/127").isLoopback() || ip("::2").isLoopback() };
forbid(principal, action, resource) unless { ip("224.0.0.1").isMulticast() && ip("239.255.255.255").isMulticast() };
forbid(principal, action, resource) unless { ip("224.0.0.0/4").isMulticast() && ip("ff00::/8").isMulticast() };
forbid(principal, action, resource) when { ip("224.0.0.0/3").isMulticast() || ip("ff00::/7").isMulticast() };
forbid(principal, action, resource) when { ip("240.0.0.0").isMulticast() || ip("feff::").isMulticast() };

// Ranges in ranges.
forbid(principal, action, resource) unless { ip("192.168.0.75").isInRange(ip("192.168.0.1/24")) };
forbid(principal, action, resource) when { ip("192.168.0.75").isInRange(ip("192.168.0.1/28")) };
forbid(principal, action, resource) unless { ip("1:2:3:4::").isInRange(ip("1:2:3:4::/48")) };
forbid(principal, action, resource) when { ip("192.168.0.1").isInRange(ip("1:2:3:4::")) };
forbid(principal, action, resource) unless { ip("10.1.0.0/16").isInRange(ip("10.0.0.0/8")) };
forbid(principal, action, resource) when { ip("10.0.0.0/8").isInRange(ip("10.1.0.0/16")) };
forbid(principal, action, resource) unless { ip("10.0.0.0/8").isInRange(ip("10.255.0.0/8")) };
forbid(principal, action, resource) unless { ip("255.255.255.255").isInRange(ip("0.0.0.0/0")) };
forbid(principal, action, resource) when { ip("::ffff").isInRange(ip("0.0.0.0/0")) };
forbid(principal, action, resource) unless { ip("ffff:ffff:ffff:ffff::/64").isInRange(ip("::/0")) };
forbid(principal, action, resource) when { ip("128.0.0.0").isInRange(ip("0.0.0.0/1")) };
forbid(principal, action, resource) when { ip("10.0.0.1").isInRange(ip("10.0.0.2")) };
