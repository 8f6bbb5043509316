@annotated
permit(principal is User in Group::"g", action, resource is Photo)
when { principal.a.b.c == [1, -2, "x\u{1F600}", {"k": true}] && context has a.b.c }
when { ip("1.2.3.4").isInRange(ip("1.2.0.0/16")) && datetime("2024-10-15").offset(duration("1d")) < context.until }
unless { principal like "a*" || resource.x.isEmpty() || (if true then false else true) };
