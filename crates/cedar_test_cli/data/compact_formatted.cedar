@b("2")
@a("1")
@if("3")
permit (
  principal in ?principal,
  action in [Action::"a", Action::"b"],
  resource is A::B in C::"d"
)
when {
  !(-1 - -2 > 0)
  && !!principal.a["b c"].c
  && {a: 1, "b": []} has a
}
unless {
  if 1 <= 2
  && 2 >= 1
  then "a" like "*"
  else ip("::1").isIpv6()
  || resource is A::B
};
