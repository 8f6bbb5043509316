permit(principal, action, resource) when { nosuch(1) };
permit(principal, action, resource) when { principal.unknown() };
permit(principal, action, resource) when { unknown("a", "b") };
permit(principal, action, resource) when { unknwon("a") };
permit(principal, action, resource) when { unknown("a") };
