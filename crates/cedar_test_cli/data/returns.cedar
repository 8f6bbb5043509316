// first
permit(principal, action, resource)
  when { true }; // last
