permit(principal, action, resource)
when {
  ((((((((1 is T in 1) is T in 1) is T in 1) is T in 1) is T in 1) is T in 1) is T in 1) is T in 1) is T in 1
};
