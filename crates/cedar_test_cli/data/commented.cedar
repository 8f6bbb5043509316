// of the file


// of the policy
@id("a")@note("second, \"quoted\" // not a comment")@empty // behind an annotation
permit( // behind the bracket
  principal, action // behind the action
  , // behind the comma
  resource /// before the bracket closes
)
when{ // behind the brace
  principal.age>=18 && // behind the operator
  // before an operand
  context.level > 2 // before the brace closes
}
unless { [ // in a set
 1, 2].contains(context.n) } when { "// no comment" != "a\"//\\" } // before the end
; // behind the policy
forbid(principal,action,resource);// last
// of nothing
