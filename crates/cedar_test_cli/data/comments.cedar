
   // one
// two
