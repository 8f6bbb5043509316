// Who reads a thing, by its list of readers, and by GET where a method is told.
@id("readers")
permit(principal is user, action == Action::"can_read", resource)
when { resource has readers && resource.readers.contains(principal) }
unless { action has method && action.method != "GET" };

// Who writes it, by its list of writers.
@id("writers")
permit(principal is user, action == Action::"can_write", resource)
when { resource has writers && resource.writers.contains(principal) };

// The same of a document that is edited.
@id("editors")
permit(principal is user, action == Action::"can_edit", resource is document)
when { resource has writers && resource.writers.contains(principal) };

// Whoever is in sales reads each account.
@id("sales")
permit(principal is user, action == Action::"can_read", resource is account)
when { principal has department && principal.department == "Sales" };

// A loan is extended by two weeks of what has a record.
@id("loans")
permit(principal is user, action == Action::"extendLoan", resource is book)
when { action has period && action.period == "2W" && resource has library_record && resource.library_record has isbn };
