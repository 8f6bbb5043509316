// Lists of things to do.
@id("anyone")
permit(principal, action in [Action::"CreateList", Action::"GetLists"], resource == Application::"TinyTodo");

@id("owner")
permit(principal, action, resource is List)
when { resource.owner == principal };

@id("readers")
permit(principal, action == Action::"GetList", resource is List)
when { principal in resource.readers || principal in resource.editors };

@id("editors")
permit(
  principal,
  action in [Action::"UpdateList", Action::"CreateTask", Action::"UpdateTask", Action::"DeleteTask"],
  resource is List
)
when { principal in resource.editors };

@id("admins")
permit(principal in Team::"admin", action, resource in Application::"TinyTodo");

@id("interns")
forbid(principal in Team::"interns", action == Action::"CreateList", resource == Application::"TinyTodo");
