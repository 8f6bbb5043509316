@id("town")
permit(principal, action, resource)
when { resource.place.city == "it's" };

@id("own")
permit(principal, action, resource)
when { resource.owner == principal };
