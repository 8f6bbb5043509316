// A gallery: what is asked of photos in a table.

@id("own")
permit(principal, action, resource)
when { resource.owner == principal };

@id("public")
permit(principal, action == Action::"view", resource)
when { resource.public == true };

@id("large")
forbid(principal, action == Action::"view", resource)
when { resource.size > 100 };

// Beyond one row: albums stand in no column.
@id("album")
permit(principal, action == Action::"list", resource in Album::"trip");

// The device is not known.
@id("device")
forbid(principal, action == Action::"list", resource)
when { context.device == "kiosk" };
