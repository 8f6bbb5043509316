// A photo service. Whoever is in the group of an album's friends views its photos.
@id("friends view")
permit(principal, action == Action::"view", resource in Album::"jane's trips")
when { principal in resource.owner.friends };

// The owner does everything with a photo.
@id("owner")
permit(principal, action, resource)
when { resource.owner == principal };

// Nobody sees a private photo from outside but its owner.
@id("private")
forbid(principal, action, resource)
when { resource.tags.contains("private") }
unless { resource.owner == principal };

// It errs for photos of which nobody says how many people are on them.
@id("crowds")
permit(principal, action == Action::"view", resource)
when { resource.people > 10 && context.network == "home" };
