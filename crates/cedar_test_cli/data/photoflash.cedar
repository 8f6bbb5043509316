// A service for photos, with types in a namespace.
@id("vacation")
permit(
  principal == PhotoFlash::User::"alice",
  action in [PhotoFlash::Action::"viewPhoto", PhotoFlash::Action::"listPhotos"],
  resource in PhotoFlash::Album::"vacation"
);

@id("private")
forbid(principal, action, resource is PhotoFlash::Photo)
when { resource.private }
unless { resource.owner == principal };

@id("managers")
permit(principal in PhotoFlash::Role::"managers", action, resource)
when { principal.department == "HR" && principal.jobLevel >= 7 };
