// Roles of which tags say where they hold: in attributes, and as tags of entities.
@id("role a")
permit(principal in Role::"Role-A", action in [Action::"UpdateWorkspace", Action::"ReadWorkspace"], resource)
when {
  principal.allowedTagsForRole has "Role-A" &&
  (if principal.allowedTagsForRole["Role-A"] has production_status then
     (if resource.tags has production_status then
        (principal.allowedTagsForRole["Role-A"].production_status.contains(resource.tags.production_status) ||
         resource.tags.production_status == "ALL")
      else true)
   else true) &&
  (if principal.allowedTagsForRole["Role-A"] has country then
     (if resource.tags has country then
        (principal.allowedTagsForRole["Role-A"].country.contains(resource.tags.country) ||
         resource.tags.country == "ALL")
      else true)
   else true)
};

@id("role b")
permit(principal in Role::"Role-B", action, resource)
when {
  principal.hasTag("country") &&
  resource.hasTag("country") &&
  principal.getTag("country").contains(resource.getTag("country"))
};
