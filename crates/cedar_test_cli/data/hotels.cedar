// Chains of hotels: what may be seen and changed is listed with the user.
@id("reservations")
permit(principal, action in [Action::"viewReservation"], resource is Reservation)
when { resource in principal.viewPermissions.hotelReservations };

@id("properties")
permit(principal, action in [Action::"viewProperty"], resource is Property)
when {
  resource in principal.viewPermissions.propertyAdmins ||
  resource in principal.memberPermissions.propertyAdmins
};

@id("hotels")
permit(principal, action in [Action::"viewHotel", Action::"updateHotel"], resource is Hotel)
when { resource in principal.memberPermissions.hotelAdmins };
