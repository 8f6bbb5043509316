// Chains of hotels: who may see and change what is said by links of these.
@id("viewReservation")
permit(principal == ?principal, action == Action::"viewReservation", resource in ?resource);

@id("updateHotel")
@role("admin")
permit(principal == ?principal, action in [Action::"viewHotel", Action::"updateHotel"], resource in ?resource);
