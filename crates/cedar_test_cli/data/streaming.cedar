// Films and shows, in time.
@id("movies")
permit(principal is Subscriber, action == Action::"watch", resource is Movie)
when { (resource.isFree || principal.subscription.tier == "premium") && !resource.needsRentOrBuy };

@id("oscars")
permit(principal is Subscriber, action in [Action::"rent", Action::"buy"], resource is Movie)
when {
  resource.isOscarNominated &&
  context.now.datetime >= datetime("2025-02-02T19:00:00-0500") &&
  context.now.datetime < datetime("2025-03-02T19:00:00-0500")
};

@id("early access")
permit(principal is Subscriber, action == Action::"watch", resource is Show)
when { resource.isEarlyAccess && context.now.datetime.offset(duration("24h")) >= resource.releaseDate };

@id("bedtime")
forbid(principal is Subscriber, action == Action::"watch", resource)
when { principal.profile.isKid }
unless {
  duration("6h") <= context.now.datetime.offset(context.now.localTimeOffset).toTime() &&
  context.now.datetime.offset(context.now.localTimeOffset).toTime() <= duration("21h")
};
