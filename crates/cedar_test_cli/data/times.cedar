// What holds of dates, times and durations: a line that does not hold, or that errs, forbids or is told.
permit(principal, action, resource);

// The five forms, and offsets, which are subtracted.
forbid(principal, action, resource) unless { datetime("2024-10-15") == datetime("2024-10-15T00:00:00Z") };
forbid(principal, action, resource) unless { datetime("2024-10-15T11:35:00Z") == datetime("2024-10-15T11:35:00.000Z") };
forbid(principal, action, resource)
unless { datetime("2024-10-15T11:35:00+0100") == datetime("2024-10-15T10:35:00Z") };
forbid(principal, action, resource)
unless { datetime("2024-10-15T11:35:00.000-0330") == datetime("2024-10-15T15:05:00Z") };
forbid(principal, action, resource) unless { datetime("2024-01-01T00:00:00+0530") < datetime("2024-01-01") };
forbid(principal, action, resource)
unless { datetime("1970-01-01T00:00:00-0000") == datetime("1970-01-01T00:00:00+0000") };
forbid(principal, action, resource)
unless { datetime("2024-12-31T23:59:00-2359") == datetime("2025-01-01T23:58:00Z") };
forbid(principal, action, resource)
unless { datetime("1970-01-01T00:00:00.007Z") == datetime("1970-01-01").offset(duration("7ms")) };

// Leap days and centuries.
forbid(principal, action, resource)
unless { datetime("2024-03-01").durationSince(datetime("2024-02-28")).toDays() == 2 };
forbid(principal, action, resource)
unless { datetime("2023-03-01").durationSince(datetime("2023-02-28")).toDays() == 1 };
forbid(principal, action, resource)
unless { datetime("1900-03-01").durationSince(datetime("1900-02-28")).toDays() == 1 };
forbid(principal, action, resource) unless { datetime("2000-02-29").offset(duration("1d")) == datetime("2000-03-01") };
forbid(principal, action, resource)
unless { datetime("2100-01-01").durationSince(datetime("2000-01-01")).toDays() == 36525 };
forbid(principal, action, resource)
unless { datetime("2000-01-01").durationSince(datetime("1600-01-01")).toDays() == 146097 };
forbid(principal, action, resource)
unless { datetime("0000-02-29").offset(duration("1d")) == datetime("0000-03-01") };

// From the first day to the last.
forbid(principal, action, resource)
unless { datetime("0000-01-01").durationSince(datetime("1970-01-01")).toMilliseconds() == -62167219200000 };
forbid(principal, action, resource)
unless { datetime("9999-12-31T23:59:59.999Z").durationSince(datetime("1970-01-01")).toMilliseconds() == 253402300799999 };
forbid(principal, action, resource) unless { datetime("0000-01-01T00:00:00+2359") < datetime("0000-01-01") };

// Days and times of day, also before 1970.
forbid(principal, action, resource) unless { datetime("2024-10-15T11:35:00Z").toDate() == datetime("2024-10-15") };
forbid(principal, action, resource) unless { datetime("2024-10-15T11:35:00Z").toTime() == duration("11h35m") };
forbid(principal, action, resource) unless { datetime("1969-12-31T23:00:00Z").toDate() == datetime("1969-12-31") };
forbid(principal, action, resource) unless { datetime("1969-12-31T23:00:00Z").toTime() == duration("23h") };
forbid(principal, action, resource)
unless { datetime("1969-12-31T23:59:59.999Z").toTime() == duration("86399999ms") };
forbid(principal, action, resource) unless { datetime("1969-12-31").toDate() == datetime("1969-12-31") };
forbid(principal, action, resource) unless { datetime("1969-12-31").toTime() == duration("0ms") };

// Durations, and their units cut towards zero.
forbid(principal, action, resource) unless { duration("1d2h3m4s5ms").toMilliseconds() == 93784005 };
forbid(principal, action, resource) unless { duration("-1d12h") == duration("-36h") };
forbid(principal, action, resource) unless { duration("5ms").toMilliseconds() == 5 };
forbid(principal, action, resource) unless { duration("5m").toMilliseconds() == 300000 };
forbid(principal, action, resource) unless { duration("2h5ms") == duration("0002h00005ms") };
forbid(principal, action, resource) unless { duration("90m") == duration("1h30m") };
forbid(principal, action, resource) unless { duration("-0s") == duration("0d") };
forbid(principal, action, resource) unless { duration("1999ms").toSeconds() == 1 };
forbid(principal, action, resource) unless { duration("-1999ms").toSeconds() == -1 };
forbid(principal, action, resource) unless { duration("-59s").toMinutes() == 0 };
forbid(principal, action, resource) unless { duration("-119m").toHours() == -1 };
forbid(principal, action, resource) unless { duration("36h").toDays() == 1 };
forbid(principal, action, resource) unless { duration("-36h").toDays() == -1 };

// The ends of 64 bits.
forbid(principal, action, resource)
unless { duration("9223372036854775807ms").toMilliseconds() == 9223372036854775807 };
forbid(principal, action, resource)
unless { duration("-9223372036854775808ms").toMilliseconds() == -9223372036854775808 };
forbid(principal, action, resource)
unless { duration("106751991167d7h12m55s807ms") == duration("9223372036854775807ms") };
forbid(principal, action, resource)
unless { duration("-106751991167d7h12m55s808ms") == duration("-9223372036854775808ms") };
forbid(principal, action, resource) unless { duration("-9223372036854775808ms").toDays() == -106751991167 };
forbid(principal, action, resource)
unless { datetime("1970-01-01").offset(duration("-9223372036854775808ms")).toTime() == duration("16h47m4s192ms") };
forbid(principal, action, resource)
unless {
  datetime("1970-01-01").offset(duration("9223372036854775807ms"))
    .durationSince(datetime("1970-01-01").offset(duration("1ms"))) == duration("9223372036854775806ms")
};

// In order: datetimes among themselves, and durations.
forbid(principal, action, resource) unless { datetime("1969-12-31") < datetime("1970-01-01") };
forbid(principal, action, resource) unless { datetime("2024-10-15") <= datetime("2024-10-15T00:00:00Z") };
forbid(principal, action, resource) when { datetime("2024-10-15") < datetime("2024-10-15T00:00:00Z") };
forbid(principal, action, resource) unless { datetime("2024-10-15T00:00:00.001Z") > datetime("2024-10-15") };
forbid(principal, action, resource) unless { datetime("2024-10-15") >= datetime("2024-10-15") };
forbid(principal, action, resource) unless { duration("-1ms") < duration("0ms") };
forbid(principal, action, resource) unless { duration("9h") < duration("10h") };
forbid(principal, action, resource) unless { duration("60s") <= duration("1m") };
forbid(principal, action, resource) when { duration("60s") > duration("1m") };
forbid(principal, action, resource) unless { duration("1d") >= duration("24h") };
forbid(principal, action, resource)
unless { duration("-9223372036854775808ms") < duration("9223372036854775807ms") };

// Equal is what is of one type and one number, however it was made.
forbid(principal, action, resource)
unless { datetime("2024-10-14").offset(duration("1d")).offset(duration("-1h")) == datetime("2024-10-14T23:00:00Z") };
forbid(principal, action, resource)
unless { datetime("2024-10-15").durationSince(datetime("2024-10-16")) == duration("-1d") };
forbid(principal, action, resource) when { datetime("1970-01-01") == duration("0ms") };
