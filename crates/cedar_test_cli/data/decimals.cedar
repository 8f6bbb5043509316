// What holds of decimals: a line that does not hold, or that errs, forbids or is told.
permit(principal, action, resource);

// The number counts, and not how it is written; the sign is that of the whole.
forbid(principal, action, resource) unless { decimal("1.0") == decimal("1.00") };
forbid(principal, action, resource) unless { decimal("0001.5000") == decimal("1.5") };
forbid(principal, action, resource) unless { decimal("-0.0") == decimal("0.0") };
forbid(principal, action, resource) unless { decimal("1.2345") != decimal("1.2346") };
forbid(principal, action, resource) unless { decimal("-0.5").lessThan(decimal("0.0")) };
forbid(principal, action, resource) unless { decimal("-1.5").lessThan(decimal("-1.0")) };
forbid(principal, action, resource) unless { decimal("0.0001").lessThan(decimal("0.001")) };
forbid(principal, action, resource) unless { decimal("9.0").lessThan(decimal("10.0")) };

// Each comparison, where the first is less, the same and greater.
forbid(principal, action, resource) unless { decimal("1.23").lessThan(decimal("1.24")) };
forbid(principal, action, resource) when { decimal("1.23").lessThan(decimal("1.23")) };
forbid(principal, action, resource) when { decimal("-1.23").lessThan(decimal("-1.24")) };
forbid(principal, action, resource) unless { decimal("123.45").lessThanOrEqual(decimal("1234.56")) };
forbid(principal, action, resource) unless { decimal("1.23").lessThanOrEqual(decimal("1.23")) };
forbid(principal, action, resource) when { decimal("-1.23").lessThanOrEqual(decimal("-1.24")) };
forbid(principal, action, resource) when { decimal("1.23").greaterThan(decimal("1.24")) };
forbid(principal, action, resource) when { decimal("1.23").greaterThan(decimal("1.230")) };
forbid(principal, action, resource) unless { decimal("-1.23").greaterThan(decimal("-1.24")) };
forbid(principal, action, resource) when { decimal("123.45").greaterThanOrEqual(decimal("1234.56")) };
forbid(principal, action, resource) unless { decimal("1.23").greaterThanOrEqual(decimal("1.230")) };
forbid(principal, action, resource) unless { decimal("-1.23").greaterThanOrEqual(decimal("-1.24")) };

// The ends of 64 bits.
forbid(principal, action, resource)
unless { decimal("-922337203685477.5808").lessThan(decimal("-922337203685477.5807")) };
forbid(principal, action, resource)
unless { decimal("922337203685477.5807").greaterThan(decimal("922337203685477.5806")) };
forbid(principal, action, resource)
unless { decimal("-922337203685477.5808").lessThan(decimal("922337203685477.5807")) };

// Sets have each number once, and decimals are no longs.
forbid(principal, action, resource) unless { [decimal("1.5"), decimal("2.0")].contains(decimal("1.500")) };
forbid(principal, action, resource) unless { [decimal("1.5"), decimal("1.50")] == [decimal("1.500")] };
forbid(principal, action, resource) when { decimal("1.0") == 1 };
