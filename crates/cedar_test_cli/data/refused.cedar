// Texts that write no value: each of these policies errs, and one that does not would permit.

// Decimals.
permit(principal, action, resource) when { decimal("") != 0 };
permit(principal, action, resource) when { decimal("1") != 0 };
permit(principal, action, resource) when { decimal("1.") != 0 };
permit(principal, action, resource) when { decimal(".5") != 0 };
permit(principal, action, resource) when { decimal("-") != 0 };
permit(principal, action, resource) when { decimal("-.5") != 0 };
permit(principal, action, resource) when { decimal("1.-5") != 0 };
permit(principal, action, resource) when { decimal("--1.0") != 0 };
permit(principal, action, resource) when { decimal("+1.0") != 0 };
permit(principal, action, resource) when { decimal("1.23456") != 0 };
permit(principal, action, resource) when { decimal("1.0.0") != 0 };
permit(principal, action, resource) when { decimal("1,5") != 0 };
permit(principal, action, resource) when { decimal("1.5e2") != 0 };
permit(principal, action, resource) when { decimal(" 1.0") != 0 };
permit(principal, action, resource) when { decimal("1.0 ") != 0 };
permit(principal, action, resource) when { decimal("0x1.0") != 0 };
permit(principal, action, resource) when { decimal("1_000.0") != 0 };
permit(principal, action, resource) when { decimal("٣.٠") != 0 };
permit(principal, action, resource) when { decimal("922337203685477.5808") != 0 };
permit(principal, action, resource) when { decimal("-922337203685477.5809") != 0 };

// Addresses and ranges.
permit(principal, action, resource) when { ip("") != 0 };
permit(principal, action, resource) when { ip("localhost") != 0 };
permit(principal, action, resource) when { ip("127.0.0") != 0 };
permit(principal, action, resource) when { ip("127.0.0.1.1") != 0 };
permit(principal, action, resource) when { ip("127.0.0.256") != 0 };
permit(principal, action, resource) when { ip("127.0.0.01") != 0 };
permit(principal, action, resource) when { ip("127.0.0.1 ") != 0 };
permit(principal, action, resource) when { ip("127.0.0.1/") != 0 };
permit(principal, action, resource) when { ip("127.0.0.1/33") != 0 };
permit(principal, action, resource) when { ip("127.0.0.1/08") != 0 };
permit(principal, action, resource) when { ip("127.0.0.1/+8") != 0 };
permit(principal, action, resource) when { ip("127.0.0.1/8/8") != 0 };
permit(principal, action, resource) when { ip("/8") != 0 };
permit(principal, action, resource) when { ip(":::") != 0 };
permit(principal, action, resource) when { ip("1::2::3") != 0 };
permit(principal, action, resource) when { ip("1:2:3:4:5:6:7") != 0 };
permit(principal, action, resource) when { ip("12345::") != 0 };
permit(principal, action, resource) when { ip("fe80::1%eth0") != 0 };
permit(principal, action, resource) when { ip("::1/129") != 0 };
permit(principal, action, resource) when { ip("::ffff:127.0.0.1") != 0 };

// Datetimes.
permit(principal, action, resource) when { datetime("") != 0 };
permit(principal, action, resource) when { datetime("2024-1-01") != 0 };
permit(principal, action, resource) when { datetime("24-01-01") != 0 };
permit(principal, action, resource) when { datetime("2024-13-01") != 0 };
permit(principal, action, resource) when { datetime("2024-00-10") != 0 };
permit(principal, action, resource) when { datetime("2024-04-31") != 0 };
permit(principal, action, resource) when { datetime("2023-02-29") != 0 };
permit(principal, action, resource) when { datetime("1900-02-29") != 0 };
permit(principal, action, resource) when { datetime("10000-01-01") != 0 };
permit(principal, action, resource) when { datetime("-0001-01-01") != 0 };
permit(principal, action, resource) when { datetime("2024/01/01") != 0 };
permit(principal, action, resource) when { datetime("2024-01-01 ") != 0 };
permit(principal, action, resource) when { datetime("2024-01-01Z") != 0 };
permit(principal, action, resource) when { datetime("2024-01-01T00:00Z") != 0 };
permit(principal, action, resource) when { datetime("2024-01-01T00:00:00") != 0 };
permit(principal, action, resource) when { datetime("2024-01-01 00:00:00Z") != 0 };
permit(principal, action, resource) when { datetime("2024-01-01T24:00:00Z") != 0 };
permit(principal, action, resource) when { datetime("2024-01-01T23:60:00Z") != 0 };
permit(principal, action, resource) when { datetime("2024-01-01T23:59:60Z") != 0 };
permit(principal, action, resource) when { datetime("2024-01-01T00:00:00z") != 0 };
permit(principal, action, resource) when { datetime("2024-01-01T00:00:00.1Z") != 0 };
permit(principal, action, resource) when { datetime("2024-01-01T00:00:00.0000Z") != 0 };
permit(principal, action, resource) when { datetime("2024-01-01T00:00:00+01:00") != 0 };
permit(principal, action, resource) when { datetime("2024-01-01T00:00:00+2400") != 0 };
permit(principal, action, resource) when { datetime("2024-01-01T00:00:00-0060") != 0 };

// Durations.
permit(principal, action, resource) when { duration("") != 0 };
permit(principal, action, resource) when { duration("-") != 0 };
permit(principal, action, resource) when { duration("1") != 0 };
permit(principal, action, resource) when { duration("d") != 0 };
permit(principal, action, resource) when { duration("1D") != 0 };
permit(principal, action, resource) when { duration("1w") != 0 };
permit(principal, action, resource) when { duration("1 d") != 0 };
permit(principal, action, resource) when { duration("1h1d") != 0 };
permit(principal, action, resource) when { duration("1d1d") != 0 };
permit(principal, action, resource) when { duration("1ms1s") != 0 };
permit(principal, action, resource) when { duration("1.5h") != 0 };
permit(principal, action, resource) when { duration("+1d") != 0 };
permit(principal, action, resource) when { duration("--1d") != 0 };
permit(principal, action, resource) when { duration("1d-2h") != 0 };
permit(principal, action, resource) when { duration("P1D") != 0 };
permit(principal, action, resource) when { duration("9223372036854775808ms") != 0 };
permit(principal, action, resource) when { duration("-9223372036854775809ms") != 0 };
permit(principal, action, resource) when { duration("106751991168d") != 0 };
permit(principal, action, resource) when { duration("99999999999999999999d") != 0 };
