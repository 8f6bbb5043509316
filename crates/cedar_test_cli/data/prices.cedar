permit(principal, action, resource) when { decimal(unknown("price")).lessThan(decimal("10.0")) };
