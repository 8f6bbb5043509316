permit(principal, action, resource) when { context.risk.lessThan(decimal("0.5")) };
