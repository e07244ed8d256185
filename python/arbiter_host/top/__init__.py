"""A host planned again and again: live, alerts, metrics."""
