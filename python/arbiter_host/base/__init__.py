"""The lowest layer: faults, names, files, units, a host's model and plan, text forms."""
