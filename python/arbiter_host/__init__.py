"""Plans for the groups of a real host, by the proved planner of arbiter.

The folders in the order of the data: `sources` reads a host, `base` holds it, turns it into slices,
and asks for a plan that the proved check accepts, and `answers` and the features show it.
"""
__version__ = "1.0.0"
