#!/usr/bin/env python3
"""Asks the C library what the reasons are, and questions backwards (docs/EMBEDDING.md)."""
import arbiter

library = arbiter.Library()
host = arbiter.Host(processors=1, period_us=100000, slice_us=5000)
rows = [arbiter.Row(), arbiter.Row(parent=0, demand=20), arbiter.Row(parent=0, limit=9),
        arbiter.Row(parent=2, demand=20)]
reason = library.reasons(host, rows)[3]
if reason.kind == arbiter.Kind.LIMIT_ABOVE:
    print(f"row 3 is held by the limit of row {reason.above}")
print(f"row 3 is guaranteed {library.guarantee(host, rows, 3)} slices")
weight = library.least_weight(host, rows, 1, 14)
processors = library.least_processors(host, rows, 1, 14)
print(f"row 1 has 14 with weight {weight} or {processors} processors")
may = [False, True, False, True]
print(f"rows 1 and 3 have 14 and 6 with weights {library.tune(host, rows, [0, 14, 0, 6], may)}")
print(f"goals of 14 and 7 cannot be met below row {library.tune(host, rows, [0, 14, 0, 7], may)}")
print(f"row 2 has 10 with limit {library.least_limit(host, rows, 2, 10)}")
print(f"row 1 has 21 with weight {library.least_weight(host, rows, 1, 21)}")
