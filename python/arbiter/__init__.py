"""The planner and the checker of arbiter, over the C library that share/arbiter.h describes.

    import arbiter
    library = arbiter.Library()
    host = arbiter.Host(processors=1, period_us=100000, slice_us=5000)
    rows = [arbiter.Row(), arbiter.Row(parent=0, demand=20),
            arbiter.Row(parent=0, weight=200, demand=20)]
    library.plan(host, rows)                                # [20, 7, 13]
    library.least_weight(host, rows, 1, 14)                 # 416: row 1 gets 14 slices with it

The package needs the standard library alone. The code that plans and checks is proved; this
package is not.
"""
from arbiter.columns import (Certificate, Columns, Counters, Figures, Host, Kind, LeafTimes, Level,
                             QuotaColumns, Reading, Reason, Round, RoundTimes, Row, Samples,
                             Script)
from arbiter.found import Unavailable
from arbiter.library import (JUDGED_ROUNDS, Follower, Library, LimitFormula, OwnerGoal, PartKind,
                             Refused, Settled, WeightFormula)

__all__ = ["JUDGED_ROUNDS", "Certificate", "Columns", "Counters", "Figures", "Follower", "Host",
           "Kind", "LeafTimes", "Level", "Library", "LimitFormula", "OwnerGoal", "PartKind",
           "QuotaColumns", "Reading", "Reason", "Refused", "Round", "RoundTimes", "Row", "Samples",
           "Script", "Settled", "Unavailable", "WeightFormula"]
__version__ = "1.0.0"
