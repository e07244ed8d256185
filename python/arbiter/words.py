"""The words of each call of the C library.

Made from python/arbiter_pages/calls.py; a test compares them.

`group:I` is a number of 32 bits; B has 8 and Q has 64. `[]` behind it is a column. A call writes
what has `>` before it, and changes what has `<>`.
"""
HOST = "processors:Q period_us:Q slice_us:Q"
ROWS = "parents:I[] weights:Q[] limits:Q[] demands:Q[]"
WORDS = {
    "plan": f"{HOST} {ROWS} >amounts:Q[]",
    "certify": f"{HOST} {ROWS} >amounts:Q[] >flags:B[] >nums:Q[] >dens:Q[] >places:I[]",
    "check": f"{HOST} {ROWS} amounts:Q[] flags:B[] nums:Q[] dens:Q[] places:I[] >row:I",
    "check_text": "text:B[] >row:I",
    "limiting": f"{HOST} {ROWS} >groups:I[] >count:I >rest:Q",
    "figures": f"{HOST} {ROWS} >wants:Q[] >mosts:Q[] >tights:B[] >actives:I[] >active_weights:Q[] "
               ">withheld:Q[]",
    "reasons": f"{HOST} {ROWS} >reasons:B[] >blamed:I[]",
    "guarantee": f"{HOST} {ROWS} group:I >amount:Q",
    "least_weight": f"{HOST} {ROWS} group:I amount:Q >weight:Q",
    "least_limit": f"{HOST} {ROWS} group:I amount:Q >limit:Q",
    "least_processors": f"{HOST} {ROWS} group:I amount:Q >least:Q",
    "settle": f"{HOST} {ROWS} formulas:I[] floors:Q[] bases:Q[] groups:I[] amounts:Q[] owners:I[] "
              "tops:I[] firsts:Q[] lasts:Q[] guaranteed:I >numbers:Q[] >stuck:Q",
    "tune": f"{HOST} {ROWS} goals:Q[] may:B[] guaranteed:I >tuned:Q[] >unmet:Q",
    "goals": f"{HOST} {ROWS} goals:Q[] guaranteed:I >kept:Q[] >come_to:Q[]",
    "limit_others": f"{HOST} {ROWS} goals:Q[] may:B[] lowest:Q[] guaranteed:I >limited:Q[] >met:I",
    "refused_row": f"{ROWS} >row:I",
    "hold": f"{HOST} parents:I[] weights:Q[] limits:Q[] used:Q[] hungry:B[] >held:Q[] "
            ">demands:Q[] >amounts:Q[] >flags:B[] >nums:Q[] >dens:Q[] >places:I[]",
    "serve": f"{HOST} parents:I[] weights:Q[] limits:Q[] used:Q[] hungry:B[] >amounts:Q[] "
             ">most:Q[]",
    "reading": f"{HOST} passed_ns:Q used_us:Q waited_us:Q tasks:I throttled:I allowed_us:Q "
               "ran:Q[] waited:Q[] >used:Q >asked:Q >hungry:I >guess:I",
    "leaf_reading": f"{HOST} passed_ns:Q used_ns:Q waited_ns:Q some_ns:Q >used:Q >asked:Q",
    "round": "planned:Q[] used:Q[] asked:Q[] hungry:B[] >demands:Q[] >all:B[] >unserved:Q[]",
    "swings": "now:Q[] last:Q[] before:Q[] <>backs:Q[] <>turns:Q[]",
    "judged": "free_used:Q[] free_planned:Q[] held_used:Q[] held_planned:Q[] sure:Q[] "
              "guesses:Q[] >lost:Q >guessed:Q",
    "let_go": "backs:Q[] turns:Q[] moved:Q[] left:Q[] guessed:Q[] lost:Q guesses:Q >go:B[] "
              ">reason:I",
    "rest": "slices:Q planned:Q own:Q[] others:Q[] >amount:Q >guarantee:Q",
    "written": f"{HOST} limit:Q own:Q stands_us:Q tasks:I >quota:Q >weight:Q",
    "script": f"{HOST} hash_key:Q text:B[] >parents:I[] >weights:Q[] >limits:Q[] >demands:Q[] "
              ">quotas:Q[] >periods:Q[] >bursts:Q[] >carries:Q[] >names:B[] >refused_lines:Q[] "
              ">refused_faults:I[] >count:I >names_count:Q >refused_count:Q",
    "book": f"{HOST} {ROWS} quotas:Q[] drawn:Q[] >carries:Q[] <>usage_usec:Q[] <>nr_periods:Q[] "
            "<>nr_throttled:Q[] <>throttled_usec:Q[] <>nr_bursts:Q[] <>burst_usec:Q[]",
    "periods": f"{HOST} parents:I[] weights:Q[] quotas:Q[] periods:Q[] bursts:Q[] demands:Q[] "
               "times:Q <>carries:Q[] >amounts:Q[] >wants:Q[] >limits:Q[] >nr_throttled:Q[] "
               ">throttled_usec:Q[] >nr_bursts:Q[] >burst_usec:Q[] >nr_short:Q[] >nr_starved:Q[]",
    "slices": f"{HOST} us:Q own_period_us:Q >slices:Q",
    "period_limit": f"{HOST} quota_us:Q own_period_us:Q burst_us:Q carry:Q >limit:Q",
    "demand": f"{HOST} numerator:Q denominator:Q >slices:Q",
    "planned_host": f"{HOST} >planned_processors:Q >planned_period_us:Q >planned_slice_us:Q",
    "weight_of_shares": "shares:Q conversion:I",
    "owned_weight": "formula:I number:Q >weight:Q",
    "owned_limit": "formula:I number:Q own_period_us:Q >quota:Q >period:Q",
    "least_owned": "formula:I weight:Q >least:Q",
    "owned_number": "formula:I request:Q >number:Q",
    "pod_amount": "kinds:B[] amounts:Q[] >amount:Q",
    "greatest_part": "kinds:B[] amounts:Q[] part:I room:Q >greatest:Q",
    "allowed": "quota_us:Q own_period_us:Q burst_us:Q passed_ns:Q >allowed:Q",
    "lost": "free_used:Q free_planned:Q held_used:Q held_planned:Q >lost:Q",
    "version": ">version:B[]",
    "name": "number:I >name:B[]",
}
# What the calls answer that answer no number of a fault.
ANSWERS = {"weight_of_shares": "Q"}
