/* The planner and the checker of arbiter, for programs in C and in what calls C.
 * SPDX-License-Identifier: MIT OR Apache-2.0
 *
 * Made from {{ source }}; a test compares them.
 *
 * What C must uphold, for every call:
 *   - A pointer that is followed by its length points to so many entries, and no pointer is null, also where its length is 0.
 *   - What is not const overlaps no other argument, and nothing else reads or writes it while the call runs.
 *   - What is const is written by nobody while the call runs.
 *   - The thread that calls has stack left, as any thread of the usual size has.
 *   - malloc, realloc and free of the program are of one allocator, may be called by several threads if these calls are, and
 *     align a block to each power of two up to 16 that divides its size.
 *   - No call is made from a signal handler, or from the forked child of a process with threads.
 *
 * The calls keep nothing between them: several threads may call at once on memory of their own.
 *
 * Rows: entry g of `parents`, `weights`, `limits` and `demands` is group g. The root is row 0, and each other row stands after
 * its parent. A limit, a demand and an amount are slices of one period, of which the host has
 * processors * (period_us / slice_us). These four columns, and each other column of a call, are of one length, unless the call
 * says otherwise.
 *
 * Answers of all calls but arbiter_name, arbiter_version and arbiter_weight_of_shares: 0, or
{% for numbers, what in faults.items() %}
 *   {{ "%-9s" | format(numbers) }} {{ what }}
{% endfor %}
 * Each call lists what refuses it, in the order in which it is looked for. Memory is asked for after the lengths and the host:
 * 71 can stand in place of any later answer, and of no earlier one. Of arbiter_check_text it can stand in place of any.
 * arbiter_name gives the name of each, and of those that arbiter_script writes for lines. docs/USING.md says what to do about
 * each. Where a call does not answer 0, all that it may write is as it was, but for `row` of the checks and of
 * arbiter_refused_row.
 *
{{ without_memory }}
 */
#ifndef ARBITER_H
#define ARBITER_H

#include <stddef.h>
#include <stdint.h>

#ifdef __cplusplus
extern "C" {
#endif

#define ARBITER_VERSION "1.0.0"
#define ARBITER_NO_PARENT UINT32_MAX
#define ARBITER_NO_LIMIT UINT64_MAX
#define ARBITER_NO_GOAL UINT64_MAX
/* The reason of a group's amount is the first of these that holds:
 *   ARBITER_NOTHING_ASKED  it wants nothing
 *   ARBITER_ALL_WANTED     it gets all that it wants
 *   ARBITER_OWN_LIMIT      it gets its own limit; row 0 has none
 *   ARBITER_LIMIT_ABOVE    a group above it gets its limit, and no group between the two does
 *   ARBITER_HOST_FULL      the host gives out its capacity, and no group from this one up gets its limit */
/* Reasons of arbiter_reasons. */
#define ARBITER_NOTHING_ASKED 0
#define ARBITER_ALL_WANTED 1
#define ARBITER_OWN_LIMIT 2
#define ARBITER_LIMIT_ABOVE 3
#define ARBITER_HOST_FULL 4
/* Room for each name, and for the version, and the 0 behind it. */
#define ARBITER_NAME_ROOM 17
/* Conversions of arbiter_weight_of_shares. runc before 1.3.2, crun before 1.23: 1 + (shares - 2) * 9999 / 262142, rounded down. */
#define ARBITER_SHARES_LINEAR 1
/* Later ones: 10 to the power of (l^2 + 125 l) / 612 - 7 / 34, rounded up, where l is the logarithm of the shares to the base 2. */
#define ARBITER_SHARES_LOGARITHMIC 2
/* More formulas of arbiter_owned_weight and arbiter_least_owned. Requests in thousandths of a CPU have the shares of kubelet:
 * request * 1024 / 1000, rounded down, 2 to 262144. */
#define ARBITER_REQUEST_LINEAR 3
#define ARBITER_REQUEST_LOGARITHMIC 4
/* CPUShares= and CPUWeight= of systemd: shares * 100 / 1024, rounded down, 1 to 10000; and the weight itself. */
#define ARBITER_UNIT_SHARES 5
#define ARBITER_UNIT_WEIGHT 6
/* Formulas of arbiter_owned_limit: thousandths of a CPU (kubelet), NanoCpus and CpuQuota (docker), and microseconds of each
 * second (systemd's CPUQuotaPerSecUSec). */
#define ARBITER_THOUSANDTHS 1
#define ARBITER_NANO_CPUS 2
#define ARBITER_QUOTA 3
#define ARBITER_PER_SECOND 4
/* Kinds of arbiter_pod_amount. */
#define ARBITER_INIT_CONTAINER 1
#define ARBITER_SIDECAR 2
{% for title, calls in sections.items() %}

/* {{ title }}. */
{% for call in calls %}

{{ call | c_comment }}
{{ call | c_lines }}
{% endfor %}
{% endfor %}

#ifdef __cplusplus
}
#endif

#endif
