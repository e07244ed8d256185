/* The planner and the checker of arbiter, for programs in C and in what calls C.
 * SPDX-License-Identifier: MIT OR Apache-2.0
 *
 * Made from python/arbiter_pages/calls.py; a test compares them.
 *
 * What C must uphold, for every call:
 *   - A pointer that is followed by its length points to so many entries, and no pointer is null, also where its length is 0.
 *   - What is not const overlaps no other argument, and nothing else reads or writes it while the call runs.
 *   - What is const is written by nobody while the call runs.
 *   - The thread that calls has stack left, as any thread of the usual size has.
 *   - malloc, realloc and free of the program are of one allocator, may be called by several threads if these calls are, and
 *     align a block to each power of two up to 16 that divides its size.
 *   - No call is made from a signal handler, or from the forked child of a process with threads.
 *
 * The calls keep nothing between them: several threads may call at once on memory of their own.
 *
 * Rows: entry g of `parents`, `weights`, `limits` and `demands` is group g. The root is row 0, and each other row stands after
 * its parent. A limit, a demand and an amount are slices of one period, of which the host has
 * processors * (period_us / slice_us). These four columns, and each other column of a call, are of one length, unless the call
 * says otherwise.
 *
 * Answers of all calls but arbiter_name, arbiter_version and arbiter_weight_of_shares: 0, or
 *   1 to 3    the host is refused (BadProcessors, BadPeriod, BadSlice)
 *   4 to 10   the rows are refused (TooMany, BadParent, BadWeight, TooDeep, InnerDemand, DemandTooLarge, RootLimited); 9 also of a sum of slices
 *   11        the denominator of a demand is 0, or no formula has the number (BadNumber)
 *   12        a weight is out of range (WeightOutOfRange)
 *   13 to 15  a quota, burst or limit, an own period or a round is out of range (QuotaTooSmall, QuotaTooLarge, PeriodOutOfRange)
 *   20        the group is no row (NotFound)
 *   40 to 43  it is no certified text (BadLine, BadField, CutShort, Trailing)
 *   50        columns differ in length (WrongLength)
 *   51 to 58  the amounts are not the plan by this certificate
 *   71        memory was refused (OutOfMemory)
 * Each call lists what refuses it, in the order in which it is looked for. Memory is asked for after the lengths and the host:
 * 71 can stand in place of any later answer, and of no earlier one. Of arbiter_check_text it can stand in place of any.
 * arbiter_name gives the name of each, and of those that arbiter_script writes for lines. docs/USING.md says what to do about
 * each. Where a call does not answer 0, all that it may write is as it was, but for `row` of the checks and of
 * arbiter_refused_row.
 *
 * arbiter_refused_row, arbiter_reading, arbiter_leaf_reading, arbiter_round, arbiter_swings, arbiter_judged, arbiter_let_go,
 * arbiter_rest, arbiter_written, arbiter_slices, arbiter_period_limit, arbiter_demand, arbiter_planned_host,
 * arbiter_weight_of_shares, arbiter_owned_weight, arbiter_owned_limit, arbiter_least_owned, arbiter_owned_number,
 * arbiter_pod_amount, arbiter_greatest_part, arbiter_allowed, arbiter_lost, arbiter_version and arbiter_name ask for no memory:
 * their answers are exact.
 */
#ifndef ARBITER_H
#define ARBITER_H

#include <stddef.h>
#include <stdint.h>

#ifdef __cplusplus
extern "C" {
#endif

#define ARBITER_VERSION "1.0.0"
#define ARBITER_NO_PARENT UINT32_MAX
#define ARBITER_NO_LIMIT UINT64_MAX
#define ARBITER_NO_GOAL UINT64_MAX
/* The reason of a group's amount is the first of these that holds:
 *   ARBITER_NOTHING_ASKED  it wants nothing
 *   ARBITER_ALL_WANTED     it gets all that it wants
 *   ARBITER_OWN_LIMIT      it gets its own limit; row 0 has none
 *   ARBITER_LIMIT_ABOVE    a group above it gets its limit, and no group between the two does
 *   ARBITER_HOST_FULL      the host gives out its capacity, and no group from this one up gets its limit */
/* Reasons of arbiter_reasons. */
#define ARBITER_NOTHING_ASKED 0
#define ARBITER_ALL_WANTED 1
#define ARBITER_OWN_LIMIT 2
#define ARBITER_LIMIT_ABOVE 3
#define ARBITER_HOST_FULL 4
/* Room for each name, and for the version, and the 0 behind it. */
#define ARBITER_NAME_ROOM 17
/* Conversions of arbiter_weight_of_shares. runc before 1.3.2, crun before 1.23: 1 + (shares - 2) * 9999 / 262142, rounded down. */
#define ARBITER_SHARES_LINEAR 1
/* Later ones: 10 to the power of (l^2 + 125 l) / 612 - 7 / 34, rounded up, where l is the logarithm of the shares to the base 2. */
#define ARBITER_SHARES_LOGARITHMIC 2
/* More formulas of arbiter_owned_weight and arbiter_least_owned. Requests in thousandths of a CPU have the shares of kubelet:
 * request * 1024 / 1000, rounded down, 2 to 262144. */
#define ARBITER_REQUEST_LINEAR 3
#define ARBITER_REQUEST_LOGARITHMIC 4
/* CPUShares= and CPUWeight= of systemd: shares * 100 / 1024, rounded down, 1 to 10000; and the weight itself. */
#define ARBITER_UNIT_SHARES 5
#define ARBITER_UNIT_WEIGHT 6
/* Formulas of arbiter_owned_limit: thousandths of a CPU (kubelet), NanoCpus and CpuQuota (docker), and microseconds of each
 * second (systemd's CPUQuotaPerSecUSec). */
#define ARBITER_THOUSANDTHS 1
#define ARBITER_NANO_CPUS 2
#define ARBITER_QUOTA 3
#define ARBITER_PER_SECOND 4
/* Kinds of arbiter_pod_amount. */
#define ARBITER_INIT_CONTAINER 1
#define ARBITER_SIDECAR 2

/* Plans and certificates. */

/* The plan of the rows.
 * Writes:
 *   amounts  slices that each row gets
 * Answers 0, or 50 where columns differ in length; 1 to 3 where the host is refused; 4 to 10 where the rows are refused. */
uint32_t arbiter_plan(uint64_t processors, uint64_t period_us, uint64_t slice_us,
                      const uint32_t *parents, size_t parents_length, const uint64_t *weights, size_t weights_length,
                      const uint64_t *limits, size_t limits_length, const uint64_t *demands, size_t demands_length,
                      uint64_t *amounts, size_t amounts_length);

/* The plan, and a certificate of it.
 * Writes:
 *   amounts  slices that each row gets
 *   flags    1 where the group's own limit is below what it wants, else 0
 *   nums     the level is `nums` / `dens` at `places`; 0 for none
 *   dens     0 where the group shares nothing out
 *   places   the place of a child, 0 for the first
 * Answers 0, or 50 where columns differ in length; 1 to 3 where the host is refused; 4 to 10 where the rows are refused. */
uint32_t arbiter_certify(uint64_t processors, uint64_t period_us, uint64_t slice_us,
                         const uint32_t *parents, size_t parents_length, const uint64_t *weights, size_t weights_length,
                         const uint64_t *limits, size_t limits_length, const uint64_t *demands, size_t demands_length,
                         uint64_t *amounts, size_t amounts_length, uint8_t *flags, size_t flags_length,
                         uint64_t *nums, size_t nums_length, uint64_t *dens, size_t dens_length,
                         uint32_t *places, size_t places_length);

/* Answers 0 where the flags and levels show that the amounts are the plan, whoever made them. A flag is any number but 0, and a
 * level with `nums` or `dens` 0 is none.
 * Reads:
 *   amounts  slices that each row is said to get
 *   flags    1 where the group's own limit is below what it wants, else 0
 *   nums     the level is `nums` / `dens` at `places`; 0 for none
 *   dens     0 where the group shares nothing out
 *   places   the place of a child, 0 for the first
 * Writes:
 *   row  the row of the first group with the fault, and 0 for 50 of amounts, flags or levels; as it was for 0 and for a refusal
 *        of the host or the rows
 * Answers 0, or 50 where columns of the rows differ in length, or `nums`, `dens` and `places`; 1 to 3 where the host is
 *   refused; 4 to 10 where the rows are refused; 50 where amounts, flags or levels are not one for each row; 51 to 58 where the
 *   amounts are not the plan by this certificate. */
uint32_t arbiter_check(uint64_t processors, uint64_t period_us, uint64_t slice_us,
                       const uint32_t *parents, size_t parents_length, const uint64_t *weights, size_t weights_length,
                       const uint64_t *limits, size_t limits_length, const uint64_t *demands, size_t demands_length,
                       const uint64_t *amounts, size_t amounts_length, const uint8_t *flags, size_t flags_length,
                       const uint64_t *nums, size_t nums_length, const uint64_t *dens, size_t dens_length,
                       const uint32_t *places, size_t places_length, uint32_t *row);

/* The same of a certified text (docs/EMBEDDING.md, 'The certified text').
 * Reads:
 *   text  the text
 * Writes:
 *   row  the row of the first group with the fault for 51 to 58, else as it was
 * Answers 0, or 1 to 10, 40 to 43 where it is no certified text; 51 to 58 where the amounts are not the plan by this
 *   certificate. */
uint32_t arbiter_check_text(const uint8_t *text, size_t text_length, uint32_t *row);

/* Questions about a plan. */

/* The groups whose limits hold the total down. Their limits and `rest` add up to the greatest total.
 * Writes:
 *   groups  their rows, at its beginning
 *   count   how many they are
 *   rest    slices that are wanted outside them
 * Answers 0, or 50 where columns differ in length; 1 to 3 where the host is refused; 4 to 10 where the rows are refused. */
uint32_t arbiter_limiting(uint64_t processors, uint64_t period_us, uint64_t slice_us,
                          const uint32_t *parents, size_t parents_length, const uint64_t *weights, size_t weights_length,
                          const uint64_t *limits, size_t limits_length, const uint64_t *demands, size_t demands_length,
                          uint32_t *groups, size_t groups_length, uint32_t *count, uint64_t *rest);

/* What each group wants, is given at most and splits, one of each for each row.
 * Writes:
 *   wants           slices that it would take without its own limit: its demand, or what its children are given at most
 *   mosts           slices that it is given at most: its want, cut at its own limit, of row 0 at the capacity
 *   tights          1 where its own limit, of row 0 the capacity, is below its want, else 0
 *   actives         the number of its children whose `mosts` is above 0
 *   active_weights  the sum of the weights of these children
 *   withheld        slices that its own limit withholds of its want, 0 of row 0: what nr_throttled and throttled_usec of a
 *                   period count
 * Answers 0, or 50 where columns differ in length; 1 to 3 where the host is refused; 4 to 10 where the rows are refused. */
uint32_t arbiter_figures(uint64_t processors, uint64_t period_us, uint64_t slice_us,
                         const uint32_t *parents, size_t parents_length, const uint64_t *weights, size_t weights_length,
                         const uint64_t *limits, size_t limits_length, const uint64_t *demands, size_t demands_length,
                         uint64_t *wants, size_t wants_length, uint64_t *mosts, size_t mosts_length,
                         uint8_t *tights, size_t tights_length, uint32_t *actives, size_t actives_length,
                         uint64_t *active_weights, size_t active_weights_length, uint64_t *withheld, size_t withheld_length);

/* Why each group gets what it gets. Its reason is the first of ARBITER_NOTHING_ASKED to ARBITER_HOST_FULL that holds.
 * Writes:
 *   reasons  the reason of each row
 *   blamed   the row above with the limit for ARBITER_LIMIT_ABOVE, else the group's own
 * Answers 0, or 50 where columns differ in length; 1 to 3 where the host is refused; 4 to 10 where the rows are refused. */
uint32_t arbiter_reasons(uint64_t processors, uint64_t period_us, uint64_t slice_us,
                         const uint32_t *parents, size_t parents_length, const uint64_t *weights, size_t weights_length,
                         const uint64_t *limits, size_t limits_length, const uint64_t *demands, size_t demands_length,
                         uint8_t *reasons, size_t reasons_length, uint32_t *blamed, size_t blamed_length);

/* The slices that a group gets whatever the groups ask for that are not under it. They give it no less, and for some demands of
 * theirs no more.
 * Reads:
 *   group  the row of the group
 * Writes:
 *   amount  the slices
 * Answers 0, or 50 where columns differ in length; 1 to 3 where the host is refused; 4 to 10 where the rows are refused; 20
 *   where the group is no row. */
uint32_t arbiter_guarantee(uint64_t processors, uint64_t period_us, uint64_t slice_us,
                           const uint32_t *parents, size_t parents_length, const uint64_t *weights, size_t weights_length,
                           const uint64_t *limits, size_t limits_length, const uint64_t *demands, size_t demands_length,
                           uint32_t group, uint64_t *amount);

/* The least weight with which the plan gives a group at least `amount` slices. All else is as the rows say. At most 14 plans.
 * Reads:
 *   group   the row of the group
 *   amount  the slices that it is to get at least
 * Writes:
 *   weight  1 to 10000; 0 where no weight does
 * Answers 0, or 50 where columns differ in length; 1 to 3 where the host is refused; 4 to 10 where the rows are refused; 20
 *   where the group is no row. */
uint32_t arbiter_least_weight(uint64_t processors, uint64_t period_us, uint64_t slice_us,
                              const uint32_t *parents, size_t parents_length, const uint64_t *weights, size_t weights_length,
                              const uint64_t *limits, size_t limits_length, const uint64_t *demands, size_t demands_length,
                              uint32_t group, uint64_t amount, uint64_t *weight);

/* The least limit with which the plan gives a group at least `amount` slices. All else is as the rows say. One plan.
 * Reads:
 *   group   the row of the group
 *   amount  the slices that it is to get at least
 * Writes:
 *   limit  the limit in slices; ARBITER_NO_LIMIT where no limit does, nor the group without one
 * Answers 0, or 50 where columns differ in length; 1 to 3 where the host is refused; 4 to 10 where the rows are refused; 20
 *   where the group is no row; 10 where it is row 0, whose only limit is the capacity. */
uint32_t arbiter_least_limit(uint64_t processors, uint64_t period_us, uint64_t slice_us,
                             const uint32_t *parents, size_t parents_length, const uint64_t *weights, size_t weights_length,
                             const uint64_t *limits, size_t limits_length, const uint64_t *demands, size_t demands_length,
                             uint32_t group, uint64_t amount, uint64_t *limit);

/* The least number of processors, of a host of this period and slice, with which the plan gives a group at least `amount`
 * slices. `processors` itself changes no answer but 1. At most 7 plans.
 * Reads:
 *   group   the row of the group
 *   amount  the slices that it is to get at least
 * Writes:
 *   least  1 to 64; 0 where no number does
 * Answers 0, or 50 where columns differ in length; 1 to 3 where the host is refused; 4 to 10 where the rows are refused; 20
 *   where the group is no row. */
uint32_t arbiter_least_processors(uint64_t processors, uint64_t period_us, uint64_t slice_us,
                                  const uint32_t *parents, size_t parents_length,
                                  const uint64_t *weights, size_t weights_length, const uint64_t *limits, size_t limits_length,
                                  const uint64_t *demands, size_t demands_length, uint32_t group, uint64_t amount,
                                  uint64_t *least);

/* The least numbers of their ranges that owners can set with which groups get at least so many slices, each the least beside
 * the others: requests, shares or weights. The weights of some rows follow them, each by its formula. A row has the numbers of
 * the goals whose `owners` is that row, or lies below it and whose `tops` is it or above it. A row's own number is these and
 * that of `bases`, and no less than that of `floors`. So requests of containers make the weights of the containers, of their
 * pods and of the pods' classes. All else is as the rows say. A greater number gives its group no less. Numbers begin as
 * `firsts`. Each becomes the least that meets its goal, the others as they are then, goal after goal, until none changes, at
 * most 50 times. Each time makes two plans for a number that stays, and one where that is the first of its range.
 * Reads:
 *   formulas    the formula of arbiter_owned_weight by which the row's weight follows; 0 or any other number where it stays, as
 *               that of row 0 does
 *   floors      the least number of the row
 *   bases       what the row's number has beside the owners'
 *   groups      the row of each goal's group
 *   amounts     the slices that it is to get at least
 *   owners      the row whose number is set for the goal
 *   tops        the highest row that has the number too; the owner's for none
 *   firsts      the least number that may be set
 *   lasts       the greatest number that may be set
 *   guaranteed  not 0 where goals are met whatever the others ask for, as arbiter_guarantee has it; 0 where the plan meets them
 * Writes:
 *   numbers  the number of each goal's owner
 *   stuck    the place of a goal that no number of its range meets beside the others; the number of goals where numbers change
 *            50 times, or logarithms do not tell a weight, which is of no number of shares; ARBITER_NO_LIMIT where all goals
 *            are met, and each number is the least beside the others
 * Answers 0, or 50 where columns differ in length; 1 to 3 where the host is refused; 4 to 10 where the rows are refused; 20
 *   where a goal's group or its owner's row is no row, or neither of them is the other or below it. */
uint32_t arbiter_settle(uint64_t processors, uint64_t period_us, uint64_t slice_us,
                        const uint32_t *parents, size_t parents_length, const uint64_t *weights, size_t weights_length,
                        const uint64_t *limits, size_t limits_length, const uint64_t *demands, size_t demands_length,
                        const uint32_t *formulas, size_t formulas_length, const uint64_t *floors, size_t floors_length,
                        const uint64_t *bases, size_t bases_length, const uint32_t *groups, size_t groups_length,
                        const uint64_t *amounts, size_t amounts_length, const uint32_t *owners, size_t owners_length,
                        const uint32_t *tops, size_t tops_length, const uint64_t *firsts, size_t firsts_length,
                        const uint64_t *lasts, size_t lasts_length, uint32_t guaranteed,
                        uint64_t *numbers, size_t numbers_length, uint64_t *stuck);

/* Weights under which each row has its goal. Goals may be of groups with children, of rows inside one another, and of rows
 * whose weight stays. A weight is the goals' own if a goal is at its row or below it. Own weights are the least from the root
 * down: of all that agree with them at each row above a row, and at the siblings of these, theirs of that row is the least.
 * None is less than in `weights`, unless no such weights meet all goals. Other weights stay where these do. Else they are
 * lowered to one level, the greatest that will do. So there is one answer. No plan is made: each group is split a few times for
 * each raise of a weight. At most 16 levels are tried.
 * Reads:
 *   goals       slices that each row is to get at least, 0 for no goal
 *   may         not 0 where the weight may change, within 1 to 10000
 *   guaranteed  not 0 where goals are met whatever the others ask for, as arbiter_guarantee has it; 0 where the plan meets them
 * Writes:
 *   tuned  the weight of each row; `weights` where no weights meet all goals
 *   unmet  a row: no weights of rows that may change meet the goals of it and below it together, whatever it is given;
 *          ARBITER_NO_GOAL where all goals are met
 * Answers 0, or 50 where columns differ in length; 1 to 3 where the host is refused; 4 to 10 where the rows are refused. */
uint32_t arbiter_tune(uint64_t processors, uint64_t period_us, uint64_t slice_us,
                      const uint32_t *parents, size_t parents_length, const uint64_t *weights, size_t weights_length,
                      const uint64_t *limits, size_t limits_length, const uint64_t *demands, size_t demands_length,
                      const uint64_t *goals, size_t goals_length, const uint8_t *may, size_t may_length, uint32_t guaranteed,
                      uint64_t *tuned, size_t tuned_length, uint64_t *unmet);

/* Goals that leave each of the others half of what it has, and what goals come to up the tree. The others are the leaves below
 * the root with no goal at them or above them. What one has is the plan's or its guarantee. arbiter_tune takes these goals. One
 * plan, and one more for guarantees.
 * Reads:
 *   goals       slices that each row is to get at least, 0 for no goal
 *   guaranteed  not 0 where goals are met whatever the others ask for, as arbiter_guarantee has it; 0 where the plan meets them
 * Writes:
 *   kept     the goals; of each of the others half of what it has, rounded up
 *   come_to  the goal of each row, or what those of its children come to together, if that is more
 * Answers 0, or 50 where columns differ in length; 1 to 3 where the host is refused; 4 to 10 where the rows are refused. */
uint32_t arbiter_goals(uint64_t processors, uint64_t period_us, uint64_t slice_us,
                       const uint32_t *parents, size_t parents_length, const uint64_t *weights, size_t weights_length,
                       const uint64_t *limits, size_t limits_length, const uint64_t *demands, size_t demands_length,
                       const uint64_t *goals, size_t goals_length, uint32_t guaranteed, uint64_t *kept, size_t kept_length,
                       uint64_t *come_to, size_t come_to_length);

/* Limits with which weights meet the goals, where arbiter_tune has none. They are the greatest: one level for all rows that may
 * be limited, and then each in row order from that level on. So there is one answer. With them arbiter_tune gives the weights.
 * Row 0 keeps its limit, and so does each row with a goal at, above or below it. arbiter_tune is asked at most 33 times, and
 * for each lowered row 38.
 * Reads:
 *   goals       slices that each row is to get at least, 0 for no goal
 *   may         not 0 where the weight may change, within 1 to 10000
 *   lowest      the lowest limit in slices that each row may get; a number from its limit on, or from the capacity on, keeps
 *               the limit
 *   guaranteed  not 0 where goals are met whatever the others ask for, as arbiter_guarantee has it; 0 where the plan meets them
 * Writes:
 *   limited  the limits in slices, those that stay as in `limits`
 *   met      1 where some limits will do, else 0
 * Answers 0, or 50 where columns differ in length; 1 to 3 where the host is refused; 4 to 10 where the rows are refused. */
uint32_t arbiter_limit_others(uint64_t processors, uint64_t period_us, uint64_t slice_us,
                              const uint32_t *parents, size_t parents_length, const uint64_t *weights, size_t weights_length,
                              const uint64_t *limits, size_t limits_length, const uint64_t *demands, size_t demands_length,
                              const uint64_t *goals, size_t goals_length, const uint8_t *may, size_t may_length,
                              const uint64_t *lowest, size_t lowest_length, uint32_t guaranteed,
                              uint64_t *limited, size_t limited_length, uint32_t *met);

/* The number with which each call refuses these rows: 0, 4 to 10, or 50.
 * Writes:
 *   row  the first row that is too many, or has a bad parent, weight, depth, demand or limit; for 8 the parent of the first row
 *        whose parent has a demand. As it was for 0 and 50, and where there is no row at all
 * Answers 0, or 50 where columns differ in length; 4 to 10 where the rows are refused. */
uint32_t arbiter_refused_row(const uint32_t *parents, size_t parents_length, const uint64_t *weights, size_t weights_length,
                             const uint64_t *limits, size_t limits_length, const uint64_t *demands, size_t demands_length,
                             uint32_t *row);

/* Limits that hold a plan. */

/* The limits of the next round, from what each leaf used in the last one. Each row keeps its own limit where the plan gives
 * each leaf its demand or its own limit. A group with children always does. No leaf is limited above its own limit, nor below
 * its guarantee. docs/EMBEDDING.md has the rule. Two plans.
 * Reads:
 *   parents  the row of the parent; ARBITER_NO_PARENT where the group is the root
 *   weights  the weight, 1 to 10000
 *   limits   the limit in slices; ARBITER_NO_LIMIT where it has none
 *   used     slices that each leaf used, rounded up, in the place of a demand
 *   hungry   not 0 where the leaf would have used more; not read of a group with children
 * Writes:
 *   held     the limit of the next round in slices; ARBITER_NO_LIMIT where it has none
 *   demands  1000000 for a hungry leaf, and what it used for another
 *   amounts  the plan of these demands
 *   flags    1 where the group's own limit is below what it wants, else 0
 *   nums     the level is `nums` / `dens` at `places`; 0 for none
 *   dens     0 where the group shares nothing out
 *   places   the place of a child, 0 for the first
 * Answers 0, or 50 where columns differ in length; 1 to 3 where the host is refused; 4 to 10 where the rows are refused. */
uint32_t arbiter_hold(uint64_t processors, uint64_t period_us, uint64_t slice_us,
                      const uint32_t *parents, size_t parents_length, const uint64_t *weights, size_t weights_length,
                      const uint64_t *limits, size_t limits_length, const uint64_t *used, size_t used_length,
                      const uint8_t *hungry, size_t hungry_length, uint64_t *held, size_t held_length,
                      uint64_t *demands, size_t demands_length, uint64_t *amounts, size_t amounts_length,
                      uint8_t *flags, size_t flags_length, uint64_t *nums, size_t nums_length,
                      uint64_t *dens, size_t dens_length, uint32_t *places, size_t places_length);

/* What a scheduler is given for a round in the place of limits. The floor of a row is its plan where each leaf asks for
 * everything. No amount of a leaf is below its guarantee, and all together may be above the capacity. docs/PROVED.md has the
 * laws. Two plans.
 * Reads:
 *   parents  the row of the parent; ARBITER_NO_PARENT where the group is the root
 *   weights  the weight, 1 to 10000
 *   limits   the limit in slices; ARBITER_NO_LIMIT where it has none
 *   used     slices that each leaf used, rounded up, in the place of a demand
 *   hungry   not 0 where the leaf would have used more; not read of a group with children
 * Writes:
 *   amounts  the plan of the round where that is no less. Else the floor times what the leaves that have theirs are planned,
 *            over their floors, rounded down, so that a leaf that comes has its part beside them
 *   most     of a leaf its least part of the limits at or above it, of another row its own limit. A part is the whole limit
 *            where arbiter_hold limits nobody, or plans nothing for the group with the limit. Else it is as much of it as the
 *            leaf has of that group's plan, rounded down, or the leaf's limit of the round if that is more, and never more than
 *            the limit; ARBITER_NO_LIMIT where there is none
 * Answers 0, or 50 where columns differ in length; 1 to 3 where the host is refused; 4 to 10 where the rows are refused. */
uint32_t arbiter_serve(uint64_t processors, uint64_t period_us, uint64_t slice_us,
                       const uint32_t *parents, size_t parents_length, const uint64_t *weights, size_t weights_length,
                       const uint64_t *limits, size_t limits_length, const uint64_t *used, size_t used_length,
                       const uint8_t *hungry, size_t hungry_length, uint64_t *amounts, size_t amounts_length,
                       uint64_t *most, size_t most_length);

/* What a group used in a round, and what it asks for in the next one. A round is the time between two readings. A group is
 * hungry where it was stopped: it was throttled, or used all that its limit allowed. Else not where tasks waited for less than
 * a hundredth of the round. Else where a task is starved: it waited for a hundredth of the round or more, and slept for no
 * longer than that and than a twentieth of the round. Where `ran` adds up to less than half of what was used, or nothing was
 * used, it is hungry where tasks waited for half of the round. That is a guess. The tasks of a stopped group could have used
 * the whole round each. Of another, so could one that is starved or new; each other used all that it wanted. A hungry group
 * asks for everything where that is the whole host, where nothing was used, or where `ran` adds up to less than 19 twentieths
 * of what was used. arbiter_round makes of readings what arbiter_hold reads.
 * Reads:
 *   passed_ns   nanoseconds of the round, above 0
 *   used_us     microseconds that it used
 *   waited_us   microseconds in which some task of it waited for a processor
 *   tasks       its tasks at the end
 *   throttled   not 0 where it was throttled at a limit of its own
 *   allowed_us  microseconds that this limit allowed it; ARBITER_NO_LIMIT where it has none
 *   ran         nanoseconds that each task ran that was there at both readings
 *   waited      nanoseconds that each of these waited
 * Writes:
 *   used    slices of one period of the host that it used, rounded up, at most 1000000
 *   asked   what it asks for, never less than `used`: the same where it is not hungry, else the most that its tasks could have
 *           used, or 1000000 for everything
 *   hungry  1 where it would have used more, else 0
 *   guess   1 where that is a guess, else 0
 * Answers 0, or 50 where `ran` and `waited` differ in length or are longer than `tasks`; 1 to 3 where the host is refused; 15
 *   where no time passed. */
uint32_t arbiter_reading(uint64_t processors, uint64_t period_us, uint64_t slice_us, uint64_t passed_ns, uint64_t used_us,
                         uint64_t waited_us, uint32_t tasks, uint32_t throttled, uint64_t allowed_us,
                         const uint64_t *ran, size_t ran_length, const uint64_t *waited, size_t waited_length, uint64_t *used,
                         uint64_t *asked, uint32_t *hungry, uint32_t *guess);

/* The same of a leaf that a scheduler serves, which counts how long tasks wait, so nothing is guessed. A leaf that asks for
 * more than it used is hungry.
 * Reads:
 *   passed_ns  nanoseconds of the round, above 0
 *   used_ns    nanoseconds that the leaf used
 *   waited_ns  nanoseconds that its tasks waited for a processor, added up
 *   some_ns    nanoseconds in which one or more of them waited
 * Writes:
 *   used   slices of one period of the host that it used, rounded up, at most 1000000
 *   asked  what it used where it was idle for more than a twentieth of the round: 20 (used_ns + some_ns) is below 19 passed_ns.
 *          Else what it would have used if no task had waited
 * Answers 0, or 1 to 3 where the host is refused; 15 where no time passed. */
uint32_t arbiter_leaf_reading(uint64_t processors, uint64_t period_us, uint64_t slice_us, uint64_t passed_ns, uint64_t used_ns,
                              uint64_t waited_ns, uint64_t some_ns, uint64_t *used, uint64_t *asked);

/* What a round asks for each leaf, from their readings, and what each was not served in the last one. arbiter_hold reads
 * `demands` and `all`, so a round asks for a leaf what its reading asks for.
 * Reads:
 *   planned  slices that the plan of the last round gave the leaf, 0 for none
 *   used     slices that it used
 *   asked    slices that it asks for
 *   hungry   not 0 where it would have used more
 * Writes:
 *   demands   what stands in `used` of arbiter_hold: what it used where it asks for 1000000 slices or more, else what it asks
 *             for
 *   all       what stands in `hungry` of arbiter_hold: 1 where it asks for 1000000 slices or more, else 0
 *   unserved  slices of its plan that it did not use; 0 where it would not have used more
 * Answers 0, or 50 where columns differ in length. */
uint32_t arbiter_round(const uint64_t *planned, size_t planned_length, const uint64_t *used, size_t used_length,
                       const uint64_t *asked, size_t asked_length, const uint8_t *hungry, size_t hungry_length,
                       uint64_t *demands, size_t demands_length, uint8_t *all, size_t all_length,
                       uint64_t *unserved, size_t unserved_length);

/* For how many rounds in a row numbers of groups go back, and turn: limits, or what is asked for. A number goes back where it
 * is that of two rounds before to a twentieth of the greater of the two, and a quarter of the greater or more off the last. It
 * turns where it rose and falls, or fell and rises. One that goes back turns.
 * Reads:
 *   now     the number of each group in this round
 *   last    that of the last round
 *   before  that of the round before
 * Changes:
 *   backs  the rounds in a row in which it went back, up to the last one; then with this one, 0 where it does not now
 *   turns  those in which it turned; then with this one, 0 where it does not now
 * Answers 0, or 50 where columns differ in length. */
uint32_t arbiter_swings(const uint64_t *now, size_t now_length, const uint64_t *last, size_t last_length,
                        const uint64_t *before, size_t before_length, uint64_t *backs, size_t backs_length,
                        uint64_t *turns, size_t turns_length);

/* What limits did in the last rounds. The last 60 without limits are judged, and the last 60 under limits; where fewer were
 * under limits, both numbers are 0. Columns have the slices of all groups in each round, the last round last.
 * Reads:
 *   free_used     slices used in rounds without limits
 *   free_planned  slices planned for these
 *   held_used     slices used in rounds under limits
 *   held_planned  slices planned for these
 *   sure          of those used under limits, slices of groups that were hungry for sure
 *   guesses       slices of groups of which that was a guess
 * Writes:
 *   lost     the slices that limits served too little, as arbiter_lost has them; 0 where they did no harm
 *   guessed  by how many slices the guesses are more than what was sure, 0 where they are not
 * Answers 0, or 50 where columns of rounds without limits differ in length, or of those under limits; 9 where a sum of the last
 *   rounds is above 2^60. */
uint32_t arbiter_judged(const uint64_t *free_used, size_t free_used_length,
                        const uint64_t *free_planned, size_t free_planned_length,
                        const uint64_t *held_used, size_t held_used_length,
                        const uint64_t *held_planned, size_t held_planned_length, const uint64_t *sure, size_t sure_length,
                        const uint64_t *guesses, size_t guesses_length, uint64_t *lost, uint64_t *guessed);

/* Which groups are let go, since limits do harm to them, and why. For 1 one group goes: of those whose demand turned for 60
 * rounds, or else of those whose limit went back for as long, the one whose use changed most. For 2 and 3 the groups with most
 * slices go, as few as come to `lost` or `guesses`. Of equal groups the first goes.
 * Reads:
 *   backs    the rounds in a row in which the limit of each group went back, as arbiter_swings counts them
 *   turns    those in which what it asked for turned
 *   moved    slices by which its use changed in the last rounds
 *   left     slices of its plans that it did not use in these
 *   guessed  slices that it used in these where its hunger was a guess
 *   lost     that of arbiter_judged
 *   guesses  `guessed` of arbiter_judged
 * Writes:
 *   go      1 for a group that goes, else 0
 *   reason  the first that holds. 1: a limit went back for 60 rounds. 2: slices were lost. 3: hunger was guessed. 0: none, and
 *           nobody goes
 * Answers 0, or 50 where columns differ in length. */
uint32_t arbiter_let_go(const uint64_t *backs, size_t backs_length, const uint64_t *turns, size_t turns_length,
                        const uint64_t *moved, size_t moved_length, const uint64_t *left, size_t left_length,
                        const uint64_t *guessed, size_t guessed_length, uint64_t lost, uint64_t guesses,
                        uint8_t *go, size_t go_length, uint32_t *reason);

/* What a scheduler gives the rest of a host beside a plan, by weights. At each level up the tree others have their part by
 * weights beside what the group has, rounded up, and at most 10^9 slices are reached. So the rest has its part of the whole
 * host at least.
 * Reads:
 *   slices   the slices of the plan, up to 10^9
 *   planned  those of them that are planned
 *   own      the weight of the planned groups' top, then of each group above it but the root; 0 is an idle group, and counts as
 *            1
 *   others   the weights of the groups beside each. Tasks of the root are one more beside the last ones, of weight 100
 * Writes:
 *   amount     slices that the plan leaves, or its guarantee if that is more
 *   guarantee  slices that the host has above those of the plan
 * Answers 0, or 50 where columns differ in length; 9 where the plan is of more than 10^9 slices. */
uint32_t arbiter_rest(uint64_t slices, uint64_t planned, const uint64_t *own, size_t own_length,
                      const uint64_t *others, size_t others_length, uint64_t *amount, uint64_t *guarantee);

/* What is written for a leaf's limit of a round. A quota lies from the limit to a sixty-fourth above it, and not above the own
 * limit. What stands there stays, since the kernel gives a new quota at each writing; else it is a 128th above the limit. A
 * limit below 1000 microseconds counts as that.
 * Reads:
 *   limit      the limit of arbiter_hold in slices; ARBITER_NO_LIMIT where there is none
 *   own        its own limit in slices; ARBITER_NO_LIMIT where it has none
 *   stands_us  the quota that stands in it, in microseconds of the host's period; 0 where another one stands
 *   tasks      its tasks; 0 counts as 1
 * Writes:
 *   quota   the quota in microseconds of the host's period; ARBITER_NO_LIMIT where its own limit is to be written, since that
 *           allows no more
 *   weight  a cpu.weight, 1 to 10000, that tells Linux how near each task is to a whole processor: the nearest to 100 d / (1.01
 *           - d), where d is the part that the limit is of a whole processor for each task
 * Answers 0, or 1 to 3 where the host is refused; 14 where a sixty-fourth above the limit is more than 10^15 microseconds. */
uint32_t arbiter_written(uint64_t processors, uint64_t period_us, uint64_t slice_us, uint64_t limit, uint64_t own,
                         uint64_t stands_us, uint32_t tasks, uint64_t *quota, uint64_t *weight);

/* Scripts and periods. */

/* Reads a script, as `arbiter run` does on this host, and writes the groups after its last line and the refused lines. Lines
 * that only ask for an answer change nothing. Each `period` serves the plan where every leaf uses its slices, without a thread.
 * Groups stand in order of creation, the root first, one entry in each of the eight columns that begin with `parents`. The
 * first four, cut to `count` entries, are what arbiter_plan takes. A refused line changed nothing. For a text with n newlines n
 * + 2 groups, and never more than 16384, text_length + 1 bytes of names, and n + 1 refused lines have room. What stands behind
 * the written entries is as it was.
 * Reads:
 *   hash_key  a number that whoever writes the script cannot know, as of getrandom: one who knows it can choose names that take
 *             long. No answer depends on it
 *   text      the script
 * Writes:
 *   parents         the row of the parent; ARBITER_NO_PARENT where the group is the root
 *   weights         the weight, 1 to 10000
 *   limits          the limit of the next period in slices; ARBITER_NO_LIMIT where it has none
 *   demands         the demand in slices
 *   quotas          the quota in microseconds of each own period; ARBITER_NO_LIMIT where it has none
 *   periods         the own period in microseconds
 *   bursts          the burst in microseconds of each own period
 *   carries         slices of its limit that the last period left
 *   names           the last name of each group, none for the root, each with a newline behind it
 *   refused_lines   the number of each refused line, 1 for the first
 *   refused_faults  the number that refused it: 7 to 9, 11 to 17, 20 to 28, 30, 31, 33, or 80 to 82
 *   count           the number of groups
 *   names_count     the bytes of `names`
 *   refused_count   the number of refused lines
 * Answers 0, or 50 where the eight columns differ in length, or the two of refused lines do; 1 to 3 where the host is refused;
 *   50 where a column is too short. */
uint32_t arbiter_script(uint64_t processors, uint64_t period_us, uint64_t slice_us, uint64_t hash_key,
                        const uint8_t *text, size_t text_length, uint32_t *parents, size_t parents_length,
                        uint64_t *weights, size_t weights_length, uint64_t *limits, size_t limits_length,
                        uint64_t *demands, size_t demands_length, uint64_t *quotas, size_t quotas_length,
                        uint64_t *periods, size_t periods_length, uint64_t *bursts, size_t bursts_length,
                        uint64_t *carries, size_t carries_length, uint8_t *names, size_t names_length,
                        uint64_t *refused_lines, size_t refused_lines_length,
                        uint32_t *refused_faults, size_t refused_faults_length, uint32_t *count, uint64_t *names_count,
                        uint64_t *refused_count);

/* Counts one period for each group, from the slices that it used. The rows are those of the period. The last four counters
 * count nothing of row 0. A counter stops at its greatest value.
 * Reads:
 *   quotas  the limit in slices without what was carried in; ARBITER_NO_LIMIT where it has none
 *   drawn   slices that each group used, with those below it, as a plan gives them
 * Changes:
 *   usage_usec      grows by the microseconds of the slices that it used
 *   nr_periods      grows by 1
 *   nr_throttled    grows by 1 where it wanted more than its limit
 *   throttled_usec  grows by the microseconds that it wanted more
 *   nr_bursts       grows by 1 where it used more than its quota
 *   burst_usec      grows by the microseconds that it used more
 * Writes:
 *   carries  slices that it left of its limit, 0 where it has none or used more
 * Answers 0, or 50 where columns differ in length; 1 to 3 where the host is refused; 4 to 10 where the rows are refused. */
uint32_t arbiter_book(uint64_t processors, uint64_t period_us, uint64_t slice_us,
                      const uint32_t *parents, size_t parents_length, const uint64_t *weights, size_t weights_length,
                      const uint64_t *limits, size_t limits_length, const uint64_t *demands, size_t demands_length,
                      const uint64_t *quotas, size_t quotas_length, const uint64_t *drawn, size_t drawn_length,
                      uint64_t *carries, size_t carries_length, uint64_t *usage_usec, size_t usage_usec_length,
                      uint64_t *nr_periods, size_t nr_periods_length, uint64_t *nr_throttled, size_t nr_throttled_length,
                      uint64_t *throttled_usec, size_t throttled_usec_length, uint64_t *nr_bursts, size_t nr_bursts_length,
                      uint64_t *burst_usec, size_t burst_usec_length);

/* Many periods of one host, one after another, and what they add up to. The host may have any number of processors, as
 * arbiter_planned_host has them. A sample is `times` periods of the same demands. In each period a group's limit is that of
 * arbiter_period_limit, its amount that of arbiter_plan by these limits, and what it leaves and is counted that of
 * arbiter_book. arbiter_check has accepted each plan. Periods that come again are not planned again. A long time may be cut
 * into several calls. The columns behind `carries` are as long as `demands`, and have sums over the periods of each sample. A
 * sum stops at its greatest value.
 * Reads:
 *   parents  the row of the parent; ARBITER_NO_PARENT where the group is the root
 *   weights  the weight, 1 to 10000
 *   quotas   the quota, 1000 to 10^15 microseconds of each own period; ARBITER_NO_LIMIT where it has none, as row 0
 *   periods  the own period, 1000 to 1000000 microseconds
 *   bursts   the burst, 0 to 10^15 microseconds
 *   demands  the demand of each group in the first sample, then in the next, in slices
 *   times    the periods of a sample
 * Changes:
 *   carries  slices of each limit that the period before left, 0 where there was none; then those that the last period leaves
 * Writes:
 *   amounts         slices that the group got
 *   wants           slices that it wanted
 *   limits          slices of its limits; ARBITER_NO_LIMIT where it has none
 *   nr_throttled    periods in which it wanted more than its limit
 *   throttled_usec  microseconds that it wanted more
 *   nr_bursts       periods in which it used more than its quota
 *   burst_usec      microseconds that it used more
 *   nr_short        periods in which it was throttled and got less than its limit
 *   nr_starved      periods in which it wanted something and got nothing
 * Answers 0, or 50 where columns of the groups differ in length, `demands` is not one or more times as long, or a column of
 *   sums is not as long as `demands`; 1 to 3 where arbiter_planned_host refuses the host; 13 to 15 where arbiter_period_limit
 *   refuses a group; 4 to 10 where the rows of a sample are refused. */
uint32_t arbiter_periods(uint64_t processors, uint64_t period_us, uint64_t slice_us,
                         const uint32_t *parents, size_t parents_length, const uint64_t *weights, size_t weights_length,
                         const uint64_t *quotas, size_t quotas_length, const uint64_t *periods, size_t periods_length,
                         const uint64_t *bursts, size_t bursts_length, const uint64_t *demands, size_t demands_length,
                         uint64_t times, uint64_t *carries, size_t carries_length, uint64_t *amounts, size_t amounts_length,
                         uint64_t *wants, size_t wants_length, uint64_t *limits, size_t limits_length,
                         uint64_t *nr_throttled, size_t nr_throttled_length,
                         uint64_t *throttled_usec, size_t throttled_usec_length, uint64_t *nr_bursts, size_t nr_bursts_length,
                         uint64_t *burst_usec, size_t burst_usec_length, uint64_t *nr_short, size_t nr_short_length,
                         uint64_t *nr_starved, size_t nr_starved_length);

/* Slices from what operators write. */

/* The whole slices of one period of the host that a quota or burst allows, rounded down: a limit of a row. Below one slice it
 * allows none.
 * Reads:
 *   us             the quota or burst, 0 to 10^15 microseconds of each own period
 *   own_period_us  the own period, 1000 to 1000000 microseconds
 * Writes:
 *   slices  the slices
 * Answers 0, or 1 to 3 where the host is refused; 14 where the quota is out of range; 15 where the own period is out of range. */
uint32_t arbiter_slices(uint64_t processors, uint64_t period_us, uint64_t slice_us, uint64_t us, uint64_t own_period_us,
                        uint64_t *slices);

/* The slices that a group may use in the next period: the limit of its row. It is the quota plus `carry`, and at most the quota
 * plus the burst.
 * Reads:
 *   quota_us       the quota, 1000 to 10^15 microseconds of each own period; ARBITER_NO_LIMIT where it has none
 *   own_period_us  the own period, 1000 to 1000000 microseconds
 *   burst_us       the burst, 0 to 10^15 microseconds of each own period
 *   carry          slices of its limit that the last period left
 * Writes:
 *   limit  the limit in slices; ARBITER_NO_LIMIT where there is no quota
 * Answers 0, or 1 to 3 where the host is refused; 13, 14 where the quota is out of range; 15 where the own period is out of
 *   range; 14 where the burst is out of range. */
uint32_t arbiter_period_limit(uint64_t processors, uint64_t period_us, uint64_t slice_us, uint64_t quota_us,
                              uint64_t own_period_us, uint64_t burst_us, uint64_t carry, uint64_t *limit);

/* The slices of one period of the host that a demand takes, rounded up: a demand of a row.
 * Reads:
 *   numerator    the demand is `numerator` over `denominator` processors
 *   denominator  above 0
 * Writes:
 *   slices  0 to 1000000 slices
 * Answers 0, or 1 to 3 where the host is refused; 11 where the denominator is 0; 9 where it takes more than 1000000 slices. */
uint32_t arbiter_demand(uint64_t processors, uint64_t period_us, uint64_t slice_us, uint64_t numerator, uint64_t denominator,
                        uint64_t *slices);

/* The host that is planned in place of one of any number of processors. With 1 to 64 it is the host itself. Of more it is one
 * of the same capacity, on which all rows have the same plans: of those with slices of 1000 microseconds the one with most
 * processors.
 * Writes:
 *   planned_processors  processors, 1 to 64
 *   planned_period_us   a period, 1000 to 1000000 microseconds
 *   planned_slice_us    a slice, at least 1000 microseconds, which divides the period
 * Answers 0, or 1 where there is no processor; 2, 3 where period or slice are refused; 1 where no host of at most 64 processors
 *   has the capacity. */
uint32_t arbiter_planned_host(uint64_t processors, uint64_t period_us, uint64_t slice_us, uint64_t *planned_processors,
                              uint64_t *planned_period_us, uint64_t *planned_slice_us);

/* Answers the cpu.weight, 1 to 10000, that container runtimes write for cpu.shares; 0 for another conversion than the two.
 * Reads:
 *   shares      cpu.shares; below 2 they count as 2, above 262144 as 262144
 *   conversion  ARBITER_SHARES_LINEAR or ARBITER_SHARES_LOGARITHMIC */
uint64_t arbiter_weight_of_shares(uint64_t shares, uint32_t conversion);

/* What owners set. */

/* The weight of a number that an owner set: a request, shares or a weight. A greater number has no lesser weight.
 * Reads:
 *   formula  ARBITER_SHARES_LINEAR to ARBITER_UNIT_WEIGHT
 *   number   the number
 * Writes:
 *   weight  1 to 10000; 0 where logarithms do not tell it, which is of no number of shares
 * Answers 0, or 11 where no formula has the number. */
uint32_t arbiter_owned_weight(uint32_t formula, uint64_t number, uint64_t *weight);

/* The limit of a number that an owner set: of thousandths or billionths of a CPU, microseconds of a period, or of each second.
 * A quota or a period that the kernel does not take is the nearest one that it takes. The period of a rate is so long that the
 * quota is 1000 microseconds.
 * Reads:
 *   formula        ARBITER_THOUSANDTHS to ARBITER_PER_SECOND
 *   number         the number; 0 sets no limit, but for ARBITER_PER_SECOND
 *   own_period_us  the own period in microseconds that is set beside it, 0 for 100000; not read for ARBITER_NANO_CPUS
 * Writes:
 *   quota   the quota, 1000 to 10^15 microseconds of each own period; ARBITER_NO_LIMIT where there is none
 *   period  the own period, 1000 to 1000000 microseconds
 * Answers 0, or 11 where no formula has the number. */
uint32_t arbiter_owned_limit(uint32_t formula, uint64_t number, uint64_t own_period_us, uint64_t *quota, uint64_t *period);

/* The least number of those that an owner can set whose weight is at least `weight`. At most 18 weights are worked out.
 * Reads:
 *   formula  ARBITER_SHARES_LINEAR to ARBITER_UNIT_WEIGHT
 *   weight   the weight, 1 to 10000
 * Writes:
 *   least  the number; ARBITER_NO_LIMIT where logarithms do not tell a weight, which is of no number of shares
 * Answers 0, or 11 where no formula has the number; 12 where the weight is out of range. */
uint32_t arbiter_least_owned(uint32_t formula, uint64_t weight, uint64_t *least);

/* The number that is written for a request in thousandths of a CPU. Of shares it is that of kubelet, of a request the request
 * itself. `CPUWeight=` is 100 for each CPU, rounded up.
 * Reads:
 *   formula  ARBITER_SHARES_LINEAR to ARBITER_UNIT_WEIGHT
 *   request  the request in thousandths of a CPU
 * Writes:
 *   number  the number
 * Answers 0, or 11 where no formula has the number. */
uint32_t arbiter_owned_number(uint32_t formula, uint64_t request, uint64_t *number);

/* The most that the containers of a pod take at any time: of requests, of limits, or of another resource. They stand in the
 * order in which they start. An init container ends before the next one starts, and a sidecar runs on.
 * Reads:
 *   kinds    ARBITER_INIT_CONTAINER, ARBITER_SIDECAR, or any other number for a container
 *   amounts  the amount of each, in any one unit
 * Writes:
 *   amount  the amount of the pod; it stops at its greatest value
 * Answers 0, or 50 where columns differ in length. */
uint32_t arbiter_pod_amount(const uint8_t *kinds, size_t kinds_length, const uint64_t *amounts, size_t amounts_length,
                            uint64_t *amount);

/* The greatest amount of one container of a pod with which arbiter_pod_amount is at most `room`. Its own amount is not read.
 * Reads:
 *   kinds    those of arbiter_pod_amount
 *   amounts  the amount of each, in any one unit
 *   part     the place of the container, from 0
 *   room     the most that the pod may take
 * Writes:
 *   greatest  the amount of the container; ARBITER_NO_LIMIT where the others alone take more
 * Answers 0, or 50 where columns differ in length, or have no such place. */
uint32_t arbiter_greatest_part(const uint8_t *kinds, size_t kinds_length, const uint64_t *amounts, size_t amounts_length,
                               uint32_t part, uint64_t room, uint64_t *greatest);

/* The nanoseconds that a limit allows in some time: the part of it that the quota is of its own period, rounded down, and the
 * burst.
 * Reads:
 *   quota_us       the quota in microseconds of each own period
 *   own_period_us  the own period in microseconds, above 0
 *   burst_us       the burst in microseconds
 *   passed_ns      the time in nanoseconds
 * Writes:
 *   allowed  the nanoseconds; they stop at their greatest value
 * Answers 0, or 15 where the own period is 0. */
uint32_t arbiter_allowed(uint64_t quota_us, uint64_t own_period_us, uint64_t burst_us, uint64_t passed_ns, uint64_t *allowed);

/* The slices that rounds under limits served too little; 0 where limits did no harm. They do harm where the part of the plan
 * that is served is more than a twentieth of the plan below that of rounds without limits. A plan of nothing is served.
 * Reads:
 *   free_used     slices used in rounds without limits, up to 2^60
 *   free_planned  slices planned for these, up to 2^60
 *   held_used     slices used in rounds under limits, up to 2^60
 *   held_planned  slices planned for these, up to 2^60
 * Writes:
 *   lost  the slices
 * Answers 0, or 9 where a sum is above 2^60. */
uint32_t arbiter_lost(uint64_t free_used, uint64_t free_planned, uint64_t held_used, uint64_t held_planned, uint64_t *lost);

/* Names. */

/* Answers how many characters the version of the library has: the text of ARBITER_VERSION in the header of that library.
 * Writes:
 *   version  written as arbiter_name writes a name */
uint32_t arbiter_version(char *version, size_t version_length);

/* Answers how many characters the name of a fault's number has, 0 where the number is no fault's.
 * Reads:
 *   number  what a call answers, or a script writes for a line
 * Writes:
 *   name  the name, with a 0 behind it, where there is room for both; else, and where the answer is 0, as it was */
uint32_t arbiter_name(uint32_t number, char *name, size_t name_length);

#ifdef __cplusplus
}
#endif

#endif
