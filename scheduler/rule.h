/* The rule of the scheduler: guarantees first, then shares.
 * SPDX-License-Identifier: GPL-2.0-only
 *
 * A leaf has a guarantee and a share. What it is owed of its guarantee rises in time while it
 * wants, and falls by a quantum at a pick; the end gives back what was not used. It is due when it
 * is behind by the slack. Due leaves go by the earliest deadline. If none is due, the least clock
 * decides: what a leaf was charged over its amount. The numbers are those of crates/dispatch, digit
 * by digit, so that a trace of steps can be replayed there.
 *
 * What is owed is kept as `held`, which is never below 0: a quantum more than the lag, so that
 * service beyond the guarantee is not held against a leaf.
 *
 * All of this file runs with `lock`.
 */
#ifndef ARBITER_RULE_H
#define ARBITER_RULE_H
#include "kernel.h"
#include "plan.h"

#define NOBODY MOST_LEAVES
/* Trees of winners: of tasks that all CPUs may take, of those of a CPU, and of those of a mask. */
#define ALL_CPUS 0
#define CPU_TREES 1
#define MASK_TREES (CPU_TREES + MOST_CPUS)
#define MOST_MASKS 63
#define MOST_TREES (MASK_TREES + MOST_MASKS)
#define TREE_WORDS (MOST_TREES / 64)
#define NEVER (1LL << 62)
/* What is held may be this long without a step of the leaf and not overflow: some seconds. */
#define LONG_NS (1ULL << 33)

const volatile bool has_trace;
const volatile u32 cpus_there = 1;

struct leaf leaves[MOST_LEAVES];
struct budget budgets[MOST_BUDGETS];
struct on_cpu cpus[MOST_CPUS];

/* It guards the leaves, the CPUs, the trees and the queues. */
#define GUARDED SEC(".bss.guarded") __attribute__((visibility("hidden"), aligned(8)))
GUARDED struct bpf_spin_lock lock;
/* The time of the rule: it never goes back. */
GUARDED u64 time_ns;
/* The greatest clock at the end of a slice, the level that was found last, and that at a new plan:
 * a charge and an amount. (Who wakes while a plan is taken finds another one.) */
GUARDED u64 greatest_charge, greatest_amount, level_charge, level_amount, plan_charge, plan_amount;
/* The number of steps of the rule. */
GUARDED u64 steps;
/* Steps that a trace lacks. */
u64 steps_lost;
/* The number of CPUs that found nobody, and of tasks that wait for some CPUs alone. */
GUARDED s32 idle_cpus, bound;
/* Of each node of the tree the row that is due first of those below it that are not yet; node 1 is
 * the root. */
GUARDED u16 soonest[2 * MOST_LEAVES];

/* Of each node of a tree the rows below it with the earliest deadline, of those that are due, and
 * with the least clock. */
struct winner {
    u16 due;
    u16 first;
};

struct tree {
    struct winner winners[2 * MOST_LEAVES];
    /* The first task of each leaf that waits here. */
    u32 heads[MOST_LEAVES];
    /* The tasks that wait here, by age. */
    u32 oldest;
    u32 newest;
    u32 waiting;
    u32 pad;
};

/* The trees in which tasks of a leaf wait. */
struct places_of_leaf {
    u64 words[TREE_WORDS];
};

/* (a map that the loader does not read) */
#define HIDDEN SEC(".bss.trees") __attribute__((visibility("hidden"), aligned(8)))
HIDDEN struct tree trees[MOST_TREES];
HIDDEN struct places_of_leaf waits_in[MOST_LEAVES];

/* An index that the verifier knows to be in bounds: the compiler drops a mask that it can prove. */
#ifndef WITHIN
#define WITHIN(index, most)                                                                        \
    ({                                                                                             \
        u64 in_ = (index);                                                                         \
        asm volatile("%0 &= %1" : "+r"(in_) : "i"((most) - 1));                                    \
        in_;                                                                                       \
    })
#endif
/* The same for a bound that is no power of two: one beyond it is 0. */
#ifndef BELOW
#define BELOW(index, most)                                                                         \
    ({                                                                                             \
        u64 in_ = (index);                                                                         \
        asm volatile("if %0 < %1 goto +1\n%0 = 0" : "+r"(in_) : "i"(most));                        \
        in_;                                                                                       \
    })
#endif

static __always_inline struct leaf *leaf_of(u32 row)
{
    return &leaves[WITHIN(row, MOST_LEAVES)];
}

static __always_inline struct budget *budget_of(u32 number)
{
    return &budgets[WITHIN(number, MOST_BUDGETS)];
}

static __always_inline struct on_cpu *on_cpu(u32 cpu)
{
    return &cpus[WITHIN(cpu, MOST_CPUS)];
}

static __always_inline struct tree *tree_at(u32 number)
{
    return &trees[BELOW(number, MOST_TREES)];
}

/* Places of the lowest bit, by the top six bits of its product with `DE_BRUIJN`. (A search by
 * branches were a known number on each of 64 paths, all of which the verifier would follow.) */
#define DE_BRUIJN 0x03f79d71b4cb0a89ULL
static const u8 places_of_bits[64] = {
    0,  1,  48, 2,  57, 49, 28, 3,  61, 58, 50, 42, 38, 29, 17, 4,  62, 55, 59, 36, 53, 51,
    43, 22, 45, 39, 33, 30, 24, 18, 12, 5,  63, 47, 56, 27, 60, 41, 37, 16, 54, 35, 52, 21,
    44, 32, 23, 11, 46, 26, 40, 15, 34, 20, 31, 10, 25, 14, 19, 9,  13, 8,  7,  6
};

/* The place of the lowest bit that is set. */
static __always_inline u32 lowest(u64 bits)
{
    return places_of_bits[WITHIN((bits & -bits) * DE_BRUIJN >> 58, 64)];
}

/* The time of the rule at a step: a CPU may have read its clock before another one. */
static __always_inline u64 pass(u64 now)
{
    if (now > time_ns)
        time_ns = now;
    return time_ns;
}

/* Notes whether a CPU has found nobody. Who comes then wakes it. */
static __always_inline void set_idle(struct on_cpu *on, bool is_idle)
{
    idle_cpus += is_idle - on->is_idle;
    on->is_idle = is_idle;
}

/* Notes a step of a trace, to be told when the lock is free. */
static __always_inline void note_more(struct on_cpu *here, u32 kind, u32 row, u32 cpu, u64 used,
                      u32 remains, u64 guarantee)
{
    u32 at = here->steps;

    if (!has_trace)
        return;
    if (at >= MOST_STEPS) {
        steps_lost++;
        return;
    }
    here->noted[WITHIN(at, MOST_STEPS)] = (struct event){ .at = ++steps,
                                  .ns = time_ns,
                                  .used_ns = used,
                                  .guarantee = guarantee,
                                  .kind = kind,
                                  .row = row,
                                  .cpu = cpu,
                                  .remains = remains };
    here->steps = at + 1;
}

static __always_inline void note(struct on_cpu *here, u32 kind, u32 row, u32 cpu, u64 used,
                 u32 remains)
{
    note_more(here, kind, row, cpu, used, remains, 0);
}

/* ---- Shares: clocks */

/* A value of which the compiler knows nothing, so that it makes no branch of a comparison. The
 * verifier follows each branch. */
#define UNKNOWN(value)                                                                             \
    ({                                                                                             \
        u64 value_ = (value);                                                                      \
        asm volatile("" : "+r"(value_));                                                           \
        value_;                                                                                    \
    })

/* Whether one number is less than another, by the sign of their difference. */
static __always_inline u64 is_below(u64 one, u64 other)
{
    return (UNKNOWN(one) - other) >> 63;
}

/* Whether a row goes before another one, if there is the first one: there is no other one, or its
 * key is less. */
static __always_inline u64 goes_first(u32 row, u32 other, u64 is_less)
{
    return (UNKNOWN(other) >> LEVELS | is_less) & ~(UNKNOWN(row) >> LEVELS) & 1;
}

/* Whether one clock is less than another. The products have up to 96 bits: low words are compared,
 * then high ones with what is borrowed. */
static __always_inline u64 is_less(u64 charge, u64 amount, u64 other_charge, u64 other_amount)
{
    u64 low = (u32)charge * other_amount, other_low = (u32)other_charge * amount;
    u64 high = (charge >> 32) * other_amount + (low >> 32);
    u64 other_high = (other_charge >> 32) * amount + (other_low >> 32);

    return is_below(high, other_high + is_below((u32)low, (u32)other_low));
}

/* Whether a row has a lesser clock than another one. */
static __always_inline u64 is_first(u32 row, u32 other)
{
    struct leaf *one = leaf_of(row), *two = leaf_of(other);

    return goes_first(row, other, is_less(one->charged, one->amount, two->charged, two->amount));
}

/* A leaf's charge without the slices that are charged in advance: it may be no less. */
static __always_inline u64 settled(struct leaf *leaf)
{
    return leaf->charged - leaf->running * SLICE_NS;
}

/* Whether a row has a lesser settled clock than another one. */
static __always_inline bool is_settled_less(u32 row, u32 other)
{
    struct leaf *one = leaf_of(row), *two = leaf_of(other);

    return is_less(settled(one), one->amount, settled(two), two->amount);
}

/* What a clock is as a charge to a leaf of some amount, rounded down. */
static __always_inline u64 as_charge(u64 amount, u64 charge, u64 of)
{
    return charge / of * amount + charge % of * amount / of;
}

/* ---- Guarantees: what a leaf is owed, when it is due, and its deadline */

/* The CPUs of its guarantee that the tasks of a leaf can use now. */
static __always_inline u64 rate_of(struct leaf *leaf)
{
    u64 most = leaf->there * ONE_CPU;
    return most < leaf->guarantee ? most : leaf->guarantee;
}

/* What a leaf keeps that wants nothing or that a limit stops, and the most that it may hold. A leaf
 * that holds more at a step of it keeps its credit alone; deadlines are compared by all that it is
 * owed. */
static __always_inline u64 credit_of(struct leaf *leaf)
{
    return QUANTUM_NS * ONE_CPU + leaf->guarantee * CREDIT_NS;
}

static __always_inline u64 most_held(struct leaf *leaf)
{
    return 2ULL * cpus_there * QUANTUM_NS * ONE_CPU + leaf->guarantee * CREDIT_NS;
}

/* What is owed at a rate in a time, or more than a leaf may hold. */
static __always_inline u64 owed(u64 rate, u64 passed)
{
    return passed > LONG_NS && rate && passed > (1ULL << 62) / rate ? 1ULL << 62 : rate * passed;
}

/* What is left of what a leaf holds beyond its credit is gone. */
static __always_inline void cut_to_credit(struct leaf *leaf)
{
    u64 credit = credit_of(leaf);

    if (leaf->held > credit)
        leaf->held = credit;
}

/* Brings what a leaf holds up to date. Returns whether that is more than the most. */
static __always_inline bool settle(struct leaf *leaf)
{
    u64 passed = time_ns - leaf->at_ns, credit = credit_of(leaf);

    leaf->at_ns = time_ns;
    if (leaf->there > 0 && !leaf->is_aside) {
        leaf->held += owed(rate_of(leaf), passed);
    } else if (leaf->held < credit) {
        leaf->held += owed(leaf->guarantee, passed);
        if (leaf->held > credit)
            leaf->held = credit;
    }
    return leaf->held > most_held(leaf);
}

/* A leaf holds no more than its credit: a step of its own, which a trace tells. */
static __always_inline void cut(struct on_cpu *here, u32 row)
{
    cut_to_credit(leaf_of(row));
    note(here, EVENT_CUT, row, 0, 0, 0);
}

/* Before a step of a leaf. */
static __always_inline void bring_up(struct on_cpu *here, u32 row)
{
    if (settle(leaf_of(row)))
        cut(here, row);
}

/* When a leaf will hold so much, at its rate: now or in the past, if it does. */
static __always_inline s64 time_of(struct leaf *leaf, u64 much, u64 rate)
{
    if (leaf->held >= much)
        return (s64)leaf->at_ns - (s64)((leaf->held - much) / rate);
    return leaf->at_ns + (much - leaf->held + rate - 1) / rate;
}

/* Sets when a leaf is due, and its deadline: after a step of it. */
static __always_inline void set_times(struct leaf *leaf)
{
    u64 rate = rate_of(leaf);

    leaf->due_ns = leaf->deadline_ns = NEVER;
    if (rate) {
        leaf->due_ns = time_of(leaf, QUANTUM_NS * ONE_CPU + rate * SLACK_NS, rate);
        leaf->deadline_ns = time_of(leaf, 2 * QUANTUM_NS * ONE_CPU, rate);
    }
    leaf->is_due = leaf->due_ns <= (s64)time_ns;
}

/* ---- Trees of winners */

static __always_inline u64 is_sooner(u32 row, u32 other)
{
    return goes_first(row, other, is_below(leaf_of(row)->due_ns, leaf_of(other)->due_ns));
}

static __always_inline u64 is_earlier(u32 row, u32 other)
{
    return goes_first(row, other,
              is_below(leaf_of(row)->deadline_ns, leaf_of(other)->deadline_ns));
}

/* One of two rows: the other one, if `is_other`. */
static __always_inline u32 either(u32 row, u32 other, u64 is_other)
{
    return row ^ ((row ^ other) & -(u32)is_other);
}

/* Whether all above a node of a tree stays: it has the winners that it had, and the row whose key
 * has changed is none of them. A difference of 0 is none. */
static __always_inline bool stays(u64 difference, u64 to_row)
{
    return !(difference | UNKNOWN(to_row - 1) >> 63);
}

/* Sets the soonest rows above one whose time has changed. */
static __noinline int play_soonest(u32 row)
{
    struct leaf *leaf = leaf_of(row);
    u64 node = WITHIN(row, MOST_LEAVES) + MOST_LEAVES;
    bool is_in = leaf->waiting > 0 && !leaf->is_aside && !leaf->is_due;
    u32 best = is_in && leaf->guarantee ? row : NOBODY, level;

    soonest[WITHIN(node, 2 * MOST_LEAVES)] = best;
#pragma GCC unroll 12
    for (level = 0; level < LEVELS; level++) {
        u32 other = soonest[WITHIN(node ^ 1, 2 * MOST_LEAVES)];
        best = soonest[WITHIN(node, 2 * MOST_LEAVES)];
        best = either(best, other, is_sooner(other, best));
        node >>= 1;
        if (stays(soonest[WITHIN(node, 2 * MOST_LEAVES)] ^ best, best ^ row))
            break;
        soonest[WITHIN(node, 2 * MOST_LEAVES)] = best;
    }
    return 0;
}

/* A node of a tree. (A loop that keeps a pointer to a tree is one that the verifier refuses.) */
static __always_inline struct winner *winner_at(u32 number, u64 node)
{
    return &tree_at(number)->winners[WITHIN(node, 2 * MOST_LEAVES)];
}

/* The first task of a leaf that waits in a tree. */
static __always_inline u32 *head_of(u32 number, u32 row)
{
    return &tree_at(number)->heads[WITHIN(row, MOST_LEAVES)];
}

/* Sets the winners of a tree above a row whose times, clock or tasks have changed. */
static __noinline int play(u32 number, u32 row)
{
    struct winner *winners = tree_at(number)->winners;
    struct leaf *leaf = leaf_of(row);
    u64 node = WITHIN(row, MOST_LEAVES) + MOST_LEAVES;
    bool is_in = *head_of(number, row) && !leaf->is_aside;
    u32 level;

    winners[WITHIN(node, 2 * MOST_LEAVES)] = (struct winner){
        .due = is_in && leaf->is_due ? row : NOBODY, .first = is_in ? row : NOBODY
    };
#pragma GCC unroll 12
    for (level = 0; level < LEVELS; level++) {
        struct winner best = winners[WITHIN(node, 2 * MOST_LEAVES)];
        struct winner other = winners[WITHIN(node ^ 1, 2 * MOST_LEAVES)], *above;
        best.due = either(best.due, other.due, is_earlier(other.due, best.due));
        best.first = either(best.first, other.first, is_first(other.first, best.first));
        node >>= 1;
        above = &winners[WITHIN(node, 2 * MOST_LEAVES)];
        if (stays((above->due ^ best.due) | (above->first ^ best.first),
              (u64)(best.due ^ row) * (best.first ^ row)))
            break;
        *above = best;
    }
    return 0;
}

static __always_inline u64 *word_of(u32 row, u32 word)
{
    return &waits_in[WITHIN(row, MOST_LEAVES)].words[BELOW(word, TREE_WORDS)];
}

/* Sets the winners of all trees in which a leaf waits, or did. */
static __noinline int play_trees(u32 row)
{
    u32 word;

    bpf_for(word, 0, TREE_WORDS) {
        u64 left = *word_of(row, word);
        u32 each;
        bpf_for(each, 0, 64) {
            u32 at;
            if (!left)
                break;
            at = lowest(left);
            play(64 * word + at, row);
            if (!*head_of(64 * word + at, row))
                *word_of(row, word) &= ~(1ULL << at);
            left &= left - 1;
        }
    }
    return 0;
}

/* After a step of a leaf. */
static __noinline int play_leaf(u32 row)
{
    set_times(leaf_of(row));
    play_soonest(row);
    return play_trees(row);
}

/* No row waits anywhere, and all clocks are 0. */
static __noinline int clear_trees(void)
{
    u32 number, node;

    greatest_charge = 0;
    greatest_amount = 1;

    bpf_for(node, 0, 2 * MOST_LEAVES)
        soonest[WITHIN(node, 2 * MOST_LEAVES)] = NOBODY;
    bpf_for(number, 0, MOST_TREES) {
        if (number >= CPU_TREES + cpus_there && number < MASK_TREES)
            continue;
        bpf_for(node, 0, 2 * MOST_LEAVES)
            *winner_at(number, node) = (struct winner){ .due = NOBODY, .first = NOBODY };
    }
    return 0;
}

/* ---- Steps of a leaf */

/* Counts what a leaf's tasks waited up to now, and then more or fewer that wait. */
static __always_inline void count_waiting(struct leaf *leaf, s32 more)
{
    if (leaf->waiting > 0 && time_ns > leaf->until_ns) {
        leaf->some_ns += time_ns - leaf->until_ns;
        leaf->waited_ns += (time_ns - leaf->until_ns) * leaf->waiting;
    }
    leaf->until_ns = time_ns;
    leaf->waiting += more;
}

/* The least of a clock and the settled one of a leaf. */
static __always_inline void take_lesser(struct leaf *leaf, bool *is_found, u64 *charge,
                    u64 *amount)
{
    if (*is_found && !is_less(settled(leaf), leaf->amount, *charge, *amount))
        return;
    *charge = settled(leaf);
    *amount = leaf->amount;
    *is_found = true;
}

/* The clock of all: the least settled clock of the leaves that want, because a task of theirs waits
 * or runs. Where nobody wants it is the greatest clock: what was used on an idle host counts no
 * longer. */
static __noinline int find_level(void)
{
    u64 charge = greatest_charge, amount = greatest_amount;
    bool is_found = false;
    u32 each;

    bpf_for(each, 0, CPU_TREES + cpus_there + MOST_MASKS) {
        u32 row;
        if (each && !bound)
            break;
        row = tree_at(each < CPU_TREES + cpus_there ? each : each - cpus_there + MOST_CPUS)
                  ->winners[1].first;
        if (row < NOBODY)
            take_lesser(leaf_of(row), &is_found, &charge, &amount);
    }
    bpf_for(each, 0, cpus_there) {
        if (on_cpu(each)->task)
            take_lesser(leaf_of(on_cpu(each)->row), &is_found, &charge, &amount);
    }
    level_charge = charge;
    level_amount = amount;
    return 0;
}

/* A task wants to run. The first one of a leaf lifts its clock: not over what others have used, or
 * each waking would cost it a slice. */
static __always_inline void wake(struct on_cpu *here, u32 row)
{
    struct leaf *leaf = leaf_of(row);

    bring_up(here, row);
    if (leaf->there++ == 0) {
        u64 charge;
        find_level();
        charge = as_charge(leaf->amount, level_charge, level_amount);
        if (leaf->charged < charge)
            leaf->charged = charge;
    }
    note(here, EVENT_WAKE, row, 0, 0, 0);
}

/* Takes from all groups with a limit above a leaf; gives back what is negative. */
static __always_inline void spend(struct leaf *leaf, s64 ns)
{
    u32 number = leaf->budget, each;

    bpf_for(each, 0, MOST_NESTED) {
        struct budget *budget = budget_of(number);
        if (!number)
            break;
        budget->left_ns -= ns;
        number = budget->above;
    }
}

/* A group with a limit above a leaf that has nothing left; 0 if there is none. */
static __always_inline u32 spent_above(struct leaf *leaf)
{
    u32 number = leaf->budget, found = 0, each;

    bpf_for(each, 0, MOST_NESTED) {
        struct budget *budget = budget_of(number);
        if (!number)
            break;
        if (budget->limit_ns && budget->left_ns <= 0)
            found = number;
        number = budget->above;
    }
    return found;
}

/* The least that groups with a limit above a leaf have left, of a slice. */
static __always_inline u64 left_above(struct leaf *leaf)
{
    u32 number = leaf->budget, each;
    s64 left = GIVEN_NS;

    bpf_for(each, 0, MOST_NESTED) {
        struct budget *budget = budget_of(number);
        if (!number)
            break;
        if (budget->limit_ns && budget->left_ns < left)
            left = budget->left_ns;
        number = budget->above;
    }
    return left;
}

/* A pick of a leaf for a CPU: a slice and a quantum are paid in advance. Returns what was paid of
 * the quantum. */
static __always_inline u64 pay(struct on_cpu *here, u32 row, u32 cpu)
{
    struct leaf *leaf = leaf_of(row);
    u64 paid = QUANTUM_NS * ONE_CPU;
    bool is_over = settle(leaf);

    if (paid > leaf->held)
        paid = leaf->held;
    leaf->held -= paid;
    leaf->charged += SLICE_NS;
    leaf->running++;
    leaf->picks++;
    spend(leaf, SLICE_NS);
    note(here, EVENT_PICK, row, cpu, 0, 0);
    /* (behind the pick, which goes by all that the leaf is owed) */
    if (is_over)
        cut(here, row);
    return paid;
}

/* What is given back of a quantum that was paid in advance, or paid beyond it, for the time that a
 * CPU was held: a leaf bears its own switches. */
static __always_inline void give_back(struct leaf *leaf, u64 taken, u64 paid)
{
    u64 parts = taken * ONE_CPU, quantum = QUANTUM_NS * ONE_CPU;

    if (parts >= quantum)
        leaf->held -= parts - quantum < leaf->held ? parts - quantum : leaf->held;
    else
        leaf->held += quantum - parts < paid ? quantum - parts : paid;
}

/* The end of a slice: what was not used is given back, or what was used beyond it charged. */
static __always_inline void end_slice(struct on_cpu *here, u32 row, u32 cpu, u64 used, u64 paid,
                      bool remains)
{
    struct leaf *leaf = leaf_of(row);
    u64 before;

    bring_up(here, row);
    before = rate_of(leaf);
    give_back(leaf, time_ns - on_cpu(cpu)->since_ns, paid);
    leaf->running--;
    leaf->charged += used - SLICE_NS;
    if (is_less(greatest_charge, greatest_amount, settled(leaf), leaf->amount)) {
        greatest_charge = settled(leaf);
        greatest_amount = leaf->amount;
    }
    leaf->used_ns += used;
    leaf->there -= !remains;
    /* what is not wanted any more is not kept beyond the credit */
    if (rate_of(leaf) < before)
        cut_to_credit(leaf);
    spend(leaf, (s64)used - (s64)SLICE_NS);
    note(here, EVENT_END, row, cpu, used, remains);
}

/* A leaf waits for the next period of a group with a limit that has nothing left, with no more than
 * its credit. The caller plays it. */
static __always_inline void put_aside(struct on_cpu *here, u32 row, u32 number)
{
    struct leaf *leaf = leaf_of(row);
    struct budget *budget = budget_of(number);

    settle(leaf);
    cut_to_credit(leaf);
    leaf->is_aside = 1;
    leaf->next_aside = budget->first_aside;
    leaf->stops++;
    budget->first_aside = row + 1;
    budget->stops++;
    note(here, EVENT_STOP, row, 0, 0, true);
}

/* The first leaf that waits for a period of a group waits no longer. What it was owed meanwhile is no
 * fault of others. Returns it, for the caller to play; `NOBODY` if there is none. */
static __always_inline u32 free_first(struct on_cpu *here, u32 number)
{
    struct budget *budget = budget_of(number);
    u32 row = budget->first_aside - 1;
    struct leaf *leaf = leaf_of(row);

    if (!budget->first_aside)
        return NOBODY;
    budget->first_aside = leaf->next_aside;
    settle(leaf);
    leaf->is_aside = 0;
    note(here, EVENT_STOP, row, 0, 0, false);
    cut(here, row);
    return row;
}

/* A new period of a group with a limit. Returns whether it has something left. (A number whose
 * limit has gone stops nobody.) */
static __always_inline bool refill(struct on_cpu *here, u32 number)
{
    struct budget *budget = budget_of(number);

    note(here, EVENT_REFILL, number, 0, 0, 0);
    budget->left_ns += budget->limit_ns;
    if (budget->left_ns > (s64)(budget->limit_ns + budget->burst_ns))
        budget->left_ns = budget->limit_ns + budget->burst_ns;
    return !budget->limit_ns || budget->left_ns > 0;
}

/* The greatest settled clock of all leaves: after a new plan. */
static __noinline int find_greatest(u32 rows)
{
    u32 row;

    greatest_charge = 0;
    greatest_amount = 1;
    bpf_for(row, 0, rows) {
        struct leaf *leaf = leaf_of(row);
        if (!is_less(greatest_charge, greatest_amount, settled(leaf), leaf->amount))
            continue;
        greatest_charge = settled(leaf);
        greatest_amount = leaf->amount;
    }
    return 0;
}

/* A new plan: the level over which leaves keep their leads. */
static __always_inline void take_level(struct on_cpu *here)
{
    find_level();
    plan_charge = level_charge;
    plan_amount = level_amount;
    note(here, EVENT_LEVEL, 0, 0, 0, 0);
}

/* A new plan gives a leaf an amount and a guarantee. It keeps its lead over the level, and what it
 * is owed. The caller plays it. */
static __always_inline void give(struct on_cpu *here, u32 row, u64 amount, u64 guarantee)
{
    struct leaf *leaf = leaf_of(row);
    u64 level = as_charge(leaf->amount, plan_charge, plan_amount);
    u64 lead = leaf->charged > level ? leaf->charged - level : 0;

    /* (a row that had none is owed nothing) */
    if (!leaf->amount)
        leaf->held = QUANTUM_NS * ONE_CPU;
    bring_up(here, row);
    if (lead > MOST_LEAD_NS)
        lead = MOST_LEAD_NS;
    leaf->charged = as_charge(amount, plan_charge, plan_amount) + lead;
    leaf->amount = amount;
    leaf->guarantee = guarantee;
    note_more(here, EVENT_GIVE, row, 0, amount, 0, guarantee);
}

/* Sets all clocks back by a whole number, so that charges stay small: no comparison changes. */
static __noinline int set_back(u32 rows)
{
    u64 by;
    u32 row;

    find_level();
    by = level_charge / level_amount;
    greatest_charge -= greatest_charge < by * greatest_amount ? greatest_charge
                                                              : by * greatest_amount;
    plan_charge -= plan_charge < by * plan_amount ? plan_charge : by * plan_amount;
    bpf_for(row, 0, rows) {
        struct leaf *leaf = leaf_of(row);
        leaf->charged -= leaf->charged < by * leaf->amount ? leaf->charged : by * leaf->amount;
    }
    return 0;
}
#endif
