/* What the scheduler's BPF program and its loader share.
 * SPDX-License-Identifier: MIT OR Apache-2.0 OR GPL-2.0-only
 *
 * A leaf is a row. Row 0 is the rest: all tasks that are in no leaf of the plan. Times are
 * nanoseconds.
 */
#ifndef ARBITER_PLAN_H
#define ARBITER_PLAN_H

#define LEVELS 12
#define MOST_LEAVES (1 << LEVELS)
#define MOST_CPUS 512
/* Tasks that are planned, and one number that is none. */
#define MOST_TASKS (1 << 16)
/* Groups with a limit, and one number that is none; and how many of them are above one another. */
#define MOST_BUDGETS (1 << 12)
#define MOST_NESTED 16
/* A slice of a CPU, which a pick pays. The kernel ends it at a tick, most have 4 ms, so it is
 * told of less. An end may be late: a quantum is the longest slice. */
#define SLICE_NS 4000000ULL
#define GIVEN_NS 3000000ULL
#define QUANTUM_NS (GIVEN_NS + 4000000ULL)
/* How far a leaf is behind its guarantee before it goes before others, and what it keeps of the
 * guarantee while it wants nothing: so much of the time. */
#define SLACK_NS 12000000ULL
#define CREDIT_NS 24000000ULL
/* The most that a leaf keeps of its lead over others at a new plan. */
#define MOST_LEAD_NS (32 * SLICE_NS)
/* Limits are in each of these. */
#define LIMIT_PERIOD_NS 100000000ULL
/* Amounts are no greater, so that a charge to one leaf is none of more than 64 bits to another. */
#define MOST_AMOUNT 1000000ULL
/* A guarantee is in parts of a CPU. */
#define ONE_CPU (1ULL << 20)
/* All clocks are set back by as much when a leaf is charged this: 18 minutes of a CPU. */
#define MOST_CHARGE (1ULL << 40)
/* Steps of a trace in one section of the lock. */
#define MOST_STEPS 32

/* What a new plan gives a row: an amount in slices of the plan, 1 or more, a guarantee, and the
 * nearest group with a limit, itself or above: 0 for none. */
struct given {
    __u64 amount;
    __u64 guarantee;
    __u32 budget;
    __u32 pad;
};

/* What a new plan gives a group with a limit: what it may use in a period, what it may keep of that
 * for later ones, and the nearest such group above it. */
struct limited {
    __u64 limit_ns;
    __u64 burst_ns;
    __u32 above;
    __u32 pad;
};

/* A group with a limit. */
struct budget {
    __u64 limit_ns;
    __u64 burst_ns;
    /* What it may use still. Slices of those that run are taken from it in advance. */
    __s64 left_ns;
    /* The nearest group with a limit above it, and the first leaf that waits for its next
     * period. */
    __u32 above;
    __u32 first_aside;
    /* How often a leaf of it was put aside. */
    __u64 stops;
};

struct leaf {
    /* Nanoseconds: a whole slice at each pick, corrected when the slice ends. Its clock is this
     * over its amount. */
    __u64 charged;
    __u64 amount;
    /* What it is owed of its guarantee and a quantum, in parts of a nanosecond as those of a
     * CPU, up to `at_ns`. */
    __u64 guarantee;
    __u64 held;
    __u64 at_ns;
    /* When it is behind by the slack, and when by a quantum. */
    __s64 due_ns;
    __s64 deadline_ns;
    __u32 is_due;
    /* The nearest group with a limit; whether it waits for a period of one, and the next such
     * leaf. */
    __u32 budget;
    __u32 is_aside;
    __u32 next_aside;
    /* Tasks that want to run; of these, those for which a slice is charged, and those that wait. */
    __s32 there;
    __s32 running;
    __s32 waiting;
    /* Tasks with a number that were made in it. */
    __u32 numbered;
    /* The clock of the task of it that was picked last. */
    __u64 task_clock;
    /* What it used, what its tasks waited in sum, and how long one or more waited: up to
     * `until_ns`.
     */
    __u64 used_ns;
    __u64 waited_ns;
    __u64 some_ns;
    __u64 until_ns;
    /* Picks of it, and those of them that were due. */
    __u64 picks;
    __u64 due_picks;
    /* How often it was put aside at a limit. */
    __u64 stops;
};

/* Who waits for some CPUs, or no longer, is no step of the rule, nor that the next pick is out of turn.
 * A limit stops a leaf, or stops it no longer; a new period of a group with a limit begins. */
enum event_kind {
    EVENT_WAKE,
    EVENT_PICK,
    EVENT_END,
    EVENT_LEAVE,
    EVENT_LEVEL,
    EVENT_GIVE,
    EVENT_CUT,
    EVENT_BOUND,
    EVENT_STOP,
    EVENT_LATE,
    EVENT_REFILL
};

/* One step, in the order of `at`. */
struct event {
    __u64 at;
    /* The time of the rule. */
    __u64 ns;
    /* What a task used, the CPUs for which it waits, a bit for each of the first 64, or an
     * amount. */
    __u64 used_ns;
    __u64 guarantee;
    __u32 kind;
    __u32 row;
    __u32 cpu;
    /* Whether the task remains, or begins to wait, or the leaf does. */
    __u32 remains;
};

/* The rows that a CPU may pick from and their trees: the due one with the earliest deadline, the
 * one with the least clock; and a task that waited for long. */
struct best {
    __u32 due;
    __u32 due_tree;
    __u32 first;
    __u32 first_tree;
    __u32 late;
    __u32 pad;
};

/* A CPU: a processor of the rule. */
struct on_cpu {
    /* The task that it was given last, and its leaf. */
    __u32 task;
    __u32 row;
    /* Whether it found nobody. */
    __u32 is_idle;
    /* A task that another CPU picked for it, and that it has to take. */
    __u32 handed;
    /* Whether the last one was picked as due, its leaf's deadline then, and how long its slice
     * is. */
    __u32 is_due;
    /* Whether it has looked for a task since it came. */
    __u32 is_there;
    __s64 deadline_ns;
    __u64 slice_ns;
    /* A section of the lock: its next stage, and what follows an arrival; the task that it is about
     * with its leaf, the tree in which it is to wait, its time, and whether its slice ends. */
    __u32 stage;
    __u32 then;
    __u32 about;
    __u32 about_row;
    __u32 tree;
    __u32 is_ending;
    __u64 runtime;
    /* The CPU that is picked for, the task whose slice was ended there, and how many more may
     * be. */
    __u32 cpu;
    __u32 ended;
    __u32 cuts;
    struct best best;
    /* The task that was chosen, one of its leaf that waits and that it goes before, though that one
     * is behind it, and whether the chosen one is due, or late. */
    __u32 chosen;
    __u32 passed;
    __u32 chosen_due;
    __u32 chosen_late;
    /* The CPU that has to look for a task, `MOST_CPUS` for none, and whether it is interrupted; and
     * one that was picked for, which is. */
    __u32 kick;
    __u32 interrupts;
    __u32 picked_for;
    /* Masks of the trees whose tasks it may take. */
    __u64 masks;
    /* When the last one began, and when it may next have a late task. */
    __u64 since_ns;
    __u64 late_ns;
    /* When it may have a task without a number before others. */
    __u64 unplanned_ns;
    /* Steps that are not told yet. */
    __u32 steps;
    struct event noted[MOST_STEPS];
};
#endif
