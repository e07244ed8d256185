/* Tasks by number, and the queues in which they wait.
 * SPDX-License-Identifier: GPL-2.0-only
 *
 * A task waits in a tree of winners: that of all CPUs, of the one that it may use, or of a mask.
 * There the tasks of a leaf are a heap by their own clocks: what a task used over its weight. So a
 * search is over leaves, whatever the number of tasks. All of this file runs with `lock`.
 */
#ifndef ARBITER_QUEUES_H
#define ARBITER_QUEUES_H
#include "rule.h"

#define WORDS (MOST_CPUS / 64)
/* Twice the longest right spine of a heap of all tasks. */
#define MOST_SPINE 40
/* The kernel ends a scheduler whose task waits for 20 s. One that waits for half of it has a short
 * turn, of each CPU one in `TURNS_NS`. With each second that it waits longer these are twice as many,
 * up to so many doublings: then all that have a number have a turn in 20 s. It is charged as any. */
#define TIMEOUT_MS 20000
#define LONGEST_WAIT_NS 10000000000ULL
#define TURN_NS 50000ULL
#define TURNS_NS 2000000ULL
#define SECOND_NS 1000000000ULL
#define MOST_DOUBLED 5
/* A CPU takes a task without a number before others once in this time, for as short a turn. Where
 * many wait it is more often, so that each has a turn in some seconds, but no more than in the
 * least time. */
#define UNPLANNED_NS 2000000ULL
#define LEAST_UNPLANNED_NS 150000ULL
/* The least slice where a limit leaves less: a timer ends it. */
#define LEAST_SLICE_NS 250000ULL
/* Who wakes interrupts a task of its leaf that is ahead by this, and is before others by as much. */
#define AHEAD_NS (SLICE_NS / 3)
/* A task whose slice ends goes on beside one of its leaf that is behind it by no more, and has run
 * since it woke: to change them costs a switch, and often a move to another CPU. */
#define STAY_NS SLICE_NS
/* A leaf that is behind by as much when it wakes is no sleeper, which gains by a lead. */
#define LONG_SLEEP_NS 48000000ULL
#define DEFAULT_WEIGHT 100
/* How much longer a slice is whose task has to stay on its CPU. One that has begun so lately is not
 * ended for another CPU's sake: its task may be on the way still. */
#define MOMENT_NS (GIVEN_NS / 6)
/* Slices that are cut at a waking. Stages of a section: each leaf may be made due, or put aside. */
#define MOST_CUTS 4
#define MOST_STAGES (4 * MOST_LEAVES)
/* In place of a tree: that of a task's mask. */
#define SOME_CPUS MOST_TREES

enum state {
    AWAY,
    /* It wants to run and is counted, and the kernel has it for a moment. */
    ARRIVING,
    QUEUED,
    /* A slice is charged for it. */
    RUNS,
};

/* A task. Number 0 is none. */
struct task {
    /* Its place in a heap: those after it, and the one before; the right spine below it. */
    u32 left;
    u32 right;
    u32 parent;
    u32 rank;
    /* Its neighbours by age in its tree. */
    u32 older;
    u32 newer;
    /* The tree in which it waits. */
    u32 tree;
    /* Its leaf, which holds for a version of the tree of groups. */
    u32 row;
    u32 version;
    u32 state;
    /* The CPU that picked it. */
    u32 cpu;
    /* Whether its slice was made longer. */
    u32 is_extended;
    /* Whether its slice has ended and the kernel has not handed it over yet. */
    u32 is_passing;
    /* The tree of its mask when that was looked for last, and whether it waits for the CPUs of its
     * mask. */
    u32 mask_tree;
    u32 has_mask;
    /* Whether it has not run since it woke. */
    u32 has_woken;
    /* The leaf that it was made in, whose number it has. */
    u32 made_in;
    u32 pad;
    u64 since_ns;
    /* How much of its time was charged, and that over its weight. */
    u64 charged_ns;
    u64 clock;
    u64 weight;
    /* What was paid for it in advance. */
    u64 paid;
};

struct mask {
    u64 words[WORDS];
};

/* (a map that the loader does not read) */
#define OF_TASKS SEC(".bss.tasks") __attribute__((visibility("hidden"), aligned(8)))
OF_TASKS struct task tasks[MOST_TASKS];
OF_TASKS struct mask masks[MOST_TASKS];
/* The masks of trees; none is empty. */
OF_TASKS struct mask tree_masks[MOST_MASKS + 1];
/* The tasks that have a number. */
GUARDED u32 numbered;
/* Turns of tasks that waited for long, picks of one CPU for another, and tasks without a number. */
u64 late_turns, handed_over, unplanned;

static __always_inline struct task *task_at(u32 number)
{
    return &tasks[WITHIN(number, MOST_TASKS)];
}

/* ---- Numbers */

/* Whether a task that is made in a leaf gets a number: no leaf takes more than it leaves, so that no
 * crowd has all. */
static __always_inline bool has_number(u32 row)
{
    return leaf_of(row)->numbered < MOST_TASKS - 1 - numbered;
}

static __always_inline void count_number(u32 number, u32 row)
{
    task_at(number)->made_in = row;
    leaf_of(row)->numbered++;
    numbered++;
}

/* ---- Heaps */

static __always_inline u32 rank_of(u32 number)
{
    return number ? task_at(number)->rank : 0;
}

/* Sets a task's rank: its right spine is the shorter one. Returns whether the rank changed. */
static __always_inline bool set_rank(u32 number)
{
    struct task *task = task_at(number);
    u32 before = task->rank, left = task->left;

    if (rank_of(left) < rank_of(task->right)) {
        task->left = task->right;
        task->right = left;
    }
    task->rank = rank_of(task->right) + 1;
    return task->rank != before;
}

/* Sets what is after a task, or the first one of a heap. */
static __always_inline void hang(u32 *first, u32 above, u32 number)
{
    if (above)
        task_at(above)->right = number;
    else
        *first = number;
    if (number)
        task_at(number)->parent = above;
}

/* The first task of two heaps made one. */
static __noinline u32 merge(u32 one, u32 other)
{
    u32 first = 0, above = 0, step;

    bpf_for(step, 0, MOST_SPINE) {
        u32 least = one;
        if (!one || !other)
            break;
        if (task_at(other)->clock < task_at(one)->clock) {
            least = other;
            other = one;
        }
        hang(&first, above, least);
        above = least;
        one = task_at(least)->right;
    }
    hang(&first, above, one ? one : other);
    bpf_for(step, 0, MOST_SPINE) {
        if (!above)
            break;
        set_rank(above);
        above = task_at(above)->parent;
    }
    return first;
}

/* Takes a task out of a heap. */
static __always_inline void unhang(u32 *first, u32 number)
{
    struct task *task = task_at(number);
    u32 below = merge(task->left, task->right), above = task->parent, step;

    if (below)
        task_at(below)->parent = above;
    if (!above)
        *first = below;
    else if (task_at(above)->left == number)
        task_at(above)->left = below;
    else
        task_at(above)->right = below;
    bpf_for(step, 0, MOST_SPINE) {
        if (!above || !set_rank(above))
            break;
        above = task_at(above)->parent;
    }
}

/* ---- Queues */

/* Notes that a task waits for some CPUs, or no longer. */
static __always_inline void note_bound(struct on_cpu *here, u32 number, u32 tree, bool waits)
{
    u64 some = 1;

    if (tree == ALL_CPUS)
        return;
    bound += waits ? 1 : -1;
    if (!has_trace)
        return;
    some = tree >= MASK_TREES ? tree_masks[WITHIN(tree - MASK_TREES, MOST_MASKS + 1)].words[0]
                              : some << ((tree - CPU_TREES) % 64);
    note(here, EVENT_BOUND, task_at(number)->row, 0, some, waits);
}

/* Puts a task that is counted into a tree. The caller plays its leaf. */
static __noinline int push(struct on_cpu *here, u32 number, u32 at)
{
    struct task *task = task_at(number);
    struct tree *tree;
    u32 *head;

    if (at >= MOST_TREES)
        return 0;
    tree = tree_at(at);
    head = head_of(at, task->row);
    task->tree = at;
    task->left = task->right = task->parent = 0;
    task->rank = 1;
    *head = merge(*head, number);
    task->newer = 0;
    task->older = tree->newest;
    if (tree->newest)
        task_at(tree->newest)->newer = number;
    else
        tree->oldest = number;
    tree->newest = number;
    tree->waiting++;
    *word_of(task->row, at / 64) |= 1ULL << (at % 64);
    task->state = QUEUED;
    task->since_ns = time_ns;
    note_bound(here, number, at, true);
    return 0;
}

/* Takes a task out of its tree. It is counted still. The caller plays its leaf. */
static __noinline int take_out(struct on_cpu *here, u32 number)
{
    struct task *task = task_at(number);
    u32 at = task->tree;
    struct tree *tree;

    if (at >= MOST_TREES)
        return 0;
    tree = tree_at(at);
    unhang(head_of(at, task->row), number);
    if (task->older)
        task_at(task->older)->newer = task->newer;
    else
        tree->oldest = task->newer;
    if (task->newer)
        task_at(task->newer)->older = task->older;
    else
        tree->newest = task->older;
    tree->waiting--;
    task->state = ARRIVING;
    note_bound(here, number, at, false);
    return 0;
}

/* What a task used since it was charged last. Of a slice that was cut a moment too much may be
 * charged. */
static __always_inline u64 used_by(struct task *task, u64 runtime)
{
    return runtime > task->charged_ns ? runtime - task->charged_ns : 0;
}

/* What a use is on the clock of a task. */
static __always_inline u64 on_clock(struct task *task, u64 used)
{
    return used * DEFAULT_WEIGHT / (task->weight ? task->weight : DEFAULT_WEIGHT);
}

/* The end of a task's slice. */
static __always_inline void end(struct on_cpu *here, u32 number, u64 used, bool remains)
{
    struct task *task = task_at(number);
    struct on_cpu *on = on_cpu(task->cpu);

    task->charged_ns += used;
    task->clock += on_clock(task, used);
    end_slice(here, task->row, task->cpu, used, task->paid, remains);
    if (on->handed == number)
        on->handed = 0;
    if (on->task == number)
        on->task = 0;
}

/* A task wants nothing more of its leaf: it sleeps, or leaves. */
static __always_inline void leave_leaf(struct on_cpu *here, u32 number, u64 runtime)
{
    struct task *task = task_at(number);
    struct leaf *leaf = leaf_of(task->row);

    if (task->state == RUNS) {
        end(here, number, used_by(task, runtime), false);
    } else if (task->state != AWAY) {
        u64 before;
        if (task->state == QUEUED)
            take_out(here, number);
        bring_up(here, task->row);
        before = rate_of(leaf);
        count_waiting(leaf, -1);
        leaf->there--;
        if (rate_of(leaf) < before)
            cut_to_credit(leaf);
        note(here, EVENT_LEAVE, task->row, 0, 0, 0);
    }
    task->state = AWAY;
    task->is_passing = 0;
}

/* Who slept is a little before others of its leaf, but no more than before its sleep. One that is
 * new is not behind them: with more a row of tasks, each new, would keep all others waiting. */
static __always_inline void begin_clock(struct task *task, struct leaf *leaf)
{
    u64 lead = task->clock ? AHEAD_NS : 0;

    if (task->clock + lead < leaf->task_clock)
        task->clock = leaf->task_clock - lead;
}

/* A task of its leaf wants to run: it wakes, or its slice ends. */
static __always_inline void arrive(struct on_cpu *here, u32 number, u64 runtime)
{
    struct task *task = task_at(number);
    struct leaf *leaf = leaf_of(task->row);

    if (task->state == QUEUED)
        take_out(here, number);
    if (task->state == RUNS) {
        end(here, number, used_by(task, runtime), true);
        count_waiting(leaf, 1);
    } else if (task->state == AWAY) {
        wake(here, task->row);
        count_waiting(leaf, 1);
        task->has_woken = 1;
        begin_clock(task, leaf);
    }
    task->state = ARRIVING;
}

/* A CPU takes a task, wherever it is: for a slice of as much as limits above it leave. */
static __always_inline void run(struct on_cpu *here, u32 number, u32 cpu, bool is_due,
                bool is_late)
{
    struct task *task = task_at(number);
    struct leaf *leaf = leaf_of(task->row);
    struct on_cpu *on = on_cpu(cpu);
    u64 slice = left_above(leaf), clock = task->clock;

    if (task->state == QUEUED)
        take_out(here, number);
    count_waiting(leaf, -1);
    on->task = number;
    on->row = task->row;
    on->since_ns = time_ns;
    on->is_due = is_due;
    on->slice_ns = is_late ? TURN_NS : (s64)slice < (s64)LEAST_SLICE_NS ? LEAST_SLICE_NS : slice;
    on->deadline_ns = leaf->deadline_ns;
    /* (who wakes is not behind one that waits) */
    if (here->passed && task_at(here->passed)->clock < clock)
        clock = task_at(here->passed)->clock;
    if (clock > leaf->task_clock)
        leaf->task_clock = clock;
    leaf->due_picks += is_due;
    task->cpu = cpu;
    task->paid = pay(here, task->row, cpu);
    task->state = RUNS;
    task->is_extended = task->has_woken = 0;
}

/* ---- Choices */

static __always_inline bool is_late(u32 number)
{
    return number && time_ns > task_at(number)->since_ns + LONGEST_WAIT_NS;
}

/* Whether a CPU may take a task of a tree. */
static __always_inline bool is_open(u32 tree, u32 cpu)
{
    return tree == ALL_CPUS || tree == CPU_TREES + cpu
           || (tree >= MASK_TREES && on_cpu(cpu)->masks >> (tree - MASK_TREES) & 1);
}

/* Whether the first task of a leaf that waits in a tree goes before that in another tree: by their
 * own clocks, or a task that is bound to some CPUs would never go before free ones of its leaf. */
static __always_inline bool is_task_first(u32 row, u32 number, u32 other)
{
    return task_at(*head_of(number, row))->clock < task_at(*head_of(other, row))->clock;
}

/* Looks at a tree for what may be picked. (What was found is no local value: the verifier would
 * follow each of those.) */
static __noinline int look_at(struct on_cpu *here, u32 number)
{
    struct tree *tree = tree_at(number);
    u32 due = tree->winners[1].due, first = tree->winners[1].first, oldest = tree->oldest;

    if (!tree->waiting)
        return 0;
    /* (of all trees that which waits for longest, or a crowd in one would keep others from a turn) */
    if (time_ns >= on_cpu(here->cpu)->late_ns && is_late(oldest)
        && (!here->best.late || task_at(oldest)->since_ns < task_at(here->best.late)->since_ns))
        here->best.late = oldest;
    if (is_earlier(due, here->best.due)
        || (due < NOBODY && due == here->best.due
            && is_task_first(due, number, here->best.due_tree))) {
        here->best.due = due;
        here->best.due_tree = number;
    }
    if (is_first(first, here->best.first)
        || (first < NOBODY && first == here->best.first
            && is_task_first(first, number, here->best.first_tree))) {
        here->best.first = first;
        here->best.first_tree = number;
    }
    return 0;
}

/* Looks at all trees of a CPU that is picked for. */
static __noinline int look(struct on_cpu *here)
{
    u64 left = on_cpu(here->cpu)->masks;
    u32 each;

    here->best = (struct best){ .due = NOBODY, .first = NOBODY };
    bpf_for(each, 0, 2 + MOST_MASKS) {
        u32 number = each ? CPU_TREES + here->cpu : ALL_CPUS;
        if (each >= 2) {
            if (!left)
                break;
            number = MASK_TREES + lowest(left);
            left &= left - 1;
        }
        look_at(here, number);
        if (!bound)
            break;
    }
    return 0;
}

/* Whether a task whose slice has ended goes on in the place of the one that was chosen: it waits
 * too, but in no tree yet. Tasks of one leaf go by their clocks, and stay where these are near. */
static __noinline bool goes_on(struct on_cpu *here, u32 number, u32 other)
{
    struct task *task = task_at(number), *next = task_at(other);
    struct leaf *leaf = leaf_of(task->row), *its = leaf_of(next->row);

    if (leaf->is_aside)
        return false;
    if (!other)
        return true;
    if (here->chosen_late)
        return false;
    if (leaf == its)
        return task->clock <= next->clock + (next->has_woken ? 0 : STAY_NS);
    if (leaf->is_due != here->chosen_due)
        return leaf->is_due;
    if (leaf->is_due)
        return leaf->deadline_ns <= its->deadline_ns;
    return !is_less(its->charged, its->amount, leaf->charged, leaf->amount);
}

/* A CPU that takes a due task in the place of one whose slice ends and that is not due: one whose
 * task was picked as no due one, of another leaf that is further ahead. Else a leaf that may use a
 * whole CPU of its share could never catch up. `MOST_CPUS` if there is none. */
static __noinline u32 gives_way(u32 cpu, u32 number, u32 due)
{
    u32 most = task_at(number)->row, tree = task_at(due)->tree, row = task_at(due)->row;
    u32 found = MOST_CPUS, each;

    bpf_for(each, 0, cpus_there) {
        struct on_cpu *on = on_cpu(each);
        if (each == cpu || !on->task || on->is_due || on->handed || !is_open(tree, each)
            || on->row == row || on->since_ns + MOMENT_NS > time_ns
            || !is_settled_less(most, on->row))
            continue;
        most = on->row;
        found = each;
    }
    return found;
}

/* An idle CPU for a task that has come: `own` if it is one. `MOST_CPUS` if there is none. */
static __noinline u32 idle_for(u32 number, u32 own)
{
    u32 tree = task_at(number)->tree, found = MOST_CPUS, cpu;

    if (!idle_cpus)
        return MOST_CPUS;
    bpf_for(cpu, 0, cpus_there) {
        if (on_cpu(cpu)->is_idle && (found == MOST_CPUS || cpu == own) && is_open(tree, cpu))
            found = cpu;
    }
    if (found < MOST_CPUS)
        set_idle(on_cpu(found), false);
    return found;
}

/* How much a CPU's task has to give way to one that wakes: 0 for not at all. */
static __always_inline u32 weakness(struct on_cpu *on, struct task *task, struct leaf *leaf,
                    bool is_due)
{
    struct task *its = task_at(on->task);

    if (on->row == task->row)
        return its->clock + on_clock(its, time_ns - on->since_ns) >= task->clock + AHEAD_NS;
    if (is_due && on->is_due)
        return on->deadline_ns > leaf->deadline_ns + (s64)SLICE_NS ? 2 : 0;
    if (is_due)
        return 4;
    return !on->is_due && is_first(task->row, on->row) ? 3 : 0;
}

/* The CPU whose task gives way to one that wakes; `MOST_CPUS` if none does. */
static __noinline u32 ahead_of(u32 number)
{
    struct task *task = task_at(number);
    struct leaf *leaf = leaf_of(task->row);
    bool is_due = leaf->due_ns <= (s64)time_ns;
    u32 found = MOST_CPUS, worst = NOBODY, most = 0, cpu;

    if (leaf->is_aside || spent_above(leaf))
        return MOST_CPUS;
    bpf_for(cpu, 0, cpus_there) {
        struct on_cpu *on = on_cpu(cpu);
        u32 now;
        if (!on->task || on->handed || !is_open(task->tree, cpu))
            continue;
        now = weakness(on, task, leaf, is_due);
        if (now < most || !now || (now == most && !is_first(worst, on->row)))
            continue;
        most = now;
        worst = on->row;
        found = cpu;
    }
    return found;
}

/* When the next turn of a kind may be: so long after the last one. What a slice took of that time is
 * made up for. */
static __always_inline u64 next_turn(u64 last, u64 now, u64 each)
{
    return (last + QUANTUM_NS > now ? last : now - QUANTUM_NS) + each;
}

/* Notes a turn of a task that waited for long. */
static __always_inline void note_turn(struct on_cpu *on, u32 number)
{
    u64 late = (time_ns - task_at(number)->since_ns - LONGEST_WAIT_NS) / SECOND_NS;

    on->late_ns = next_turn(on->late_ns, time_ns,
                TURNS_NS >> (late < MOST_DOUBLED ? late : MOST_DOUBLED));
    late_turns++;
}

/* Whether a CPU takes a task without a number before others, where so many wait. */
static __always_inline bool is_unplanned_next(struct on_cpu *on, u64 now, u64 waiting)
{
    u64 each = LONGEST_WAIT_NS * cpus_there / (waiting + 1);

    if (now < on->unplanned_ns)
        return false;
    if (each >= SLICE_NS)
        on->unplanned_ns = now + UNPLANNED_NS;
    else
        on->unplanned_ns = next_turn(on->unplanned_ns, now,
                         each < LEAST_UNPLANNED_NS ? LEAST_UNPLANNED_NS : each);
    return true;
}

/* ---- Masks */

static __always_inline u64 *mask_of(u32 number, u32 word)
{
    return &masks[WITHIN(number, MOST_TASKS)].words[WITHIN(word, WORDS)];
}

static __always_inline u64 *mask_of_tree(u32 at, u32 word)
{
    return &tree_masks[WITHIN(at, MOST_MASKS + 1)].words[WITHIN(word, WORDS)];
}

static __always_inline bool has_cpu(u32 number, u32 cpu)
{
    return *mask_of(number, cpu / 64) >> (cpu % 64) & 1;
}

/* Whether a tree is that of a task's mask. */
static __always_inline bool is_tree_of(u32 at, u32 number)
{
    u32 word;

    bpf_for(word, 0, WORDS) {
        if (64 * word >= cpus_there)
            break;
        if (*mask_of_tree(at, word) != *mask_of(number, word))
            return false;
    }
    return true;
}

/* Gives a tree to another mask: the CPUs of it look there. */
static __always_inline void set_mask(u32 at, u32 number)
{
    u32 each;

    bpf_for(each, 0, WORDS)
        *mask_of_tree(at, each) = *mask_of(number, each);
    bpf_for(each, 0, cpus_there) {
        u64 bit = 1ULL << at;
        struct on_cpu *on = on_cpu(each);
        on->masks = has_cpu(number, each) ? on->masks | bit : on->masks & ~bit;
    }
}

/* The tree of a mask: its own, or a free one that it is given. `MOST_MASKS` if there is none. */
static __noinline u32 tree_of_mask(u32 number)
{
    u32 found = MOST_MASKS, at;

    bpf_for(at, 0, MOST_MASKS) {
        if (is_tree_of(at, number))
            return at;
        if (found == MOST_MASKS && !tree_at(MASK_TREES + at)->waiting)
            found = at;
    }
    if (found < MOST_MASKS)
        set_mask(found, number);
    return found;
}

/* Of the CPUs of a mask one that idles, else the one for which the fewest tasks wait. One that has
 * gone looks for no task: it is chosen where there is no other. */
static __noinline u32 least_of_mask(u32 number)
{
    u32 found = 0, least = ~0U, cpu;

    bpf_for(cpu, 0, cpus_there) {
        u32 waiting = tree_at(CPU_TREES + cpu)->waiting + !on_cpu(cpu)->is_idle;
        waiting += on_cpu(cpu)->is_there ? 0 : MOST_TASKS;
        if (!has_cpu(number, cpu) || waiting >= least)
            continue;
        least = waiting;
        found = cpu;
    }
    return CPU_TREES + found;
}

/* The tree in which a task waits whose mask has some CPUs. A mask that has no tree waits at one of
 * its CPUs, chosen anew each time. */
static __noinline u32 tree_for(u32 number)
{
    struct task *task = task_at(number);

    if (task->mask_tree >= MOST_MASKS || !is_tree_of(task->mask_tree, number))
        task->mask_tree = tree_of_mask(number);
    return task->mask_tree < MOST_MASKS ? MASK_TREES + task->mask_tree : least_of_mask(number);
}

/* The oldest task that waits at a CPU and could do so at another one, since its mask had no tree; 0
 * if there is none. (One that is on its way comes by itself.) */
static __noinline u32 first_of_mask(u32 cpu)
{
    u32 number = tree_at(CPU_TREES + WITHIN(cpu, MOST_CPUS))->oldest, each;

    bpf_for(each, 0, MOST_TASKS) {
        struct task *task = task_at(number);
        if (!number || (task->has_mask && !task->is_passing))
            break;
        number = task->newer;
    }
    return number;
}
#endif
