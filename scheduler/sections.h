/* Sections of the lock: what is done about a task in one.
 * SPDX-License-Identifier: GPL-2.0-only
 *
 * A section is some stages. Each changes one leaf, whose place in the trees is set after it, in one
 * place: the verifier follows each call by itself. What a section is about is in `here`, where its
 * values are no constants. A stage is a function: of what it had in registers and on its stack nothing
 * is left in the loop. (Else each path through a stage is a state of the loop of its own, which that
 * of Linux 6.18 follows to the end.) All of this file runs with `lock`.
 */
#ifndef ARBITER_SECTIONS_H
#define ARBITER_SECTIONS_H
#include "queues.h"

enum stage {
    DONE,
    LEAVE,
    WITHDRAW,
    ARRIVE,
    PUSH,
    CHOOSE,
    DECIDE,
    RUN,
    END_OTHER,
    CUT,
};

/* A CPU that has picked a task, and waits for it, looks again where the task does not come. */
static __always_inline void look_again(struct on_cpu *here, struct task *task)
{
    if (task->state == RUNS && task->cpu != here->cpu)
        here->picked_for = task->cpu;
}

/* A stage does what it is named for, sets the next one, and returns the row of the leaf that has
 * changed: `NOBODY` if none has. */
static __noinline u32 do_leave(struct on_cpu *here)
{
    struct task *task = task_at(here->about);

    look_again(here, task);
    leave_leaf(here, here->about, here->runtime);
    here->stage = DONE;
    return task->row;
}

/* Whether a CPU that has picked a task has not got it yet. */
static __always_inline bool is_awaited(struct on_cpu *on, u32 number)
{
    return on->handed == number || (on->task == number && task_at(number)->is_passing);
}

/* The kernel takes a task back: it waits nowhere, and is counted still. One that its CPU has not
 * got yet has used nothing. */
static __noinline u32 do_withdraw(struct on_cpu *here)
{
    struct task *task = task_at(here->about);
    bool is_due = is_awaited(on_cpu(task->cpu), here->about);

    here->stage = DONE;
    task->is_passing = 0;
    if (task->state == QUEUED) {
        take_out(here, here->about);
    } else if (task->state == RUNS && is_due) {
        end(here, here->about, 0, true);
        count_waiting(leaf_of(task->row), 1);
        task->state = ARRIVING;
    } else {
        return NOBODY;
    }
    if (here->tree < MOST_TREES)
        here->stage = PUSH;
    return task->row;
}

/* One of another leaf leaves that first. One that comes after a long sleep begins beside what
 * others have used: their slices are cut. */
static __noinline u32 do_arrive(struct on_cpu *here)
{
    struct task *task = task_at(here->about);
    struct leaf *leaf = leaf_of(here->about_row);
    u32 row = task->row;

    look_again(here, task);
    if (row != here->about_row && task->state != AWAY) {
        leave_leaf(here, here->about, here->runtime);
        return row;
    }
    if (task->state == AWAY && !leaf->there && here->cuts) {
        find_level();
        if (as_charge(leaf->amount, level_charge, level_amount) > leaf->charged + LONG_SLEEP_NS) {
            here->stage = CUT;
            return NOBODY;
        }
    }
    /* (a clock counts within its leaf: who comes from another one begins at the clock of this) */
    if (row != here->about_row)
        task->clock = 0;
    task->row = here->about_row;
    arrive(here, here->about, here->runtime);
    here->stage = here->then;
    return task->row;
}

static __noinline u32 do_push(struct on_cpu *here)
{
    struct task *task = task_at(here->about);

    push(here, here->about, here->tree == SOME_CPUS ? tree_for(here->about) : here->tree);
    task->is_passing = here->then == CHOOSE;
    here->stage = here->then == CHOOSE && here->chosen ? RUN : DONE;
    return task->row;
}

/* Chooses a task that waits for a CPU, once the leaves are due whose time has come. A leaf at a
 * limit is put aside. */
static __noinline u32 do_choose(struct on_cpu *here)
{
    struct best *best = &here->best;
    u32 row = soonest[1], spent;

    if (row < NOBODY && leaf_of(row)->due_ns <= (s64)time_ns)
        return row;
    look(here);
    row = best->due < NOBODY ? best->due : best->first;
    here->stage = DECIDE;
    here->chosen = best->late;
    here->chosen_late = best->late != 0;
    here->chosen_due = best->late || best->due < NOBODY;
    if (best->late || row >= NOBODY)
        return NOBODY;
    spent = spent_above(leaf_of(row));
    if (spent) {
        put_aside(here, row, spent);
        here->stage = CHOOSE;
        return row;
    }
    here->chosen = *head_of(best->due < NOBODY ? best->due_tree : best->first_tree, row);
    return NOBODY;
}

/* The stage once it is known what follows on a CPU whose slice was ended. */
static __always_inline u32 after_other(struct on_cpu *here, u32 own)
{
    here->cpu = own;
    here->ended = 0;
    return here->then == PUSH ? CUT : here->then;
}

/* Decides what is done with a choice. The task whose slice has ended may go on, or give way, or
 * have another CPU's task give way. A CPU whose slice was ended and that finds nobody looks again. */
static __noinline u32 do_decide(struct on_cpu *here, u32 own)
{
    struct task *task = task_at(here->about);
    struct leaf *leaf = leaf_of(task->row);
    u32 spent, other = MOST_CPUS;

    here->stage = here->chosen ? RUN : DONE;
    if (here->ended && !here->chosen) {
        here->picked_for = here->cpu;
        here->stage = after_other(here, own);
        return NOBODY;
    }
    if (!here->is_ending || here->cpu != own)
        return NOBODY;
    spent = spent_above(leaf);
    if (spent && !leaf->is_aside) {
        put_aside(here, task->row, spent);
        here->stage = DECIDE;
        return task->row;
    }
    if (goes_on(here, here->about, here->chosen)) {
        here->passed = task_at(here->chosen)->row == task->row ? here->chosen : 0;
        here->chosen = here->about;
        here->chosen_due = leaf->is_due;
        here->chosen_late = 0;
        here->stage = RUN;
        return NOBODY;
    }
    here->stage = PUSH;
    if (here->cuts && here->chosen && here->chosen_due && !here->chosen_late && !leaf->is_due)
        other = gives_way(own, here->about, here->chosen);
    if (other < MOST_CPUS) {
        here->cpu = other;
        here->stage = END_OTHER;
    }
    return NOBODY;
}

/* Ends the slice of another CPU, and charges what was used of it. That CPU is picked for. */
static __noinline u32 do_end_other(struct on_cpu *here)
{
    struct on_cpu *on = on_cpu(here->cpu);
    u32 ended = on->task;
    struct task *task = task_at(ended);

    here->cuts--;
    here->ended = ended;
    end(here, ended, time_ns - on->since_ns, true);
    count_waiting(leaf_of(task->row), 1);
    /* (it is known that it may run there) */
    push(here, ended, CPU_TREES + here->cpu);
    task->is_passing = 1;
    here->stage = CHOOSE;
    return task->row;
}

static __noinline u32 do_run(struct on_cpu *here, u32 own)
{
    u32 number = here->chosen, cpu = here->cpu;
    struct on_cpu *on = on_cpu(cpu);

    if (here->chosen_late) {
        note(here, EVENT_LATE, task_at(number)->row, 0, 0, 0);
        note_turn(on, number);
    }
    run(here, number, cpu, here->chosen_due, here->chosen_late);
    here->stage = DONE;
    if (here->then == RUN || (here->then == CHOOSE && cpu == own)) {
        /* (it goes on where it is: the kernel hands nothing over) */
        if (number == here->about)
            task_at(number)->is_passing = 0;
        return task_at(number)->row;
    }
    if (number == here->ended) {
        task_at(number)->is_passing = 0;
    } else if (here->ended) {
        on->handed = number;
        here->picked_for = cpu;
        handed_over++;
    }
    here->stage = after_other(here, own);
    return task_at(number)->row;
}

/* The CPU whose task began before now, of the leaf with the least settled clock; `MOST_CPUS` if
 * there is none, or if a leaf that waits for all CPUs has a lesser one. */
static __noinline u32 least_uncut(void)
{
    u32 found = MOST_CPUS, least = tree_at(ALL_CPUS)->winners[1].first, cpu;

    bpf_for(cpu, 0, cpus_there) {
        struct on_cpu *on = on_cpu(cpu);
        if (!on->task || on->handed || on->since_ns + MOMENT_NS > time_ns
            || (least < NOBODY && is_settled_less(least, on->row)))
            continue;
        least = on->row;
        found = cpu;
    }
    return found;
}

/* Before a leaf wakes that is far behind the slices of others are cut. */
static __noinline u32 do_cut(struct on_cpu *here)
{
    u32 cpu = here->cuts && here->picked_for >= MOST_CPUS ? least_uncut() : MOST_CPUS;

    here->stage = ARRIVE;
    if (cpu < MOST_CPUS) {
        here->cpu = cpu;
        here->stage = END_OTHER;
    } else {
        here->cuts = 0;
    }
    return NOBODY;
}

/* Does a stage, and sets the place of the leaf that it changed. Returns whether there was one. */
static __noinline bool do_stage(struct on_cpu *here, u32 own)
{
    u32 row;

    switch (here->stage) {
    case ARRIVE:
        row = do_arrive(here);
        break;
    case PUSH:
        row = do_push(here);
        break;
    case CHOOSE:
        row = do_choose(here);
        break;
    case DECIDE:
        row = do_decide(here, own);
        break;
    case RUN:
        row = do_run(here, own);
        break;
    case END_OTHER:
        row = do_end_other(here);
        break;
    case CUT:
        row = do_cut(here);
        break;
    default:
        return false;
    }
    if (row < NOBODY)
        play_leaf(row);
    return true;
}

static __noinline int work(struct on_cpu *here, u32 own)
{
    u32 times;

    bpf_for(times, 0, MOST_STAGES) {
        if (!do_stage(here, own))
            break;
    }
    return 0;
}

/* The stages of a section in which nothing is chosen. */
static __noinline int work_alone(struct on_cpu *here)
{
    u32 times;

    bpf_for(times, 0, MOST_STAGES) {
        u32 row;
        if (here->stage == LEAVE)
            row = do_leave(here);
        else if (here->stage == WITHDRAW)
            row = do_withdraw(here);
        else if (here->stage == PUSH)
            row = do_push(here);
        else
            break;
        if (row < NOBODY)
            play_leaf(row);
    }
    return 0;
}

/* Begins a section. */
static __always_inline void begin(struct on_cpu *here, u32 own, u64 now)
{
    pass(now);
    here->stage = here->then = DONE;
    here->cpu = own;
    here->about = here->cuts = here->ended = here->is_ending = here->chosen = here->passed = 0;
    here->tree = MOST_TREES;
    here->interrupts = 0;
    here->kick = here->picked_for = MOST_CPUS;
}

/* A task wants nothing more of its leaf. */
static __always_inline void leave(struct on_cpu *here, u32 number, u64 runtime)
{
    here->about = number;
    here->runtime = runtime;
    here->stage = LEAVE;
}

/* The kernel takes a task back. */
static __always_inline void withdraw(struct on_cpu *here, u32 number)
{
    here->about = number;
    here->stage = WITHDRAW;
}

/* A task that was picked for a CPU that it cannot have now waits again. Returns whether there is
 * one. */
static __always_inline bool put_back(struct on_cpu *here, u32 cpu)
{
    struct on_cpu *on = on_cpu(cpu);
    u32 number = on->handed ? on->handed : on->task;

    if (!is_awaited(on, number))
        number = 0;
    here->about = number;
    /* (the tree in which it waited may have another mask by now) */
    here->tree = task_at(number)->has_mask ? tree_for(number) : task_at(number)->tree;
    here->stage = number ? WITHDRAW : DONE;
    return number;
}

/* A CPU goes. The task that was picked for it waits again, then each that waits there and could do
 * so at another CPU: one in a section. Returns whether there was one. */
static __noinline bool go(struct on_cpu *here, u32 cpu)
{
    struct on_cpu *on = on_cpu(cpu);
    u32 number;

    on->is_there = 0;
    set_idle(on, false);
    if (put_back(here, cpu))
        return true;
    number = first_of_mask(cpu);
    if (!number)
        return false;
    here->about = number;
    here->tree = tree_for(number);
    here->stage = WITHDRAW;
    /* (where all of its CPUs have gone the kernel moves it) */
    if (here->tree == CPU_TREES + cpu) {
        task_at(number)->has_mask = 0;
        here->stage = DONE;
    }
    return true;
}

/* A task comes to wait: it wakes, or its slice ends. It may have been picked already, since its
 * slice ended: then nothing is to do. */
static __noinline int come(struct on_cpu *here, u32 number, u32 row, u32 tree, u64 runtime)
{
    struct task *task = task_at(number);
    bool is_passing = task->is_passing && task->row == row;

    task->has_mask = tree == SOME_CPUS;
    here->tree = tree == SOME_CPUS ? tree_for(number) : tree;
    here->about = number;
    here->about_row = row;
    here->runtime = runtime;
    here->then = PUSH;
    here->cuts = MOST_CUTS;
    here->stage = ARRIVE;
    task->is_passing = 0;
    if (is_passing && (task->state == RUNS || task->tree == here->tree))
        here->stage = DONE;
    return 0;
}

/* The CPU that has picked a task that comes, or that has to look for it. Returns the first, or
 * `MOST_CPUS`. */
static __noinline u32 came(struct on_cpu *here, u32 cpu, u64 wakes)
{
    struct task *task = task_at(here->about);

    if (task->state == RUNS) {
        /* (it is on its way now) */
        on_cpu(task->cpu)->handed = 0;
        return task->cpu;
    }
    here->kick = idle_for(here->about, cpu);
    if (here->kick >= MOST_CPUS && wakes) {
        here->kick = ahead_of(here->about);
        here->interrupts = 1;
    }
    return MOST_CPUS;
}

/* A task runs that was not picked: it ran already when the scheduler was loaded, or was changed.
 * One whose slice has ended leaves in a moment, where another one was picked already. */
static __always_inline void start_on(struct on_cpu *here, u32 number, u32 row, u32 cpu, u64 runtime)
{
    if (on_cpu(cpu)->task)
        return;
    here->about = here->chosen = number;
    here->about_row = row;
    here->runtime = runtime;
    here->chosen_due = here->chosen_late = 0;
    here->cpu = cpu;
    here->then = RUN;
    here->stage = ARRIVE;
}

/* A CPU looks for its next task. `before` is the one whose slice ends, or 0: it may go on if it is
 * in its leaf still, else it waits in a tree. */
static __noinline int take_next(struct on_cpu *on, u32 before, bool is_in_leaf, u64 runtime,
                u32 tree)
{
    struct task *task = task_at(before);

    on->then = CHOOSE;
    on->interrupts = 1;
    on->chosen = on->handed;
    on->handed = 0;
    /* (one that was picked for it; or the kernel has not handed its task over yet) */
    if (on->chosen || (on->task && on->task != before))
        return 0;
    on->stage = CHOOSE;
    on->about = before;
    if (!before || task->state != RUNS || task->cpu != on->cpu)
        return 0;
    on->stage = ARRIVE;
    on->about_row = task->row;
    on->runtime = runtime;
    on->tree = tree;
    task->has_mask = tree == SOME_CPUS;
    /* (one that was moved comes to its new leaf when it is handed over) */
    on->is_ending = is_in_leaf;
    on->cuts = 1;
    return 0;
}

/* What it took: 0 if there is none. */
static __always_inline u32 took_next(struct on_cpu *on)
{
    on->is_there = 1;
    set_idle(on, !on->chosen && !on->task);
    return on->chosen;
}

/* A new plan gives a row what the loader wrote. Returns the row, for the caller to play. */
static __always_inline u32 take_given(struct on_cpu *here, struct given *given, u32 row)
{
    struct leaf *leaf = leaf_of(row);

    leaf->budget = given->budget;
    give(here, row, given->amount ? given->amount : 1, given->guarantee);
    return row;
}
#endif
