/* The scheduler's rule, queues and sections (rule.h, queues.h, sections.h of scheduler/), compiled for
   this machine, over a model of CPUs with ticks and of tasks that work, sleep and wake.

       simulated [-q] [-p MS] [-j PERCENT] [-o US] [-w NS] SEED MS CPUS GROUP..

   A GROUP is `KIND,AMOUNT,LIMIT_US,TASKS,ON_US,OFF_US,PHASE_US,CPU` and words behind colons: the
   next row. Its tasks always want (`a`), work for ON_US of a CPU and sleep for OFF_US (`w`), do so
   as a new task each time (`f`), or want for ON_US of each ON_US and OFF_US from PHASE_US on (`t`).
   Or they work for ON_US of each such period, and what it did not serve is dropped (`p`).
   They keep to a CPU, to the CPUs of a mask (`mHEX`), or to none if it is -1. The limit is in 100
   ms, 0 for none. Words are `g=` the guarantee in thousandths of a CPU, `nice=`, and `in=`: the
   group with a limit that it is in. Such a one is `l,LIMIT_US,IN,BURST_US`, the first of them
   number 1.
   A GROUP that begins with `+` has more tasks of the row before. `r,CPU,ON_US,OFF_US` is a real-time
   task: it has a CPU for ON_US, after OFF_US without it, and so on. By `h,CPU,ON_US,OFF_US` the CPU
   goes for ON_US, and comes back. By `c,ROW,US` the kernel takes a task of the row back each US, as
   where somebody sets its niceness. By `s,AT_US,FOR_US` it schedules by itself for a while, as
   where the host is suspended.

   -q tells no steps; -p gives a plan each MS, of amounts that are up to -j PERCENT off; -o holds the
   end of each slice up by up to US, as work of the kernel does. By -w the kernel hands a task over
   up to NS after its slice has ended, an interrupt takes as much longer, and a plan is taken row by
   row, as long after one another. Others act meanwhile.

   Prints the steps as `arbiter-scheduler --trace` does. Then of each row `used ROW NS`, `lacks ROW
   NS`: the most that a window lacked of the guarantee, or of a CPU for each task that wants;
   `over ROW NS`: the most that a window was over the limit; `delay ROW MEDIAN_NS NS`: how long who
   woke waited, and 99 of 100. `inside GROUP NS NS` has the use and the excess of a group with a
   limit, `task ROW AT NS` the use of a task. `moves ROW ALL MOST` is how often tasks of a row were
   moved to another CPU, and the most that one was; `switches COUNT` how often a CPU took another task
   than it had last. `lost CPU NS` is how long a CPU idled while a task waited that it may take, by
   ticks. `stalled ROW NS` is the end by the kernel's watchdog; it ends a scheduler also for
   `forbidden ROW CPU`, a task on a CPU that it may not use.
 */
#define _GNU_SOURCE
#include <stdbool.h>
#include <stdint.h>
#include <stdio.h>
#include <stdlib.h>
#include <string.h>
#include <unistd.h>

/* What kernel.h has for programs of BPF.  */
#define ARBITER_KERNEL_H
typedef uint64_t u64, __u64;
typedef uint32_t u32, __u32;
typedef int32_t s32, __s32;
typedef int64_t s64, __s64;
typedef uint16_t u16;
typedef uint8_t u8;
struct bpf_spin_lock { int is_held; };
#define SEC(name)
#define __noinline __attribute__((noinline))
#define bpf_for(at, first, last) for ((at) = (first); (at) < (last); (at)++)
#define WITHIN(index, most) ((u64)(index) & ((most) - 1))
#define BELOW(index, most) ((u64)(index) < (most) ? (u64)(index) : 0)
/* (its loader sets them before it is loaded) */
#define const
#include "sections.h"
#undef const

#define MICRO 1000ULL
#define MILLI 1000000ULL
/* A tick of 250 a second, and how long an interrupt takes to reach a CPU.  */
#define TICK (4 * MILLI)
#define SIGNAL (2 * MICRO)
/* After so long in the queue of a scheduler the kernel ends it.  */
#define WATCHDOG (TIMEOUT_MS * MILLI)
#define MOST_JOBS 90000
#define MOST_CORES 64
#define MOST_ROWS MOST_LEAVES
#define MOST_GROUPS 256
#define MOST_DELAYS 20000
/* The use of each task is told of as many.  */
#define MOST_TOLD 128
#define NONE UINT64_MAX

enum way { ASLEEP, READY, ON_CPU };

struct job {
    u32 number, row, cpu;
    char kind;
    bool is_bound;
    enum way way;
    u64 weight, mask, on, off, phase;
    /* Its processor time, what it still works for, when it wakes, and when its period ends.  */
    u64 runtime, left, wakes_at, due;
    /* When it woke, if it has not run since then, and when it came into its queue.  */
    u64 woke, ready;
    u32 moves;
};

struct core {
    /* The job that it has, and the one that it had last.  */
    struct job *job, *last;
    s64 slice;
    u64 since, tick, kick, alarm;
    /* The job that leaves it still, when the kernel hands that over, and the number that it took.
     */
    struct job *leaving;
    u64 leaves_at;
    u32 taken;
    /* How long it idled while a task waited that it may take.  */
    u64 lost;
    /* Whether a real-time task has it, or it has gone, and when that changes; how long it is so, and
       is not.  */
    bool is_taken, goes;
    u64 changes, on, off;
};

/* The greatest rise of a number from any time to a later one.  */
struct window {
    double now, least, most;
};

/* A row, or a group with a limit, as it was asked for, and what was seen of it.  */
struct seen {
    u64 amount, limit, burst, used;
    /* How often the kernel takes a task of it back, and when that is next.  */
    u64 changes_each, changes_at;
    /* The group that it is in; 0 for none. The number of the nearest limit.  */
    u32 in, budget;
    s32 wants;
    double guarantee;
    struct window lacks, over;
    u32 delay_count, delays[MOST_DELAYS];
};

static struct job jobs[MOST_JOBS], *jobs_by_number[MOST_TASKS];
static struct core cores[MOST_CORES];
static struct seen rows_seen[MOST_ROWS], groups_seen[MOST_GROUPS];
static u32 job_count, core_count, row_count = 1, group_count = 1, budget_count = 1;
/* The kernel's queue of tasks without a number: a ring.  */
static struct job *unnumbered[MOST_JOBS];
static u32 first_unnumbered, unnumbered_count;
static u64 now, counted, seed, first_wake = NONE, first_due = NONE, switches;
/* The options -p, -j, -o, -w.  */
static u64 plan_every = NONE, jitter, overrun, window;
/* Whether the kernel schedules by itself, when that changes, and how long it does.  */
static bool is_bypassed;
static u64 bypass_at = NONE, bypass_for;
/* The next row of a plan that is taken row by row, and when that is.  */
static u32 plan_row;
static u64 plan_at = NONE;

static u64 chance(u64 below) {
    seed = seed * 6364136223846793005ULL + 1442695040888963407ULL;
    return (seed >> 33) % below;
}

/* Prints the steps that were noted, as the loader does.  */
static void tell_steps(struct on_cpu *here) {
    static u64 told;
    for (u32 at = 0; has_trace && at < here->steps; at++) {
        struct event *each = &here->noted[at];
        unsigned long long used = each->used_ns;
        if (each->ns > told)
            printf("pass %llu\n", (unsigned long long)(each->ns - told));
        told = each->ns;
        if (each->kind == EVENT_WAKE)
            printf("wake %u 1\n", each->row);
        else if (each->kind == EVENT_PICK)
            printf("pick %u %u\n", each->cpu, each->row);
        else if (each->kind == EVENT_END)
            printf("end %u %llu %u\n", each->cpu, used, each->remains);
        else if (each->kind == EVENT_LEAVE)
            printf("leave %u\n", each->row);
        else if (each->kind == EVENT_LEVEL)
            printf("level\n");
        else if (each->kind == EVENT_GIVE)
            printf("give %u %llu %llu\n", each->row, used, (unsigned long long)each->guarantee);
        else if (each->kind == EVENT_CUT)
            printf("cut %u\n", each->row);
        else if (each->kind == EVENT_BOUND)
            printf("bound %u %llu %u\n", each->row, used, each->remains);
        else if (each->kind == EVENT_LATE)
            printf("late %u\n", each->row);
        else if (each->kind == EVENT_REFILL)
            printf("refill %u\n", each->row);
        else
            printf("stop %u %u\n", each->row, each->remains);
    }
    here->steps = 0;
}

/* A CPU looks for another task, soon.  */
static void kick(u32 cpu) {
    u64 at = now + SIGNAL + (window ? chance(window) : 0);

    if (at < cores[cpu].kick)
        cores[cpu].kick = at;
}

/* A CPU that another one noted has to look.  */
static void kick_noted(struct on_cpu *here) {
    if (here->picked_for < MOST_CPUS) {
        cores[here->picked_for].slice = 0;
        kick(here->picked_for);
    }
    if (here->kick == MOST_CPUS)
        return;
    if (here->interrupts)
        cores[here->kick].slice = 0;
    kick(here->kick);
}

/* Notes how long a task waited that woke.  */
static void note_delay(struct job *job) {
    struct seen *row = &rows_seen[job->row];

    if (job->woke && row->delay_count < MOST_DELAYS)
        row->delays[row->delay_count++] = now - job->woke;
    job->woke = 0;
}

/* Whether a task may use a CPU.  */
static bool may_use(struct job *job, u32 cpu) {
    return job->mask ? job->mask >> cpu & 1 : !job->is_bound || job->cpu == cpu;
}

/* A task is on a CPU for a slice.  */
static void set_on_for(u32 cpu, struct job *job, u64 slice) {
    struct core *core = &cores[cpu];

    if (!may_use(job, cpu))
        printf("forbidden %u %u\n", job->row, cpu);
    note_delay(job);
    job->moves += job->cpu != cpu;
    switches += core->last != job;
    core->job = core->last = job;
    job->way = ON_CPU;
    job->cpu = cpu;
    core->slice = slice;
    core->since = now;
    core->alarm = slice < GIVEN_NS ? now + slice : NONE;
}

static void set_on(u32 cpu, struct job *job) {
    set_on_for(cpu, job, on_cpu(cpu)->slice_ns);
}

static u32 tree_of(struct job *job) {
    return job->mask ? SOME_CPUS : job->is_bound ? CPU_TREES + job->cpu : ALL_CPUS;
}

/* As wait_unplanned.  */
static void wait_unplanned(struct job *job) {
    unnumbered[(first_unnumbered + unnumbered_count++) % MOST_JOBS] = job;
    if (!cores[job->cpu].job)
        kick(job->cpu);
}

/* A CPU takes a task of the kernel's queue. Returns whether one waits there.  */
static bool take_unplanned(u32 cpu) {
    struct job *job = unnumbered[first_unnumbered];

    if (!unnumbered_count)
        return false;
    first_unnumbered = (first_unnumbered + 1) % MOST_JOBS;
    unnumbered_count--;
    set_on_for(cpu, job, TURN_NS);
    return true;
}

static void enqueue(struct job *job, u32 cpu, bool wakes);

/* A CPU gets the task that it picked, or that was picked for it. One that it has still waits.  */
static void deliver(struct job *job, u32 cpu) {
    struct core *core = &cores[cpu];
    struct job *last = core->job;

    if (core->leaving) {
        core->taken = job->number;
        return;
    }
    set_on(cpu, job);
    if (last && last != job)
        enqueue(last, cpu, false);
}

/* As plan_enqueue.  */
static void enqueue(struct job *job, u32 cpu, bool wakes) {
    struct on_cpu *here = on_cpu(cpu);
    u32 found;

    job->ready = now;
    job->way = READY;
    if (is_bypassed) {
        kick(cpu);
        return;
    }
    if (!job->number) {
        wait_unplanned(job);
        return;
    }
    begin(here, cpu, now);
    come(here, job->number, job->row, tree_of(job), job->runtime);
    work(here, cpu);
    found = came(here, job->cpu, wakes);
    tell_steps(here);
    if (found < MOST_CPUS)
        deliver(job, found);
    else
        kick_noted(here);
}

/* As plan_running.  */
static void run_unpicked(struct job *job, u32 cpu) {
    if (task_at(job->number)->state == RUNS || task_at(job->number)->is_passing)
        return;
    begin(on_cpu(cpu), cpu, now);
    start_on(on_cpu(cpu), job->number, job->row, cpu, job->runtime);
    work(on_cpu(cpu), cpu);
    tell_steps(on_cpu(cpu));
}

/* A CPU takes the task that waits for longest, whatever the plan.  */
static void dispatch_bypassed(u32 cpu) {
    struct core *core = &cores[cpu];
    struct job *found = NULL;

    if (core->job)
        core->job->way = READY;
    core->job = NULL;
    for (u32 at = 0; at < job_count; at++)
        if (jobs[at].way == READY && may_use(&jobs[at], cpu)
            && (!found || jobs[at].ready < found->ready))
            found = &jobs[at];
    if (!found)
        return;
    found->ready = now;
    set_on_for(cpu, found, 5 * MILLI);
    run_unpicked(found, cpu);
}

/* As plan_dispatch, and what the kernel does then.  */
static void dispatch(u32 cpu, bool goes) {
    struct core *core = &cores[cpu];
    struct job *last = core->job;
    struct on_cpu *on = on_cpu(cpu);
    u32 before = goes ? last->number : 0, found;

    if (is_bypassed) {
        dispatch_bypassed(cpu);
        return;
    }
    if (unnumbered_count && is_unplanned_next(on, now, unnumbered_count)) {
        take_unplanned(cpu);
        if (goes)
            enqueue(last, cpu, false);
        return;
    }
    begin(on, cpu, now);
    take_next(on, before, true, goes ? last->runtime : 0, goes ? tree_of(last) : 0);
    work(on, cpu);
    found = took_next(on);
    tell_steps(on);
    kick_noted(on);
    core->job = NULL;
    if (window && before && found != before) {
        last->way = READY;
        last->ready = now;
        core->leaving = last;
        core->leaves_at = now + 1 + chance(window);
        core->taken = found;
        return;
    }
    if (goes && (found != before || !before))
        enqueue(last, cpu, false);
    if (found && (found == before || !task_at(found)->is_passing))
        set_on(cpu, jobs_by_number[found]);
    else if (!found)
        take_unplanned(cpu);
}

/* The kernel hands a task over whose slice has ended, and the CPU gets the one that it took. Where
   that was taken back meanwhile it looks again.  */
static void end_leaving(u32 cpu) {
    struct core *core = &cores[cpu];
    struct job *last = core->leaving;
    struct task *taken = task_at(core->taken);

    core->leaving = NULL;
    enqueue(last, cpu, false);
    if (core->job || core->is_taken)
        return;
    if (!core->taken)
        take_unplanned(cpu);
    else if (taken->state != RUNS || taken->cpu != cpu)
        kick(cpu);
    else if (!taken->is_passing)
        set_on(cpu, jobs_by_number[core->taken]);
}

/* Where a task of turns is in its turn.  */
static u64 place_in_turn(struct job *job) {
    u64 both = job->on + job->off;
    return (now + both - job->phase % both) % both;
}

/* When a task on a CPU has no more work.  */
static u64 ends_at(struct core *core) {
    struct job *job = core->job;
    u64 place;

    if (!job || core->is_taken || job->kind == 'a')
        return NONE;
    if (job->kind != 't')
        return core->since + job->left;
    place = place_in_turn(job);
    return place < job->on ? now + job->on - place : now;
}

static void rise(struct window *window, double by) {
    window->now += by;
    if (window->now < window->least)
        window->least = window->now;
    if (window->now - window->least > window->most)
        window->most = window->now - window->least;
}

/* What a row was owed of its guarantee, or was allowed by its limit, in the time that passed. */
static void count_windows(double passed) {
    for (u32 row = 1; row < row_count; row++) {
        struct seen *each = &rows_seen[row];
        double rate = each->wants < each->guarantee ? each->wants : each->guarantee;
        rise(&each->lacks, rate * passed);
        if (each->limit)
            rise(&each->over, -passed * each->limit / LIMIT_PERIOD_NS);
    }
    for (u32 group = 1; group < group_count; group++)
        rise(&groups_seen[group].over, -passed * groups_seen[group].limit / LIMIT_PERIOD_NS);
}

/* Counts what a task used.  */
static void count_use(struct job *job, u64 passed) {
    struct seen *row = &rows_seen[job->row];

    job->runtime += passed;
    job->left -= passed < job->left ? passed : job->left;
    row->used += passed;
    row->lacks.now -= passed;
    row->over.now += passed;
    for (u32 group = row->in; group; group = groups_seen[group].in) {
        groups_seen[group].used += passed;
        groups_seen[group].over.now += passed;
    }
}

/* Counts the time since the last event.  */
static void count(void) {
    for (u32 cpu = 0; cpu < core_count; cpu++) {
        struct core *core = &cores[cpu];
        u64 passed = now - core->since;
        core->since = now;
        if (!core->job || core->is_taken)
            continue;
        core->slice -= passed;
        count_use(core->job, passed);
    }
    count_windows(now - counted);
    counted = now;
}

/* A task has no more work: it sleeps.  */
static void end_work(u32 cpu) {
    struct job *job = cores[cpu].job;
    u64 both = job->on + job->off;

    job->wakes_at = job->kind == 't' ? now + both - place_in_turn(job)
                    : job->kind == 'p' ? job->due : now + job->off;
    job->wakes_at += chance(20) * MICRO;
    if (job->wakes_at < first_wake)
        first_wake = job->wakes_at;
    job->way = ASLEEP;
    rows_seen[job->row].wants--;
    if (job->number) {
        begin(on_cpu(cpu), cpu, now);
        leave(on_cpu(cpu), job->number, job->runtime);
        work_alone(on_cpu(cpu));
        tell_steps(on_cpu(cpu));
    }
    dispatch(cpu, false);
}

/* As on_beat: each 100 ms leaves that were put aside may run again.  */
static void begin_period(void) {
    struct on_cpu *here = on_cpu(0);

    pass(now);
    for (u32 row = 0; row < row_count; row++)
        if (leaf_of(row)->charged > MOST_CHARGE)
            set_back(row_count);
    for (u32 number = 1; number < budget_count; number++) {
        u32 row = refill(here, number) ? free_first(here, number) : NOBODY;
        tell_steps(here);
        for (; row < NOBODY; row = free_first(here, number)) {
            play_leaf(row);
            tell_steps(here);
        }
    }
    for (u32 cpu = 0; cpu < core_count; cpu++)
        if (!cores[cpu].job)
            kick(cpu);
}

/* The kernel ends a scheduler whose task waits for too long.  */
static bool is_stalled(void) {
    for (u32 at = 0; at < job_count; at++) {
        if (jobs[at].way != READY || now <= jobs[at].ready + WATCHDOG)
            continue;
        printf("stalled %u %llu\n", jobs[at].row, (unsigned long long)now);
        return true;
    }
    return false;
}

/* What is no call of the kernel's scheduler has places of its own for its notes.  */
static struct on_cpu of_plan, of_change;

/* A row's amount, up to `jitter` hundredths off, and guarantee.  */
static void give_row(u32 row) {
    struct seen *each = &rows_seen[row];
    struct given given = { .amount = each->amount * (100 - jitter + chance(2 * jitter + 1)) / 100,
                           .guarantee = each->guarantee * ONE_CPU, .budget = each->budget };

    play_leaf(take_given(&of_plan, &given, row));
    tell_steps(&of_plan);
}

/* As `take_plan`: where there is a window one row after another, else all at once.  */
static void give_plan(void) {
    pass(now);
    for (; plan_row < row_count; plan_row++) {
        if (plan_row == 0)
            take_level(&of_plan);
        give_row(plan_row);
        plan_at = now + 1 + chance(window + 1);
        if (window && plan_row + 1 < row_count) {
            plan_row++;
            return;
        }
    }
    find_greatest(row_count);
    plan_row = 0;
    plan_at = NONE;
}

static u64 next_event(u64 beat) {
    u64 next = beat < first_wake ? beat : first_wake;
    next = first_due < next ? first_due : next;
    next = plan_at < next ? plan_at : next;
    next = bypass_at < next ? bypass_at : next;
    for (u32 row = 0; row < row_count; row++)
        next = rows_seen[row].changes_at < next ? rows_seen[row].changes_at : next;
    for (u32 cpu = 0; cpu < core_count; cpu++) {
        struct core *core = &cores[cpu];
        u64 kick = core->kick < core->alarm ? core->kick : core->alarm;
        kick = core->is_taken || core->leaving ? NONE : kick;
        next = core->leaving && core->leaves_at < next ? core->leaves_at : next;
        u64 ends = ends_at(core), first = core->tick < kick ? core->tick : kick;
        first = ends < first ? ends : first;
        first = core->changes < first ? core->changes : first;
        next = first < next ? first : next;
    }
    return next > now ? next : now;
}

/* A period of a task ends.  */
static void set_due(struct job *job) {
    u64 both = job->on + job->off;

    job->due = now - now % both + both;
    if (job->due < first_due)
        first_due = job->due;
}

/* What a period did not serve is dropped.  */
static void renew_jobs(void) {
    if (first_due > now)
        return;
    first_due = NONE;
    for (u32 at = 0; at < job_count; at++) {
        struct job *job = &jobs[at];
        if (job->kind != 'p' || job->way == ASLEEP)
            continue;
        if (job->due <= now)
            job->left = job->on;
        set_due(job);
    }
}

static void wake_jobs(void) {
    if (first_wake > now)
        return;
    first_wake = NONE;
    for (u32 at = 0; at < job_count; at++) {
        struct job *job = &jobs[at];
        if (job->way != ASLEEP)
            continue;
        if (job->wakes_at > now) {
            first_wake = job->wakes_at < first_wake ? job->wakes_at : first_wake;
            continue;
        }
        job->way = READY;
        job->woke = now;
        job->left = job->on;
        if (job->kind == 'f')
            task_at(job->number)->clock = 0;
        if (job->kind == 'p')
            set_due(job);
        rows_seen[job->row].wants++;
        enqueue(job, job->cpu, true);
    }
}

/* Whether a task waits that a CPU may take, for a moment already.  */
static bool is_lacking(u32 cpu) {
    for (u32 at = 0; at < job_count; at++) {
        struct job *job = &jobs[at];
        struct leaf *leaf = leaf_of(job->row);
        if (job->way == READY && job->number && now > job->ready + MILLI && may_use(job, cpu)
            && !leaf->is_aside && !spent_above(leaf))
            return true;
    }
    return false;
}

/* Notes at a tick whether a CPU idles while a task waits that it may take.  */
static void note_lost(u32 cpu) {
    struct core *core = &cores[cpu];

    if (!core->job && !core->is_taken && !core->leaving && core->kick == NONE && is_lacking(cpu))
        core->lost += TICK;
}

static void ticks(void) {
    for (u32 cpu = 0; cpu < core_count; cpu++) {
        struct core *core = &cores[cpu];
        if (core->tick > now)
            continue;
        core->tick += TICK;
        note_lost(cpu);
        if (!core->job || core->slice > 0)
            continue;
        if (overrun && core->kick == NONE)
            core->kick = now + chance(overrun) + SIGNAL;
        else
            kick(cpu);
    }
}

/* A task was put back from a CPU: the end of a section of plan_cpu_offline and plan_cpu_release.  */
static void end_back(struct on_cpu *here, u32 cpu) {
    work_alone(here);
    came(here, cpu, false);
    tell_steps(here);
    kick_noted(here);
}

/* As plan_dequeue: the kernel takes a task back, to change it.  */
static void dequeue(struct job *job) {
    struct on_cpu *here = on_cpu(job->cpu);

    if (!job->number)
        return;
    begin(here, job->cpu, now);
    withdraw(here, job->number);
    work_alone(here);
    tell_steps(here);
}

/* The kernel takes a task back and gives it again, to change it. One that a CPU has goes on there.
   */
static void change(struct job *job, u32 by) {
    struct on_cpu *here = on_cpu(by);
    u32 cpu = job->cpu;

    if (job->way == READY && cores[cpu].leaving != job) {
        dequeue(job);
        enqueue(job, by, false);
        return;
    }
    begin(here, by, now);
    come(here, job->number, job->row, tree_of(job), job->runtime);
    work(here, by);
    if (came(here, cpu, false) >= MOST_CPUS) {
        kick_noted(here);
        dequeue(job);
    }
    tell_steps(here);
    run_unpicked(job, cpu);
}

/* The kernel takes all tasks back, and schedules by itself.  */
static void begin_bypass(void) {
    for (u32 cpu = 0; cpu < core_count; cpu++)
        if (cores[cpu].leaving)
            end_leaving(cpu);
    for (u32 at = 0; at < job_count; at++)
        if (jobs[at].way == READY)
            dequeue(&jobs[at]);
    is_bypassed = true;
    bypass_at = now + bypass_for;
    for (u32 cpu = 0; cpu < core_count; cpu++)
        kick(cpu);
}

/* It gives them back, one CPU after another, and each looks then.  */
static void end_bypass(void) {
    is_bypassed = false;
    bypass_at = NONE;
    for (u32 cpu = 0; cpu < core_count; cpu++) {
        for (u32 at = 0; at < job_count; at++)
            if (jobs[at].way == READY && jobs[at].cpu == cpu)
                enqueue(&jobs[at], cpu, false);
        if (cores[cpu].job)
            change(cores[cpu].job, cpu);
        cores[cpu].slice = 0;
        dispatch(cpu, cores[cpu].job != NULL);
    }
}

/* A task of a row is changed, if one wants to run.  */
static void change_jobs(void) {
    for (u32 row = 0; row < row_count; row++) {
        struct seen *each = &rows_seen[row];
        u32 from = chance(job_count);
        if (each->changes_at > now)
            continue;
        each->changes_at += each->changes_each;
        for (u32 at = 0; at < job_count; at++) {
            struct job *job = &jobs[(from + at) % job_count];
            if (job->row != row || job->way == ASLEEP || !job->number)
                continue;
            change(job, chance(core_count));
            break;
        }
    }
}

/* Tasks that may run on no CPU any more may run on each: so the kernel does.  */
static void free_jobs(void) {
    u64 there = 0;

    for (u32 cpu = 0; cpu < core_count; cpu++)
        there |= (u64)!(cores[cpu].is_taken && cores[cpu].goes) << cpu;
    for (u32 at = 0; at < job_count; at++) {
        struct job *job = &jobs[at];
        u64 mask = job->mask ? job->mask : job->is_bound ? 1ULL << job->cpu : there;
        if (mask & there)
            continue;
        if (job->way == READY)
            dequeue(job);
        job->is_bound = false;
        job->mask = 0;
        if (job->way == READY && job->number)
            enqueue(job, job->cpu, false);
    }
}

/* As plan_cpu_offline.  */
static void go_away(u32 cpu) {
    for (;;) {
        begin(&of_change, cpu, now);
        if (!go(&of_change, cpu))
            break;
        end_back(&of_change, cpu);
    }
    free_jobs();
}

/* As plan_cpu_release, where a real-time task comes.  */
static void release(u32 cpu) {
    struct on_cpu *here = on_cpu(cpu);

    begin(here, cpu, now);
    if (put_back(here, cpu))
        end_back(here, cpu);
    set_idle(here, false);
}

/* CPUs that real-time tasks take, or that go: the task of such a CPU waits again.  */
static void take_cores(void) {
    for (u32 cpu = 0; cpu < core_count; cpu++) {
        struct core *core = &cores[cpu];
        struct job *job;
        if (core->changes > now)
            continue;
        if (core->leaving)
            end_leaving(cpu);
        core->is_taken = !core->is_taken;
        core->changes += core->is_taken ? core->on : core->off;
        if (!core->is_taken) {
            kick(cpu);
            continue;
        }
        job = core->job;
        if (core->goes)
            go_away(cpu);
        else
            release(cpu);
        core->job = NULL;
        if (job)
            enqueue(job, cpu, false);
    }
}

/* The CPUs whose task has ended, or that look for another.  */
static void run_cores(void) {
    for (u32 cpu = 0; cpu < core_count; cpu++) {
        struct core *core = &cores[cpu];
        if (core->is_taken)
            continue;
        if (core->leaving && core->leaves_at <= now)
            end_leaving(cpu);
        if (ends_at(core) <= now)
            end_work(cpu);
        if ((core->kick > now && core->alarm > now) || core->leaving)
            continue;
        core->kick = NONE;
        if (core->alarm <= now)
            core->alarm = NONE;
        if (!core->job || core->slice <= 0)
            dispatch(cpu, core->job != NULL);
    }
}

/* Returns when the time is over, or the kernel's watchdog has ended the scheduler.  */
static void simulate(u64 until) {
    u64 beat = now + LIMIT_PERIOD_NS, plan = plan_every;
    while ((now = next_event(beat < plan ? beat : plan)) < until) {
        bool is_tick_first = chance(2);
        count();
        if (now >= plan || plan_at <= now) {
            plan += now >= plan ? plan_every : 0;
            give_plan();
        }
        change_jobs();
        if (bypass_at <= now && is_bypassed)
            end_bypass();
        else if (bypass_at <= now)
            begin_bypass();
        if (is_tick_first)
            ticks();
        renew_jobs();
        wake_jobs();
        if (!is_tick_first)
            ticks();
        if (beat <= now) {
            begin_period();
            beat += LIMIT_PERIOD_NS;
            if (is_stalled())
                return;
        }
        take_cores();
        run_cores();
    }
    now = until;
    count();
}

/* The words behind the colons of a group.  */
static bool read_words(char *words, struct seen *row, int *nice) {
    for (char *word; (word = strsep(&words, ":"));) {
        char *value = strchr(word, '=');
        if (!value)
            return false;
        *value++ = 0;
        if (strcmp(word, "g") == 0)
            row->guarantee = strtod(value, NULL) / 1000;
        else if (strcmp(word, "in") == 0)
            row->in = atoi(value);
        else if (strcmp(word, "burst") == 0)
            row->burst = strtoull(value, NULL, 10) * MICRO;
        else if (strcmp(word, "nice") == 0)
            *nice = atoi(value);
        else
            return false;
    }
    return true;
}

/* The weight of a task's nice, of 100: the kernel's, each step a quarter.  */
static u64 weight_of(int nice) {
    double weight = 100;
    for (; nice > 0; nice--)
        weight /= 1.25;
    return weight < 1 ? 1 : weight;
}

static bool add_limited(const char *text) {
    unsigned long long limit, burst = 0;
    u32 in;

    if (sscanf(text, "l,%llu,%u,%llu", &limit, &in, &burst) < 2 || group_count == MOST_GROUPS)
        return false;
    groups_seen[group_count].limit = limit * MICRO;
    groups_seen[group_count].burst = burst * MICRO;
    groups_seen[group_count++].in = in;
    return true;
}

/* A row whose tasks are changed.  */
static bool add_changes(const char *text) {
    unsigned long long each;
    u32 row;

    if (sscanf(text, "c,%u,%llu", &row, &each) != 2 || row >= row_count || !each)
        return false;
    rows_seen[row].changes_each = rows_seen[row].changes_at = each * MICRO;
    return true;
}

/* A while in which the kernel schedules by itself.  */
static bool add_bypass(const char *text) {
    unsigned long long at, length;

    if (sscanf(text, "s,%llu,%llu", &at, &length) != 2 || !at)
        return false;
    bypass_at = at * MICRO;
    bypass_for = length * MICRO;
    return true;
}

static bool add_taker(const char *text) {
    unsigned long long on, off;
    u32 cpu;

    if (sscanf(text + 1, ",%u,%llu,%llu", &cpu, &on, &off) != 3 || cpu >= core_count || !on || !off)
        return false;
    cores[cpu].goes = *text == 'h';
    cores[cpu].on = on * MICRO;
    cores[cpu].changes = cores[cpu].off = off * MICRO;
    return true;
}

/* As plan_init_task.  */
static void set_task(struct job *job) {
    struct task *task = task_at(job->number);

    masks[job->number].words[0] = job->mask;
    task->row = job->row;
    task->weight = job->weight;
    task->mask_tree = MOST_MASKS;
}

static void add_jobs(struct job model, u64 count_of_jobs) {
    for (; count_of_jobs; count_of_jobs--) {
        struct job *job = &jobs[job_count++];
        *job = model;
        job->number = has_number(job->row) ? numbered + 1 : 0;
        if (job->number) {
            count_number(job->number, job->row);
            jobs_by_number[job->number] = job;
        }
        unplanned += !job->number;
        if (!job->is_bound)
            job->cpu = chance(core_count);
        job->wakes_at = model.kind == 't' || model.phase ? model.phase : chance(200) * MICRO;
        if (job->wakes_at < first_wake)
            first_wake = job->wakes_at;
        if (job->number)
            set_task(job);
    }
}

static bool add_group(char *text) {
    unsigned long long amount, limit, tasks, on, off, phase;
    char kind, *colon = strchr(text, ':'), cpu[32];
    bool is_more = *text == '+';
    u32 row = row_count - is_more;
    struct job model = { .row = row };
    int nice = 0;

    if (*text == 'l')
        return add_limited(text);
    if (*text == 'r' || *text == 'h')
        return add_taker(text);
    if (*text == 'c')
        return add_changes(text);
    if (*text == 's')
        return add_bypass(text);
    if (colon)
        *colon++ = 0;
    if (sscanf(text + is_more, "%c,%llu,%llu,%llu,%llu,%llu,%llu,%31s", &kind, &amount, &limit,
               &tasks, &on, &off, &phase, cpu) != 8
        || job_count + tasks > MOST_JOBS || row == MOST_ROWS)
        return false;
    if (!is_more)
        rows_seen[row] = (struct seen){ .amount = amount, .limit = limit * MICRO,
                                        .changes_at = NONE };
    if (colon && !read_words(colon, &rows_seen[row], &nice))
        return false;
    model.kind = kind;
    model.weight = weight_of(nice);
    model.mask = *cpu == 'm' ? strtoull(cpu + 1, NULL, 16) : 0;
    model.is_bound = !model.mask && atoi(cpu) >= 0;
    model.cpu = model.is_bound ? atoi(cpu) : 0;
    model.on = on * MICRO;
    model.off = off * MICRO;
    model.phase = phase * MICRO;
    add_jobs(model, tasks);
    row_count += !is_more;
    return true;
}

static int by_length(const void *one, const void *other) {
    u32 a = *(const u32 *)one, b = *(const u32 *)other;
    return (a > b) - (a < b);
}

/* Nanoseconds, but none below 0.  */
static unsigned long long whole(double ns) {
    return ns > 0 ? (unsigned long long)ns : 0;
}

/* How often tasks of a row were moved.  */
static void tell_moves(u32 row) {
    u32 all = 0, most = 0;

    for (u32 at = 0; at < job_count; at++) {
        u32 moves = jobs[at].row == row ? jobs[at].moves : 0;
        all += moves;
        most = moves > most ? moves : most;
    }
    printf("moves %u %u %u\n", row, all, most);
}

static void tell_found(void) {
    for (u32 row = 0; row < row_count; row++) {
        struct seen *each = &rows_seen[row];
        u32 delays = each->delay_count;
        printf("used %u %llu\n", row, (unsigned long long)each->used);
        if (each->guarantee > 0)
            printf("lacks %u %llu\n", row, whole(each->lacks.most));
        if (each->limit)
            printf("over %u %llu\n", row, whole(each->over.most));
        qsort(each->delays, delays, sizeof *each->delays, by_length);
        if (delays)
            printf("delay %u %u %u\n", row, each->delays[delays / 2],
                   each->delays[(u64)delays * 99 / 100]);
    }
    for (u32 group = 1; group < group_count; group++)
        printf("inside %u %llu %llu\n", group, (unsigned long long)groups_seen[group].used,
               whole(groups_seen[group].over.most));
    for (u32 at = 0; at < job_count && job_count <= MOST_TOLD; at++)
        printf("task %u %u %llu\n", jobs[at].row, at, (unsigned long long)jobs[at].runtime);
    for (u32 row = 1; row < row_count && job_count <= MOST_TOLD; row++)
        tell_moves(row);
    printf("switches %llu\n", (unsigned long long)switches);
    for (u32 cpu = 0; cpu < core_count; cpu++)
        if (cores[cpu].lost)
            printf("lost %u %llu\n", cpu, (unsigned long long)cores[cpu].lost);
}

/* The numbers of groups with a limit, and of leaves: those above first.  */
static void set_budgets(void) {
    for (u32 group = 1; group < group_count; group++)
        budgets[budget_count++] = (struct budget){ .limit_ns = groups_seen[group].limit,
                                                   .burst_ns = groups_seen[group].burst,
                                                   .left_ns = groups_seen[group].limit,
                                                   .above = groups_seen[group].in };
    for (u32 row = 0; row < row_count; row++) {
        struct seen *each = &rows_seen[row];
        each->budget = each->in;
        if (!each->limit)
            continue;
        budgets[budget_count] = (struct budget){ .limit_ns = each->limit, .left_ns = each->limit,
                                                 .burst_ns = each->burst, .above = each->in };
        each->budget = budget_count++;
    }
}

/* Prints the groups with limits, each with the one above it, and what rows are in them.  */
static void tell_budgets(void) {
    for (u32 number = 1; number < budget_count; number++)
        printf("limit %u %llu %llu %u\n", number, (unsigned long long)budget_of(number)->limit_ns,
               (unsigned long long)budget_of(number)->burst_ns, budget_of(number)->above);
    for (u32 row = 0; row < row_count; row++)
        if (rows_seen[row].budget)
            printf("under %u %u\n", row, rows_seen[row].budget);
}

/* The first plan: no step of the trace, whose head has it.  */
static void give_first(void) {
    u64 off = jitter;
    u64 length = window;
    bool is_told = has_trace;

    jitter = window = 0;
    has_trace = false;
    give_plan();
    has_trace = is_told;
    jitter = off;
    window = length;
}

/* Sets the options. Returns the first word after them; 0 if one is unknown.  */
static int set_options(int count_of_words, char **words) {
    has_trace = true;
    for (int option; (option = getopt(count_of_words, words, "+qp:j:o:w:")) >= 0;) {
        if (option == 'q')
            has_trace = false;
        else if (option == 'p')
            plan_every = strtoull(optarg, NULL, 10) * MILLI;
        else if (option == 'j')
            jitter = strtoull(optarg, NULL, 10);
        else if (option == 'o')
            overrun = strtoull(optarg, NULL, 10) * MICRO;
        else if (option == 'w')
            window = strtoull(optarg, NULL, 10);
        else
            return 0;
    }
    return optind;
}

int main(int count_of_words, char **words) {
    int first = set_options(count_of_words, words);
    u64 length;

    if (!first || count_of_words < first + 4)
        return 2;
    seed = strtoull(words[first], NULL, 10);
    length = strtoull(words[first + 1], NULL, 10) * MILLI;
    core_count = atoi(words[first + 2]);
    if (length == 0 || core_count == 0 || core_count > MOST_CORES)
        return 2;
    cpus_there = core_count;
    clear_trees();
    rows_seen[0].amount = 1;
    rows_seen[0].changes_at = NONE;
    for (u32 cpu = 0; cpu < core_count; cpu++) {
        cores[cpu] = (struct core){ .tick = TICK + cpu * MICRO, .kick = NONE, .alarm = NONE,
                                     .changes = NONE };
        set_idle(on_cpu(cpu), true);
        on_cpu(cpu)->is_there = 1;
    }
    for (int at = first + 3; at < count_of_words; at++)
        if (!add_group(words[at]))
            return 2;
    set_budgets();
    give_first();
    if (has_trace)
        printf("processors %u\nslice %llu\nterms %llu %llu %llu\n", core_count, SLICE_NS,
               QUANTUM_NS, SLACK_NS, CREDIT_NS);
    if (has_trace)
        tell_budgets();
    for (u32 row = 0; has_trace && row < row_count; row++)
        printf("leaf %u %llu %llu\n", row, (unsigned long long)leaf_of(row)->amount,
               (unsigned long long)leaf_of(row)->guarantee);
    simulate(length);
    tell_found();
    return 0;
}
