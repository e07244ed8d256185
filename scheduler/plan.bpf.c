/* A scheduler that serves a plan: processors draw the slices that it gives the leaves.
 * SPDX-License-Identifier: GPL-2.0-only
 *
 * The rule (rule.h). Each leaf has a guarantee and a share. A free CPU takes a task of a leaf that is
 * behind its guarantee, the one with the earliest deadline. If there is none it takes one of the
 * leaf with the least clock, what it was charged over its amount. A pick pays in advance; what was
 * not used is given back when the slice ends. So a leaf past its plan gets what nobody else wants,
 * and no CPU idles while a leaf that may run has a task that this CPU may take. A new plan keeps
 * what leaves are owed and their leads.
 *
 * Tasks wait in queues of this program (queues.h), so that a step of the rule is one section of the
 * lock (sections.h). The kernel gets a task only when it is picked. When a slice ends its task waits
 * at once, though the kernel hands it over a moment later: another CPU may pick it meanwhile, and
 * gets it then. The first leaves are roots of trees of winners, so a pick costs the number of
 * levels, whatever the number of leaves and of tasks.
 *
 * Groups with a limit have budgets, along the whole path of a leaf. Tasks that have no number wait
 * in a queue of the kernel's own and go last.
 */
#include "kernel.h"
#include <bpf/bpf_tracing.h>
#include <bpf/bpf_core_read.h>
#include "plan.h"
#include "rule.h"
#include "queues.h"
#include "sections.h"

char _license[] SEC("license") = "GPL";
/* The compiler tells a type whole only if there is one. */
struct cpumask no_cpus SEC(".bss.types") __attribute__((visibility("hidden")));

/* Of the groups above a task's group the levels that are looked at: those next to the root, or who
 * makes groups in groups would leave its row. */
#define MOST_DEPTH 64
/* A number that is given again is the first of a list. */
GUARDED u32 first_free, numbers;
/* Parts of a new plan: which one is taken, and up to where. */
enum part { TAKE_LIMITS, FREE_LEAVES, TAKE_LEVEL, TAKE_LEAVES };
GUARDED u32 taking, taken_to;

/* The loader writes these, and calls `take_plan`. */
struct given given[MOST_LEAVES];
struct limited limits[MOST_BUDGETS];
volatile u32 rows = 1, budget_count = 1;
/* It rises when the groups of the plan have changed. */
volatile u32 tree = 1;
/* Whether the next plan is the first one before the scheduler is attached. */
bool begins = true;
u64 exit_kind;
/* The queue of tasks without a number. */
#define UNPLANNED 1

struct beat {
    struct bpf_timer timer;
};
struct {
    __uint(type, BPF_MAP_TYPE_ARRAY);
    __uint(max_entries, 1);
    __type(key, u32);
    __type(value, struct beat);
} beats SEC(".maps");

/* Ends of slices that are shorter than a tick, of each CPU. */
struct {
    __uint(type, BPF_MAP_TYPE_ARRAY);
    __uint(max_entries, MOST_CPUS);
    __type(key, u32);
    __type(value, struct beat);
} alarms SEC(".maps");

/* Rows by the numbers of groups. The loader writes them. */
struct {
    __uint(type, BPF_MAP_TYPE_HASH);
    __uint(max_entries, MOST_LEAVES);
    __type(key, u64);
    __type(value, u32);
} rows_of_groups SEC(".maps");

/* The row of a group, which holds for a version of the tree. */
struct place {
    u32 row;
    u32 tree;
};
struct {
    __uint(type, STORAGE_OF_GROUPS);
    __uint(map_flags, BPF_F_NO_PREALLOC);
    __type(key, int);
    __type(value, struct place);
} places SEC(".maps");

/* The number of a task. */
struct {
    __uint(type, BPF_MAP_TYPE_TASK_STORAGE);
    __uint(map_flags, BPF_F_NO_PREALLOC);
    __type(key, int);
    __type(value, u32);
} task_numbers SEC(".maps");

/* The kernel's task of a number. */
struct holder {
    kept_task __kptr *task;
};
struct {
    __uint(type, BPF_MAP_TYPE_ARRAY);
    __uint(max_entries, MOST_TASKS);
    __type(key, u32);
    __type(value, struct holder);
} holders SEC(".maps");

struct {
    __uint(type, BPF_MAP_TYPE_RINGBUF);
    __uint(max_entries, 4096);
} events SEC(".maps");

/* The number of a task; 0 if there were none left for it. */
static __always_inline u32 number_of(struct task_struct *p)
{
    u32 *number = bpf_task_storage_get(&task_numbers, p, 0, 0);
    return number ? *number : 0;
}

/* A task of a CPU's own thread of the kernel goes past the plan: others wait for its work. */
static __always_inline bool is_exempt(struct task_struct *p)
{
    return (p->flags & PF_KTHREAD) && p->nr_cpus_allowed == 1;
}

/* Whether the kernel keeps a task on its CPU for a moment. This program keeps the task that it
 * interrupts there, too. */
static __always_inline bool is_kept(struct task_struct *p)
{
    return p->migration_disabled > (bpf_get_current_task_btf() == p);
}

/* The tree in which a task waits. */
static __always_inline u32 tree_of(struct task_struct *p)
{
    if (is_kept(p) || p->nr_cpus_allowed == 1)
        return cpus_there == 1 ? ALL_CPUS : CPU_TREES + WITHIN(scx_bpf_task_cpu(p), MOST_CPUS);
    return p->nr_cpus_allowed < cpus_there ? SOME_CPUS : ALL_CPUS;
}

/* Keeps the CPUs that a task may use. */
static __always_inline void copy_mask(struct task_struct *p, u32 number)
{
    struct mask *mask = &masks[WITHIN(number, MOST_TASKS)];
    bpf_probe_read_kernel(mask, sizeof *mask, p->cpus_ptr);
}

/* The row of a group: its own, or that of the nearest group above it. */
static __noinline u32 row_of_group(struct cgroup *group)
{
    struct place *known = bpf_cgrp_storage_get(&places, group, 0, 0);
    u32 now = tree, found = 0, level;
    int top = group->level, most = top < MOST_DEPTH ? top : MOST_DEPTH;

    if (known && known->tree == now)
        return known->row;
    bpf_for(level, 0, MOST_DEPTH + 1) {
        int at = level ? most - (int)level : top;
        struct cgroup *above;
        u64 number;
        u32 *row;
        if (at < 0)
            break;
        above = bpf_cgroup_ancestor(group, at);
        if (!above)
            break;
        number = BPF_CORE_READ(above, kn, id);
        bpf_cgroup_release(above);
        row = bpf_map_lookup_elem(&rows_of_groups, &number);
        if (row) {
            found = *row;
            break;
        }
    }
    if (known) {
        known->row = found;
        known->tree = now;
    }
    return found;
}

/* The row of the leaf of a task's group. */
static __always_inline u32 row_of(struct task_struct *p, u32 number)
{
    struct task *task = task_at(number);
    struct cgroup *group;
    u32 now = tree, row;

    if (task->version == now)
        return task->row;
    group = scx_bpf_task_cgroup(p);
    if (!group)
        return task->row;
    row = row_of_group(group);
    bpf_cgroup_release(group);
    task->version = now;
    return row;
}

/* What is no call of the kernel's scheduler has places of its own for its notes: such calls interrupt
 * it once the lock is free. */
struct on_cpu of_plan, of_beat, of_change;

/* Tells the steps that were noted while the lock was held. */
static __always_inline void tell(struct on_cpu *here)
{
    u32 at;

    if (!has_trace)
        return;
    bpf_for(at, 0, here->steps) {
        if (bpf_ringbuf_output(&events, &here->noted[WITHIN(at, MOST_STEPS)],
                       sizeof(struct event), BPF_RB_NO_WAKEUP))
            steps_lost++;
    }
    here->steps = 0;
}

/* A CPU that was noted in a section looks for a task. */
static __always_inline void kick_noted(struct on_cpu *here)
{
    if (here->picked_for < MOST_CPUS)
        scx_bpf_kick_cpu(here->picked_for, SCX_KICK_PREEMPT);
    if (here->kick < MOST_CPUS)
        scx_bpf_kick_cpu(here->kick, here->interrupts ? SCX_KICK_PREEMPT : 0);
}

/* A task leaves its leaf for good, or goes past the plan. */
static __noinline int forget(struct task_struct *p, u32 number)
{
    u32 own = bpf_get_smp_processor_id();
    struct on_cpu *here = on_cpu(own);
    u64 now = bpf_ktime_get_ns(), runtime = p->se.sum_exec_runtime;

    bpf_spin_lock(&lock);
    begin(here, own, now);
    leave(here, number, runtime);
    work_alone(here);
    bpf_spin_unlock(&lock);
    tell(here);
    kick_noted(here);
    return 0;
}

SEC("struct_ops/plan_select_cpu")
s32 BPF_PROG(plan_select_cpu, struct task_struct *p, s32 prev, u64 flags)
{
    bool is_idle = false;
    /* (it runs there only if no other CPU takes it before) */
    return scx_bpf_select_cpu_dfl(p, prev, flags, &is_idle);
}

/* Whether the slice of a task is made longer, once: the kernel keeps the task on its CPU for a
 * moment, and no other could take it. */
static __always_inline bool is_extended(struct task_struct *p, u32 number)
{
    struct task *task = task_at(number);

    if (!is_kept(p) || task->is_extended || task->state != RUNS || task->version != tree)
        return false;
    task->is_extended = 1;
    return true;
}

/* A task without a number waits in a queue of the kernel's own, and goes last. */
static __always_inline void wait_unplanned(struct task_struct *p, u64 flags)
{
    scx_bpf_dsq_insert(p, UNPLANNED, TURN_NS, flags);
    scx_bpf_kick_cpu(scx_bpf_task_cpu(p), SCX_KICK_IDLE);
}

SEC("struct_ops/plan_enqueue")
void BPF_PROG(plan_enqueue, struct task_struct *p, u64 flags)
{
    u32 own = bpf_get_smp_processor_id(), number = number_of(p), row, waits_for, cpu;
    struct on_cpu *here = on_cpu(own);
    u64 now = bpf_ktime_get_ns(), runtime = p->se.sum_exec_runtime, slice;

    if (is_exempt(p)) {
        scx_bpf_dsq_insert(p, SCX_DSQ_LOCAL, GIVEN_NS, flags | SCX_ENQ_PREEMPT);
        return;
    }
    if (!number) {
        wait_unplanned(p, flags);
        return;
    }
    if (!(flags & SCX_ENQ_REENQ) && is_extended(p, number)) {
        scx_bpf_dsq_insert(p, SCX_DSQ_LOCAL, MOMENT_NS, flags);
        return;
    }
    row = row_of(p, number);
    waits_for = tree_of(p);
    cpu = scx_bpf_task_cpu(p);
    if (waits_for == SOME_CPUS)
        copy_mask(p, number);
    task_at(number)->weight = p->scx.weight;

    bpf_spin_lock(&lock);
    begin(here, own, now);
    come(here, number, row, waits_for, runtime);
    work(here, own);
    cpu = came(here, cpu, flags & SCX_ENQ_WAKEUP);
    slice = on_cpu(cpu)->slice_ns;
    bpf_spin_unlock(&lock);

    tell(here);
    if (cpu < MOST_CPUS)
        scx_bpf_dsq_insert(p, SCX_DSQ_LOCAL_ON | cpu, slice, flags);
    else
        kick_noted(here);
}

/* The kernel takes a task back to change it, or to move it. */
SEC("struct_ops/plan_dequeue")
void BPF_PROG(plan_dequeue, struct task_struct *p, u64 flags)
{
    u32 own = bpf_get_smp_processor_id(), number = number_of(p);
    struct on_cpu *here = on_cpu(own);
    u64 now = bpf_ktime_get_ns();

    if (!number)
        return;
    bpf_spin_lock(&lock);
    begin(here, own, now);
    withdraw(here, number);
    work_alone(here);
    bpf_spin_unlock(&lock);
    tell(here);
}

/* Sets what is left of a running task's slice. (Kernels before Linux 6.19 have no call for it.) */
static __always_inline void set_slice(struct task_struct *p, u64 slice)
{
    if (bpf_ksym_exists(scx_bpf_task_set_slice))
        scx_bpf_task_set_slice(p, slice);
    else
        p->scx.slice = slice;
}

/* Hands a picked task to the CPU on which this runs. The kernel waits until it has arrived. */
static __always_inline void hand_over(u32 number, u64 slice)
{
    struct holder *holder = bpf_map_lookup_elem(&holders, &number);
    struct task_struct *p = holder ? holder->task : 0;

    if (p)
        scx_bpf_dsq_insert(p, SCX_DSQ_LOCAL, slice, 0);
}

/* Ends a slice that is shorter than a tick. */
static __always_inline void set_alarm(u32 cpu, u64 slice)
{
    struct beat *alarm = bpf_map_lookup_elem(&alarms, &cpu);

    if (slice < GIVEN_NS && alarm)
        bpf_timer_start(&alarm->timer, slice, BPF_F_TIMER_CPU_PIN);
}

/* Whether a CPU takes a task without a number before others. Its turn is shorter than a tick. */
static __always_inline bool takes_unplanned(struct on_cpu *on, u32 cpu, u64 now)
{
    s32 waiting = unplanned ? scx_bpf_dsq_nr_queued(UNPLANNED) : 0;

    if (waiting <= 0 || !is_unplanned_next(on, now, waiting)
        || !scx_bpf_dsq_move_to_local(UNPLANNED))
        return false;
    set_alarm(cpu, TURN_NS);
    return true;
}

/* The slice of the task before ends when the kernel hands it over, unless it goes on. */
SEC("struct_ops/plan_dispatch")
void BPF_PROG(plan_dispatch, s32 cpu, struct task_struct *prev)
{
    struct on_cpu *on = on_cpu(cpu);
    u32 before = 0, found, waits_for = ALL_CPUS;
    u64 now = bpf_ktime_get_ns(), runtime = 0, slice;

    if (prev && (prev->scx.flags & SCX_TASK_QUEUED) && !is_exempt(prev))
        before = number_of(prev);
    if (before && is_extended(prev, before)) {
        set_slice(prev, MOMENT_NS);
        return;
    }
    if (takes_unplanned(on, cpu, now))
        return;
    if (before) {
        runtime = prev->se.sum_exec_runtime;
        waits_for = tree_of(prev);
        if (waits_for == SOME_CPUS)
            copy_mask(prev, before);
    }
    bpf_spin_lock(&lock);
    begin(on, cpu, now);
    take_next(on, before, task_at(before)->version == tree, runtime, waits_for);
    work(on, cpu);
    found = took_next(on);
    slice = on->slice_ns;
    bpf_spin_unlock(&lock);

    tell(on);
    kick_noted(on);
    if (!found && unplanned)
        scx_bpf_dsq_move_to_local(UNPLANNED);
    /* (read anew: else the verifier followed all above once more for each of its kinds) */
    prev = (struct task_struct *)ctx[1];
    if (found && found == on->about && prev)
        set_slice(prev, slice);
    else if (found)
        hand_over(found, slice);
    if (found)
        set_alarm(cpu, slice);
}

SEC("struct_ops/plan_running")
void BPF_PROG(plan_running, struct task_struct *p)
{
    u32 own = bpf_get_smp_processor_id(), number = number_of(p), row, cpu;
    struct on_cpu *here = on_cpu(own);
    u64 now = bpf_ktime_get_ns(), runtime = p->se.sum_exec_runtime;

    /* (one whose slice was ended while it was on its way gives way in a moment) */
    if (!number || is_exempt(p) || task_at(number)->state == RUNS || task_at(number)->is_passing)
        return;
    /* it ran already when the scheduler was loaded, maybe on another CPU */
    row = row_of(p, number);
    cpu = scx_bpf_task_cpu(p);
    bpf_spin_lock(&lock);
    begin(here, own, now);
    start_on(here, number, row, cpu, runtime);
    work(here, own);
    bpf_spin_unlock(&lock);
    tell(here);
}

SEC("struct_ops/plan_quiescent")
void BPF_PROG(plan_quiescent, struct task_struct *p, u64 flags)
{
    u32 number = number_of(p);

    /* (a task that is changed while it runs goes on) */
    if (number && (flags & SCX_DEQ_SLEEP))
        forget(p, number);
}

/* Who comes while a CPU does other work wakes another one. */
SEC("struct_ops/plan_update_idle")
void BPF_PROG(plan_update_idle, s32 cpu, bool is_idle)
{
    if (is_idle)
        return;
    bpf_spin_lock(&lock);
    set_idle(on_cpu(cpu), false);
    bpf_spin_unlock(&lock);
}

/* A number for a task of a leaf; 0 if there is none left, or none for a new one of that leaf. */
static __always_inline u32 take_number(u32 row, bool is_new)
{
    u32 number = 0;

    bpf_spin_lock(&lock);
    if (!is_new || has_number(row)) {
        number = first_free;
        if (number)
            first_free = task_at(number)->newer;
        else if (numbers < MOST_TASKS)
            number = numbers++;
    }
    if (number)
        count_number(number, row);
    bpf_spin_unlock(&lock);
    return number;
}

/* The row of the group that a task is made in. (The kernel's calls take no group of such a place.) */
static __always_inline u32 row_of_made(struct scx_init_task_args *args)
{
    struct cgroup *group = bpf_cgroup_from_id(BPF_CORE_READ(args, cgroup, kn, id));
    u32 row = 0;

    if (group) {
        row = row_of_group(group);
        bpf_cgroup_release(group);
    }
    return row;
}

SEC("struct_ops.s/plan_init_task")
s32 BPF_PROG(plan_init_task, struct task_struct *p, struct scx_init_task_args *args)
{
    u32 *kept = bpf_task_storage_get(&task_numbers, p, 0, BPF_LOCAL_STORAGE_GET_F_CREATE);
    struct holder *holder;
    struct task_struct *own;
    u32 number;

    if (!kept)
        return -ENOMEM;
    number = take_number(row_of_made(args), args->fork);
    *kept = number;
    holder = bpf_map_lookup_elem(&holders, &number);
    if (!number || !holder) {
        unplanned++;
        /* (where tasks that are there are too many nothing is taken) */
        return args->fork ? 0 : -ENOSPC;
    }
    own = bpf_task_acquire(p);
    if (!own)
        return -ENOMEM;
    own = bpf_kptr_xchg(&holder->task, own);
    if (own)
        bpf_task_release(own);
    task_at(number)->state = AWAY;
    task_at(number)->row = task_at(number)->version = 0;
    task_at(number)->clock = 0;
    task_at(number)->mask_tree = MOST_MASKS;
    return 0;
}

SEC("struct_ops/plan_exit_task")
void BPF_PROG(plan_exit_task, struct task_struct *p, struct scx_exit_task_args *args)
{
    u32 number = number_of(p);
    struct holder *holder = bpf_map_lookup_elem(&holders, &number);
    struct task_struct *own;

    /* (it has left its leaf: it slept, or was disabled) */
    if (!number || !holder)
        return;
    own = bpf_kptr_xchg(&holder->task, 0);
    if (own)
        bpf_task_release(own);
    bpf_spin_lock(&lock);
    leaf_of(task_at(number)->made_in)->numbered--;
    numbered--;
    task_at(number)->newer = first_free;
    first_free = number;
    bpf_spin_unlock(&lock);
    bpf_task_storage_delete(&task_numbers, p);
}

SEC("struct_ops/plan_enable")
void BPF_PROG(plan_enable, struct task_struct *p)
{
    /* what it used in another class is not charged */
    task_at(number_of(p))->charged_ns = p->se.sum_exec_runtime;
}

SEC("struct_ops/plan_disable")
void BPF_PROG(plan_disable, struct task_struct *p)
{
    u32 number = number_of(p);
    if (number)
        forget(p, number);
}

SEC("struct_ops.s/plan_cgroup_init")
s32 BPF_PROG(plan_cgroup_init, struct cgroup *group, struct scx_cgroup_init_args *args)
{
    return bpf_cgrp_storage_get(&places, group, 0, BPF_LOCAL_STORAGE_GET_F_CREATE) ? 0 : -ENOMEM;
}

SEC("struct_ops/plan_cgroup_move")
void BPF_PROG(plan_cgroup_move, struct task_struct *p, struct cgroup *from, struct cgroup *to)
{
    task_at(number_of(p))->version = 0;
}

/* A CPU that goes has no task left that another CPU may take. Those that it alone may run the
 * kernel moves. */
SEC("struct_ops/plan_cpu_offline")
void BPF_PROG(plan_cpu_offline, s32 cpu)
{
    u32 own = bpf_get_smp_processor_id(), times;
    struct on_cpu *here = &of_change;
    u64 now = bpf_ktime_get_ns();

    bpf_for(times, 0, MOST_TASKS) {
        bool is_one;
        bpf_spin_lock(&lock);
        begin(here, own, now);
        is_one = go(here, cpu);
        work_alone(here);
        if (is_one)
            came(here, own, false);
        bpf_spin_unlock(&lock);
        tell(here);
        kick_noted(here);
        if (!is_one)
            break;
    }
}

/* The kernel ends a scheduler that does not say that it goes on. */
SEC("struct_ops/plan_cpu_online")
void BPF_PROG(plan_cpu_online, s32 cpu)
{
}

/* A real-time task takes a CPU. The slice of its task ends, and those that were handed to it wait
 * again: another CPU may take them, and their leaf pays nothing for the time of that task. Each comes
 * by `plan_enqueue`, but one that the kernel was not told of. */
SEC("struct_ops/plan_cpu_release")
void BPF_PROG(plan_cpu_release, s32 cpu, struct scx_cpu_release_args *args)
{
    struct on_cpu *here = on_cpu(cpu);
    u64 now = bpf_ktime_get_ns();

    bpf_spin_lock(&lock);
    begin(here, cpu, now);
    if (put_back(here, cpu)) {
        work_alone(here);
        came(here, cpu, false);
    }
    bpf_spin_unlock(&lock);
    tell(here);
    kick_noted(here);
    scx_bpf_reenqueue_local();
}

/* A leaf that waits for a period of a group waits no longer. Returns whether there was one. */
static __noinline int free_one(struct on_cpu *here, u32 number)
{
    u32 row = free_first(here, number);

    if (row >= NOBODY)
        return 0;
    play_leaf(row);
    return 1;
}

/* A new period of a group with a limit. Returns whether a leaf may run again. */
static __noinline bool begin_period(u32 number)
{
    struct on_cpu *here = &of_beat;
    u64 now = bpf_ktime_get_ns();
    bool is_free = false;
    u32 times;

    bpf_for(times, 0, MOST_LEAVES) {
        bool is_more;
        bpf_spin_lock(&lock);
        pass(now);
        is_more = (times || refill(here, number)) && free_one(here, number);
        bpf_spin_unlock(&lock);
        tell(here);
        if (!is_more)
            break;
        is_free = true;
    }
    return is_free;
}

static int on_beat(void *map, int *key, struct beat *beat)
{
    bool is_free = false, is_full = false;
    u32 each;

    bpf_for(each, 1, budget_count)
        is_free |= begin_period(each);
    bpf_for(each, 0, rows)
        is_full |= leaf_of(each)->charged > MOST_CHARGE;
    if (is_full) {
        bpf_spin_lock(&lock);
        set_back(rows);
        bpf_spin_unlock(&lock);
    }
    if (is_free) {
        bpf_for(each, 0, cpus_there)
            scx_bpf_kick_cpu(each, SCX_KICK_IDLE);
    }
    bpf_timer_start(&beat->timer, LIMIT_PERIOD_NS, 0);
    return 0;
}

static int on_alarm(void *map, int *cpu, struct beat *alarm)
{
    scx_bpf_kick_cpu(*cpu, SCX_KICK_PREEMPT);
    return 0;
}

/* Takes a limit that the loader wrote. One that comes has a whole period left. */
static __always_inline void take_limit(u32 number)
{
    struct budget *budget = budget_of(number);
    struct limited *limit = &limits[WITHIN(number, MOST_BUDGETS)];

    if (!budget->limit_ns)
        budget->left_ns = limit->limit_ns;
    budget->limit_ns = limit->limit_ns;
    budget->burst_ns = limit->burst_ns;
    budget->above = limit->above;
}

/* A step of a new plan: a limit is taken, a leaf that waits for a period is freed, the level is taken
 * or a leaf's part is. Returns whether it was the last one. (All are one loop that plays a leaf in one
 * place, and what it is at is in memory: the verifier follows each call by itself, and once more for
 * each range of a number.) */
static __noinline int take_step(struct on_cpu *here)
{
    u32 at = taken_to, row = NOBODY;

    if (taking == TAKE_LIMITS) {
        take_limit(at);
    } else if (taking == FREE_LEAVES) {
        row = free_first(here, at);
        at -= row < NOBODY;
    } else if (taking == TAKE_LEVEL) {
        take_level(here);
    } else {
        row = take_given(here, &given[WITHIN(at, MOST_LEAVES)], at);
    }
    taken_to = at + 1;
    if (taken_to >= (taking == TAKE_LEVEL ? 1 : taking == TAKE_LEAVES ? rows : budget_count)) {
        taken_to = 0;
        taking++;
    }
    if (row < NOBODY)
        play_leaf(row);
    return 0;
}

/* Takes the limits, amounts and guarantees that the loader wrote. */
static __noinline int take_all(void)
{
    struct on_cpu *here = &of_plan;
    u64 now = bpf_ktime_get_ns();
    u32 each;

    taking = taken_to = 0;
    bpf_for(each, 0, 2 * (MOST_BUDGETS + MOST_LEAVES) + 1) {
        bpf_spin_lock(&lock);
        pass(now);
        take_step(here);
        bpf_spin_unlock(&lock);
        tell(here);
        if (taking > TAKE_LEAVES)
            break;
    }
    bpf_spin_lock(&lock);
    find_greatest(rows);
    bpf_spin_unlock(&lock);
    return 0;
}

/* Takes a plan. The first one is taken before the scheduler is attached: nobody waits anywhere. */
SEC("syscall")
int take_plan(void *context)
{
    if (begins) {
        clear_trees();
        /* (what was before has left its leaf, and given its number back) */
        numbers = 1;
        first_free = 0;
        begins = false;
    }
    return take_all();
}

/* The timers of all CPUs. */
static __always_inline int init_alarms(void)
{
    u32 cpu;

    bpf_for(cpu, 0, cpus_there) {
        struct beat *alarm = bpf_map_lookup_elem(&alarms, &cpu);
        if (!alarm)
            return -ENOMEM;
        bpf_timer_init(&alarm->timer, &alarms, 1);
        bpf_timer_set_callback(&alarm->timer, on_alarm);
    }
    return 0;
}

SEC("struct_ops.s/plan_init")
s32 BPF_PROG(plan_init)
{
    u32 key = 0;
    struct beat *beat;

    unplanned = 0;
    beat = bpf_map_lookup_elem(&beats, &key);
    if (!beat || init_alarms() || scx_bpf_create_dsq(UNPLANNED, -1))
        return -ENOMEM;
    bpf_timer_init(&beat->timer, &beats, 1);
    bpf_timer_set_callback(&beat->timer, on_beat);
    return bpf_timer_start(&beat->timer, LIMIT_PERIOD_NS, 0);
}

SEC("struct_ops/plan_exit")
void BPF_PROG(plan_exit, struct scx_exit_info *info)
{
    u32 key = 0, cpu;
    struct beat *beat = bpf_map_lookup_elem(&beats, &key);

    exit_kind = info->kind;
    if (beat)
        bpf_timer_cancel(&beat->timer);
    bpf_for(cpu, 0, cpus_there) {
        beat = bpf_map_lookup_elem(&alarms, &cpu);
        if (beat)
            bpf_timer_cancel(&beat->timer);
    }
}

SEC(".struct_ops.link")
struct sched_ext_ops plan_ops = {
    .select_cpu = (void *)plan_select_cpu,
    .enqueue = (void *)plan_enqueue,
    .dequeue = (void *)plan_dequeue,
    .dispatch = (void *)plan_dispatch,
    .running = (void *)plan_running,
    .quiescent = (void *)plan_quiescent,
    .update_idle = (void *)plan_update_idle,
    .init_task = (void *)plan_init_task,
    .exit_task = (void *)plan_exit_task,
    .enable = (void *)plan_enable,
    .disable = (void *)plan_disable,
    .cgroup_init = (void *)plan_cgroup_init,
    .cgroup_move = (void *)plan_cgroup_move,
    .cpu_online = (void *)plan_cpu_online,
    .cpu_offline = (void *)plan_cpu_offline,
    .cpu_release = (void *)plan_cpu_release,
    .init = (void *)plan_init,
    .exit = (void *)plan_exit,
    .flags = SCX_OPS_KEEP_BUILTIN_IDLE | SCX_OPS_ENQ_LAST | SCX_OPS_ENQ_EXITING
         | SCX_OPS_ENQ_MIGRATION_DISABLED,
    .timeout_ms = TIMEOUT_MS,
    .name = "arbiter_plan",
};
