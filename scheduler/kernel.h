/* The parts of the kernel's types that the scheduler reads. Where they lie is told by the BTF of
 * the kernel that loads it (CO-RE), so none is needed to compile.
 * SPDX-License-Identifier: GPL-2.0-only
 */
#ifndef ARBITER_KERNEL_H
#define ARBITER_KERNEL_H
#include <linux/bpf.h>
#include <linux/version.h>
#include <bpf/bpf_helpers.h>

typedef __u32 u32;
typedef __u64 u64;
typedef __s32 s32;
typedef __s64 s64;
typedef unsigned short u16;
typedef unsigned char u8;
typedef _Bool bool;
#define true 1
#define false 0

#define PF_KTHREAD 0x00200000
#define ENOMEM 12
#define ENOSPC 28
/* BPF_MAP_TYPE_CGRP_STORAGE, which headers of Linux 6.1 lack */
#define STORAGE_OF_GROUPS 32
/* (headers before Linux 6.7 lack it) */
#ifndef BPF_F_TIMER_CPU_PIN
#define BPF_F_TIMER_CPU_PIN 2
#endif

/* include/linux/sched/ext.h and kernel/sched/ext_internal.h */
#define SCX_DSQ_LOCAL 0x8000000000000002ULL
#define SCX_DSQ_LOCAL_ON 0xc000000000000000ULL
#define SCX_ENQ_WAKEUP 1ULL
#define SCX_ENQ_PREEMPT (1ULL << 32)
#define SCX_ENQ_REENQ (1ULL << 40)
#define SCX_DEQ_SLEEP 1ULL
#define SCX_KICK_IDLE 1ULL
#define SCX_KICK_PREEMPT 2ULL
#define SCX_TASK_QUEUED 1
#define SCX_OPS_KEEP_BUILTIN_IDLE (1ULL << 0)
#define SCX_OPS_ENQ_LAST (1ULL << 1)
#define SCX_OPS_ENQ_EXITING (1ULL << 2)
#define SCX_OPS_ENQ_MIGRATION_DISABLED (1ULL << 4)

#pragma clang attribute push(__attribute__((preserve_access_index)), apply_to = record)

struct cpumask {
    unsigned long bits[1];
};

struct sched_ext_entity {
    u32 flags;
    u32 weight;
    u64 slice;
};

struct sched_entity {
    u64 sum_exec_runtime;
};

struct task_struct {
    unsigned int flags;
    int nr_cpus_allowed;
    unsigned short migration_disabled;
    const struct cpumask *cpus_ptr;
    struct sched_entity se;
    struct sched_ext_entity scx;
};

struct kernfs_node {
    u64 id;
};

struct cgroup {
    int level;
    struct kernfs_node *kn;
};

struct scx_init_task_args {
    bool fork;
    struct cgroup *cgroup;
};

struct scx_exit_task_args {
    bool cancelled;
};

struct scx_cgroup_init_args {
    u32 weight;
};

struct scx_cpu_release_args {
    struct task_struct *task;
};

enum scx_exit_kind { SCX_EXIT_NONE };

struct scx_exit_info {
    enum scx_exit_kind kind;
};

#pragma clang attribute pop

/* clang 14 drops the tag of a pointer that a map keeps if its type is a struct, not a typedef. */
typedef struct task_struct kept_task;

/* (headers before Linux 6.4 lack it) */
#if LINUX_VERSION_CODE < KERNEL_VERSION(6, 4, 0)
struct bpf_iter_num {
    u64 __opaque[1];
} __attribute__((aligned(8)));
#endif

struct sched_ext_ops {
    s32 (*select_cpu)(struct task_struct *, s32, u64);
    void (*enqueue)(struct task_struct *, u64);
    void (*dequeue)(struct task_struct *, u64);
    void (*dispatch)(s32, struct task_struct *);
    void (*running)(struct task_struct *);
    void (*quiescent)(struct task_struct *, u64);
    void (*update_idle)(s32, bool);
    s32 (*init_task)(struct task_struct *, struct scx_init_task_args *);
    void (*exit_task)(struct task_struct *, struct scx_exit_task_args *);
    void (*enable)(struct task_struct *);
    void (*disable)(struct task_struct *);
    s32 (*cgroup_init)(struct cgroup *, struct scx_cgroup_init_args *);
    void (*cgroup_move)(struct task_struct *, struct cgroup *, struct cgroup *);
    void (*cpu_online)(s32);
    void (*cpu_offline)(s32);
    void (*cpu_release)(s32, struct scx_cpu_release_args *);
    s32 (*init)(void);
    void (*exit)(struct scx_exit_info *);
    u64 flags;
    u32 timeout_ms;
    char name[128];
};

extern s32 scx_bpf_select_cpu_dfl(struct task_struct *p, s32 prev, u64 flags, bool *is_idle) __ksym;
extern void scx_bpf_dsq_insert(struct task_struct *p, u64 queue, u64 slice, u64 flags) __ksym;
extern s32 scx_bpf_create_dsq(u64 queue, s32 node) __ksym;
extern bool scx_bpf_dsq_move_to_local(u64 queue) __ksym;
extern s32 scx_bpf_dsq_nr_queued(u64 queue) __ksym;
extern bool scx_bpf_task_set_slice(struct task_struct *p, u64 slice) __ksym __weak;
extern void scx_bpf_kick_cpu(s32 cpu, u64 flags) __ksym;
extern u32 scx_bpf_reenqueue_local(void) __ksym;
extern s32 scx_bpf_task_cpu(const struct task_struct *p) __ksym;
extern struct cgroup *scx_bpf_task_cgroup(struct task_struct *p) __ksym;
extern struct cgroup *bpf_cgroup_ancestor(struct cgroup *group, int level) __ksym;
extern struct cgroup *bpf_cgroup_from_id(u64 id) __ksym;
extern void bpf_cgroup_release(struct cgroup *group) __ksym;
extern struct task_struct *bpf_task_acquire(struct task_struct *p) __ksym;
extern void bpf_task_release(struct task_struct *p) __ksym;
#endif
