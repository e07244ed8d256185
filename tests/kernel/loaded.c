/* The loader (scheduler/scheduler.c) without a kernel: what it would give the kernel's part.

       loaded CPUS OWN

   OWN is the number of the loader's own group, 0 for the root. Commands are those of the loader, on
   standard input. After each plan it prints `given ROW GROUP AMOUNT GUARANTEE BUDGET` for each row,
   the guarantee in parts of a CPU, `limited NUMBER NS BURST_NS ABOVE` for each limit, and `tree
   VERSION`: it rises where tasks have to look for their rows anew. Headers of libbpf and the
   skeleton are empty files.  */
#define _GNU_SOURCE
#include <linux/types.h>
#include <stdarg.h>
#include <stdbool.h>
#include <stddef.h>
#include <stdio.h>
#include <string.h>
#include <unistd.h>

#include "plan.h"

/* What libbpf and the skeleton have.  */
enum libbpf_print_level { LIBBPF_WARN };
typedef int (*printer)(enum libbpf_print_level, const char *, va_list);
struct bpf_test_run_opts {
    int retval;
};
#define LIBBPF_OPTS(type, name) struct type name = { 0 }
#define BPF_ANY 0
struct bpf_link;
struct ring_buffer;
struct plan {
    struct {
        int events, plan_ops, rows_of_groups;
    } maps;
    struct {
        int take_plan;
    } progs;
    struct {
        bool has_trace;
        __u32 cpus_there;
    } *rodata;
    struct {
        struct given given[MOST_LEAVES];
        struct limited limits[MOST_BUDGETS];
        struct leaf leaves[MOST_LEAVES];
        __u64 late_turns, unplanned, exit_kind, steps_lost;
    } *bss;
    struct {
        __u32 rows, budget_count, tree;
    } *data;
};

static int cpu_count;
/* The kernel's map of rows by groups: 0 is no group.  */
static __u64 groups[MOST_LEAVES];
static __u32 rows_of[MOST_LEAVES];

static int place_of(__u64 group) {
    for (int at = 0; at < MOST_LEAVES; at++)
        if (groups[at] == group)
            return at;
    return -1;
}

static int bpf_map_lookup_elem(int map, const void *key, void *value) {
    int at = place_of(*(const __u64 *)key);
    if (at >= 0)
        *(__u32 *)value = rows_of[at];
    return map + at >= 0 ? 0 : -1;
}

static int bpf_map_update_elem(int map, const void *key, const void *value, __u64 flags) {
    int at = place_of(0);
    if (at < 0 || map || flags)
        return -1;
    groups[at] = *(const __u64 *)key;
    rows_of[at] = *(const __u32 *)value;
    return 0;
}

static int bpf_map_delete_elem(int map, const void *key) {
    groups[place_of(*(const __u64 *)key)] = 0;
    return map;
}

static int bpf_prog_test_run_opts(int program, struct bpf_test_run_opts *options) {
    return program + options->retval;
}

#define libbpf_set_print(function) ((void)(printer){ function })
#define libbpf_num_possible_cpus() cpu_count
#define bpf_map__fd(map) 0
#define bpf_map__set_max_entries(map, count) ((void)(count))
#define bpf_map__attach_struct_ops(map) ((struct bpf_link *)&program->maps)
#define bpf_program__fd(program) 0
#define bpf_link__destroy(link) ((void)(link))
#define plan__open() NULL
#define plan__load(plan) 0
#define plan__destroy(plan) ((void)(plan))
#define ring_buffer__new(map, function, context, options) ((void)(function), NULL)
#define ring_buffer__consume(ring) ((void)(ring))
#define sysconf(name) cpu_count
#define main loader_main
#include "scheduler.c"
#undef main

static void tell_given(void) {
    for (u32 row = 0; row < rows; row++) {
        struct given *each = &program->bss->given[row];
        printf("given %u %llu %llu %llu %u\n", row, table[row].group, each->amount,
               each->guarantee, each->budget);
    }
    for (u32 at = 1; at < limit_count; at++) {
        struct limited *each = &program->bss->limits[at];
        printf("limited %u %llu %llu %u\n", at, each->limit_ns, each->burst_ns, each->above);
    }
    printf("tree %u\n", program->data->tree);
}

int main(int count, char **words) {
    static struct plan whole;
    static typeof(*whole.bss) bss;
    static typeof(*whole.data) data = { .tree = 1 };
    static typeof(*whole.rodata) rodata;
    char line[MOST_LINE + 1];

    if (count != 3)
        return 2;
    whole.bss = &bss;
    whole.data = &data;
    whole.rodata = &rodata;
    program = &whole;
    top = "/";
    cpu_count = atoi(words[1]);
    own_group = strtoull(words[2], NULL, 10);
    while (fgets(line, sizeof line, stdin)) {
        line[strcspn(line, "\n")] = 0;
        bool is_end = strcmp(line, "end") == 0;
        obey(line);
        if (is_end)
            tell_given();
    }
    return 0;
}
