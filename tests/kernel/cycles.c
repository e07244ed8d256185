/* Attaches the scheduler and detaches it, again and again; it is loaded once.

       cycles TIMES ON_MS OFF_MS GROUP..

   Each GROUP is the number of a folder, and a leaf; all have one amount. Prints `cycles N`, the
   number of times that it was enabled, and after it disabled by its user.

       cycles

   Prints how many maps, programs and links of BPF the kernel has.  */
#define _GNU_SOURCE
#include <bpf/bpf.h>
#include <bpf/libbpf.h>
#include <stdbool.h>
#include <stdio.h>
#include <stdlib.h>
#include <string.h>
#include <sys/resource.h>
#include <unistd.h>

#include "plan.h"
typedef __u16 u16;
typedef __u32 u32;
typedef __u64 u64;
typedef __s32 s32;
#include "plan.skel.h"

/* enum scx_exit_kind: its user took it away.  */
#define UNREGISTERED 64

static int is_state(const char *wanted) {
    char text[32] = "";
    FILE *file = fopen("/sys/kernel/sched_ext/state", "r");
    if (file) {
        if (!fgets(text, sizeof text, file))
            *text = 0;
        fclose(file);
    }
    return strncmp(text, wanted, strlen(wanted)) == 0;
}

static int fail(const char *what, int at) {
    printf("cycles %d: %s\n", at, what);
    return 1;
}

/* How many objects of a kind the kernel has.  */
static int number_of(int (*next)(u32, u32 *)) {
    u32 last = 0;
    int found = 0;
    while (next(last, &last) == 0)
        found++;
    return found;
}

int main(int count, char **words) {
    struct rlimit all = { RLIM_INFINITY, RLIM_INFINITY };
    int times = count > 4 ? atoi(words[1]) : 0, groups = count - 4;
    struct plan *program = count == 1 ? NULL : plan__open();
    setrlimit(RLIMIT_MEMLOCK, &all);
    if (count == 1) {
        printf("%d %d %d\n", number_of(bpf_map_get_next_id), number_of(bpf_prog_get_next_id),
               number_of(bpf_link_get_next_id));
        return 0;
    }
    if (times <= 0 || !program)
        return fail("no program", 0);
    program->rodata->cpus_there = libbpf_num_possible_cpus();
    if (plan__load(program) != 0)
        return fail("not loaded", 0);
    for (u32 row = 0; row <= (u32)groups; row++) {
        u64 group = row ? strtoull(words[3 + row], NULL, 10) : 0;
        program->bss->given[row].amount = 10;
        if (row && bpf_map_update_elem(bpf_map__fd(program->maps.rows_of_groups), &group, &row, 0))
            return fail("no group", 0);
    }
    program->data->rows = groups + 1;
    for (int at = 0; at < times; at++) {
        LIBBPF_OPTS(bpf_test_run_opts, options);
        program->data->begins = true;
        if (bpf_prog_test_run_opts(bpf_program__fd(program->progs.take_plan), &options) != 0)
            return fail("no plan", at);
        struct bpf_link *link = bpf_map__attach_struct_ops(program->maps.plan_ops);
        if (!link)
            return fail("not attached", at);
        usleep(atoi(words[2]) * 1000);
        if (!is_state("enabled"))
            return fail("not enabled", at);
        bpf_link__destroy(link);
        if (!is_state("disabled") || program->bss->exit_kind != UNREGISTERED)
            return fail("not disabled by its user", at);
        usleep(atoi(words[3]) * 1000);
    }
    printf("cycles %d\n", times);
    plan__destroy(program);
    return 0;
}
