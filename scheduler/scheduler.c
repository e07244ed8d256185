/* Loads the scheduler of plan.bpf.c, gives it plans, and tells what was used.
 * SPDX-License-Identifier: MIT OR Apache-2.0
 *
 *   arbiter-scheduler [--trace FILE] TOP
 *
 * TOP is the folder of the groups that are planned. It reads commands from standard input, one a
 * line:
 *
 *   plan SLICES                   a plan begins: the slices of all CPUs in its period
 *   rest AMOUNT GUARANTEE         the amount and the guarantee of the rest in slices, beside those of
 *                                 the plan
 *   limit GROUP NS BURST_NS ABOVE a group's limit in 100 ms, what it may keep of that for later,
 *                                 and the nearest group above it that has one (0: none)
 *   leaf GROUP AMOUNT GUARANTEE LIMITED
 *                                 a leaf's amount and guarantee in slices, and the nearest group
 *                                 with a limit, itself or above (0: none)
 *   inner GROUP LIMITED           a group with children: those that come below it are one leaf, up
 *                                 to a plan that has them
 *   end                           the plan is taken; answers `plan NUMBER`
 *   read                          answers `leaf GROUP USED_NS WAITED_NS SOME_NS STOPS` for each
 *                                 leaf, of the time since the last reading; `counts PICKS LATE
 *                                 STOPS UNPLANNED` since it was loaded; and `read PASSED_NS`
 *
 * GROUP is the number of a group's folder; 0 is the rest. A limit comes before what is below it.
 * WAITED_NS is what its tasks waited in sum, SOME_NS how long one or more waited. When the input
 * ends or a signal comes it ends, and the kernel schedules by weights again. So it does if this
 * process is killed.
 */
#define _GNU_SOURCE
#include <bpf/bpf.h>
#include <bpf/libbpf.h>
#include <errno.h>
#include <fcntl.h>
#include <limits.h>
#include <poll.h>
#include <signal.h>
#include <stdarg.h>
#include <stdbool.h>
#include <stdio.h>
#include <stdlib.h>
#include <string.h>
#include <sys/resource.h>
#include <sys/signalfd.h>
#include <sys/stat.h>
#include <time.h>
#include <unistd.h>

#include "plan.h"
typedef __u16 u16;
typedef __u32 u32;
typedef __u64 u64;
typedef __s32 s32;
#include "plan.skel.h"

#define CGROUPS "/sys/fs/cgroup"
#define STATE "/sys/kernel/sched_ext/state"
#define TYPES "/sys/kernel/btf/vmlinux"
#define MOST_LINE 200
/* Slices of a plan: its amounts are scaled to `MOST_AMOUNT`. */
#define MOST_SLICES 1000000000ULL
/* Bytes of the ring of steps: some minutes of a small host. */
#define TRACE_BYTES (16 << 20)
/* The loader's own group is a leaf, where the plan has it not: of a tenth of a CPU. */
#define OWN_GUARANTEE (ONE_CPU / 10)
/* Groups that come below another one have this part of a plan's slices in all. */
#define NEW_PART 50

/* A leaf as the last plan had it, and what was read of it. */
struct row {
    u64 group;
    u64 plan;
    struct leaf read;
};

/* A group with a limit as the last plan had it: the number of the limit that binds, its own or one
 * above, and how many such limits are above one another up to it. */
struct limited_group {
    u64 group;
    u64 plan;
    u32 number;
    u32 nested;
};

static struct plan *program;
static struct bpf_link *link_;
static struct row table[MOST_LEAVES];
static struct limited_group limited[MOST_BUDGETS];
static u32 rows = 1, limit_count = 1;
static u64 plans, read_ns, own_group;
static const char *top, *trace;
static struct event *steps;
static size_t step_count, step_room;
static char log_[400];

static void fail(const char *form, ...)
{
    va_list words;
    va_start(words, form);
    fputs("arbiter-scheduler: ", stderr);
    vfprintf(stderr, form, words);
    fputc('\n', stderr);
    va_end(words);
    exit(1);
}

/* Keeps the end of what libbpf says, for the one line of a fault. */
static int keep_log(enum libbpf_print_level level, const char *form, va_list words)
{
    char text[4096];
    int length = vsnprintf(text, sizeof text, form, words);
    if (level != LIBBPF_WARN || length <= 0)
        return 0;
    if (length >= (int)sizeof text)
        length = sizeof text - 1;
    size_t from = length >= (int)sizeof log_ ? length - (sizeof log_ - 1) : 0;
    memcpy(log_, text + from, length - from + 1);
    for (char *at = log_; *at; at++)
        if (*at == '\n')
            *at = ' ';
    return 0;
}

static u64 now_ns(void)
{
    struct timespec now;
    clock_gettime(CLOCK_MONOTONIC, &now);
    return now.tv_sec * 1000000000ULL + now.tv_nsec;
}

static bool read_text(const char *folder, const char *name, char *text, size_t size)
{
    char path[PATH_MAX];
    ssize_t length = -1;
    int file = -1;
    if (snprintf(path, sizeof path, "%s/%s", folder, name) < (int)sizeof path)
        file = open(path, O_RDONLY | O_CLOEXEC);
    if (file >= 0) {
        length = read(file, text, size - 1);
        close(file);
    }
    text[length > 0 ? length : 0] = 0;
    return length > 0;
}

/* What the kernel needs, looked at before anything is loaded. */
static void check_kernel(void)
{
    char text[64];
    if (geteuid() != 0)
        fail("only root may load a scheduler");
    if (access("/sys/kernel/sched_ext", F_OK) != 0)
        fail("this kernel has no sched_ext (CONFIG_SCHED_CLASS_EXT, from Linux 6.12 on)");
    if (access(TYPES, R_OK) != 0)
        fail("this kernel does not tell its types (CONFIG_DEBUG_INFO_BTF): no " TYPES);
    if (read_text("/sys/kernel/sched_ext", "state", text, sizeof text)
        && strncmp(text, "disabled", 8) != 0)
        fail("another scheduler is loaded: " STATE " is %.*s", (int)strcspn(text, "\n"), text);
    if (libbpf_num_possible_cpus() > MOST_CPUS)
        fail("more than %d CPUs", MOST_CPUS);
}

/* The number of the group in which this program runs; 0 for the root, whose tasks are the rest. */
static u64 group_of_self(void)
{
    char text[PATH_MAX], path[PATH_MAX + sizeof CGROUPS];
    struct stat found;
    if (!read_text("/proc/self", "cgroup", text, sizeof text))
        return 0;
    char *own = strstr(text, "0::/");
    if (!own || own[4] == '\n')
        return 0;
    own += strlen("0::");
    own[strcspn(own, "\n")] = 0;
    snprintf(path, sizeof path, "%s%s", CGROUPS, own);
    return stat(path, &found) == 0 ? found.st_ino : 0;
}

static void set_memory(void)
{
    struct rlimit all = { RLIM_INFINITY, RLIM_INFINITY };
    setrlimit(RLIMIT_MEMLOCK, &all);
}

static void load(void)
{
#ifndef DEVELOPING
    libbpf_set_print(keep_log);
#endif
    set_memory();
    program = plan__open();
    if (!program)
        fail("the program cannot be read: %s", log_);
    program->rodata->has_trace = trace != NULL;
    program->rodata->cpus_there = libbpf_num_possible_cpus();
    if (trace)
        bpf_map__set_max_entries(program->maps.events, TRACE_BYTES);
    if (plan__load(program) != 0)
        fail("the kernel refused the program: %s", log_);
}

static void attach(void)
{
    link_ = bpf_map__attach_struct_ops(program->maps.plan_ops);
    if (!link_ && program->bss->unplanned)
        fail("more than %d tasks: nothing was changed", MOST_TASKS - 1);
    if (!link_)
        fail("the kernel refused the scheduler: %s", strerror(errno));
}

/* The row of a group: its own, or a free one. */
static u32 row_of(u64 group)
{
    u32 free_row = 0, here;
    int groups = bpf_map__fd(program->maps.rows_of_groups);
    if (bpf_map_lookup_elem(groups, &group, &here) == 0)
        return here;
    for (u32 row = 1; row < rows && !free_row; row++)
        if (!table[row].group)
            free_row = row;
    if (!free_row && rows == MOST_LEAVES)
        fail("more than %d leaves", MOST_LEAVES - 1);
    if (!free_row)
        free_row = rows++;
    if (bpf_map_update_elem(groups, &group, &free_row, BPF_ANY) != 0)
        fail("group %llu: %s", group, strerror(errno));
    table[free_row].group = group;
    table[free_row].read = program->bss->leaves[free_row];
    return free_row;
}

/* The number of a group's limit; 0 if there is none. */
static u32 limit_of(u64 group)
{
    for (u32 at = 1; group && at < limit_count; at++)
        if (limited[at].group == group && limited[at].plan == plans)
            return limited[at].number;
    return 0;
}

/* A group's limit in this plan: its own number, else a free one. */
static u32 new_limit(u64 group)
{
    u32 found = 0;
    for (u32 at = 1; at < limit_count; at++) {
        if (limited[at].group == group)
            found = at;
        else if (!limited[at].group && !found)
            found = at;
        if (limited[at].group == group)
            break;
    }
    if (!found && limit_count == MOST_BUDGETS)
        fail("more than %d limits", MOST_BUDGETS - 1);
    if (!found)
        found = limit_count++;
    limited[found] = (struct limited_group){ .group = group, .plan = plans };
    return found;
}

/* A group's limit. The kernel's part goes up so many limits: those further below are left out, or
 * who makes groups in groups would leave the limits above. */
static void set_limit(u64 group, u64 limit, u64 burst, u64 above)
{
    u32 at = new_limit(group), number = limit_of(above);
    u32 nested = number ? limited[number].nested : 0;
    bool is_kept = nested < MOST_NESTED;
    limited[at].number = is_kept ? at : number;
    limited[at].nested = nested + is_kept;
    program->bss->limits[at] = (struct limited){ 0 };
    if (is_kept)
        program->bss->limits[at] = (struct limited){ .limit_ns = limit ? limit : 1,
                                 .burst_ns = burst,
                                 .above = number };
}

/* The limits of the last plan that are in none now: their numbers are free. */
static void drop_old_limits(void)
{
    for (u32 at = 1; at < limit_count; at++)
        if (limited[at].group && limited[at].plan != plans) {
            limited[at].group = 0;
            program->bss->limits[at] = (struct limited){ 0 };
        }
}

/* The leaves of the last plan that are in none now: their rows are free, and have no guarantee.
 * Tasks that wait there have its amount still. */
static bool drop_old(void)
{
    bool has_dropped = false;
    for (u32 row = 1; row < rows; row++)
        if (table[row].group && table[row].plan != plans) {
            bpf_map_delete_elem(bpf_map__fd(program->maps.rows_of_groups), &table[row].group);
            table[row].group = table[row].plan = 0;
            program->bss->given[row].guarantee = 0;
            has_dropped = true;
        }
    return has_dropped;
}

/* Guarantees of leaves are slices of the plan. They are made parts of a CPU, so that all CPUs are those
 * of the plan and of the rest together. The loader's own is of the rest's, and what that lacks of the
 * plan's: all add up to the CPUs at most. */
static void give_guarantees(u64 slices)
{
    u64 all = sysconf(_SC_NPROCESSORS_ONLN) * ONE_CPU;
    u64 whole = slices + program->bss->given[0].guarantee;
    u64 rest = whole ? all * program->bss->given[0].guarantee / whole : 0;
    u64 own = own_group ? OWN_GUARANTEE : 0, lacks = own > rest ? own - rest : 0;
    for (u32 row = 1; row < rows; row++) {
        struct given *each = &program->bss->given[row];
        if (slices && table[row].plan == plans && table[row].group != own_group)
            each->guarantee = each->guarantee * (all - rest - lacks) / slices;
    }
    program->bss->given[0].guarantee = own > rest ? 0 : rest - own;
}

/* A leaf of this program's own group, so that no crowd beside it keeps plans back. */
static bool add_own(u64 slices)
{
    u32 before = rows, row;
    if (!own_group)
        return false;
    row = row_of(own_group);
    if (table[row].plan == plans) {
        own_group = 0;
        return false;
    }
    bool is_new = before != rows || !table[row].plan;
    table[row].plan = plans;
    program->bss->given[row] = (struct given){ .amount = slices / 100 + 1,
                           .guarantee = OWN_GUARANTEE };
    return is_new;
}

/* Amounts above the most that the scheduler takes are all made less, in proportion. */
static void scale(void)
{
    u32 shift = 0;
    for (u32 row = 0; row < rows; row++)
        while (program->bss->given[row].amount >> shift > MOST_AMOUNT)
            shift++;
    for (u32 row = 0; row < rows && shift; row++) {
        u64 amount = program->bss->given[row].amount >> shift;
        program->bss->given[row].amount = amount ? amount : 1;
    }
}

static void take_plan(u64 slices, bool is_new)
{
    LIBBPF_OPTS(bpf_test_run_opts, options);
    is_new |= add_own(slices);
    give_guarantees(slices);
    scale();
    is_new |= drop_old();
    drop_old_limits();
    program->data->rows = rows;
    program->data->budget_count = limit_count;
    if (bpf_prog_test_run_opts(bpf_program__fd(program->progs.take_plan), &options) != 0
        || options.retval)
        fail("the plan was not taken: %s, %d", strerror(errno), (int)options.retval);
    /* the scheduler begins with the first plan */
    if (!link_)
        attach();
    if (is_new)
        program->data->tree++;
    printf("plan %llu\n", plans);
}

/* A leaf's counters now. Those of the time that its tasks wait go on up to now. */
static struct leaf read_leaf(u32 row, u64 now)
{
    struct leaf leaf = *(volatile struct leaf *)&program->bss->leaves[row];
    if (leaf.waiting > 0 && now > leaf.until_ns) {
        leaf.some_ns += now - leaf.until_ns;
        leaf.waited_ns += (now - leaf.until_ns) * leaf.waiting;
    }
    return leaf;
}

/* What was counted since the scheduler was loaded: picks, turns of tasks that waited for long, leaves
 * that were put aside at a limit, and tasks that got no number. */
static void tell_counts(void)
{
    u64 picks = 0, stops = 0;
    for (u32 row = 0; row < rows; row++) {
        picks += program->bss->leaves[row].picks;
        stops += program->bss->leaves[row].stops;
    }
    printf("counts %llu %llu %llu %llu\n", picks, (u64)program->bss->late_turns, stops,
           (u64)program->bss->unplanned);
}

static u64 rise(u64 now, u64 before)
{
    return now > before ? now - before : 0;
}

static void tell_round(void)
{
    u64 now = now_ns();
    for (u32 row = 0; row < rows; row++) {
        struct leaf leaf = read_leaf(row, now), *before = &table[row].read;
        if (row && !table[row].group)
            continue;
        printf("leaf %llu %llu %llu %llu %llu\n", table[row].group,
               rise(leaf.used_ns, before->used_ns), rise(leaf.waited_ns, before->waited_ns),
               rise(leaf.some_ns, before->some_ns), rise(leaf.stops, before->stops));
        *before = leaf;
    }
    tell_counts();
    printf("read %llu\n", read_ns ? now - read_ns : 0);
    read_ns = now;
}

/* The whole number of a word up to a bound. */
static u64 number(const char *word, u64 most)
{
    char *end;
    errno = 0;
    u64 found = word ? strtoull(word, &end, 10) : 0;
    if (!word || *word < '0' || *word > '9' || errno || *end || found > most)
        fail("%s: not a number up to %llu", word ? word : "nothing", most);
    return found;
}

/* A leaf of this plan. Returns whether the last one had it not. */
static bool set_leaf(u64 group, u64 amount, u64 guarantee, u64 limited_by)
{
    u32 before = rows, row = row_of(group);
    bool is_new = before != rows || !table[row].plan;
    table[row].plan = plans;
    program->bss->given[row] = (struct given){ .amount = amount ? amount : 1,
                           .guarantee = guarantee,
                           .budget = limit_of(limited_by) };
    return is_new;
}

/* One command. */
static void obey(char *line)
{
    static u64 slices;
    static bool is_open, is_new;
    char *rest = line, *word = strsep(&rest, " ");
    if (strcmp(word, "plan") == 0 && !is_open) {
        slices = number(rest, MOST_SLICES);
        program->bss->given[0] = (struct given){ .amount = 1 };
        is_open = true;
        is_new = false;
        plans++;
    } else if (strcmp(word, "rest") == 0 && is_open) {
        u64 amount = number(strsep(&rest, " "), MOST_SLICES);
        program->bss->given[0].amount = amount ? amount : 1;
        program->bss->given[0].guarantee = number(rest, MOST_SLICES);
    } else if (strcmp(word, "leaf") == 0 && is_open) {
        u64 group = number(strsep(&rest, " "), ~0ULL);
        u64 amount = number(strsep(&rest, " "), MOST_SLICES);
        u64 guarantee = number(strsep(&rest, " "), MOST_SLICES);
        is_new |= set_leaf(group, amount, guarantee, number(rest, ~0ULL));
    } else if (strcmp(word, "inner") == 0 && is_open) {
        u64 group = number(strsep(&rest, " "), ~0ULL);
        is_new |= set_leaf(group, slices / NEW_PART, 0, number(rest, ~0ULL));
    } else if (strcmp(word, "limit") == 0 && is_open) {
        u64 group = number(strsep(&rest, " "), ~0ULL);
        u64 limit = number(strsep(&rest, " "), LIMIT_PERIOD_NS * MOST_CPUS);
        u64 burst = number(strsep(&rest, " "), LIMIT_PERIOD_NS * MOST_CPUS);
        set_limit(group, limit, burst, number(rest, ~0ULL));
    } else if (strcmp(word, "end") == 0 && is_open) {
        is_open = false;
        take_plan(slices, is_new);
    } else if (strcmp(word, "read") == 0 && !is_open) {
        tell_round();
    } else {
        fail("no command: %.40s", line);
    }
    fflush(stdout);
}

/* The commands of what was read. What a line lacks comes later. */
static bool take_input(void)
{
    static char text[1 << 16];
    static size_t length;
    ssize_t more = read(0, text + length, sizeof text - 1 - length);
    if (more <= 0)
        return more < 0 && errno == EINTR;
    length += more;
    text[length] = 0;
    char *line = text, *end;
    while ((end = strchr(line, '\n'))) {
        *end = 0;
        if (end - line > MOST_LINE)
            fail("a line of more than %d letters", MOST_LINE);
        obey(line);
        line = end + 1;
    }
    length -= line - text;
    memmove(text, line, length);
    if (length > MOST_LINE)
        fail("a line of more than %d letters", MOST_LINE);
    return true;
}

static int keep_step(void *context, void *data, size_t size)
{
    (void)context;
    if (size != sizeof *steps)
        return 0;
    if (step_count == step_room) {
        step_room = step_room ? 2 * step_room : 1024;
        steps = realloc(steps, step_room * sizeof *steps);
        if (!steps)
            fail("no memory for the trace");
    }
    steps[step_count++] = *(struct event *)data;
    return 0;
}

static int by_order(const void *one, const void *other)
{
    u64 a = ((const struct event *)one)->at, b = ((const struct event *)other)->at;
    return (a > b) - (a < b);
}

static void write_step(FILE *file, const struct event *each)
{
    switch (each->kind) {
    case EVENT_WAKE:
        fprintf(file, "wake %u 1\n", each->row);
        break;
    case EVENT_PICK:
        fprintf(file, "pick %u %u\n", each->cpu, each->row);
        break;
    case EVENT_END:
        fprintf(file, "end %u %llu %u\n", each->cpu, (u64)each->used_ns, each->remains);
        break;
    case EVENT_LEAVE:
        fprintf(file, "leave %u\n", each->row);
        break;
    case EVENT_LEVEL:
        fprintf(file, "level\n");
        break;
    case EVENT_GIVE:
        fprintf(file, "give %u %llu %llu\n", each->row, (u64)each->used_ns,
            (u64)each->guarantee);
        break;
    case EVENT_CUT:
        fprintf(file, "cut %u\n", each->row);
        break;
    case EVENT_BOUND:
        fprintf(file, "bound %u %llu %u\n", each->row, (u64)each->used_ns, each->remains);
        break;
    case EVENT_STOP:
        fprintf(file, "stop %u %u\n", each->row, each->remains);
        break;
    case EVENT_REFILL:
        fprintf(file, "refill %u\n", each->row);
        break;
    default:
        fprintf(file, "late %u\n", each->row);
    }
}

/* Writes the steps of the rule in their order, and who waits for some CPUs or a period. */
static void write_trace(void)
{
    FILE *file = fopen(trace, "we");
    if (!file)
        fail("%s: %s", trace, strerror(errno));
    if (program->bss->steps_lost)
        fail("the trace lacks %llu steps", (u64)program->bss->steps_lost);
    qsort(steps, step_count, sizeof *steps, by_order);
    fprintf(file, "processors %u\nslice %llu\nterms %llu %llu %llu\n", program->rodata->cpus_there,
        SLICE_NS, QUANTUM_NS, SLACK_NS, CREDIT_NS);
    /* (the first plan is a step) */
    for (u32 row = 0; row < rows; row++)
        fprintf(file, "leaf %u 1 0\n", row);
    for (size_t at = 0; at < step_count; at++) {
        u64 passed = at ? steps[at].ns - steps[at - 1].ns : 0;
        if (passed)
            fprintf(file, "pass %llu\n", passed);
        write_step(file, &steps[at]);
    }
    if (fclose(file) != 0)
        fail("%s: %s", trace, strerror(errno));
}

static int signals(void)
{
    sigset_t all;
    sigemptyset(&all);
    sigaddset(&all, SIGTERM);
    sigaddset(&all, SIGINT);
    sigaddset(&all, SIGHUP);
    sigprocmask(SIG_BLOCK, &all, NULL);
    return signalfd(-1, &all, SFD_CLOEXEC);
}

/* Obeys until the input ends, a signal comes, or the kernel ends the scheduler. */
static void serve(void)
{
    struct ring_buffer *ring = NULL;
    struct pollfd both[] = { { .fd = 0, .events = POLLIN }, { .fd = signals(), .events = POLLIN } };
    if (trace)
        ring = ring_buffer__new(bpf_map__fd(program->maps.events), keep_step, NULL, NULL);
    while (poll(both, 2, 1000) >= 0 || errno == EINTR) {
        if (program->bss->exit_kind)
            fail("the kernel ended the scheduler (%llu): weights schedule again",
                 (u64)program->bss->exit_kind);
        if (both[1].revents || (both[0].revents && !take_input()))
            break;
    }
    /* (what ends with the scheduler is no step of the rule) */
    if (ring)
        ring_buffer__consume(ring);
    bpf_link__destroy(link_);
    if (ring)
        write_trace();
    fprintf(stderr, "arbiter-scheduler: ended after %llu plans; out of turn %llu, tasks unplanned"
        " %llu\n", plans, (u64)program->bss->late_turns, (u64)program->bss->unplanned);
}

int main(int count, char **words)
{
    if (count == 4 && strcmp(words[1], "--trace") == 0) {
        trace = words[2];
        words += 2;
        count -= 2;
    }
    if (count != 2 || words[1][0] == '-') {
        fputs("Usage: arbiter-scheduler [--trace FILE] TOP\n", stderr);
        return 2;
    }
    check_kernel();
    top = realpath(words[1], NULL);
    if (!top || strncmp(top, CGROUPS, strlen(CGROUPS)) != 0)
        fail("%s: no folder of " CGROUPS, words[1]);
    own_group = group_of_self();
    load();
    puts("ready");
    fflush(stdout);
    serve();
    plan__destroy(program);
    return 0;
}
