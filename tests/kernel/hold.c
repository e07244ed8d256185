/* The inner part of `arbiterctl hold` in a guest, over the C library: Python would take a tenth of
   its time there. Nothing is put back.

   hold FIRST LAST INTERVAL PERIOD PROCESSORS WAYS TOP PATH..

   At FIRST and each INTERVAL nanoseconds later it reads cpu.stat of each leaf, asks
   `arbiter_reading`, `arbiter_hold` and `arbiter_written`, has the plan checked and writes cpu.max
   with a PERIOD of microseconds. WAYS has `w` for weights of the limits, `b` for a burst of a tenth
   of the quota, `-` for neither and `n` for nothing written. Each PATH is a group below TOP, after
   its parent. At LAST it prints, for each round and leaf, `held ROUND CLOCK PATH USED HUNGRY WANT
   PLAN LIMIT`: slices, and nanoseconds since FIRST. No limit is ARBITER_NO_LIMIT. */

#define _GNU_SOURCE
#include <arbiter.h>
#include <errno.h>
#include <fcntl.h>
#include <sched.h>
#include <stdint.h>
#include <stdio.h>
#include <stdlib.h>
#include <string.h>
#include <time.h>
#include <unistd.h>

#define MOST 64
#define MOST_TASKS 32768
#define SLICE 1000
#define MOST_WEIGHT 10000
#define EVERYTHING 1000000

struct group {
    const char *path;
    char own[64];        /* the text of its cpu.max at the beginning */
    uint64_t own_quota;  /* its quota and period; the quota is 0 for no limit */
    uint64_t own_period;
    uint64_t quota;      /* the quota that was written last, 0 while its own stands */
    long weight;         /* the weight that was written last */
    int is_leaf, is_limited;
    long long usage, throttled, waited;
};

/* Nanoseconds that a task ran and waited, and the round in which they were read. */
struct task {
    long long ran, waited;
    int round;
};

static struct group groups[MOST];
static struct task tasks[MOST_TASKS];
static uint32_t parents[MOST], places[MOST];
static uint64_t weights[MOST], limits[MOST], used[MOST], held[MOST], demands[MOST], amounts[MOST];
static uint64_t asked[MOST], nums[MOST], dens[MOST], quotas[MOST], leaf_weights[MOST];
static uint32_t hungry[MOST], guess[MOST];
/* Whether a leaf asks for everything. */
static uint8_t for_all[MOST], flags[MOST];
/* What each task of a group did in a round that was there at both of its ends. */
static uint64_t ran[MOST_TASKS], stood[MOST_TASKS];
static size_t count = 1;
static const char *top;
static uint64_t processors, period;
static char text[1 << 16], told[1 << 20];
static size_t length;

static int64_t now(void) {
    struct timespec at;
    clock_gettime(CLOCK_MONOTONIC, &at);
    return at.tv_sec * 1000000000LL + at.tv_nsec;
}

static void sleep_until(int64_t at) {
    struct timespec then = { at / 1000000000LL, at % 1000000000LL };
    while (clock_nanosleep(CLOCK_MONOTONIC, TIMER_ABSTIME, &then, NULL) == EINTR)
        ;
}

static void fail(const char *what, const char *of) {
    printf("refused hold %s %s\n", what, of);
    exit(1);
}

static int opened(const char *path, const char *file, int way) {
    char name[512];
    snprintf(name, sizeof name, "%s/%s/%s", top, path, file);
    int found = open(name, way);
    if (found < 0)
        fail("open", name);
    return found;
}

static const char *get(const char *path, const char *file) {
    int from = opened(path, file, O_RDONLY);
    ssize_t read_in = read(from, text, sizeof text - 1);
    close(from);
    text[read_in < 0 ? 0 : read_in] = 0;
    return text;
}

static void put(const char *path, const char *file, const char *line) {
    int to = opened(path, file, O_WRONLY);
    if (write(to, line, strlen(line)) < 0)
        fail(file, line);
    close(to);
}

static long long number_behind(const char *from, const char *key) {
    const char *at = strstr(from, key);
    return at ? atoll(at + strlen(key)) : 0;
}

static uint32_t row_of(const char *path, size_t size) {
    for (size_t row = 1; row < count; row++)
        if (strlen(groups[row].path) == size && strncmp(groups[row].path, path, size) == 0)
            return row;
    return 0;
}

static void add(const char *path) {
    struct group *group = &groups[count];
    const char *last = strrchr(path, '/');
    if (count == MOST)
        fail("groups", path);
    group->path = path;
    group->is_leaf = 1;
    parents[count] = last ? row_of(path, last - path) : 0;
    groups[parents[count]].is_leaf = 0;
    group->weight = weights[count] = atol(get(path, "cpu.weight"));
    snprintf(group->own, sizeof group->own, "%.63s", get(path, "cpu.max"));
    group->own[strcspn(group->own, "\n")] = 0;
    limits[count] = ARBITER_NO_LIMIT;
    group->is_limited =
        sscanf(group->own, "%lu %lu", &group->own_quota, &group->own_period) == 2;
    if (group->is_limited
        && arbiter_slices(processors, period, SLICE, group->own_quota, group->own_period,
                          &limits[count]) != 0)
        fail("quota", path);
    count++;
}

/* Reads the tasks of a group. Returns their number, and sets how many were there before. */
static uint32_t read_tasks(const char *path, int round, size_t *seen) {
    static char list[1 << 16];
    uint32_t there = 0;
    *seen = 0;
    snprintf(list, sizeof list, "%s", get(path, "cgroup.threads"));
    for (char *at = list; *at; at = strchr(at, '\n') + 1) {
        int id = atoi(at);
        char name[64];
        if (id <= 0 || id >= MOST_TASKS)
            continue;
        snprintf(name, sizeof name, "/proc/%d/schedstat", id);
        int from = open(name, O_RDONLY);
        ssize_t size = from < 0 ? 0 : read(from, text, sizeof text - 1);
        struct task *task = &tasks[id], now = { .round = round };
        if (from >= 0)
            close(from);
        text[size < 0 ? 0 : size] = 0;
        if (sscanf(text, "%lld %lld", &now.ran, &now.waited) != 2)
            continue;
        if (task->round == round - 1 && now.ran >= task->ran && now.waited >= task->waited) {
            ran[*seen] = now.ran - task->ran;
            stood[(*seen)++] = now.waited - task->waited;
        }
        there++;
        *task = now;
    }
    return there;
}

/* Microseconds that the limit which stands in a group allowed in so much time. */
static uint64_t allowed(const struct group *group, uint64_t passed) {
    uint64_t quota = group->quota ? group->quota : group->own_quota;
    uint64_t of = group->quota ? period : group->own_period;
    return quota ? quota * (passed / 1000) / of : ARBITER_NO_LIMIT;
}

/* What is read of the leaf of a row in a round in which so much time passed. */
static void read_leaf(struct group *group, size_t row, int round, int64_t passed) {
    const char *stat = get(group->path, "cpu.stat");
    long long usage = number_behind(stat, "usage_usec ");
    long long throttled = number_behind(stat, "nr_throttled ");
    long long waited = number_behind(get(group->path, "cpu.pressure"), "total=");
    size_t seen;
    uint32_t there = read_tasks(group->path, round, &seen);
    if (passed
        && arbiter_reading(processors, period, SLICE, passed, usage - group->usage,
                           waited - group->waited, there,
                           group->is_limited && throttled > group->throttled,
                           allowed(group, passed), ran, seen, stood, seen, &used[row],
                           &asked[row], &hungry[row], &guess[row]) != 0)
        fail("reading", group->path);
    for_all[row] = asked[row] == EVERYTHING;
    if (for_all[row])
        asked[row] = used[row];
    group->usage = usage;
    group->throttled = throttled;
    group->waited = waited;
}

static void read_groups(int round, int64_t passed) {
    for (size_t row = 1; row < count; row++)
        if (groups[row].is_leaf)
            read_leaf(&groups[row], row, round, passed);
}

static void ask(void) {
    uint32_t row = 0;
    uint32_t answer = arbiter_hold(processors, period, SLICE, parents, count, weights, count,
                                   limits, count, asked, count, for_all, count, held, count,
                                   demands, count, amounts, count, flags, count, nums, count,
                                   dens, count, places, count);
    if (answer == 0)
        answer = arbiter_check(processors, period, SLICE, parents, count, weights, count, limits,
                               count, demands, count, amounts, count, flags, count, nums, count,
                               dens, count, places, count, &row);
    if (answer != 0) {
        char number[20];
        snprintf(number, sizeof number, "%u", answer);
        fail("answer", number);
    }
}

static void write_limit(struct group *group, size_t row, int has_burst) {
    uint64_t quota = quotas[row];
    int is_own = quota == ARBITER_NO_LIMIT;
    char line[64] = "", burst[32];
    if (group->quota == (is_own ? 0 : quota))
        return;
    snprintf(line, sizeof line, "%lu %lu", quota, period);
    snprintf(burst, sizeof burst, "%lu", quota / 10);
    if (has_burst)
        put(group->path, "cpu.max.burst", "0");
    put(group->path, "cpu.max", is_own ? group->own : line);
    if (has_burst && !is_own)
        put(group->path, "cpu.max.burst", burst);
    group->quota = is_own ? 0 : quota;
    group->is_limited = 1;
}

static uint64_t tasks_in(const char *path) {
    uint64_t lines = 0;
    for (const char *at = get(path, "cgroup.procs"); *at; at++)
        lines += *at == '\n';
    return lines ? lines : 1;
}

/* Whether each leaf keeps its own limit: a round that holds nobody. */
static int is_calm(void) {
    for (size_t row = 1; row < count; row++)
        if (groups[row].is_leaf && held[row] != limits[row])
            return 0;
    return 1;
}

/* Writes weights of the limits, or the own ones in a round that holds nobody. */
static void write_weights(int are_own) {
    uint64_t sums[MOST] = { 0 };
    for (size_t row = count - 1; row >= 1; row--) {
        if (groups[row].is_leaf)
            sums[row] = leaf_weights[row];
        if (sums[row] > MOST_WEIGHT)
            sums[row] = MOST_WEIGHT;
        sums[parents[row]] += sums[row];
    }
    for (size_t row = 1; row < count; row++) {
        char line[32];
        uint64_t weight = are_own ? weights[row] : sums[row];
        if ((long)weight == groups[row].weight)
            continue;
        snprintf(line, sizeof line, "%lu", weight);
        put(groups[row].path, "cpu.weight", line);
        groups[row].weight = weight;
    }
}

/* The quota and the weight that are written for a limit. None is the own one. */
static void ask_written(size_t row) {
    quotas[row] = ARBITER_NO_LIMIT;
    leaf_weights[row] = weights[row];
    if (held[row] != ARBITER_NO_LIMIT
        && arbiter_written(processors, period, SLICE, held[row], limits[row], groups[row].quota,
                           tasks_in(groups[row].path), &quotas[row], &leaf_weights[row]) != 0)
        fail("limit", groups[row].path);
}

static void round_at(int number, int64_t since, const char *ways) {
    ask();
    for (size_t row = 1; row < count; row++) {
        if (!groups[row].is_leaf)
            continue;
        ask_written(row);
        if (!strchr(ways, 'n'))
            write_limit(&groups[row], row, strchr(ways, 'b') != NULL);
        if (length < sizeof told - 400)
            length += snprintf(told + length, sizeof told - length,
                               "held %d %lld %.200s %lu %u %lu %lu %lu\n", number,
                               (long long)since, groups[row].path, used[row], hungry[row],
                               demands[row], amounts[row], held[row]);
    }
    if (strchr(ways, 'w'))
        write_weights(is_calm());
}

int main(int words, char **word) {
    if (words < 9)
        return 2;
    int64_t first = atoll(word[1]), last = atoll(word[2]), interval = atoll(word[3]), before = 0;
    period = atoll(word[4]);
    processors = atoll(word[5]);
    top = word[7];
    parents[0] = ARBITER_NO_PARENT;
    weights[0] = 100;
    limits[0] = ARBITER_NO_LIMIT;
    for (int at = 8; at < words; at++)
        add(word[at]);
    struct sched_param priority = { .sched_priority = 50 };
    sched_setscheduler(0, SCHED_FIFO, &priority);
    for (int number = 0; first + number * interval < last; number++) {
        sleep_until(first + number * interval);
        int64_t at = now();
        read_groups(number + 1, before ? at - before : 0);
        if (before)
            round_at(number, at - first, word[6]);
        before = at;
    }
    sleep_until(last + 100000000);
    return write(1, told, length) != (ssize_t)length;
}
