/* A crowd of tasks in a guest, and what groups use meanwhile.

   crowd FILE SLEEPERS BUSY START END
       Enters the group of a file cgroup.procs, and makes SLEEPERS threads that sleep for ever. Then
       prints `crowd MADE NS`: how many there are, and how long that took. BUSY processes of it, made
       after these, use what they get from START to END. The first ones print `busy NAME HAD`:
       microseconds of processor time. The threads go then.
   crowd uses AT TIMES FILE..
       Prints `uses CLOCK US..` once a second, from AT on: what the group of each cpu.stat has used.
       It goes before all tasks.

   crowd takes CPU ON_MS OFF_MS START END
       Has a CPU for itself as a real-time task: for ON_MS, after OFF_MS without it, and so on.
       Prints `took NS`.

   START, END, AT and CLOCK are nanoseconds of CLOCK_MONOTONIC.  */
#define _GNU_SOURCE
#include <fcntl.h>
#include <sched.h>
#include <signal.h>
#include <stdint.h>
#include <stdio.h>
#include <stdlib.h>
#include <string.h>
#include <sys/mman.h>
#include <sys/syscall.h>
#include <sys/wait.h>
#include <time.h>
#include <unistd.h>

#define MILLI 1000000LL
#define SECOND 1000000000LL
#define STACK 4096
#define MOST_TOLD 4

static int64_t read_clock(clockid_t clock) {
    struct timespec now;
    clock_gettime(clock, &now);
    return now.tv_sec * SECOND + now.tv_nsec;
}

static void sleep_until(int64_t at) {
    struct timespec then = { at / SECOND, at % SECOND };
    while (clock_nanosleep(CLOCK_MONOTONIC, TIMER_ABSTIME, &then, NULL) != 0)
        ;
}

/* A thread: no more than a call that never returns, so it needs little of a stack.  */
static int sleep_for_ever(void *nothing) {
    for (;;)
        syscall(SYS_pause);
    return nothing != NULL;
}

/* Makes so many threads. Returns how many there are.  */
static int sleepers(int count) {
    const int flags = CLONE_VM | CLONE_FS | CLONE_FILES | CLONE_SIGHAND | CLONE_THREAD;
    char *stacks = mmap(NULL, (size_t)count * STACK, PROT_READ | PROT_WRITE,
                        MAP_PRIVATE | MAP_ANONYMOUS | MAP_NORESERVE, -1, 0);
    for (int at = 0; at < count; at++)
        if (stacks == MAP_FAILED
            || clone(sleep_for_ever, stacks + (size_t)(at + 1) * STACK, flags, NULL) < 0) {
            perror("crowd: a thread");
            return at;
        }
    return count;
}

static void use(int name, int64_t start, int64_t end) {
    sleep_until(start);
    int64_t before = read_clock(CLOCK_PROCESS_CPUTIME_ID);
    while (read_clock(CLOCK_MONOTONIC) < end)
        for (volatile int i = 0; i < 200; i++)
            ;
    if (name < MOST_TOLD)
        printf("busy %d %lld\n", name,
               (long long)(read_clock(CLOCK_PROCESS_CPUTIME_ID) - before) / 1000);
    fflush(stdout);
    _exit(0);
}

static int crowd(char **words) {
    int file = open(words[0], O_WRONLY), busy = atoi(words[2]);
    int64_t began = read_clock(CLOCK_MONOTONIC);
    if (file < 0 || write(file, "0", 1) != 1)
        perror("crowd: cgroup.procs");
    int made = sleepers(atoi(words[1]));
    printf("crowd %d %lld\n", made, (long long)(read_clock(CLOCK_MONOTONIC) - began));
    fflush(stdout);
    for (int at = 0; at < busy; at++)
        if (fork() == 0)
            use(at, atoll(words[3]), atoll(words[4]));
    while (wait(NULL) > 0)
        ;
    sleep_until(atoll(words[4]));
    _exit(0);
}

static int uses(int count, char **words) {
    struct sched_param first = { .sched_priority = 50 };
    sched_setscheduler(0, SCHED_FIFO, &first);
    for (int time = 0; time < atoi(words[1]); time++) {
        char line[1000];
        sleep_until(atoll(words[0]) + time * SECOND);
        int length = sprintf(line, "uses %lld", (long long)read_clock(CLOCK_MONOTONIC));
        for (int at = 2; at < count && at < 20; at++) {
            char text[100] = "";
            int file = open(words[at], O_RDONLY);
            if (file < 0 || read(file, text, sizeof text - 1) < 11)
                return 1;
            close(file);
            length += sprintf(line + length, " %lld", atoll(text + 11));
        }
        puts(line);
        fflush(stdout);
    }
    return 0;
}

static int takes(char **words) {
    struct sched_param first = { .sched_priority = 40 };
    int64_t on = atoll(words[1]) * MILLI, off = atoll(words[2]) * MILLI;
    int64_t at = atoll(words[3]), took = 0;
    cpu_set_t set;
    CPU_ZERO(&set);
    CPU_SET(atoi(words[0]), &set);
    if (sched_setaffinity(0, sizeof set, &set) || sched_setscheduler(0, SCHED_FIFO, &first))
        perror("crowd: takes");
    while ((at += off) < atoll(words[4])) {
        sleep_until(at);
        int64_t from = read_clock(CLOCK_MONOTONIC), now = from;
        for (at += on; now < at; now = read_clock(CLOCK_MONOTONIC))
            ;
        took += now - from;
    }
    return printf("took %lld\n", (long long)took) < 0;
}

int main(int count, char **words) {
    if (count == 7 && strcmp(words[1], "takes") == 0)
        return takes(words + 2);
    if (count > 4 && strcmp(words[1], "uses") == 0)
        return uses(count - 2, words + 2);
    if (count == 6)
        return crowd(words + 1);
    return 2;
}
