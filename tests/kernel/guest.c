/* The guest's program. Times START, END and AT are nanoseconds of CLOCK_MONOTONIC.

   guest now                                  prints the clock
   guest until AT                             sleeps
   guest beat                                 makes the clock of the board beat 8192 times a second
   guest load NAME START END PERIOD NAP CPUS WORK..
   guest nice N load ..                       the same as a nice task
   guest in FILE load ..                      the same in the group of a file cgroup.procs: what it
                                              takes to begin is not the group's
   guest farm NAME START END WORK CPUS        jobs of WORK, each a new task, one after another
       One task. PERIOD, NAP and WORK are microseconds; CPUS is a mask of the processors that it may
       use. In the k-th period from START on it uses the k-th WORK of processor time, round and
       round, and then sleeps until the next period; what a period did not serve is dropped. With
       a NAP there are no periods: it uses the first WORK, sleeps for NAP, and so on, and prints
       `pieces NAME NUMBER MEDIAN LATE MOST`: how long a piece of work took from its waking on, in
       microseconds; 99 of 100 took no longer than LATE. At END it
       prints `task NAME HAD WANTED MET PERIODS MOVES SEEN..`: microseconds had and asked for, the
       periods that served all, how often it saw itself on another processor than before, and how
       often it saw itself on each processor.
   guest watch AT AT -- FILE..
       At each of two AT prints `at CLOCK`, and each FILE after a line `file NAME`. At the end
       prints `others NS OF`, the processor time of all tasks but loads in OF nanoseconds. That is
       read a while before the first AT and after the second one's files, so that it costs no time
       between them.
   guest grid START END FILE..
       Reads each cpu.stat once a millisecond, or as often as a quarter of the time allows; prints
       `grid FILE CLOCK` where nr_periods rose.
   guest end SIGNAL PROCESS FILE WORD
       Sends a signal. Prints `gone SIGNAL NS`: how long it took until FILE begins with WORD.
   guest writes FOLDER..
       Prints `ready`, and `wrote FOLDER/NAME` for each file of them that is written, if its name
       begins with `cpu.`: until it is killed.  */

#define _GNU_SOURCE
#include <dirent.h>
#include <errno.h>
#include <fcntl.h>
#include <limits.h>
#include <sched.h>
#include <signal.h>
#include <stdint.h>
#include <stdio.h>
#include <stdlib.h>
#include <string.h>
#include <sys/inotify.h>
#include <sys/io.h>
#include <sys/prctl.h>
#include <sys/resource.h>
#include <sys/wait.h>
#include <time.h>
#include <unistd.h>

#define MOST_PROCESSORS 64
#define MOST_FILES 64
#define MOST_TASKS 32768
#define MOST_PIECES 100000
#define MICRO 1000LL
#define MILLI 1000000LL
#define SECOND 1000000000LL
/* For so long no piece of work is told: tasks begin together.  */
#define SETTLED (3 * SECOND)
/* For so long after a time its counters are read: by then each processor has had a turn.  */
#define COUNTED (300 * MICRO)
/* For so long before the first time the time of others is read. That takes up to a third of a
   second where many tasks run on four processors.  */
#define EARLIER (600 * MILLI)
/* For so long what is to come of an end is waited for.  */
#define LONGEST (60 * SECOND)

static char text[1 << 20];
static int64_t seen[MOST_PROCESSORS];
static int moves;

static int64_t read_clock(clockid_t clock) {
    struct timespec now;
    clock_gettime(clock, &now);
    return now.tv_sec * SECOND + now.tv_nsec;
}

static void sleep_until(int64_t at) {
    struct timespec then = { at / SECOND, at % SECOND };
    while (clock_nanosleep(CLOCK_MONOTONIC, TIMER_ABSTIME, &then, NULL) == EINTR)
        ;
}

static const char *read_file(const char *name) {
    int file = open(name, O_RDONLY);
    ssize_t length = file < 0 ? 0 : read(file, text, sizeof text - 1);
    if (file >= 0)
        close(file);
    text[length < 0 ? 0 : length] = 0;
    return text;
}

/* Ahead of every task of the run.  */
static void go_first(void) {
    struct sched_param first = { .sched_priority = 50 };
    sched_setscheduler(0, SCHED_FIFO, &first);
}

/* Moves this task into a group.  */
static void enter(const char *name) {
    int file = open(name, O_WRONLY);
    if (file < 0 || write(file, "0", 1) != 1)
        perror("guest: cgroup.procs");
    if (file >= 0)
        close(file);
}

static void spin_until(int64_t at) {
    static int before = -1;
    int64_t now = read_clock(CLOCK_MONOTONIC);
    while (now < at) {
        for (volatile int i = 0; i < 200; i++)
            ;
        int processor = sched_getcpu();
        moves += before >= 0 && processor != before;
        before = processor;
        seen[processor % MOST_PROCESSORS]++;
        now = read_clock(CLOCK_MONOTONIC);
    }
}

/* Uses so much processor time from MARK on, or what there is until END. Returns the processor time
   at its end, which is the next mark: sleeping and waking count as work. What it had is never more
   than the time that passed, so a spin for what is missing does not overshoot.  */
static int64_t work_for(int64_t mark, int64_t work, int64_t end) {
    int64_t clock = read_clock(CLOCK_THREAD_CPUTIME_ID);
    while (clock - mark < work) {
        int64_t now = read_clock(CLOCK_MONOTONIC), until = now + work - (clock - mark);
        if (now >= end)
            break;
        spin_until(until < end ? until : end);
        clock = read_clock(CLOCK_THREAD_CPUTIME_ID);
    }
    return clock;
}

static void keep_to(uint64_t mask) {
    cpu_set_t set;
    CPU_ZERO(&set);
    for (int processor = 0; processor < MOST_PROCESSORS; processor++)
        if (mask >> processor & 1)
            CPU_SET(processor, &set);
    if (sched_setaffinity(0, sizeof set, &set) != 0)
        perror("guest: sched_setaffinity");
}

static void tell(const char *name, int64_t had, int64_t wanted, int64_t met, int64_t periods) {
    int length = sprintf(text, "task %s %lld %lld %lld %lld %d", name, (long long)(had / MICRO),
                         (long long)(wanted / MICRO), (long long)met, (long long)periods, moves);
    long processors = sysconf(_SC_NPROCESSORS_ONLN);
    for (int at = 0; at < processors && at < MOST_PROCESSORS; at++)
        length += sprintf(text + length, " %lld", (long long)seen[at]);
    length += sprintf(text + length, "\n");
    if (write(1, text, length) != length)
        exit(1);
}

static int64_t took[MOST_PIECES];
static int pieces;

static int by_size(const void *one, const void *other) {
    int64_t a = *(const int64_t *)one, b = *(const int64_t *)other;
    return (a > b) - (a < b);
}

static void tell_pieces(const char *name) {
    if (pieces == 0)
        return;
    qsort(took, pieces, sizeof *took, by_size);
    printf("pieces %s %d %lld %lld %lld\n", name, pieces, (long long)took[pieces / 2],
           (long long)took[pieces * 99 / 100], (long long)took[pieces - 1]);
    fflush(stdout);
}

static int load(int count, char **words) {
    if (count < 7)
        return 2;
    int64_t start = atoll(words[1]), end = atoll(words[2]), period = atoll(words[3]) * MICRO;
    int64_t nap = atoll(words[4]) * MICRO, wanted = 0, met = 0, periods = 0;
    int steps = count - 6;
    prctl(PR_SET_TIMERSLACK, 1);
    prctl(PR_SET_NAME, "load");
    keep_to(strtoull(words[5], NULL, 16));
    sleep_until(start);
    int64_t first = read_clock(CLOCK_THREAD_CPUTIME_ID), mark = first;
    for (int64_t at = start; at < end; periods++) {
        int64_t work = atoll(words[6 + periods % steps]) * MICRO, next = at + period;
        int64_t before = mark;
        if (nap) {
            mark = work_for(mark, work, end);
            int64_t now = read_clock(CLOCK_MONOTONIC);
            if (at > start + SETTLED && now < end && pieces < MOST_PIECES)
                took[pieces++] = (now - at) / MICRO;
            next = now + nap;
        } else if (work >= period) {
            spin_until(next); /* who asks for the whole period never sleeps in it */
        } else {
            mark = work_for(mark, work, next);
        }
        met += mark - before >= work;
        wanted += work;
        at = next;
        if (read_clock(CLOCK_MONOTONIC) < next)
            sleep_until(next);
    }
    tell_pieces(words[0]);
    tell(words[0], read_clock(CLOCK_THREAD_CPUTIME_ID) - first, wanted, met, periods);
    return 0;
}

static int farm(int count, char **words) {
    if (count < 5)
        return 2;
    int64_t start = atoll(words[1]), end = atoll(words[2]), work = atoll(words[3]) * MICRO;
    int64_t jobs = 0;
    prctl(PR_SET_TIMERSLACK, 1);
    prctl(PR_SET_NAME, "load");
    keep_to(strtoull(words[4], NULL, 16));
    sleep_until(start);
    for (; read_clock(CLOCK_MONOTONIC) < end; jobs++) {
        int job = fork();
        if (job == 0) {
            work_for(read_clock(CLOCK_THREAD_CPUTIME_ID), work, end);
            _exit(0);
        }
        if (job < 0 || waitpid(job, NULL, 0) < 0)
            return 1;
    }
    tell(words[0], jobs * work, jobs * work, jobs, jobs);
    return 0;
}

/* The processor time that all tasks but loads and this one used since the last call, of those that
   are still there. Only of those that used some the name is read: each file takes time.  */
static int64_t others(void) {
    static int64_t before[MOST_TASKS];
    static int is_later;
    int64_t sum = 0;
    DIR *tasks = opendir("/proc");
    for (struct dirent *task; tasks && (task = readdir(tasks));) {
        char name[300];
        int id = atoi(task->d_name);
        if (id <= 0 || id >= MOST_TASKS || id == getpid())
            continue;
        snprintf(name, sizeof name, "/proc/%d/schedstat", id);
        int64_t whole = atoll(read_file(name)), used = whole - before[id];
        if (whole)
            before[id] = whole;
        /* a load may end meanwhile, and then has no file */
        if (!is_later || !whole || !used)
            continue;
        snprintf(name, sizeof name, "/proc/%d/comm", id);
        const char *is = read_file(name);
        if (*is && strcmp(is, "load\n") != 0)
            sum += used;
    }
    if (tasks)
        closedir(tasks);
    is_later = 1;
    return sum;
}

/* A task's time is counted when it stops running, or else at a tick. So a task of the first class
   wakes on each processor at both times, and what runs there stops.  */
static void count_at(int64_t one, int64_t two) {
    long processors = sysconf(_SC_NPROCESSORS_ONLN);
    for (int at = 0; at < processors && at < MOST_PROCESSORS; at++)
        if (fork() == 0) {
            keep_to(1ULL << at);
            go_first();
            sleep_until(one);
            sleep_until(two);
            _exit(0);
        }
}

static size_t add_files(char *to, size_t size, int count, char **files) {
    size_t length = snprintf(to, size, "at %lld\n", (long long)read_clock(CLOCK_MONOTONIC));
    for (int at = 0; at < count; at++)
        length += snprintf(to + length, size - length, "file %s\n%s", files[at],
                           read_file(files[at]));
    return length;
}

/* In one call: what another process prints meanwhile comes before it or after it.  */
static int print_whole(const char *from, size_t length) {
    return write(1, from, length) != (ssize_t)length;
}

static int watch(int count, char **words) {
    static char made[1 << 22];
    const size_t size = sizeof made - 100;
    if (count < 4)
        return 2;
    int64_t begin = atoll(words[0]), end = atoll(words[1]);
    go_first();
    sleep_until(begin - EARLIER);
    int64_t from = read_clock(CLOCK_MONOTONIC);
    others();
    count_at(begin, end);
    sleep_until(begin + COUNTED);
    size_t length = add_files(made, size, count - 3, words + 3);
    sleep_until(end + COUNTED);
    length += add_files(made + length, size - length, count - 3, words + 3);
    int64_t of = read_clock(CLOCK_MONOTONIC) - from;
    length += sprintf(made + length, "others %lld %lld\n", (long long)others(), (long long)of);
    return print_whole(made, length);
}

static int grid(int count, char **words) {
    static long before[MOST_FILES];
    int64_t end = atoll(words[1]), at = atoll(words[0]);
    go_first();
    while (at < end) {
        sleep_until(at);
        int64_t began = read_clock(CLOCK_MONOTONIC);
        for (int file = 2; file < count && file < MOST_FILES; file++) {
            char *found = strstr(read_file(words[file]), "nr_periods ");
            long periods = found ? atol(found + 11) : 0;
            if (before[file] && periods > before[file])
                printf("grid %s %lld\n", words[file], (long long)began);
            before[file] = periods;
        }
        /* at most a quarter of the time: the kernel stops who runs first too long */
        int64_t now = read_clock(CLOCK_MONOTONIC), next = now + 3 * (now - began);
        at = next > at + MILLI ? next : at + MILLI;
    }
    return 0;
}

/* Ends a process, and waits for what is to come of it.  */
static int end(int number, int process, const char *file, const char *word) {
    go_first();
    int64_t began = read_clock(CLOCK_MONOTONIC), now = began;
    if (kill(process, number) != 0)
        return printf("gone %d never: %s\n", number, strerror(errno)) < 0;
    for (; strncmp(read_file(file), word, strlen(word)) != 0; now = read_clock(CLOCK_MONOTONIC)) {
        if (now > began + LONGEST)
            return printf("gone %d never\n", number) < 0;
        sleep_until(now + MILLI);
    }
    return printf("gone %d %lld\n", number, (long long)(now - began)) < 0;
}

/* Tells who writes. The kernel tells of each write, also of one that changes nothing.  */
static int writes(int count, char **folders) {
    char events[4096] __attribute__((aligned(8)));
    int watches = inotify_init();
    for (int at = 0; at < count; at++)
        if (inotify_add_watch(watches, folders[at], IN_MODIFY) != at + 1)
            return printf("wrote nothing: %s: %s\n", folders[at], strerror(errno)) < 0;
    setlinebuf(stdout);
    puts("ready");
    for (;;) {
        ssize_t length = read(watches, events, sizeof events);
        if (length <= 0)
            return 1;
        for (char *at = events; at < events + length;) {
            struct inotify_event *each = (struct inotify_event *)at;
            if (each->len && strncmp(each->name, "cpu.", 4) == 0)
                printf("wrote %s/%s\n", folders[each->wd - 1], each->name);
            at += sizeof *each + each->len;
        }
    }
}

/* An emulator that counts instructions runs one processor at a time, up to its next timer. The beat
   bounds these turns to an eighth of a millisecond. Nobody takes its interrupt.  */
static int beat(void) {
    enum { INDEX = 0x70, DATA = 0x71, RATE = 0x0a, CONTROL = 0x0b, BEAT_8192 = 0x23, IS_ON = 0x40 };
    if (iopl(3) != 0) {
        perror("guest: iopl");
        return 1;
    }
    outb(RATE, INDEX);
    outb(BEAT_8192, DATA);
    outb(CONTROL, INDEX);
    unsigned char control = inb(DATA);
    outb(CONTROL, INDEX);
    outb(control | IS_ON, DATA);
    return 0;
}

int main(int count, char **words) {
    if (count >= 2 && strcmp(words[1], "now") == 0)
        return printf("%lld\n", (long long)read_clock(CLOCK_MONOTONIC)) < 0;
    if (count == 2 && strcmp(words[1], "beat") == 0)
        return beat();
    if (count == 3 && strcmp(words[1], "until") == 0) {
        go_first();
        sleep_until(atoll(words[2]));
        return 0;
    }
    if (count >= 5 && strcmp(words[1], "in") == 0) {
        enter(words[2]);
        words += 2;
        count -= 2;
    }
    if (count >= 5 && strcmp(words[1], "nice") == 0) {
        if (setpriority(PRIO_PROCESS, 0, atoi(words[2])) != 0)
            perror("guest: setpriority");
        words += 2;
        count -= 2;
    }
    if (count >= 3 && strcmp(words[1], "load") == 0)
        return load(count - 2, words + 2);
    if (count >= 3 && strcmp(words[1], "farm") == 0)
        return farm(count - 2, words + 2);
    if (count >= 3 && strcmp(words[1], "watch") == 0)
        return watch(count - 2, words + 2);
    if (count >= 4 && strcmp(words[1], "grid") == 0)
        return grid(count - 2, words + 2);
    if (count == 6 && strcmp(words[1], "end") == 0)
        return end(atoi(words[2]), atoi(words[3]), words[4], words[5]);
    if (count >= 3 && strcmp(words[1], "writes") == 0)
        return writes(count - 2, words + 2);
    fprintf(stderr, "guest: now, until, beat, in, load, nice, farm, watch, grid, end or writes\n");
    return 2;
}
