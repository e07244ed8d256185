/* The calls of the C library by the checked build, for tests: each call is a line to a process, as scripts/calls has it.
 *
 * `./test --checked` makes libarbiter.so and libarbiter.a of this file. PROGRAM is what runs the checked build of the calls. */
#define _GNU_SOURCE
#include "../../share/arbiter.h"

#include <errno.h>
#include <pthread.h>
#include <stdio.h>
#include <stdlib.h>
#include <string.h>
#include <sys/types.h>
#include <unistd.h>

#define ROOM 65536

static pthread_mutex_t lock = PTHREAD_MUTEX_INITIALIZER;
/* The process that began the program, and the ends of its pipes. */
static pid_t owner;
static int to, from;
static char out[ROOM], in[ROOM];
static size_t out_length, in_length, in_at;

static void fail(const char *what)
{
    fprintf(stderr, "the checked build of the C library: %s\n", what);
    abort();
}

/* Starts the program, unless this process has: a child of the one that did has one of its own. */
static void begin(const char *name)
{
    int down[2], up[2];
    pid_t program;
    pthread_mutex_lock(&lock);
    if (owner != getpid()) {
        if (pipe(down) || pipe(up) || (program = fork()) < 0)
            fail("no process");
        if (program == 0) {
            if (setsid() < 0 || dup2(down[0], 0) < 0 || dup2(up[1], 1) < 0)
                _exit(127);
            for (int each = 3; each < 1024; each++)
                close(each);
            execl(PROGRAM, PROGRAM, (char *)0);
            _exit(127);
        }
        close(down[0]);
        close(up[1]);
        to = down[1];
        from = up[0];
        owner = getpid();
        out_length = in_length = in_at = 0;
    }
    out_length = strlen(name);
    memcpy(out, name, out_length);
}

static void flush(void)
{
    for (size_t done = 0; done < out_length;) {
        ssize_t count = write(to, out + done, out_length - done);
        if (count <= 0 && errno != EINTR)
            fail("it has ended");
        done += count > 0 ? (size_t)count : 0;
    }
    out_length = 0;
}

static void put(char before, uint64_t number)
{
    char digits[24];
    int length = snprintf(digits, sizeof digits, "%llu", (unsigned long long)number);
    if (out_length + 32 > ROOM)
        flush();
    out[out_length++] = before;
    memcpy(out + out_length, digits, (size_t)length);
    out_length += (size_t)length;
}

static void put_empty(void)
{
    if (out_length + 1 > ROOM)
        flush();
    out[out_length++] = ' ';
}

static int letter(void)
{
    if (in_at == in_length) {
        ssize_t count;
        do
            count = read(from, in, ROOM);
        while (count < 0 && errno == EINTR);
        if (count <= 0)
            fail("it has ended");
        in_at = 0;
        in_length = (size_t)count;
    }
    return in[in_at++];
}

/* Reads a number and the letter behind it. A word without a letter is an empty column. */
static uint64_t get(void)
{
    uint64_t number = 0;
    for (int next = letter(); next >= '0' && next <= '9'; next = letter())
        number = 10 * number + (uint64_t)(next - '0');
    return number;
}

static uint64_t sent_line(void)
{
    if (out_length + 1 > ROOM)
        flush();
    out[out_length++] = '\n';
    flush();
    return get();
}

/* What a call reads and what it writes goes into the line: a column is as it was where the call leaves it. */
#define COLUMN(column, length) \
    do { \
        if ((length) == 0) \
            put_empty(); \
        for (size_t each = 0; each < (length); each++) \
            put(each == 0 ? ' ' : ',', (uint64_t)(column)[each]); \
    } while (0)
/* A column of no number is an empty word. */
#define TOLD(column, length) \
    do { \
        if ((length) == 0) \
            get(); \
        for (size_t each = 0; each < (length); each++) \
            (column)[each] = get(); \
    } while (0)

#include "calls.h"
