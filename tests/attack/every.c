/* Each call of the table python/arbiter/words.py with hostile words: `every MODE CALLS SEED`.
 *
 *   plain    once; prints the answers in a digest. What it may not change it has not changed
 *   refuse   once more for each of its allocations, which is refused: it answers 71 and changes nothing, or as before
 *   threads  by sixteen threads at once: each has the digest of one
 *
 * tests/test_attack.py makes calls.h of the table. Built with PLAIN, blocks are malloc's; otherwise they lie between guard
 * pages, the library's own too. 0 where all holds. */
#include "../../share/arbiter.h"

#include <stdint.h>
#include <stdio.h>
#include <stdlib.h>
#include <string.h>

#define MOST_WORDS 24
#define MOST_ROWS 40
#define THREADS 16
#define OUT_OF_MEMORY 71

/* A word of a call: its type, whether it is a column, is read and is written, and its name. */
struct kind {
    char type;
    int is_column, is_read, is_written;
    const char *name;
};

/* A word that is given: a number, or a block and its length. */
struct word {
    uint64_t number;
    void *block;
    size_t length, size;
};

struct call {
    const char *name;
    int words;
    const struct kind *kinds;
    uint64_t (*function)(const struct word *);
    /* whether it asks for no memory, and whether its answer is a fault's number */
    int is_plain, has_faults;
};

#include "calls.h"

#ifdef PLAIN
#include <pthread.h>
static long guard_held, guard_refused, guard_asked;
static void *guard_block(size_t size, int begins)
{
    char *block = malloc(size + 1);
    (void)begins;
    memset(block, 0xAA, size + 1);
    return block;
}
static void guard_drop(void *block)
{
    free(block);
}
#else
#include "guard.h"
#endif

/* Where numbers by chance are (splitmix64), from a seed of each call; whether a call has words that are right, most often. */
struct chance {
    uint64_t state;
    int is_tame;
};

static uint64_t next(struct chance *chance)
{
    uint64_t z = (chance->state += 0x9E3779B97F4A7C15ull);
    z = (z ^ (z >> 30)) * 0xBF58476D1CE4E5B9ull;
    z = (z ^ (z >> 27)) * 0x94D049BB133111EBull;
    return z ^ (z >> 31);
}

static const uint64_t edges[] = {0, 1, 2, 999, 1000, 10000, 10001, 1000000, 1000001, 16384, 1000000000000000ull,
                                 1000000000000001ull, UINT32_MAX, UINT64_MAX - 1, UINT64_MAX};

/* A number for a word: most are in the range of most words, some at an edge of one. */
static uint64_t number_for(const char *name, struct chance *chance)
{
    uint64_t each = next(chance);
    if (!strcmp(name, "times"))
        return each % 4;
    if (!chance->is_tame && each % 17 == 0)
        return edges[each / 17 % (sizeof edges / sizeof *edges)];
    each /= 17;
    if (!strcmp(name, "processors"))
        return 1 + each % (each % 3 ? 8 : 64);
    if (!strcmp(name, "period_us") || !strcmp(name, "own_period_us") || !strcmp(name, "periods"))
        return each % 3 ? 100000 : 1000 * (1 + each % 1000);
    if (!strcmp(name, "slice_us"))
        return each % 2 ? 1000 : 5000;
    /* most rows follow no formula: a row that does, and is not on the way of the group, refuses the call */
    if (!strcmp(name, "formulas"))
        return each % 40 ? 0 : each % 8;
    /* most goals are of the first rows, and their owner's row is the root, above each of them */
    if (!strcmp(name, "groups"))
        return each % 80 ? each % 2 : each % 30;
    if (!strcmp(name, "owners"))
        return each % 80 ? 0 : each % 30;
    if (!strcmp(name, "weights"))
        return 1 + each % 10000;
    if (!strcmp(name, "limits") || !strcmp(name, "limit") || !strcmp(name, "own"))
        return each % 2 ? ARBITER_NO_LIMIT : each % 400;
    if (!strcmp(name, "quotas") || !strcmp(name, "quota_us") || !strcmp(name, "allowed_us"))
        return each % 2 ? ARBITER_NO_LIMIT : 1000 * (1 + each % 400);
    if (!strcmp(name, "bursts") || !strcmp(name, "burst_us"))
        return each % 4 ? 0 : 1000;
    if (!strcmp(name, "goals") || !strcmp(name, "lowest"))
        return each % 4 ? 0 : each % 20;
    if (!strcmp(name, "passed_ns"))
        return 1000000000;
    if (strstr(name, "_ns") || !strcmp(name, "ran") || !strcmp(name, "waited"))
        return each % 1000000000;
    if (strstr(name, "_us"))
        return each % 1000000;
    return each % (each % 2 ? 30 : 3);
}

static const char *texts[] = {
    "bw 1 1 100000 5000 1\n- 100 max 0 0 0 -\n",
    "bw 1 1 100000 5000 3\n- 100 max 0 20 1 13/100@0\n0 100 max 20 7 0 -\n0 200 max 20 13 0 -\n",
    "bw 1 2 100000 5000 4\n- 100 max 0 20 0 39/100@0\n0 100 20 0 20 1 19/100@1\n1 100 15 30 10 1 -\n1 100 15 30 10 1 -\n",
    "mkdir a\nmkdir a/b\nwrite a cpu.max 50000\nwrite a/b cpu.weight 300\ndemand a/b 9\nperiod\ntotal\n",
    "mkdir g\nwrite g cpu.max 50000 100000\nwrite g cpu.max.burst 20000\ndemand g 3\nperiod\ndemand g 30\nperiod\nrmdir g\nx\n"};

static void put(const struct kind *kind, struct word *word, size_t at, uint64_t number)
{
    if (kind->type == 'B')
        ((uint8_t *)word->block)[at] = (uint8_t)number;
    else if (kind->type == 'I')
        memcpy((char *)word->block + 4 * at, &(uint32_t){(uint32_t)number}, 4);
    else
        memcpy((char *)word->block + 8 * at, &number, 8);
}

static size_t width_of(const struct kind *kind)
{
    return kind->type == 'B' ? 1 : kind->type == 'I' ? 4 : 8;
}

/* A text of a template in which some bytes are others. */
static void make_text(struct word *word, struct chance *chance)
{
    const char *text = texts[next(chance) % (sizeof texts / sizeof *texts)];
    word->length = word->size = strlen(text) - (next(chance) % 9 ? 0 : next(chance) % 9);
    word->block = guard_block(word->size, (int)(next(chance) % 2));
    memcpy(word->block, text, word->size);
    for (int edit = chance->is_tame ? 0 : 2; edit > 0; edit--)
        ((uint8_t *)word->block)[next(chance) % word->size] = (uint8_t)next(chance);
}

/* A column of so many rows, which may have another length than the others. */
static void make_column(const struct kind *kind, struct word *word, size_t rows, struct chance *chance)
{
    size_t length = chance->is_tame || next(chance) % 9 ? rows : next(chance) % (2 * MOST_ROWS);
    size_t inner = rows / 3 + 1;
    word->length = length;
    word->size = length * width_of(kind);
    word->block = guard_block(word->size, (int)(next(chance) % 2));
    for (size_t at = 0; kind->is_read && at < length; at++) {
        uint64_t number = number_for(kind->name, chance);
        if (!strcmp(kind->name, "parents"))
            number = !at ? ARBITER_NO_PARENT : chance->is_tame || next(chance) % 20 ? next(chance) % (at < inner ? at : inner) : number;
        /* flags are 0 or 1, and a row with children asks for nothing and has no hunger, most often */
        if (kind->type == 'B' && (chance->is_tame || next(chance) % 20))
            number %= 2;
        if ((!strcmp(kind->name, "demands") || !strcmp(kind->name, "used") || !strcmp(kind->name, "hungry")) && at < inner && (rows > 1 || number > 1))
            number = 0;
        put(kind, word, at, number);
    }
}

static void make(const struct call *call, struct word *words, struct chance *chance)
{
    size_t rows = next(chance) % 40 ? 1 + next(chance) % MOST_ROWS : next(chance) % 2 ? 0 : 500;
    for (int at = 0; at < call->words; at++) {
        const struct kind *kind = &call->kinds[at];
        words[at] = (struct word){0};
        if (kind->is_column && !strcmp(kind->name, "text"))
            make_text(&words[at], chance);
        else if (kind->is_column)
            make_column(kind, &words[at], rows, chance);
        else if (kind->is_written)
            words[at].block = guard_block(words[at].size = width_of(kind), (int)(next(chance) % 2));
        else
            words[at].number = kind->type == 'I' ? (uint32_t)number_for(kind->name, chance) : number_for(kind->name, chance);
    }
}

static void drop(const struct call *call, struct word *words)
{
    for (int at = 0; at < call->words; at++)
        guard_drop(words[at].block);
}

/* A copy of all blocks, one behind the other. */
static char *copy_of(const struct call *call, const struct word *words, char *copy)
{
    for (int at = 0; at < call->words; at++)
        if (words[at].block) {
            memcpy(copy, words[at].block, words[at].size);
            copy += words[at].size;
        }
    return copy;
}

static void put_back(const struct call *call, struct word *words, const char *copy)
{
    for (int at = 0; at < call->words; at++)
        if (words[at].block) {
            memcpy(words[at].block, copy, words[at].size);
            copy += words[at].size;
        }
}

static void fail(const struct call *call, uint64_t seed, const char *why)
{
    fprintf(stderr, "arbiter_%s, seed %llu: %s\n", call->name, (unsigned long long)seed, why);
    exit(1);
}

/* Whether blocks are as in a copy: those that a call may not change, or all. */
static int is_kept(const struct call *call, const struct word *words, const char *copy, int all)
{
    for (int at = 0; at < call->words; at++) {
        int counts = all || !call->kinds[at].is_written;
        if (words[at].block && counts && memcmp(words[at].block, copy, words[at].size))
            return 0;
        copy += words[at].block ? words[at].size : 0;
    }
    return 1;
}

static uint64_t digested(uint64_t digest, const char *data, size_t size)
{
    for (size_t at = 0; at < size; at++)
        digest = (digest ^ (uint8_t)data[at]) * 0x100000001B3ull;
    return digest;
}

#define COPY (MOST_WORDS * 8 * 600)

/* Whether a call tells where a fault is although it refuses. */
static int tells_row(const struct call *call)
{
    return !strncmp(call->name, "check", 5) || !strcmp(call->name, "refused_row") || !call->has_faults;
}

/* One call, and with `refuses` one more for each of its allocations. */
static uint64_t attack(const struct call *call, uint64_t seed, int refuses, uint64_t *made, uint64_t *accepted)
{
    struct word words[MOST_WORDS];
    struct chance chance = {seed * 0x2545F4914F6CDD1Dull + (uint64_t)(call - calls), 0};
    chance.is_tame = next(&chance) % 2;
    char *before = malloc(COPY), *after = malloc(COPY), *now = malloc(COPY);
    make(call, words, &chance);
    size_t size = (size_t)(copy_of(call, words, before) - before);
    guard_refused = guard_asked = 0;
    uint64_t answer = call->function(words);
    ++*made;
    *accepted += call->has_faults && answer == 0;
    if (!is_kept(call, words, before, 0))
        fail(call, seed, "what it may read alone is changed");
    if (call->has_faults && answer && !tells_row(call) && !is_kept(call, words, before, 1))
        fail(call, seed, "it refuses, and has written");
    char name[ARBITER_NAME_ROOM];
    if (call->has_faults && answer && !arbiter_name((uint32_t)answer, name, sizeof name))
        fail(call, seed, "its answer is none of the list");
    if (guard_held)
        fail(call, seed, "it keeps memory");
    copy_of(call, words, after);
    uint64_t digest = digested(digested(0xCBF29CE484222325ull, (char *)&answer, sizeof answer), after, size);
    long asked = guard_asked;
    if (call->is_plain && asked)
        fail(call, seed, "it asks for memory");
    for (long turn = 1; refuses && turn <= asked; turn += asked > 200 ? 1 + asked / 200 : 1) {
        put_back(call, words, before);
        guard_refused = turn;
        guard_asked = 0;
        uint64_t other = call->function(words);
        ++*made;
        int is_as_before = other == answer && (copy_of(call, words, now), !memcmp(now, after, size));
        if (!(other == OUT_OF_MEMORY && (is_kept(call, words, before, 1) || tells_row(call))) && !is_as_before)
            fail(call, seed, "an allocation that is refused changes its answer");
        if (guard_held)
            fail(call, seed, "it keeps memory where it was refused some");
    }
    drop(call, words);
    free(before);
    free(after);
    free(now);
    return digest;
}

struct run {
    uint64_t count, seed, digest, made, accepted[CALLS];
    int refuses;
};

static void *run(void *given)
{
    struct run *all = given;
    all->digest = all->made = 0;
    memset(all->accepted, 0, sizeof all->accepted);
    for (uint64_t at = 0; at < all->count; at++) {
        size_t which = at % CALLS;
        all->digest = all->digest * 31 + attack(&calls[which], all->seed + at / CALLS, all->refuses, &all->made, &all->accepted[which]);
    }
    return NULL;
}

int main(int count, char **words)
{
    if (count != 4)
        return 2;
    struct run one = {.count = strtoull(words[2], NULL, 10), .seed = strtoull(words[3], NULL, 10), .refuses = !strcmp(words[1], "refuse")};
    run(&one);
    uint64_t made = one.made;
#ifdef PLAIN
    if (!strcmp(words[1], "threads")) {
        static struct run each[THREADS];
        pthread_t threads[THREADS];
        for (int at = 0; at < THREADS; at++) {
            each[at] = (struct run){.count = one.count, .seed = one.seed};
            if (pthread_create(&threads[at], NULL, run, &each[at]))
                return 3;
        }
        for (int at = 0; at < THREADS; at++) {
            pthread_join(threads[at], NULL);
            made += each[at].made;
            if (each[at].digest != one.digest) {
                fprintf(stderr, "a thread has other answers\n");
                return 1;
            }
        }
    }
#endif
    printf("%llu calls, digest %016llx\n", (unsigned long long)made, (unsigned long long)one.digest);
    for (size_t at = 0; at < CALLS; at++)
        if (calls[at].has_faults)
            printf("%s %llu\n", calls[at].name, (unsigned long long)one.accepted[at]);
    return 0;
}
