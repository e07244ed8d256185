/* What the two fuzzers count and refuse alike. FUZZER is the name of the one that includes this. */
#ifndef FUZZING_H
#define FUZZING_H

#include <stdio.h>
#include <stdlib.h>

/* How often each number was answered, and how many allocations were refused. */
static unsigned long answers[128], refused;

static void tell_answers(void)
{
    fprintf(stderr, "answers:");
    for (int number = 0; number < 128; number++)
        if (answers[number])
            fprintf(stderr, " %d:%lu", number, answers[number]);
    fprintf(stderr, "; allocations refused: %lu\n", refused);
}

static void demand(int holds, const char *what)
{
    if (!holds) {
        fprintf(stderr, FUZZER ": %s\n", what);
        abort();
    }
}

#endif
