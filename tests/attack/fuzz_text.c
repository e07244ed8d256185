/* libFuzzer on arbiter_check_text and arbiter_script. Every sixteenth input has one of its allocations refused. */
#include "../../share/arbiter.h"
#include "guard.h"
#define FUZZER "fuzz_text"
#include "fuzzing.h"

#include <string.h>

#define MARK 0x5a5a5a5au

/* The library's own branches are not counted, so answers and rows are: libFuzzer keeps an input with a new one. */
__attribute__((section("__libfuzzer_extra_counters"))) static uint8_t seen[128 * 64];

static int is_answer(uint32_t answer)
{
    return answer <= 10 || (answer >= 40 && answer <= 43) || (answer >= 51 && answer <= 58) || answer == 71;
}

/* The answer for a text, each time with the whole text between guard pages. */
static uint32_t asked(const uint8_t *data, size_t size, int begins, uint32_t *row)
{
    uint8_t *text = guard_block(size, begins);

    memcpy(text, data, size);
    *row = MARK;
    uint32_t answer = arbiter_check_text(text, size, row);
    demand(is_answer(answer), "an answer that the header does not have");
    demand(guard_held == 0, "a block that is not given back");
    demand(!memcmp(text, data, size), "the text was written");
    demand((answer >= 51 && answer <= 58) == (*row != MARK), "row is not written as the header says");
    guard_drop(text);
    return answer;
}

/* The columns of a script: parents, seven of numbers, names, refused lines and their faults, and what stands in their entries. */
enum { COLUMNS = 11, NAMES = 8, LINES = 9, FAULTS = 10 };
static const size_t sizes[COLUMNS] = {4, 8, 8, 8, 8, 8, 8, 8, 1, 8, 4};

struct script {
    size_t lengths[COLUMNS];
    void *columns[COLUMNS];
    uint32_t count;
    uint64_t names_count, refused_count;
};

/* Reads the text into room for so many groups, bytes of names and refused lines. */
static uint32_t read_script(struct script *into, const uint8_t *text, size_t size, size_t groups, size_t names, size_t lines, uint64_t key)
{
    void **c = into->columns;
    size_t *n = into->lengths;

    for (int each = 0; each < COLUMNS; each++) {
        n[each] = each < NAMES ? groups : each == NAMES ? names : lines;
        c[each] = memset(guard_block(n[each] * sizes[each], each % 2), 0x5a, n[each] * sizes[each]);
    }
    into->count = MARK, into->names_count = into->refused_count = MARK;
    uint32_t answer = arbiter_script(2, 100000, 5000, key, text, size, c[0], n[0], c[1], n[1], c[2], n[2], c[3], n[3], c[4], n[4], c[5], n[5],
                                     c[6], n[6], c[7], n[7], c[8], n[8], c[9], n[9], c[10], n[10], &into->count, &into->names_count, &into->refused_count);
    demand(guard_held == 0, "a script leaves a block that is not given back");
    return answer;
}

static void drop_script(struct script *script)
{
    for (int each = 0; each < COLUMNS; each++)
        guard_drop(script->columns[each]);
}

/* Nothing is written behind so many entries of each column. */
static int is_rest_marked(const struct script *script, size_t groups, size_t names, size_t lines)
{
    for (int each = 0; each < COLUMNS; each++) {
        size_t used = each < NAMES ? groups : each == NAMES ? names : lines;
        for (size_t at = used * sizes[each]; at < script->lengths[each] * sizes[each]; at++)
            if (((const uint8_t *)script->columns[each])[at] != 0x5a)
                return 0;
    }
    return 1;
}

/* Rows that have a plan, a name for each, refused lines in order; the same in exact room, nothing in less, whatever the key. */
static void as_script(const uint8_t *data, size_t size, uint64_t key)
{
    struct script all, exact, less;
    size_t lines = 1, ends = 0;
    uint32_t row;
    uint8_t *text = memcpy(guard_block(size, 0), data, size);

    for (size_t at = 0; at < size; at++)
        lines += data[at] == '\n';
    uint32_t answer = read_script(&all, text, size, lines + 1, size + 1, lines, key);
    demand(answer == 0 || (answer == 71 && guard_refused), "no answer for a script");
    if (answer) {
        demand(is_rest_marked(&all, 0, 0, 0) && all.count == MARK && all.names_count == MARK && all.refused_count == MARK, "a refused script wrote");
    } else {
        size_t n = all.count, names = all.names_count, refused_lines = all.refused_count;
        demand(n && n <= lines + 1 && names <= size + 1 && refused_lines <= lines && is_rest_marked(&all, n, names, refused_lines), "more than there is room for");
        demand(arbiter_refused_row(all.columns[0], n, all.columns[1], n, all.columns[2], n, all.columns[3], n, &row) == 0, "rows without a plan");
        for (size_t at = 0; at < names; at++)
            ends += ((char *)all.columns[NAMES])[at] == '\n';
        demand(ends == n && ((char *)all.columns[NAMES])[names - 1] == '\n', "other names");
        for (size_t at = 0; at < refused_lines; at++) {
            uint64_t *line = all.columns[LINES];
            uint32_t *fault = all.columns[FAULTS];
            demand(line[at] > (at ? line[at - 1] : 0) && line[at] <= lines && fault[at] >= 7 && fault[at] <= 82, "other refused lines");
            seen[fault[at] * 64 + 63] = 1;
        }
        if (!guard_refused) {
            demand(read_script(&exact, text, size, n, names, refused_lines, ~key) == 0 && exact.count == n, "no answer in exact room");
            for (int each = 0; each < COLUMNS; each++)
                demand(!memcmp(exact.columns[each], all.columns[each], exact.lengths[each] * sizes[each]), "another answer by another key");
            drop_script(&exact);
            demand(read_script(&less, text, size, n - (key % 2), names - !(key % 2), refused_lines, key) == 50 && is_rest_marked(&less, 0, 0, 0)
                       && less.count == MARK && less.names_count == MARK && less.refused_count == MARK, "too little room");
            drop_script(&less);
        }
    }
    demand(!memcmp(text, data, size), "the script was written");
    drop_script(&all);
    guard_drop(text);
}

int LLVMFuzzerTestOneInput(const uint8_t *data, size_t size)
{
    static unsigned long turn;
    uint32_t row, again;

    if (!turn++)
        atexit(tell_answers);
    guard_refused = 0;
    guard_asked = 0;
    uint32_t answer = asked(data, size, 0, &row);
    long many = guard_asked;
    answers[answer]++;
    seen[answer * 64 + (answer > 50 && answer < 59 ? row % 64 : 0)] = 1;
    demand(asked(data, size, 1, &again) == answer && again == row, "two answers for one text");
    guard_asked = 0;
    as_script(data, size, turn);
    long of_script = guard_asked;
    if (answer == 0) {
        demand(asked(data, size - 1, 0, &again) != 0, "a text without its last newline is accepted");
        uint8_t *longer = malloc(size + 1);
        memcpy(longer, data, size);
        longer[size] = 'x';
        demand(asked(longer, size + 1, 0, &again) == 43, "a text with a letter behind it is accepted");
        free(longer);
    }
    if (turn % 16 == 0 && many) {
        refused++;
        guard_asked = 0;
        guard_refused = 1 + (long)(turn / 16) % many;
        uint32_t other = asked(data, size, 0, &again);
        demand(other == 71 || (other == answer && again == row), "another answer where memory was refused");
        guard_asked = 0;
        guard_refused = 1 + (long)(turn / 16) % (of_script ? of_script : 1);
        as_script(data, size, turn);
        guard_refused = 0;
    }
    return 0;
}
