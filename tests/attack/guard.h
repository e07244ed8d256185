/* Blocks between pages that nobody may touch, for arguments of the C library and for its own memory.
 *
 * The library's code is not instrumented, so AddressSanitizer does not see what it reads. Here a read or a write of one
 * byte before or behind a block ends the process. */
#ifndef GUARD_H
#define GUARD_H

#include <stddef.h>

/* A block that ends at a page that nobody may touch, or begins behind one. It is filled with 0xAA. None may be
 * touched of a block of no bytes. */
void *guard_block(size_t size, int begins);
void guard_drop(void *block);

/* What the library calls in place of malloc, realloc and free (tests/test_attack.py renames them in a copy of the archive). */
void *guarded_malloc(size_t size);
void *guarded_realloc(void *block, size_t size);
void guarded_free(void *block);

/* Blocks that the library has; which of its next allocations is refused, 0 for none; how many it asked for since. */
extern long guard_held, guard_refused, guard_asked;

#endif
