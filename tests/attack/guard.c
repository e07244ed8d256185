#define _GNU_SOURCE
#include "guard.h"

#include <stdint.h>
#include <stdio.h>
#include <stdlib.h>
#include <string.h>
#include <sys/mman.h>

#define PAGE 4096ul
#define KEPT_PAGES 64

/* The head of a region: one page, then a page that nobody may touch, the block's pages, and another such page. */
struct region {
    struct region *next;
    size_t pages, size;
};

long guard_held, guard_refused, guard_asked;
static struct region *kept[KEPT_PAGES + 1];

static struct region *made(size_t pages)
{
    char *start = mmap(NULL, (pages + 3) * PAGE, PROT_READ | PROT_WRITE, MAP_PRIVATE | MAP_ANONYMOUS, -1, 0);

    if (start == MAP_FAILED || mprotect(start + PAGE, PAGE, PROT_NONE) || mprotect(start + (pages + 2) * PAGE, PAGE, PROT_NONE)) {
        fprintf(stderr, "guard: no memory\n");
        abort();
    }
    struct region *region = (struct region *)start;
    region->pages = pages;
    return region;
}

static char *data_of(struct region *region)
{
    return (char *)region + 2 * PAGE;
}

static struct region *region_of(void *block)
{
    return (struct region *)(((uintptr_t)block & ~(PAGE - 1)) - 2 * PAGE);
}

void *guard_block(size_t size, int begins)
{
    size_t pages = size ? (size + PAGE - 1) / PAGE : 1;
    struct region *region = pages <= KEPT_PAGES ? kept[pages] : NULL;

    if (region)
        kept[pages] = region->next;
    else
        region = made(pages);
    region->size = size;
    memset(data_of(region), 0xAA, pages * PAGE);
    if (!size)
        mprotect(data_of(region), pages * PAGE, PROT_NONE);
    /* A block of no bytes at its end would lie on the page behind it, of which its head cannot be told. */
    return data_of(region) + (begins || !size ? 0 : pages * PAGE - size);
}

void guard_drop(void *block)
{
    if (!block)
        return;
    struct region *region = region_of(block);
    if (region->pages > KEPT_PAGES) {
        munmap(region, (region->pages + 3) * PAGE);
        return;
    }
    if (!region->size)
        mprotect(data_of(region), region->pages * PAGE, PROT_READ | PROT_WRITE);
    /* What is read of it from now on is no number of anything. */
    memset(data_of(region), 0xDD, region->pages * PAGE);
    region->next = kept[region->pages];
    kept[region->pages] = region;
}

static int is_refused(void)
{
    return ++guard_asked == guard_refused;
}

void *guarded_malloc(size_t size)
{
    if (is_refused())
        return NULL;
    guard_held++;
    return guard_block(size, 0);
}

void *guarded_realloc(void *block, size_t size)
{
    if (!block)
        return guarded_malloc(size);
    if (is_refused())
        return NULL;
    struct region *region = region_of(block);
    void *moved = guard_block(size, 0);
    memcpy(moved, block, region->size < size ? region->size : size);
    guard_drop(block);
    return moved;
}

void guarded_free(void *block)
{
    guard_held -= block != NULL;
    guard_drop(block);
}
