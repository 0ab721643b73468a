/* Memory that is lent to a call: a region between two pages that cannot be read. */
#define _GNU_SOURCE
#include "lent.h"

#include <stdio.h>
#include <stdlib.h>
#include <string.h>
#include <sys/mman.h>

#define PAGE ((size_t)4096)
#define MARGIN ((size_t)64)
#define MARGIN_BYTE 0xA5

static void make_region(struct lent *slice)
{
    size_t size = LENT_MOST + PAGE;
    uint8_t *pages = mmap(NULL, size + 2 * PAGE, PROT_NONE, MAP_PRIVATE | MAP_ANONYMOUS, -1, 0);
    require(pages != MAP_FAILED, "memory for a region");
    slice->region = pages + PAGE;
    require(mprotect(slice->region, size, PROT_READ | PROT_WRITE) == 0, "a region to write in");
    slice->before = malloc(LENT_MOST);
    require(slice->before != NULL, "memory for a copy");
}

/* Puts the slice at one end of its region, beside a margin. */
static void place(struct lent *slice, size_t len, uint8_t seed)
{
    require(len <= LENT_MOST, "a slice of a region's size");
    if (slice->region == NULL)
        make_region(slice);
    slice->len = len;
    if (seed & 1) {
        slice->bytes = slice->region + LENT_MOST + PAGE - len;
        memset(slice->bytes - MARGIN, MARGIN_BYTE, MARGIN);
    } else {
        slice->bytes = slice->region;
        memset(slice->bytes + len, MARGIN_BYTE, MARGIN);
    }
}

void lend(struct lent *slice, size_t len, uint8_t seed)
{
    place(slice, len, seed);
    uint32_t state = seed * 2654435761u + 1;
    for (size_t i = 0; i < len; i++) {
        state = state * 1664525u + 1013904223u;
        slice->bytes[i] = (uint8_t)(state >> 24);
    }
    remember(slice);
}

void lend_copy(struct lent *slice, const uint8_t *bytes, size_t len, uint8_t seed)
{
    place(slice, len, seed);
    if (len > 0)
        memcpy(slice->bytes, bytes, len);
    remember(slice);
}

void remember(struct lent *slice)
{
    memcpy(slice->before, slice->bytes, slice->len);
}

int kept(const struct lent *slice)
{
    return kept_from(slice, 0);
}

int kept_from(const struct lent *slice, size_t from)
{
    return memcmp(slice->bytes + from, slice->before + from, slice->len - from) == 0;
}

int all(const struct lent *slice, uint8_t byte)
{
    for (size_t i = 0; i < slice->len; i++)
        if (slice->bytes[i] != byte)
            return 0;
    return 1;
}

int margin_kept(const struct lent *slice)
{
    int at_start = slice->bytes == slice->region;
    const uint8_t *margin = at_start ? slice->bytes + slice->len : slice->bytes - MARGIN;
    for (size_t i = 0; i < MARGIN; i++)
        if (margin[i] != MARGIN_BYTE)
            return 0;
    return 1;
}

void require(int fact, const char *what)
{
    if (!fact) {
        fprintf(stderr, "does not hold: %s\n", what);
        abort();
    }
}
