/* Memory that is lent to a call, with a page behind or before it that cannot be read, and bytes on its other side that must stay. */
#ifndef LENT_H
#define LENT_H

#include <stddef.h>
#include <stdint.h>

/* The most bytes of a slice. */
#define LENT_MOST ((size_t)1 << 18)

struct lent {
    uint8_t *bytes;
    size_t len;
    uint8_t *before; /* what the bytes were when the slice was lent */
    uint8_t *region;
};

/* Lends len bytes of garbage that depend on the seed. An odd seed puts them at the region's end, an even one at its start. */
void lend(struct lent *slice, size_t len, uint8_t seed);

/* Lends a copy of these bytes. */
void lend_copy(struct lent *slice, const uint8_t *bytes, size_t len, uint8_t seed);

/* Makes the present bytes those that `kept` asks for. */
void remember(struct lent *slice);

/* Whether the slice is as it was lent. */
int kept(const struct lent *slice);

/* Whether all bytes from a place on are as they were lent. */
int kept_from(const struct lent *slice, size_t from);

/* Whether all bytes are this one. */
int all(const struct lent *slice, uint8_t byte);

/* Whether the bytes beside the slice stayed as they were. */
int margin_kept(const struct lent *slice);

/* Stops with a message unless the fact holds. */
void require(int fact, const char *what);

#endif
