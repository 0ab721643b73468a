/* What the harness knows of cubes by itself: lines, their two sums, and the cells that peeling leaves. */
#ifndef MODEL_H
#define MODEL_H

#include <stddef.h>
#include <stdint.h>

struct shape {
    size_t length[3];
    size_t w;
    size_t used; /* the used data cells, where section 1 says so; 0 where it does not, and all are used */
};

size_t cells_of(const struct shape *shape);
size_t data_cells_of(const struct shape *shape);
size_t capacity_of(const struct shape *shape);

/* The used data cells, and the cells that are sent. */
size_t used_of(const struct shape *shape);
size_t sent_of(const struct shape *shape);

/* Whether a cell is a data cell that is not used. */
int is_unsent(const struct shape *shape, size_t cell);

/* A cell is flagged where its flag is 1. Makes 0 of the flag of every flagged cell outside the largest set of them that meets each line
 * in none or at least three. */
void peel(const struct shape *shape, uint8_t *flags);

/* The places of the cells with flag 1 on a line, by its number along axis 1, 2 or 3; gives how many there are. */
size_t holes_of(const struct shape *shape, const uint8_t *flags, size_t axis, size_t number, size_t holes[255]);

/* Whether every line without a flagged cell has both sums zero in every layer, and every flagged cell is 00h. */
int lines_right(const struct shape *shape, const uint8_t *cube, const uint8_t *flags);

#endif
