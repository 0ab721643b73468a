/* Lines of a cube: each is visited once, by its first cell, its stride and its length. */
#include "model.h"

struct line {
    size_t first, stride, len;
};

typedef int visit(const struct shape *shape, struct line line, void *state);

size_t cells_of(const struct shape *shape)
{
    return shape->length[0] * shape->length[1] * shape->length[2];
}

size_t data_cells_of(const struct shape *shape)
{
    return (shape->length[0] - 2) * (shape->length[1] - 2) * (shape->length[2] - 2);
}

size_t capacity_of(const struct shape *shape)
{
    return shape->w * data_cells_of(shape);
}

size_t used_of(const struct shape *shape)
{
    return shape->used == 0 ? data_cells_of(shape) : shape->used;
}

size_t sent_of(const struct shape *shape)
{
    return cells_of(shape) - data_cells_of(shape) + used_of(shape);
}

int is_unsent(const struct shape *shape, size_t cell)
{
    size_t rank = 0, stride = 1;
    for (int axis = 0; axis < 3; axis++) {
        size_t length = shape->length[axis], place = cell % length;
        if (place >= length - 2)
            return 0;
        rank += stride * place;
        stride *= length - 2;
        cell /= length;
    }
    return rank >= used_of(shape);
}

/* Visits every line, and says how often the visits answered 1. */
static size_t visit_lines(const struct shape *shape, visit *each, void *state)
{
    size_t answers = 0;
    size_t stride = 1;
    for (int axis = 0; axis < 3; axis++) {
        size_t len = shape->length[axis];
        for (size_t cell = 0; cell < cells_of(shape); cell++)
            if (cell / stride % len == 0)
                answers += (size_t)each(shape, (struct line){cell, stride, len}, state);
        stride *= len;
    }
    return answers;
}

static size_t flagged(const uint8_t *flags, struct line line)
{
    size_t count = 0;
    for (size_t i = 0; i < line.len; i++)
        count += flags[line.first + i * line.stride] == 1;
    return count;
}

static int peel_line(const struct shape *shape, struct line line, void *state)
{
    uint8_t *flags = state;
    size_t count = flagged(flags, line);
    (void)shape;
    if (count == 0 || count > 2)
        return 0;
    for (size_t i = 0; i < line.len; i++)
        if (flags[line.first + i * line.stride] == 1)
            flags[line.first + i * line.stride] = 0;
    return 1;
}

void peel(const struct shape *shape, uint8_t *flags)
{
    while (visit_lines(shape, peel_line, flags) > 0)
        continue;
}

size_t holes_of(const struct shape *shape, const uint8_t *flags, size_t axis, size_t number, size_t holes[255])
{
    size_t stride = 1, count = 0, first = 0;
    for (size_t below = 1; below < axis; below++)
        stride *= shape->length[below - 1];
    size_t len = shape->length[axis - 1];
    for (size_t before = number + 1; before > 0; first++)
        before -= first / stride % len == 0;
    first--;
    for (size_t i = 0; i < len; i++)
        if (flags[first + i * stride] == 1)
            holes[count++] = i;
    return count;
}

struct bytes {
    const uint8_t *cube, *flags;
};

static int line_wrong(const struct shape *shape, struct line line, void *state)
{
    const struct bytes *bytes = state;
    if (flagged(bytes->flags, line) > 0)
        return 0;
    for (size_t layer = 0; layer < shape->w; layer++) {
        unsigned first = 0, second = 0;
        for (size_t i = line.len; i-- > 0;) {
            unsigned byte = bytes->cube[(line.first + i * line.stride) * shape->w + layer];
            second <<= 1;
            if (second > 0xFF)
                second ^= 0x1C3;
            first ^= byte;
            second ^= byte;
        }
        if (first != 0 || second != 0)
            return 1;
    }
    return 0;
}

int lines_right(const struct shape *shape, const uint8_t *cube, const uint8_t *flags)
{
    for (size_t i = 0; i < cells_of(shape) * shape->w; i++)
        if (flags[i / shape->w] == 1 && cube[i] != 0)
            return 0;
    struct bytes bytes = {cube, flags};
    return visit_lines(shape, line_wrong, &bytes) == 0;
}
