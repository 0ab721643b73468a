/* The calls on cubes and shapes: any shape, code cubes and damaged ones. */
#include "calls.h"

#include <string.h>

/* The cube before its bytes were changed. */
static uint8_t encoded[MOST_BYTES];

/* Changes bytes of `cube`: anywhere, or where `kind` is odd in the first layer alone. A byte of the input says which and by what, and so does how
 * many there are still to change: a short input changes many. */
static void change_bytes(struct input *input, const struct shape *shape, uint8_t kind, uint8_t changes)
{
    for (; changes > 0; changes--) {
        uint32_t mixed = (next_byte(input) * 16u + changes) * 2654435761u;
        size_t at = (mixed >> 8) % cube.len;
        cube.bytes[kind % 2 == 0 ? at : at - at % shape->w] ^= (uint8_t)(kind & 2 ? kind : mixed >> 24);
    }
}

/* A cube of the input's bytes: as a data string that is encoded, or as it stands; then with bytes changed. Says whether it was encoded. */
static int next_cube(struct input *input, const struct shape *shape, uint8_t choice)
{
    static uint8_t string[MOST_BYTES];
    const size_t *l = shape->length;
    uint8_t kind = next_byte(input), changes = next_byte(input) % 16;
    size_t cells = cells_of(shape), capacity = capacity_of(shape);
    memset(string, kind, capacity);
    memcpy(string, input->bytes, input->len < capacity ? input->len : capacity);
    lend(&data, capacity, choice);
    memcpy(data.bytes, string, capacity);
    lend(&cube, cells * shape->w, choice);
    if (kind != 0xFF) {
        uint64_t answer = jibrufath_encode(data.bytes, data.len, cube.bytes, cube.len, l[0], l[1], l[2], shape->w);
        require(answer == JIBRUFATH_OK, "an encoded cube");
    }
    memcpy(encoded, cube.bytes, cube.len);
    change_bytes(input, shape, kind, changes);
    remember(&cube);
    return kind != 0xFF;
}

/* Whether at most seven bytes of each layer were changed. */
static int seven_a_layer(size_t w)
{
    for (size_t layer = 0; layer < w; layer++) {
        size_t wrong = 0;
        for (size_t i = layer; i < cube.len; i += w)
            wrong += cube.bytes[i] != encoded[i];
        if (wrong > 7)
            return 0;
    }
    return 1;
}

/* Such a cube in the memory that a call gets, of its length or a byte off. */
static void next_output(struct input *input, const struct shape *shape, uint8_t choice)
{
    next_cube(input, shape, choice);
    lend(&output, near(cube.len, choice, 0), choice);
    memcpy(output.bytes, cube.bytes, cube.len < output.len ? cube.len : output.len);
    remember(&output);
}

void fuzz_fill(struct input input, uint8_t choice)
{
    struct shape shape = next_shape(&input);
    const size_t *l = shape.length;
    next_cube(&input, &shape, choice);
    lend(&flags, near(cells_of(&shape), choice, 0), choice);
    uint8_t share = next_byte(&input), bad = next_byte(&input);
    for (size_t i = 0; i < flags.len; i++) {
        uint8_t byte = input.len > 0 ? next_byte(&input) : flags.bytes[i];
        flags.bytes[i] = byte < share ? 1 : byte % 4 == 3 ? 2 : 0;
    }
    if (bad > 0xF0 && flags.len > 0)
        flags.bytes[next_byte(&input) % flags.len] = bad % 8;
    remember(&flags);
    uint64_t answer =
        jibrufath_fill(cube.bytes, cube.len, flags.bytes, flags.len, l[0], l[1], l[2], shape.w);
    note(FILL, answer, 0x2031); /* 0, 4, 5, 13 */
    if (jibrufath_number(answer) == JIBRUFATH_OK) {
        check_filled(&shape, flags.before, cube.before, jibrufath_count(answer));
        return;
    }
    require(kept(&flags), "the flags");
    for (size_t i = 0; i < cube.len; i++) {
        int cleared = answer == JIBRUFATH_CONTRADICTION && flags.bytes[i / shape.w] == 1;
        require(cube.bytes[i] == (cleared ? 0 : cube.before[i]), "a cube that is not filled");
    }
}

/* A line of an axis, or one too many, or no axis; flags of any value. */
void fuzz_scan(struct input input, uint8_t choice)
{
    struct shape shape = next_shape(&input);
    const size_t *l = shape.length;
    size_t axis = next_byte(&input) % 5, holes[255];
    int is_axis = axis >= 1 && axis <= 3;
    size_t lines = is_axis ? cells_of(&shape) / l[axis - 1] : 1;
    size_t line = (next_byte(&input) * 256u + next_byte(&input)) % (lines + 1);
    lend(&flags, near(cells_of(&shape), choice, 0), choice);
    uint8_t share = next_byte(&input);
    for (size_t i = 0; i < flags.len; i++)
        flags.bytes[i] = input.len > 0 ? next_byte(&input) : flags.bytes[i] < share;
    remember(&flags);
    uint64_t counts[2] = {256, 256};
    uint64_t answer = jibrufath_scan(flags.bytes, flags.len, l[0], l[1], l[2], shape.w, axis, line, counts);
    note(SCAN, answer, 0x0013); /* 0, 1, 4 */
    require(kept(&flags), "flags that are only read");
    int is_line = is_axis && line < lines, exact = flags.len == cells_of(&shape);
    require(answer == (is_line ? exact ? JIBRUFATH_OK : JIBRUFATH_SLICE_LENGTH : JIBRUFATH_DIMENSION), "the order of a scan's checks");
    if (answer != JIBRUFATH_OK) {
        require(counts[JIBRUFATH_SCAN_ERASURES] == 0 && counts[JIBRUFATH_SCAN_READ] == 0, "no counts with a refusal");
        return;
    }
    size_t all = holes_of(&shape, flags.bytes, axis, line, holes);
    require(counts[JIBRUFATH_SCAN_ERASURES] == (all < 3 ? all : 3), "the holes, at most three");
    require(counts[JIBRUFATH_SCAN_READ] == (all < 3 ? l[axis - 1] : holes[2] + 1), "the places read");
}

void fuzz_mend(struct input input, uint8_t choice)
{
    struct shape shape = next_shape(&input);
    const size_t *l = shape.length;
    int seven = next_cube(&input, &shape, choice) && seven_a_layer(shape.w);
    lend(&flags, near(cells_of(&shape), choice, 0), choice);
    lend(&output, near(cube.len, choice, 1), choice);
    uint8_t flag = next_byte(&input);
    memset(flags.bytes, flag & 4 ? 2 : 0, flags.len);
    if (flag >= 0xF0 && flags.len > 0)
        flags.bytes[next_byte(&input) % flags.len] = flag % 4;
    remember(&flags);
    uint64_t answer = jibrufath_mend(
        cube.bytes, cube.len, flags.bytes, flags.len, output.bytes, output.len, l[0], l[1], l[2], shape.w);
    note(MEND, answer, 0x18031); /* 0, 4, 5, 15, 16 */
    require(kept(&cube) && kept(&flags), "what mending only reads");
    if (answer == JIBRUFATH_OK)
        require(lines_right(&shape, output.bytes, flags.bytes), "the mended cube");
    else
        require(answer == JIBRUFATH_UNCORRECTED ? all(&output, 0) : kept(&output), "the second cube");
    if (seven && (answer == JIBRUFATH_OK || answer == JIBRUFATH_UNCORRECTED))
        require(memcmp(output.bytes, encoded, cube.len) == 0, "the code cube that at most seven wrong bytes of each layer were made in");
}

void fuzz_mend_axis(struct input input, uint8_t choice)
{
    struct shape shape = next_shape(&input);
    const size_t *l = shape.length;
    next_output(&input, &shape, choice);
    size_t axis = next_byte(&input) % 5;
    uint64_t answer = jibrufath_mend_axis(output.bytes, output.len, l[0], l[1], l[2], shape.w, axis);
    note(MEND_AXIS, answer, 0x0013); /* 0, 1, 4 */
    require(answer == JIBRUFATH_OK || kept(&output), "the memory that a refusal keeps");
    require((axis - 1 < 3) == (answer != JIBRUFATH_DIMENSION), "the axis");
    size_t changed = 0;
    for (size_t i = 0; i < output.len; i++)
        changed += output.bytes[i] != output.before[i];
    size_t lines = axis - 1 < 3 ? cells_of(&shape) / l[axis - 1] : 0;
    require(changed <= lines * shape.w, "one byte of a line and layer at most");
}

void fuzz_encode(struct input input, uint8_t choice)
{
    static uint8_t string[MOST_BYTES];
    struct shape shape = next_shape(&input);
    const size_t *l = shape.length;
    size_t capacity = capacity_of(&shape);
    memset(string, 0, capacity + 1);
    memcpy(string, input.bytes, input.len < capacity ? input.len : capacity);
    lend_copy(&data, string, near(capacity, choice, 0), choice);
    lend(&cube, near(cells_of(&shape) * shape.w, choice, 1), choice);
    uint64_t answer = jibrufath_encode(data.bytes, data.len, cube.bytes, cube.len, l[0], l[1], l[2], shape.w);
    note(ENCODE, answer, 0x0011); /* 0, 4 */
    require(kept(&data), "the data string");
    require(answer == JIBRUFATH_OK || kept(&cube), "the memory that a refusal keeps");
    if (answer != JIBRUFATH_OK)
        return;
    lend(&flags, cells_of(&shape), choice);
    memset(flags.bytes, 0, flags.len);
    require(lines_right(&shape, cube.bytes, flags.bytes), "the code cube");
    lend(&data, near(capacity, choice, 2), choice);
    answer = jibrufath_extract(cube.bytes, cube.len, data.bytes, data.len, l[0], l[1], l[2], shape.w);
    note(ENCODE, answer, 0x0011); /* 0, 4 */
    int back = answer == JIBRUFATH_OK ? memcmp(data.bytes, string, capacity) == 0 : kept(&data);
    require(back, "the data string comes back");
}

void fuzz_check(struct input input, uint8_t choice)
{
    struct shape shape = next_shape(&input);
    const size_t *l = shape.length;
    next_output(&input, &shape, choice);
    uint64_t answer = jibrufath_is_code_cube(output.bytes, output.len, l[0], l[1], l[2], shape.w);
    note(CHECK, answer, 0x0011); /* 0, 4 */
    require(kept(&output), "a cube that is only read");
    require((output.len == cube.len) == (jibrufath_number(answer) == JIBRUFATH_OK), "the exact length");
    if (jibrufath_number(answer) != JIBRUFATH_OK)
        return;
    lend(&flags, cells_of(&shape), choice);
    memset(flags.bytes, 0, flags.len);
    require(jibrufath_count(answer) == (uint64_t)lines_right(&shape, output.bytes, flags.bytes), "a code cube or not");
}

/* Any four numbers, of which half the inputs are small. */
void fuzz_sizes(struct input input, uint8_t choice)
{
    size_t number[4];
    for (int i = 0; i < 4; i++)
        number[i] = choice >> i & 1 ? next_number(&input) : (size_t)next_byte(&input) * (i == 3 ? 5 : 1);
    uint64_t cells = jibrufath_cells(number[0], number[1], number[2], number[3]);
    uint64_t bytes = jibrufath_cube_bytes(number[0], number[1], number[2], number[3]);
    uint64_t capacity = jibrufath_capacity(number[0], number[1], number[2], number[3]);
    uint64_t size = jibrufath_pack_bytes(number[0], number[1], number[2], number[3]);
    note(SIZES, cells, 0x000F); /* 0 to 3 */
    struct shape shape = {{number[0], number[1], number[2]}, number[3], 0};
    if (jibrufath_number(cells) != JIBRUFATH_OK) {
        require(bytes == cells && capacity == cells && size == cells, "one refusal for a shape");
        lend(&cube, 5, choice);
        require(jibrufath_encode(cube.before, 1, cube.bytes, 5, number[0], number[1], number[2], number[3]) == cells,
            "the same refusal from a call");
        return;
    }
    uint64_t expected = cells_of(&shape);
    require(cells == expected << 8, "the cells");
    require(bytes == (expected * shape.w) << 8, "the bytes of a cube");
    require(capacity == (uint64_t)capacity_of(&shape) << 8, "the capacity");
    require(size == (17 + expected * (3 + shape.w)) << 8, "the bytes of a pack");
    uint8_t a = next_byte(&input), i = next_byte(&input);
    require(jibrufath_mul(a, jibrufath_inverse(a)) == (a != 0), "the inverse");
    require(jibrufath_mul(jibrufath_pow(i), 2) == jibrufath_pow((uint8_t)((i + 1) % 255)) || i == 255, "the powers");
}
