/* Plays recorded calls on the library, and compares what it answers and leaves with what is recorded.
 * cc -std=c99 -Iinclude targets/play.c target/archives/x86-64/libjibrufath.a -o play && ./play FILE
 *
 * The file is one of `compare --record`; rust/compare/src/record.rs says its form. From call to call the slices are lent at other alignments,
 * with bytes on both sides of each that must not change. */
#include "jibrufath.h"

#include <inttypes.h>
#include <stdarg.h>
#include <stdio.h>
#include <stdlib.h>
#include <string.h>

enum { SLICES = 7, NUMBERS = 6, ARRAYS = 2, PLACES = 16 };

/* The byte beside lent slices; at least so many stand there, and up to so many more. How many differences are told in full. */
enum { BESIDE = 0xA5, LEAST = 64, MORE = 61, TOLD = 10 };

/* A slice: where it begins in lent memory, its length, what it holds before the call, and what it must hold afterwards. */
struct slice {
    size_t start;
    uint64_t len;
    const uint8_t *before, *after;
};

/* An array: its places, lent with one more on both sides, and what they must hold afterwards. */
struct array {
    uint64_t lent[PLACES + 2], after[PLACES + 2];
};

static struct slice slices[SLICES];
static uint64_t numbers[NUMBERS];
static struct array arrays[ARRAYS];

/* The lent memory, and what it must hold afterwards. */
static uint8_t *memory, *expected;
static size_t memory_len;

/* What is not yet read of the file. */
static const uint8_t *rest;
static uint64_t rest_len;

static uint64_t played, differences;
static char playing[256];

/* The calls, each with how many slices, numbers and arrays it takes, and its arguments. */
#define S(i) memory + slices[i].start, slices[i].len
#define B(i) (uint8_t)numbers[i]
#define A(i) &arrays[i].lent[1]
#define SHAPE numbers[0], numbers[1], numbers[2], numbers[3]
#define ALL_CALLS(CALL) \
    CALL(cells, 0, 4, 0, SHAPE) \
    CALL(cube_bytes, 0, 4, 0, SHAPE) \
    CALL(capacity, 0, 4, 0, SHAPE) \
    CALL(pack_bytes, 0, 4, 0, SHAPE) \
    CALL(needs, 1, 0, 1, S(0), A(0)) \
    CALL(write_pack, 3, 0, 0, S(0), S(1), S(2)) \
    CALL(receive_pack, 4, 0, 1, S(0), S(1), S(2), S(3), A(0)) \
    CALL(text_bytes, 1, 0, 0, S(0)) \
    CALL(write_text, 2, 0, 0, S(0), S(1)) \
    CALL(text_pack_bytes, 1, 0, 0, S(0)) \
    CALL(read_text, 2, 0, 0, S(0), S(1)) \
    CALL(write_plan, 4, 0, 0, S(0), S(1), S(2), S(3)) \
    CALL(measure_plan, 1, 0, 1, S(0), A(0)) \
    CALL(read_plan, 4, 0, 1, S(0), S(1), S(2), S(3), A(0)) \
    CALL(receive_plan, 7, 0, 2, S(0), S(1), S(2), S(3), S(4), S(5), S(6), A(0), A(1)) \
    CALL(encode, 2, 4, 0, S(0), S(1), SHAPE) \
    CALL(extract, 2, 4, 0, S(0), S(1), SHAPE) \
    CALL(is_code_cube, 1, 4, 0, S(0), SHAPE) \
    CALL(fill, 2, 4, 0, S(0), S(1), SHAPE) \
    CALL(scan, 1, 6, 1, S(0), SHAPE, numbers[4], numbers[5], A(0)) \
    CALL(mend_axis, 1, 5, 0, S(0), SHAPE, numbers[4]) \
    CALL(mend, 3, 4, 0, S(0), S(1), S(2), SHAPE) \
    CALL(mul, 0, 2, 0, B(0), B(1)) \
    CALL(inverse, 0, 1, 0, B(0)) \
    CALL(pow, 0, 1, 0, B(0))

#define DEFINE(name, s, n, a, ...) \
    static uint64_t play_##name(void) { return jibrufath_##name(__VA_ARGS__); }
ALL_CALLS(DEFINE)

#define ENTRY(name, s, n, a, ...) {#name, s, n, a, play_##name, 0},
static struct call {
    const char *name;
    unsigned slices, numbers, arrays;
    uint64_t (*play)(void);
    uint64_t played;
} calls[] = {ALL_CALLS(ENTRY)};

enum { CALLS = sizeof calls / sizeof *calls };

static void fail(const char *why)
{
    fprintf(stderr, "play: call %" PRIu64 " %s: %s\n", played, playing, why);
    exit(1);
}

static void differs(const char *form, ...)
{
    va_list words;
    if (++differences > TOLD)
        return;
    printf("call %" PRIu64 ", %s: ", played, playing);
    va_start(words, form);
    vprintf(form, words);
    va_end(words);
    printf("\n");
}

/* So many bytes of the file. */
static const uint8_t *take(uint64_t len)
{
    const uint8_t *taken = rest;
    if (len > rest_len)
        fail("the file is cut");
    rest += len;
    rest_len -= len;
    return taken;
}

static uint64_t take_number(int bytes)
{
    const uint8_t *taken = take((uint64_t)bytes);
    uint64_t number = 0;
    while (bytes-- > 0)
        number = number << 8 | taken[bytes];
    return number;
}

static struct call *take_call(void)
{
    size_t len = (size_t)take_number(1);
    memcpy(playing, take(len), len);
    playing[len] = '\0';
    for (struct call *call = calls; call < calls + CALLS; call++)
        if (strcmp(call->name, playing) == 0)
            return call;
    fail("there is no such call");
    return NULL;
}

static void take_slice(struct slice *slice)
{
    slice->len = take_number(4);
    slice->before = take(slice->len);
    slice->after = take_number(1) == 0 ? slice->before : take(slice->len);
}

static void take_array(struct array *array)
{
    uint64_t places = take_number(1);
    if (places > PLACES)
        fail("an array has too many places");
    memset(array, BESIDE, sizeof *array);
    for (uint64_t i = 1; i <= places; i++)
        array->after[i] = take_number(8);
}

static void take_all_of(const struct call *call)
{
    if (take_number(1) != call->slices)
        fail("it takes another number of slices");
    for (unsigned i = 0; i < call->slices; i++)
        take_slice(&slices[i]);
    if (take_number(1) != call->numbers)
        fail("it takes another number of numbers");
    for (unsigned i = 0; i < call->numbers; i++)
        numbers[i] = take_number(8);
    if (take_number(1) != call->arrays)
        fail("it takes another number of arrays");
    for (unsigned i = 0; i < call->arrays; i++)
        take_array(&arrays[i]);
}

static uint8_t *allocate(uint8_t *old, size_t len)
{
    uint8_t *allocated = realloc(old, len);
    if (allocated == NULL)
        fail("there is no memory for it");
    return allocated;
}

/* Gives the slices of a call their places in memory, and answers how much of it is lent. */
static size_t lend(unsigned count)
{
    size_t end = 0;
    for (unsigned i = 0; i < count; i++) {
        slices[i].start = end + LEAST + (size_t)((played * 7 + i * 13) % MORE);
        end = slices[i].start + (size_t)slices[i].len;
    }
    end += LEAST;
    if (end > memory_len) {
        memory = allocate(memory, end);
        expected = allocate(expected, end);
        memory_len = end;
    }
    memset(memory, BESIDE, end);
    memset(expected, BESIDE, end);
    for (unsigned i = 0; i < count; i++) {
        memcpy(memory + slices[i].start, slices[i].before, (size_t)slices[i].len);
        memcpy(expected + slices[i].start, slices[i].after, (size_t)slices[i].len);
    }
    return end;
}

static void compare_memory(size_t len, unsigned count)
{
    size_t at = 0;
    if (memcmp(memory, expected, len) == 0)
        return;
    while (memory[at] == expected[at])
        at++;
    for (unsigned i = 0; i < count; i++)
        if (at >= slices[i].start && at - slices[i].start < slices[i].len) {
            differs("slice %u, byte %lu is %02Xh, and not %02Xh", i, (unsigned long)(at - slices[i].start), memory[at], expected[at]);
            return;
        }
    differs("a byte beside a slice has changed");
}

static void compare_array(unsigned i)
{
    for (unsigned place = 0; place < PLACES + 2; place++)
        if (arrays[i].lent[place] != arrays[i].after[place])
            differs("array %u, place %d is %" PRIu64 ", and not %" PRIu64, i, (int)place - 1, arrays[i].lent[place], arrays[i].after[place]);
}

static void play(void)
{
    struct call *call = take_call();
    take_all_of(call);
    uint64_t recorded = take_number(8);
    size_t len = lend(call->slices);
    uint64_t answer = call->play();
    if (answer != recorded)
        differs("the answer is %" PRIu64 ", and not %" PRIu64, answer, recorded);
    compare_memory(len, call->slices);
    for (unsigned i = 0; i < call->arrays; i++)
        compare_array(i);
    call->played++;
    playing[0] = '\0';
}

/* Reads the whole file. */
static void open_file(const char *path)
{
    size_t room = 1 << 20;
    uint8_t *file = NULL;
    FILE *stream = fopen(path, "rb");
    if (stream == NULL)
        fail("the file cannot be opened");
    do {
        room *= 2;
        file = allocate(file, room);
        rest_len += fread(file + rest_len, 1, room - (size_t)rest_len, stream);
    } while (rest_len == room);
    if (ferror(stream))
        fail("the file cannot be read");
    fclose(stream);
    rest = file;
}

int main(int count, char **words)
{
    if (count != 2) {
        fprintf(stderr, "usage: play FILE\n");
        return 2;
    }
    open_file(words[1]);
    for (uint64_t recorded = take_number(8); played < recorded; played++)
        play();
    if (rest_len > 0)
        fail("the file has bytes behind the last call");
    for (struct call *call = calls; call < calls + CALLS; call++)
        printf("%s %" PRIu64 "%s", call->name, call->played, call + 1 < calls + CALLS ? ", " : "\n");
    printf("%" PRIu64 " calls, %" PRIu64 " differences\n", played, differences);
    return played == 0 || differences > 0;
}
