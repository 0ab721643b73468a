/* Fuzzing of the exported calls: an input's first byte chooses a call, its second the lengths of lent slices, the rest is a shape and a pack,
 * a cube, a text or a plan. Whatever the input is, the answer must be one that the header allows, and every lent byte as the header says. */
#include "calls.h"
#include "blocks.h"

#include <stdio.h>
#include <stdlib.h>
#include <string.h>

static const char *const names[NOTED] = {
    "receive_pack", "write_pack", "write, lose, receive", "write, lose, damage, receive", "fill", "mend", "mend_axis", "encode, extract",
    "sizes", "needs", "is_code_cube", "read_text", "write_text, read_text", "write_text, change, read_text", "scan", "read_plan", "write_plan",
    "read_plan, changed", "receive_plan", "write, lose, receive_plan", "text_bytes, text_pack_bytes", "measure_plan"};

static fuzz_call *const calls[CALLS] = {
    fuzz_receive, fuzz_write, fuzz_return, fuzz_damage, fuzz_fill, fuzz_mend, fuzz_mend_axis, fuzz_encode, fuzz_sizes, fuzz_needs,
    fuzz_check, fuzz_read_text, fuzz_write_text, fuzz_change_text, fuzz_scan, fuzz_read_plan, fuzz_write_plan, fuzz_change_plan,
    fuzz_receive_plan, fuzz_return_plan};

/* Each call with each number, and how large the count was: feedback for libFuzzer beside the library's own blocks. */
__attribute__((section("__libfuzzer_extra_counters"))) static uint8_t answered[NOTED][MOST_NUMBER + 1][8];

/* How often each call gave each number. */
static unsigned long answers[NOTED][MOST_NUMBER + 1];

struct lent pack, cube, flags, file, output, data, text, closures, fibres, splices;
uint64_t counts[JIBRUFATH_COUNTS];

uint8_t next_byte(struct input *input)
{
    if (input->len == 0)
        return 0;
    input->len--;
    return *input->bytes++;
}

size_t next_number(struct input *input)
{
    size_t number = 0;
    for (int i = 0; i < 8; i++)
        number = number << 8 | next_byte(input);
    return number;
}

struct shape next_shape(struct input *input)
{
    struct shape shape = {.used = 0};
    for (int axis = 0; axis < 3; axis++)
        shape.length[axis] = 3 + next_byte(input) % 7;
    shape.w = 1 + next_byte(input) % 40;
    uint8_t rare = next_byte(input);
    if (rare >= 0xF0) {
        shape = (struct shape){{3, 3, 3}, 1 + (rare % 16 * 73u + shape.w) % 1024, 0};
    } else if (rare >= 0xE0) {
        size_t longest = 3 + rare % 16 * 16u + shape.w % 13;
        shape = (struct shape){{3, 3, 3}, 1 + shape.w % 9, 0};
        shape.length[rare % 3] = longest < 255 ? longest : 255;
    }
    if (cells_of(&shape) * shape.w > MOST_BYTES)
        shape.w = 1;
    return shape;
}

void next_used(struct input *input, struct shape *shape)
{
    uint8_t choice = next_byte(input);
    size_t number = next_byte(input) * 256u + next_byte(input);
    shape->used = choice & 1 ? 1 + number % data_cells_of(shape) : 0;
}

size_t near(size_t exact, uint8_t choice, int slice)
{
    if (choice >> 1 != 100 + slice)
        return exact;
    return choice & 1 || exact == 0 ? exact + 1 : exact - 1;
}

void note(enum call call, uint64_t answer, uint32_t numbers)
{
    unsigned number = (unsigned)(answer & 0xFF);
    require(number <= MOST_NUMBER && (numbers >> number & 1), "a number of the call");
    uint64_t count = jibrufath_count(answer);
    int counted = number == JIBRUFATH_OK || number == JIBRUFATH_CELL_INDEX || number == JIBRUFATH_LINE || number == JIBRUFATH_ENTRY;
    require(counted || count == 0, "no count with this refusal");
    int size = 0;
    while (size < 7 && count >> (2 * size) != 0)
        size++;
    answered[call][number][size] = 1;
    answers[call][number]++;
    const struct lent *slices[] = {&pack, &cube, &flags, &file, &output, &data, &text, &closures, &fibres, &splices};
    for (size_t i = 0; i < sizeof slices / sizeof *slices; i++)
        require(slices[i]->bytes == NULL || margin_kept(slices[i]), "the bytes beside a slice");
}

void check_filled(const struct shape *shape, const uint8_t *placed_flags, const uint8_t *placed_cube, uint64_t left)
{
    static uint8_t peeled[MOST_BYTES];
    memcpy(peeled, placed_flags, flags.len);
    peel(shape, peeled);
    require(memcmp(flags.bytes, peeled, flags.len) == 0, "the largest stopping set is flagged");
    size_t count = 0;
    for (size_t cell = 0; cell < flags.len; cell++) {
        count += flags.bytes[cell] == 1;
        size_t at = cell * shape->w;
        require(placed_flags[cell] == 1 || memcmp(cube.bytes + at, placed_cube + at, shape->w) == 0, "a known cell");
    }
    require(count == left && (left == 0 || left >= 27), "the count of cells left");
    require(lines_right(shape, cube.bytes, flags.bytes), "the lines without cells left");
}

static void tell_answers(void)
{
    for (int call = 0; call < NOTED; call++) {
        fprintf(stderr, "%s:", names[call]);
        for (int number = 0; number <= MOST_NUMBER; number++)
            if (answers[call][number] > 0)
                fprintf(stderr, " %d (%lu)", number, answers[call][number]);
        fprintf(stderr, "\n");
    }
}

int LLVMFuzzerInitialize(int *argc, char ***argv)
{
    (void)argc, (void)argv;
    const char *list = getenv("JIBRUFATH_BLOCKS");
    if (list != NULL)
        watch_blocks(list);
    atexit(tell_answers);
    return 0;
}

int LLVMFuzzerTestOneInput(const uint8_t *bytes, size_t len)
{
    struct input input = {bytes, len};
    uint8_t call = next_byte(&input), choice = next_byte(&input);
    calls[call % CALLS](input, choice);
    return 0;
}
