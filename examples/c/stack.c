/* Measures the stack that each call takes: runs it on a painted stack and looks how deep the paint is gone, over shapes of every kind.
 * cc -std=c99 -Iinclude examples/c/stack.c target/archives/x86-64/libjibrufath.a -o stack */
#define _XOPEN_SOURCE 600
#include "jibrufath.h"

#include <stdio.h>
#include <stdlib.h>
#include <string.h>
#include <ucontext.h>

enum { STACK = 1 << 18, PAINT = 0xA5 };
enum call { NOTHING, ENCODE, EXTRACT, CHECK, FILL, SCAN, MEND, MEND_AXIS, WRITE_PACK, RECEIVE_PACK, WRITE_USED, RECEIVE_USED, NEEDS, WRITE_TEXT,
    READ_TEXT, TEXT_SIZES, WRITE_PLAN, MEASURE_PLAN, READ_PLAN, RECEIVE_PLAN, SIZES, FIELD, CALLS };

static const char *const names[CALLS] = {"", "encode", "extract", "is_code_cube", "fill", "scan", "mend", "mend_axis", "write_pack", "receive_pack",
    "write_pack, unsent cells", "receive_pack, unsent cells", "needs", "write_text", "read_text", "text sizes", "write_plan", "measure_plan",
    "read_plan", "receive_plan", "sizes", "field"};

static const uint64_t shapes[][4] = {{3, 3, 3, 5}, {5, 5, 5, 16}, {4, 4, 4, 63}, {12, 12, 8, 20}, {9, 9, 9, 1024}, {255, 3, 3, 1024},
    {3, 255, 3, 1024}, {3, 3, 255, 1024}, {255, 255, 3, 1}, {20, 20, 10, 397}, {40, 40, 40, 64}, {69, 69, 25, 397}};

/* A plan: closure 7, its fibres 1 and 288, and their splice. */
enum { CLOSURES = 4, CLOSURES_LEN = 2, FIBRES = 10, FIBRES_LEN = 8, SPLICES = 22, SPLICES_LEN = 8, PLAN = 30 };
static const uint8_t plan[PLAN] = {1, 0, 0, 0, 7, 0, 2, 0, 0, 0, 7, 0, 1, 0, 7, 0, 32, 1, 1, 0, 0, 0, 0, 0, 0, 0, 1, 0, 0, 0};
static uint8_t listed[3][SPLICES_LEN], written[PLAN];

/* A shape, its sizes, and the memory that its calls are lent. */
static uint64_t l1, l2, l3, w, cells, bytes, capacity, output_len, job_len, text_len;
static uint8_t *cube, *second, *flags, *data, *file, *output, *job, *text;
/* The same file with no more used data cells than it takes. */
static uint64_t used_job_len, used_output_len;
static uint8_t *used_job, *used_output;
static enum call measured;
static uint64_t answer;

static uint8_t stack[STACK];
static ucontext_t here, there;

static void make_call(void)
{
    uint64_t places[16], entries[3];
    switch (measured) {
    case ENCODE: answer = jibrufath_encode(data, capacity, cube, bytes, l1, l2, l3, w); break;
    case EXTRACT: answer = jibrufath_extract(cube, bytes, data, capacity, l1, l2, l3, w); break;
    case CHECK: answer = jibrufath_is_code_cube(cube, bytes, l1, l2, l3, w); break;
    case FILL: answer = jibrufath_fill(cube, bytes, flags, cells, l1, l2, l3, w); break;
    case SCAN: answer = jibrufath_scan(flags, cells, l1, l2, l3, w, 2, l1 * l3 - 1, places); break;
    case MEND: answer = jibrufath_mend(cube, bytes, flags, cells, second, bytes, l1, l2, l3, w); break;
    case MEND_AXIS: answer = jibrufath_mend_axis(cube, bytes, l1, l2, l3, w, 2); break;
    case WRITE_PACK: answer = jibrufath_write_pack(job, job_len, cube, bytes, output, output_len); break;
    case RECEIVE_PACK:
        answer = jibrufath_receive_pack(output, output_len, cube, bytes, flags, cells, file, capacity - 4, places);
        break;
    case WRITE_USED: answer = jibrufath_write_pack(used_job, used_job_len, cube, bytes, used_output, used_output_len); break;
    case RECEIVE_USED:
        answer = jibrufath_receive_pack(used_output, used_output_len, cube, bytes, flags, cells, file, capacity - 4, places);
        break;
    case NEEDS: answer = jibrufath_needs(used_job, used_job_len, places); break;
    case WRITE_TEXT: answer = jibrufath_write_text(output, output_len, text, text_len); break;
    case READ_TEXT: answer = jibrufath_read_text(text, text_len, output, output_len); break;
    case TEXT_SIZES:
        answer = jibrufath_number(jibrufath_text_bytes(output, output_len)) | jibrufath_text_pack_bytes(text, text_len);
        break;
    case WRITE_PLAN:
        answer = jibrufath_write_plan(
            plan + CLOSURES, CLOSURES_LEN, plan + FIBRES, FIBRES_LEN, plan + SPLICES, SPLICES_LEN, written, PLAN);
        break;
    case MEASURE_PLAN: answer = jibrufath_measure_plan(plan, PLAN, entries); break;
    case READ_PLAN:
        answer = jibrufath_read_plan(
            plan, PLAN, listed[0], SPLICES_LEN, listed[1], SPLICES_LEN, listed[2], SPLICES_LEN, entries);
        break;
    case RECEIVE_PLAN:
        answer = jibrufath_receive_plan(output, output_len, cube, bytes, flags, cells, file, capacity - 4, listed[0], SPLICES_LEN,
            listed[1], SPLICES_LEN, listed[2], SPLICES_LEN, places, entries);
        break;
    case SIZES: answer = jibrufath_pack_bytes(l1, l2, l3, w); break;
    case FIELD: answer = (uint64_t)jibrufath_mul(jibrufath_inverse(3), jibrufath_pow(200)) << 8; break;
    default: break;
    }
}

/* How much of the painted stack a call takes, with what it takes to come there. */
static size_t deepest(enum call call)
{
    size_t kept = 0;
    measured = call;
    memset(stack, PAINT, STACK);
    getcontext(&there);
    there.uc_stack.ss_sp = stack;
    there.uc_stack.ss_size = STACK;
    there.uc_link = &here;
    makecontext(&there, make_call, 0);
    swapcontext(&here, &there);
    while (kept < STACK && stack[kept] == PAINT)
        kept++;
    return STACK - kept;
}

static uint8_t *lend(uint64_t len)
{
    uint8_t *memory = malloc(len);
    if (memory == NULL)
        exit(1);
    memset(memory, 0, len);
    return memory;
}

/* Makes the job pack that has the number of used data cells behind its shape, and lends memory for its packets. */
static void begin_used(uint8_t file_len)
{
    uint64_t needs[16], used = (4 + file_len + w - 1) / w;
    used_job_len = job_len + 4;
    used_job = lend(used_job_len);
    memcpy(used_job, job, 9);
    memcpy(used_job + 13, job + 9, job_len - 9);
    used_job[0] = 9, used_job[9] = (uint8_t)used;
    jibrufath_needs(used_job, used_job_len, needs);
    used_output_len = needs[JIBRUFATH_NEED_PACK_BYTES];
    used_output = lend(used_output_len);
}

/* Lends all memory for a shape, with a job pack of the plan, or of no byte where there is no room for it, and all its packets in output. */
static void begin(const uint64_t shape[4])
{
    l1 = shape[0], l2 = shape[1], l3 = shape[2], w = shape[3];
    cells = jibrufath_count(jibrufath_cells(l1, l2, l3, w));
    bytes = jibrufath_count(jibrufath_cube_bytes(l1, l2, l3, w));
    capacity = jibrufath_count(jibrufath_capacity(l1, l2, l3, w));
    output_len = jibrufath_count(jibrufath_pack_bytes(l1, l2, l3, w));
    cube = lend(bytes), second = lend(bytes), flags = lend(cells), data = lend(capacity), file = lend(capacity - 4);
    output = lend(output_len);
    uint8_t file_len = capacity - 4 < PLAN ? 0 : PLAN;
    job_len = 17 + file_len;
    job = lend(job_len);
    job[0] = 5, job[4] = (uint8_t)l1, job[5] = (uint8_t)l2, job[6] = (uint8_t)l3, job[7] = (uint8_t)w, job[8] = (uint8_t)(w >> 8);
    job[9] = file_len;
    for (int i = 0; i < file_len; i++)
        job[13 + i] = plan[i];
    for (uint64_t i = 0; i < capacity; i++)
        data[i] = (uint8_t)(i * 31 + 7);
    jibrufath_write_pack(job, job_len, cube, bytes, output, output_len);
    text_len = jibrufath_count(jibrufath_text_bytes(output, output_len));
    text = lend(text_len);
    begin_used(file_len);
}

/* What a call is to work on: a code cube with cells to fill or a wrong byte to mend. */
static void prepare(enum call call)
{
    jibrufath_encode(data, capacity, cube, bytes, l1, l2, l3, w);
    for (uint64_t cell = 0; cell < cells; cell++)
        flags[cell] = call == FILL && cell * 2654435761u / 128 % 10 < 3;
    if (call == MEND || call == MEND_AXIS)
        cube[bytes / 2] ^= 5;
}

int main(void)
{
    size_t most[CALLS] = {0};
    for (size_t i = 0; i < sizeof shapes / sizeof *shapes; i++) {
        begin(shapes[i]);
        size_t before = deepest(NOTHING);
        for (enum call call = ENCODE; call < CALLS; call++) {
            prepare(call);
            size_t taken = deepest(call) - before;
            most[call] = taken > most[call] ? taken : most[call];
            if (jibrufath_number(answer) != (call == RECEIVE_PLAN && job_len == 17 ? JIBRUFATH_ENTRY : JIBRUFATH_OK))
                return 1;
        }
        free(cube), free(second), free(flags), free(data), free(file), free(output), free(job), free(text);
        free(used_job), free(used_output);
    }
    for (enum call call = ENCODE; call < CALLS; call++)
        printf("%s %zu\n", names[call], most[call]);
    return 0;
}
