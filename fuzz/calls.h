/* What the parts of the harness share: an input taken apart, the lent slices, and the checks that every answer gets. */
#ifndef CALLS_H
#define CALLS_H

#include "../include/jibrufath.h"
#include "lent.h"
#include "model.h"

/* No cube above so many bytes is lent. */
#define MOST_BYTES ((size_t)1 << 15)

struct input {
    const uint8_t *bytes;
    size_t len;
};

/* The input's next byte, 0 behind its end; and a number of eight of them. */
uint8_t next_byte(struct input *input);
size_t next_number(struct input *input);

/* A small shape that passes the checks; now and then a wide or a long one. */
struct shape next_shape(struct input *input);

/* A number of used data cells for the shape, or none, by the input. */
void next_used(struct input *input, struct shape *shape);

/* The exact length, or by one byte of the input one more or one less in one slice. */
size_t near(size_t exact, uint8_t choice, int slice);

/* What the calls are lent, and what the receiver counted. */
extern struct lent pack, cube, flags, file, output, data, text, closures, fibres, splices;
extern uint64_t counts[JIBRUFATH_COUNTS];

/* The calls that an input chooses from, then those that others make. */
enum call {
    RECEIVE, WRITE, RETURN, DAMAGE, FILL, MEND, MEND_AXIS, ENCODE, SIZES, NEEDS, CHECK, READ_TEXT, WRITE_TEXT, CHANGE_TEXT, SCAN,
    READ_PLAN, WRITE_PLAN, CHANGE_PLAN, RECEIVE_PLAN, RETURN_PLAN, CALLS, TEXT_SIZES = CALLS, MEASURE_PLAN, NOTED
};

/* The largest number of the table. */
#define MOST_NUMBER 19

/* Counts an answer, and requires one of the numbers that the call can give, as bits. */
void note(enum call call, uint64_t answer, uint32_t numbers);

/* Requires of cube and flags what filling leaves, where these flags and this cube are filled. */
void check_filled(const struct shape *shape, const uint8_t *placed_flags, const uint8_t *placed_cube, uint64_t left);

/* Asks what `pack` needs, and answers with its shape, or with a small one where that is refused or too large. */
struct shape shape_in_pack(void);

/* Leaves in `pack` a job with this file, with the shape's number of used data cells where it has one. */
void lend_job(const struct shape *shape, const uint8_t *bytes, size_t len, uint8_t choice);

/* Writes what stands in `pack` to `output`. */
uint64_t write_job(const struct shape *shape, uint8_t choice, enum call call);

/* Adds packets of `output` to those that are heard, without some and with repeats, by the input's bytes. */
void lose(struct input *input, const struct shape *shape);

/* Leaves in `pack` the air pack of what was heard, from one of its packets on and round to it. */
void gather(const struct shape *shape, size_t first, uint8_t choice);

/* Lends what the receiver fills: cube, flags and file. */
void lend_receiver(const struct shape *shape, uint8_t choice);

/* Receives what stands in `pack`. */
uint64_t receive(const struct shape *shape, uint8_t choice, enum call call);

typedef void fuzz_call(struct input input, uint8_t choice);

fuzz_call fuzz_receive, fuzz_write, fuzz_return, fuzz_damage, fuzz_needs;
fuzz_call fuzz_fill, fuzz_scan, fuzz_mend, fuzz_mend_axis, fuzz_encode, fuzz_check, fuzz_sizes;
fuzz_call fuzz_read_text, fuzz_write_text, fuzz_change_text;
fuzz_call fuzz_read_plan, fuzz_write_plan, fuzz_change_plan, fuzz_receive_plan, fuzz_return_plan;

#endif
