/* The calls on packs: any bytes as a pack, and packs that the writer wrote, with packets lost and bytes changed. */
#include "calls.h"

#include <string.h>

/* The most bytes of an air pack before its packets, and those of a pack of this shape. */
#define MOST_HEAD ((size_t)21)

static size_t head_of(const struct shape *shape)
{
    return shape->used == 0 ? 17 : MOST_HEAD;
}

/* The number that four bytes write, low first. */
static size_t word(const uint8_t *at)
{
    return at[0] | (size_t)at[1] << 8 | (size_t)at[2] << 16 | (size_t)at[3] << 24;
}

static void put_word(uint8_t *at, size_t number)
{
    for (int i = 0; i < 4; i++)
        at[i] = (uint8_t)(number >> (8 * i));
}

/* What the table says of section 1 of `pack`, with the shape in it where that is nothing to refuse. */
static enum jibrufath_answer judged(struct shape *shape)
{
    const uint8_t *at = pack.bytes;
    if (pack.len < 4)
        return JIBRUFATH_TRUNCATED;
    if (word(at) != 5 && word(at) != 9)
        return JIBRUFATH_HEADER_COUNT;
    if (pack.len < 4 + word(at))
        return JIBRUFATH_TRUNCATED;
    *shape = (struct shape){{at[4], at[5], at[6]}, at[7] + 256u * at[8], 0};
    if (at[4] < 3 || at[5] < 3 || at[6] < 3)
        return JIBRUFATH_DIMENSION;
    if (shape->w < 1 || shape->w > 1024)
        return JIBRUFATH_PACKET_SIZE;
    if (cells_of(shape) * shape->w > 268435456)
        return JIBRUFATH_CUBE_SIZE;
    if (capacity_of(shape) < 4)
        return JIBRUFATH_CAPACITY;
    if (word(at) == 5)
        return JIBRUFATH_OK;
    shape->used = word(at + 9);
    return shape->used < 1 || shape->used > data_cells_of(shape) ? JIBRUFATH_USED_CELLS : JIBRUFATH_OK;
}

struct shape shape_in_pack(void)
{
    struct shape shape = {{3, 3, 3}, 5, 0}, small = shape;
    uint64_t needs[JIBRUFATH_NEEDS], expected[JIBRUFATH_NEEDS] = {0};
    memset(needs, 0xEE, sizeof needs);
    uint64_t answer = jibrufath_needs(pack.bytes, pack.len, needs);
    note(NEEDS, answer, 0x804CF); /* 0 to 3, 6, 7, 10, 19 */
    require(answer == judged(&shape), "the number of section 1");
    require(kept(&pack), "the pack");
    if (answer == JIBRUFATH_OK) {
        const size_t *l = shape.length, cells = cells_of(&shape), capacity = capacity_of(&shape);
        const size_t written = head_of(&shape) + sent_of(&shape) * (3 + shape.w);
        const uint64_t sizes[] = {
            l[0], l[1], l[2], shape.w, cells, cells * shape.w, capacity, capacity - 4, written, used_of(&shape)};
        memcpy(expected, sizes, sizeof sizes);
    }
    require(memcmp(needs, expected, sizeof needs) == 0, "what the pack needs");
    return answer != JIBRUFATH_OK || needs[JIBRUFATH_NEED_CUBE_BYTES] > MOST_BYTES ? small : shape;
}

void fuzz_needs(struct input input, uint8_t choice)
{
    lend_copy(&pack, input.bytes, input.len, choice);
    shape_in_pack();
}

/* Where the cell of a packet begins in the cube. */
static size_t cell_of(const struct shape *shape, const uint8_t *packet)
{
    return packet[0] + shape->length[0] * (packet[1] + shape->length[1] * packet[2]);
}

/* Whether a packet names a cell that is sent. */
static int is_sent(const struct shape *shape, const uint8_t *packet)
{
    const size_t *l = shape->length;
    int inside = packet[0] < l[0] && packet[1] < l[1] && packet[2] < l[2];
    return inside && !is_unsent(shape, cell_of(shape, packet));
}

/* The index of the first packet of `pack` that names a cell which is not sent; that behind the last, if none does. */
static size_t first_refused(const struct shape *shape)
{
    size_t at = head_of(shape);
    while (at < pack.len && is_sent(shape, pack.bytes + at))
        at += 3 + shape->w;
    return (at - head_of(shape)) / (3 + shape->w);
}

/* An air pack whose packets are placed and not yet filled, and what its receiver counts. */
struct placing {
    uint8_t flags[MOST_BYTES], cube[MOST_BYTES];
    uint64_t counts[JIBRUFATH_COUNTS];
};

/* Places the first packet of each cell in `pack`. Missing is then a cell that is sent and that no packet named, or that two did with
 * different bytes. */
static void place(const struct shape *shape, struct placing *placing)
{
    static uint8_t came[MOST_BYTES], differs[MOST_BYTES];
    size_t cells = cells_of(shape), w = shape->w;
    memset(came, 0, cells);
    memset(differs, 0, cells);
    memset(placing->cube, 0, cells * w);
    memset(placing->counts, 0, sizeof placing->counts);
    for (size_t at = head_of(shape); at < pack.len; at += 3 + w) {
        size_t cell = cell_of(shape, pack.bytes + at);
        if (came[cell])
            differs[cell] |= memcmp(placing->cube + cell * w, pack.bytes + at + 3, w) != 0;
        else
            memcpy(placing->cube + cell * w, pack.bytes + at + 3, w);
        placing->counts[JIBRUFATH_COUNT_PACKETS]++;
        placing->counts[JIBRUFATH_COUNT_REPEATS] += came[cell];
        came[cell] = 1;
    }
    for (size_t cell = 0; cell < cells; cell++) {
        placing->flags[cell] = is_unsent(shape, cell) ? 2 : !came[cell] || differs[cell];
        placing->counts[JIBRUFATH_COUNT_CONFLICTS] += differs[cell];
        if (placing->flags[cell])
            memset(placing->cube + cell * w, 0, w);
    }
}

static void check_opened(const struct shape *shape, size_t len)
{
    lend(&data, capacity_of(shape), 1);
    const size_t *l = shape->length;
    uint64_t answer = jibrufath_extract(cube.bytes, cube.len, data.bytes, data.len, l[0], l[1], l[2], shape->w);
    require(answer == JIBRUFATH_OK, "a data string");
    const uint8_t *string = data.bytes;
    require(word(string) == len, "the file's length");
    require(memcmp(string + 4, file.bytes, len) == 0, "the file's bytes");
    for (size_t i = 4 + len; i < data.len; i++)
        require(string[i] == 0, "00h behind the file");
    require(kept_from(&file, len), "the file buffer behind the file");
}

static void check_received(const struct shape *shape, uint64_t answer)
{
    static struct placing placing;
    unsigned number = (unsigned)jibrufath_number(answer);
    int opened = answer == JIBRUFATH_OK;
    require(opened || kept(&file), "the file buffer");
    require(kept(&pack), "the pack");
    if (number == JIBRUFATH_OK || number == JIBRUFATH_CONTRADICTION || number == JIBRUFATH_FILE_LENGTH) {
        require(head_of(shape) + first_refused(shape) * (3 + shape->w) == pack.len, "packets of cells that are sent");
        place(shape, &placing);
        if (number != JIBRUFATH_CONTRADICTION) {
            check_filled(shape, placing.flags, placing.cube, jibrufath_count(answer));
        } else {
            require(memcmp(flags.bytes, placing.flags, flags.len) == 0, "the flags as placed");
            require(memcmp(cube.bytes, placing.cube, cube.len) == 0, "the cube as placed");
        }
    } else {
        require(kept(&cube) && kept(&flags), "the memory that a refusal keeps");
    }
    require(number != JIBRUFATH_CELL_INDEX || jibrufath_count(answer) == first_refused(shape), "the first packet of no cell that is sent");
    if (number != JIBRUFATH_OK)
        memset(placing.counts, 0, sizeof placing.counts);
    if (opened) {
        placing.counts[JIBRUFATH_COUNT_FILE_BYTES] = counts[JIBRUFATH_COUNT_FILE_BYTES];
        check_opened(shape, counts[JIBRUFATH_COUNT_FILE_BYTES]);
    }
    require(memcmp(counts, placing.counts, sizeof placing.counts) == 0, "the counts");
}

void lend_receiver(const struct shape *shape, uint8_t choice)
{
    lend(&cube, near(cells_of(shape) * shape->w, choice, 0), choice);
    lend(&flags, near(cells_of(shape), choice, 1), choice);
    lend(&file, near(capacity_of(shape) - 4, choice, 2), choice);
}

uint64_t receive(const struct shape *shape, uint8_t choice, enum call call)
{
    lend_receiver(shape, choice);
    memset(counts, 0xEE, sizeof counts);
    uint64_t answer = jibrufath_receive_pack(
        pack.bytes, pack.len, cube.bytes, cube.len, flags.bytes, flags.len, file.bytes, file.len, counts);
    note(call, answer, 0x86FDF); /* 0 to 4, 6 to 11, 13, 14, 19 */
    check_received(shape, answer);
    return answer;
}

void fuzz_receive(struct input input, uint8_t choice)
{
    lend_copy(&pack, input.bytes, input.len, choice);
    struct shape shape = shape_in_pack();
    receive(&shape, choice, RECEIVE);
}

static int is_zero(const uint8_t *bytes, size_t len)
{
    while (len > 0 && bytes[len - 1] == 0)
        len--;
    return len == 0;
}

/* Requires of `cube` a code cube that is 00h where it is unsent, and of `output` the job's section 1 and the packets of all other cells. */
static void check_written(const struct shape *shape, uint8_t choice)
{
    size_t cells = cells_of(shape), w = shape->w, head = head_of(shape), sent = 0;
    lend(&flags, cells, choice);
    memset(flags.bytes, 0, cells);
    require(lines_right(shape, cube.bytes, flags.bytes), "the code cube");
    require(memcmp(output.bytes, pack.bytes, head - 8) == 0, "the section 1 of the job");
    require(word(output.bytes + head - 8) == 0 && word(output.bytes + head - 4) == sent_of(shape), "the counts behind it");
    for (size_t cell = 0; cell < cells; cell++) {
        const uint8_t *packet = output.bytes + head + sent * (3 + w), *bytes = cube.bytes + cell * w;
        if (is_unsent(shape, cell)) {
            require(is_zero(bytes, w), "00h in an unsent cell");
            continue;
        }
        require(cell_of(shape, packet) == cell, "the packets in cell order");
        require(memcmp(packet + 3, bytes, w) == 0, "a packet's bytes");
        sent++;
    }
}

uint64_t write_job(const struct shape *shape, uint8_t choice, enum call call)
{
    size_t file_at = head_of(shape) - 4;
    lend(&cube, near(cells_of(shape) * shape->w, choice, 0), choice);
    lend(&output, near(head_of(shape) + sent_of(shape) * (3 + shape->w), choice, 1), choice);
    uint64_t answer = jibrufath_write_pack(pack.bytes, pack.len, cube.bytes, cube.len, output.bytes, output.len);
    note(call, answer, 0x807DF); /* 0 to 4, 6 to 10, 19 */
    require(kept(&pack), "the job");
    require(answer == JIBRUFATH_OK || (kept(&cube) && kept(&output)), "the memory that a refusal keeps");
    if (answer == JIBRUFATH_OK) {
        require(used_of(shape) * shape->w >= 4 + word(pack.bytes + file_at - 4), "used cells with room for the file");
        check_written(shape, choice);
    }
    return answer;
}

void fuzz_write(struct input input, uint8_t choice)
{
    lend_copy(&pack, input.bytes, input.len, choice);
    struct shape shape = shape_in_pack();
    write_job(&shape, choice, WRITE);
}

/* The packets that are heard. */
static struct {
    uint8_t bytes[LENT_MOST];
    size_t packets;
} heard;

/* Adds the packet with this index in `output` to those that are heard, and gives its bytes. */
static uint8_t *hear(const struct shape *shape, size_t index)
{
    size_t size = 3 + shape->w;
    uint8_t *packet = heard.bytes + size * heard.packets++;
    memcpy(packet, output.bytes + head_of(shape) + size * index, size);
    return packet + 3;
}

/* Adds two copies that differ of some packets of `output`, by the input's bytes. Neither need be right. */
static void disagree(struct input *input, const struct shape *shape)
{
    for (int packets = next_byte(input) % 16; packets > 0; packets--) {
        size_t index = (next_byte(input) * 256u + next_byte(input)) % sent_of(shape);
        uint8_t change = next_byte(input), other = next_byte(input);
        uint8_t *first = hear(shape, index), *second = hear(shape, index);
        first[change % shape->w] ^= change;
        second[change % shape->w] ^= change;
        second[other % shape->w] ^= other | 1;
    }
}

void lose(struct input *input, const struct shape *shape)
{
    size_t sent = sent_of(shape);
    uint8_t share = next_byte(input);
    uint32_t state = next_byte(input);
    for (size_t i = 0; i < sent; i++) {
        state = state * 1664525u + 1013904223u + (input->len > 0 ? next_byte(input) : 0);
        if ((uint8_t)(state >> 24) >= share)
            hear(shape, share & 1 ? (i * 7 + state % 3) % sent : i);
    }
}

void gather(const struct shape *shape, size_t first, uint8_t choice)
{
    static uint8_t air[LENT_MOST];
    size_t size = 3 + shape->w, head = head_of(shape), packets = heard.packets, behind = packets - first;
    memcpy(air, output.bytes, head);
    put_word(air + head - 4, packets);
    memcpy(air + head, heard.bytes + size * first, size * behind);
    memcpy(air + head + size * behind, heard.bytes, size * first);
    lend_copy(&pack, air, head + size * packets, choice);
    heard.packets = 0;
}

void lend_job(const struct shape *shape, const uint8_t *bytes, size_t len, uint8_t choice)
{
    static uint8_t job[MOST_HEAD + MOST_BYTES];
    size_t file_at = head_of(shape) - 4;
    put_word(job, head_of(shape) - 12);
    for (int axis = 0; axis < 3; axis++)
        job[4 + axis] = (uint8_t)shape->length[axis];
    job[7] = (uint8_t)shape->w;
    job[8] = (uint8_t)(shape->w >> 8);
    put_word(job + 9, shape->used);
    put_word(job + file_at - 4, len);
    memcpy(job + file_at, bytes, len);
    memset(job + file_at + len, 0, 4);
    lend_copy(&pack, job, file_at + len + 4, choice);
}

/* Leaves in `pack` a job with a file of the input's bytes, which may be one byte too long, and answers with the file's length. */
static size_t next_job(struct input *input, const struct shape *shape, uint8_t choice)
{
    static uint8_t next[MOST_BYTES];
    size_t used = used_of(shape) * shape->w, room = used < 4 ? 0 : used - 4;
    size_t len = next_number(input) % (room + 2);
    size_t copied = len < input->len ? len : input->len;
    memset(next, 0, len);
    memcpy(next, input->bytes, copied);
    *input = (struct input){input->bytes + copied, input->len - copied};
    lend_job(shape, next, len, choice);
    return len;
}

/* The third demand: a file that is written, loses any packets, has copies that differ of any cells, and is received. */
void fuzz_return(struct input input, uint8_t choice)
{
    static uint8_t sent[MOST_BYTES];
    struct shape shape = next_shape(&input);
    next_used(&input, &shape);
    size_t len = next_job(&input, &shape, choice);
    memcpy(sent, pack.bytes + head_of(&shape) - 4, len);
    uint64_t answer = write_job(&shape, choice, RETURN);
    uint64_t no_room = capacity_of(&shape) < 4 + len ? JIBRUFATH_CAPACITY : JIBRUFATH_USED_CELLS;
    require(used_of(&shape) * shape.w >= 4 + len || answer == no_room, "no room");
    if (answer != JIBRUFATH_OK)
        return;
    uint8_t first = next_byte(&input);
    disagree(&input, &shape);
    lose(&input, &shape);
    gather(&shape, heard.packets > 0 ? first % heard.packets : 0, choice);
    answer = receive(&shape, 0, RETURN);
    require(jibrufath_number(answer) == JIBRUFATH_OK, "packets of one code cube, and copies that differ, are not refused");
    require(jibrufath_count(answer) > 0 || memcmp(file.bytes, sent, len) == 0, "the file comes back");
}

/* The same, with some bytes of the air pack changed. */
void fuzz_damage(struct input input, uint8_t choice)
{
    struct shape shape = next_shape(&input);
    next_used(&input, &shape);
    next_job(&input, &shape, choice);
    uint8_t changes = 1 + next_byte(&input) % 4;
    struct input places = input;
    if (write_job(&shape, 0, DAMAGE) != JIBRUFATH_OK)
        return;
    lose(&input, &shape);
    gather(&shape, 0, choice);
    for (; changes > 0; changes--) {
        size_t at = next_byte(&places) * 256u + next_byte(&places);
        pack.bytes[at % pack.len] ^= next_byte(&places);
    }
    remember(&pack);
    shape = shape_in_pack();
    receive(&shape, choice, DAMAGE);
}
