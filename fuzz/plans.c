/* The calls on plans: any bytes as a file or as lists, plans with numbers and bytes changed, and packs whose file may be a plan. */
#include "calls.h"
#include "plan_model.h"

#include <string.h>

/* A plan that the harness makes has at most so many closures, and so many fibres in each. */
#define MOST_CLOSURES 6
#define MOST_FIBRES 14

/* The lists that a plan is read to and written from, in the order of the sections. */
static struct lent *const lists[SECTIONS] = {&closures, &fibres, &splices};

/* The bytes of the entries of a section. */
static size_t section_bytes(const struct plan *plan, int section)
{
    return entry_bytes[section] * plan->count[section];
}

/* Lends lists for the entries of a plan, exact or longer, one of them too short where that is asked for. Says whether all have room. */
static int lend_lists(const struct plan *plan, uint8_t choice, int short_list)
{
    static const size_t more[] = {0, 0, 1, 40};
    int room = 1;
    for (int section = 0; section < SECTIONS; section++) {
        size_t exact = section_bytes(plan, section);
        size_t len = section == short_list && exact > 0 ? exact - 1 : exact + more[choice >> (2 * section) & 3];
        lend(lists[section], len, choice);
        room &= len >= exact;
    }
    return room;
}

/* Requires that each list begins with the entries of its section and is kept behind them, or is kept whole where no plan is shown. */
static void check_lists(const struct plan *plan, int shown)
{
    for (int section = 0; section < SECTIONS; section++) {
        size_t bytes = shown ? section_bytes(plan, section) : 0;
        require(memcmp(lists[section]->bytes, plan->file + plan->start[section], bytes) == 0, "the entries of a section");
        require(kept_from(lists[section], bytes), "a list behind its entries");
    }
}

/* Requires the counts of a plan that is shown, and zeros otherwise. */
static void check_entries(const struct plan *plan, int shown, const uint64_t entries[JIBRUFATH_ENTRIES])
{
    for (int section = 0; section < SECTIONS; section++)
        require(entries[section] == (shown ? plan->count[section] : 0), "the counts of the sections");
}

/* Reads what stands in `file` to lists. */
static uint64_t read_to_lists(const struct plan *plan, uint64_t judged, uint8_t choice, int short_list, enum call call)
{
    uint64_t entries[JIBRUFATH_ENTRIES];
    memset(entries, 0xEE, sizeof entries);
    int room = lend_lists(plan, choice, short_list);
    uint64_t answer = jibrufath_read_plan(file.bytes, file.len, closures.bytes, closures.len, fibres.bytes, fibres.len, splices.bytes,
        splices.len, entries);
    note(call, answer, 0x40011); /* 0, 4, 18 */
    require(answer == (judged == JIBRUFATH_OK && !room ? JIBRUFATH_SLICE_LENGTH : judged), "what the reader answers");
    require(kept(&file), "the file");
    check_lists(plan, answer == JIBRUFATH_OK);
    check_entries(plan, answer == JIBRUFATH_OK, entries);
    return answer;
}

/* Writes the lists to `output`, of this length. */
static uint64_t write_to_output(size_t len, uint8_t choice, enum call call)
{
    lend(&output, len, choice);
    uint64_t answer = jibrufath_write_plan(closures.bytes, closures.len, fibres.bytes, fibres.len, splices.bytes, splices.len,
        output.bytes, output.len);
    note(call, answer, 0x40011); /* 0, 4, 18 */
    for (int section = 0; section < SECTIONS; section++)
        require(kept(lists[section]), "a list that is only read");
    require(answer == JIBRUFATH_OK || kept(&output), "the memory that a refusal keeps");
    return answer;
}

/* Reads what stands in `file`, to a list that is too short first, and writes a plan back. */
static void read_plan(uint8_t choice, enum call call)
{
    struct plan plan;
    uint64_t entries[JIBRUFATH_ENTRIES], judged = judge_plan(&plan, file.bytes, file.len);
    memset(entries, 0xEE, sizeof entries);
    uint64_t answer = jibrufath_measure_plan(file.bytes, file.len, entries);
    note(MEASURE_PLAN, answer, 0x40001); /* 0, 18 */
    require(answer == judged, "what the file is");
    check_entries(&plan, judged == JIBRUFATH_OK, entries);
    read_to_lists(&plan, judged, choice, choice % SECTIONS, call);
    if (read_to_lists(&plan, judged, choice & 1, SECTIONS, call) != JIBRUFATH_OK)
        return;
    for (int section = 0; section < SECTIONS; section++)
        remember(lists[section]);
    require(write_to_output(file.len, choice, WRITE_PLAN) == JIBRUFATH_OK, "a plan to write back");
    require(memcmp(output.bytes, file.bytes, file.len) == 0, "the same bytes");
}

/* Any bytes as a file. */
void fuzz_read_plan(struct input input, uint8_t choice)
{
    lend_copy(&file, input.bytes, input.len, choice);
    read_plan(choice, READ_PLAN);
}

/* Any bytes as three lists, of which one may end inside an entry: to an output of another length first, which is refused for that alone. */
void fuzz_write_plan(struct input input, uint8_t choice)
{
    static uint8_t expected[LENT_MOST];
    size_t entries[SECTIONS] = {next_byte(&input) % 32, next_byte(&input) % 64, SIZE_MAX / 8}, at = 0;
    uint8_t part = next_byte(&input);
    int whole = 1;
    for (int section = 0; section < SECTIONS; section++) {
        size_t size = entry_bytes[section], room = input.len / size * size;
        size_t len = size * entries[section] < room ? size * entries[section] : room;
        len += part % 8 == section && len + part / 8 <= input.len ? part / 8 : 0;
        lend_copy(lists[section], input.bytes, len, choice);
        put_number(expected + at, 4, len / size);
        memcpy(expected + at + 4, input.bytes, len);
        input = (struct input){input.bytes + len, input.len - len};
        at += 4 + len;
        whole &= len % size == 0;
    }
    struct plan plan;
    uint64_t judged = whole ? judge_plan(&plan, expected, at) : JIBRUFATH_SLICE_LENGTH;
    require(write_to_output(choice & 2 ? at + 1 : at - 1, choice, WRITE_PLAN) == JIBRUFATH_SLICE_LENGTH, "another length");
    require(write_to_output(at, choice, WRITE_PLAN) == judged, "what the lists are");
    if (judged == JIBRUFATH_OK) {
        require(memcmp(output.bytes, expected, at) == 0, "the plan's file");
        lend_copy(&file, expected, at, choice);
        read_to_lists(&plan, judged, choice, SECTIONS, READ_PLAN);
    }
}

/* Adds ascending numbers of fibres to a list, and splices of some of them to another. */
static void next_closure(struct input *input, size_t closure, struct lent *made_fibres, struct lent *made_splices)
{
    size_t start = made_fibres->len / 4, number = 0, used[MOST_FIBRES] = {0}, count = next_byte(input) % MOST_FIBRES;
    for (size_t i = 0; i < count; i++) {
        number += 1 + next_byte(input) % 20;
        put_number(made_fibres->bytes + made_fibres->len, 2, closure);
        put_number(made_fibres->bytes + made_fibres->len + 2, 2, number);
        made_fibres->len += 4;
    }
    for (size_t i = 0; i + 1 < count; i++) {
        size_t other = i + 1 + next_byte(input) % (count - i - 1);
        if (used[i] || used[other])
            continue;
        used[i] = used[other] = 1;
        put_number(made_splices->bytes + made_splices->len, 4, start + i);
        put_number(made_splices->bytes + made_splices->len + 4, 4, start + other);
        made_splices->len += 8;
    }
}

/* Leaves in `bytes` a plan that keeps every rule, and answers with its length. */
static size_t next_plan(struct input *input, uint8_t *bytes)
{
    static uint8_t made[SECTIONS][8 * MOST_CLOSURES * MOST_FIBRES];
    struct lent parts[SECTIONS] = {{.bytes = made[CLOSURES]}, {.bytes = made[FIBRES]}, {.bytes = made[SPLICES]}};
    size_t closure = next_byte(input), at = 0;
    for (int count = next_byte(input) % MOST_CLOSURES; count > 0; count--) {
        put_number(parts[CLOSURES].bytes + parts[CLOSURES].len, 2, closure);
        parts[CLOSURES].len += 2;
        next_closure(input, closure, &parts[FIBRES], &parts[SPLICES]);
        uint8_t step = next_byte(input);
        closure += 1 + (step & 0x80 ? step * 50u : step % 4);
    }
    for (int section = 0; section < SECTIONS; section++) {
        put_number(bytes + at, 4, parts[section].len / entry_bytes[section]);
        memcpy(bytes + at + 4, parts[section].bytes, parts[section].len);
        at += 4 + parts[section].len;
    }
    return at;
}

/* Changes bytes here and there: a number by one, a byte to any, a count or an index to the highest, bytes cut, taken out or repeated. */
static size_t change_plan(struct input *input, uint8_t *bytes, size_t len)
{
    for (int changes = next_byte(input) % 4; changes > 0 && len >= 8; changes--) {
        uint8_t kind = next_byte(input), with = next_byte(input);
        size_t at = (next_byte(input) * 256u + next_byte(input)) % (len - 3), moved = 1u << with % 4;
        if (kind % 8 < 3) {
            bytes[at & ~(size_t)1] += with & 1 ? 1 : 0xFF;
        } else if (kind % 8 == 3) {
            bytes[at] = with;
        } else if (kind % 8 == 4) {
            memset(bytes + (at & ~(size_t)1), 0xFF, 4);
        } else if (kind % 8 == 5) {
            len = at;
        } else if (kind % 8 == 6 && at + moved <= len) {
            memmove(bytes + at, bytes + at + moved, len - at - moved);
            len -= moved;
        } else if (at + moved <= len) {
            memmove(bytes + at + moved, bytes + at, len - at);
            len += moved;
        }
    }
    return len;
}

/* A plan that the harness makes, as it is or with bytes changed. */
void fuzz_change_plan(struct input input, uint8_t choice)
{
    static uint8_t made[LENT_MOST];
    size_t len = next_plan(&input, made);
    len = change_plan(&input, made, len);
    lend_copy(&file, made, len, choice);
    read_plan(choice, CHANGE_PLAN);
}

/* What the receiver of packs leaves. */
static struct {
    uint8_t cube[MOST_BYTES], flags[MOST_BYTES], file[MOST_BYTES];
    uint64_t counts[JIBRUFATH_COUNTS];
} left;

/* Receives what stands in `pack` as a file, then as a plan, which must leave the same and show the plan where the file is one. */
static void receive_plan(const struct shape *shape, uint8_t choice, enum call call)
{
    struct plan plan = {.file = left.file};
    uint64_t entries[JIBRUFATH_ENTRIES], expected = receive(shape, choice, call);
    memcpy(left.cube, cube.bytes, cube.len);
    memcpy(left.flags, flags.bytes, flags.len);
    memcpy(left.file, file.bytes, file.len);
    memcpy(left.counts, counts, sizeof counts);
    if (expected == JIBRUFATH_OK)
        expected = judge_plan(&plan, left.file, counts[JIBRUFATH_COUNT_FILE_BYTES]);
    lend_receiver(shape, choice);
    int room = lend_lists(&plan, choice, choice % 8);
    if (expected == JIBRUFATH_OK && !room)
        expected = JIBRUFATH_SLICE_LENGTH;
    memset(counts, 0xEE, sizeof counts);
    memset(entries, 0xEE, sizeof entries);
    uint64_t answer = jibrufath_receive_plan(pack.bytes, pack.len, cube.bytes, cube.len, flags.bytes, flags.len, file.bytes, file.len,
        closures.bytes, closures.len, fibres.bytes, fibres.len, splices.bytes, splices.len, counts, entries);
    note(call, answer, 0xC6FDF); /* 0 to 4, 6 to 11, 13, 14, 18, 19 */
    require(answer == expected, "what the receiver of plans answers");
    require(kept(&pack), "the pack");
    require(memcmp(left.cube, cube.bytes, cube.len) == 0 && memcmp(left.flags, flags.bytes, flags.len) == 0, "the cube and the flags");
    require(memcmp(left.file, file.bytes, file.len) == 0, "the file buffer");
    if (jibrufath_number(answer) != JIBRUFATH_OK)
        memset(left.counts, 0, sizeof left.counts);
    require(memcmp(left.counts, counts, sizeof counts) == 0, "the counts");
    check_lists(&plan, answer == JIBRUFATH_OK);
    check_entries(&plan, answer == JIBRUFATH_OK, entries);
}

/* Any bytes as a pack. */
void fuzz_receive_plan(struct input input, uint8_t choice)
{
    lend_copy(&pack, input.bytes, input.len, choice);
    struct shape shape = shape_in_pack();
    receive_plan(&shape, choice, RECEIVE_PLAN);
}

/* A plan as it is or with bytes changed, written to packets, of which some are lost, and received; perhaps without the data cells that
 * it does not reach. */
void fuzz_return_plan(struct input input, uint8_t choice)
{
    static uint8_t made[LENT_MOST];
    struct shape shape = next_shape(&input);
    size_t len = next_plan(&input, made), data_cells = capacity_of(&shape) / shape.w;
    len = change_plan(&input, made, len);
    if (capacity_of(&shape) < 4 + len)
        shape.w = (4 + len + data_cells - 1) / data_cells;
    if (shape.w > 1024 || cells_of(&shape) * shape.w > MOST_BYTES)
        return;
    if (choice & 4)
        shape.used = (4 + len + shape.w - 1) / shape.w;
    lend_job(&shape, made, len, choice);
    require(write_job(&shape, 0, RETURN_PLAN) == JIBRUFATH_OK, "packets of a plan");
    lose(&input, &shape);
    gather(&shape, 0, choice);
    receive_plan(&shape, choice, RETURN_PLAN);
}
