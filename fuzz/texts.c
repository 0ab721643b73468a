/* The calls on texts: any bytes as a text or as a pack, and texts of packs with characters changed. */
#include "calls.h"

#include <string.h>

/* The bytes of an air pack before its packets. */
#define HEAD ((size_t)17)

/* A text that the harness makes has at most so many packets. */
#define MOST_PACKETS 24

/* Where the line with this number, from 1, begins in `text`; its end, if there is no such line. */
static size_t line_start(uint64_t number)
{
    size_t at = 0;
    for (; number > 1 && at < text.len; at++)
        number -= text.bytes[at] == '\n';
    return at;
}

/* Requires that the line is the first that breaks the form: the text before it is in the form, and ends in that line's place with it. */
static void check_broken(uint64_t line)
{
    size_t start = line_start(line), end = line_start(line + 1);
    require(line == 1 || (start > 0 && start < text.len && text.bytes[start - 1] == '\n'), "a line of the text");
    if (line > 1) {
        uint64_t before = jibrufath_text_pack_bytes(text.bytes, start);
        require(jibrufath_number(before) != JIBRUFATH_LINE, "the lines before it are in the form");
    }
    uint64_t with = jibrufath_text_pack_bytes(text.bytes, end);
    require(with == (JIBRUFATH_LINE | line << 8), "the line breaks the form by itself");
}

/* Asks for the bytes of the pack of what stands in `text`, and answers with them or with a few where they are refused. */
static size_t pack_bytes(uint64_t *answer)
{
    *answer = jibrufath_text_pack_bytes(text.bytes, text.len);
    note(TEXT_SIZES, *answer, 0x2040F); /* 0 to 3, 10, 17 */
    require(kept(&text), "a text that is only read");
    if (jibrufath_number(*answer) == JIBRUFATH_LINE)
        check_broken(jibrufath_count(*answer));
    return jibrufath_number(*answer) == JIBRUFATH_OK ? jibrufath_count(*answer) : HEAD;
}

/* Requires of `output` the pack of what stands in `text`: its size by the text's lines, and the same characters written back. */
static void check_read(uint8_t choice)
{
    size_t lines = 0, w = output.bytes[7] + 256u * output.bytes[8];
    for (size_t i = 0; i < text.len; i++)
        lines += text.bytes[i] == '\n';
    require(output.len == HEAD + (lines - 1) * (3 + w), "a packet for each line behind the first");
    uint64_t size = jibrufath_text_bytes(output.bytes, output.len);
    note(TEXT_SIZES, size, 0x1); /* 0 */
    require(jibrufath_count(size) == text.len, "the bytes of the text");
    lend(&data, text.len, choice);
    require(jibrufath_write_text(output.bytes, output.len, data.bytes, data.len) == JIBRUFATH_OK, "a pack to write back");
    require(margin_kept(&data) && memcmp(data.bytes, text.bytes, text.len) == 0, "the same characters");
}

/* Reads what stands in `text` to a slice of this length. */
static uint64_t read_to(size_t len, uint8_t choice, enum call call)
{
    lend(&output, len, choice);
    uint64_t answer = jibrufath_read_text(text.bytes, text.len, output.bytes, output.len);
    note(call, answer, 0x20C1F); /* 0 to 4, 10, 11, 17 */
    require(kept(&text), "the text");
    require(answer == JIBRUFATH_OK || kept(&output), "the memory that a refusal keeps");
    return answer;
}

/* Reads what stands in `text` to `output`; to a slice of another length first, which is refused for that alone. */
static uint64_t read_text(uint8_t choice, enum call call)
{
    uint64_t size;
    size_t exact = pack_bytes(&size), other = choice & 2 ? exact + 1 : exact - 1;
    int sized = jibrufath_number(size) == JIBRUFATH_OK;
    require(read_to(other, choice, call) == (sized ? JIBRUFATH_SLICE_LENGTH : size), "another length");
    uint64_t answer = read_to(exact, choice, call);
    require(answer == (sized ? JIBRUFATH_OK : size) || (sized && jibrufath_number(answer) == JIBRUFATH_CELL_INDEX), "the exact length");
    if (answer == JIBRUFATH_OK)
        check_read(choice);
    return answer;
}

/* Any bytes as a text. */
void fuzz_read_text(struct input input, uint8_t choice)
{
    lend_copy(&text, input.bytes, input.len, choice);
    read_text(choice, READ_TEXT);
}

/* Writes what stands in `pack` to a slice of this length. */
static uint64_t write_to(size_t len, uint8_t choice, enum call call)
{
    lend(&text, len, choice);
    uint64_t answer = jibrufath_write_text(pack.bytes, pack.len, text.bytes, text.len);
    note(call, answer, 0x0FDF); /* 0 to 4, 6 to 11 */
    require(kept(&pack), "the pack");
    require(answer == JIBRUFATH_OK || kept(&text), "the memory that a refusal keeps");
    return answer;
}

/* Writes what stands in `pack` to `text`; to a slice of another length first, which is refused for that alone. */
static uint64_t write_text(uint8_t choice, enum call call)
{
    uint64_t size = jibrufath_text_bytes(pack.bytes, pack.len);
    note(TEXT_SIZES, size, 0x07CF); /* 0 to 3, 6 to 10 */
    int other_count = pack.len >= 4 && memcmp(pack.bytes, "\5\0\0", 4) != 0;
    require(other_count == (size == JIBRUFATH_HEADER_COUNT), "no text of another count than 5");
    int sized = jibrufath_number(size) == JIBRUFATH_OK;
    size_t exact = sized ? jibrufath_count(size) : HEAD, other = choice & 2 ? exact + 1 : exact - 1;
    require(write_to(other, choice, call) == (sized ? JIBRUFATH_SLICE_LENGTH : size), "another length");
    uint64_t answer = write_to(exact, choice, call);
    require(answer == (sized ? JIBRUFATH_OK : size) || (sized && jibrufath_number(answer) == JIBRUFATH_CELL_INDEX), "the exact length");
    return answer;
}

/* Reads the text of `pack` back to it. */
static void check_written(uint8_t choice, enum call call)
{
    remember(&text);
    require(read_text(choice, call) == JIBRUFATH_OK, "a text that was written");
    require(output.len == pack.len && memcmp(output.bytes, pack.bytes, pack.len) == 0, "the same pack");
}

/* Any bytes as a pack. */
void fuzz_write_text(struct input input, uint8_t choice)
{
    lend_copy(&pack, input.bytes, input.len, choice);
    if (write_text(choice, WRITE_TEXT) == JIBRUFATH_OK)
        check_written(choice, WRITE_TEXT);
}

/* Leaves in `pack` an air pack with packets of the input's bytes; now and then one names a cell outside the cube. */
static void next_air(struct input *input, const struct shape *shape, uint8_t choice)
{
    static uint8_t air[LENT_MOST];
    size_t packets = next_byte(input) % MOST_PACKETS, at = HEAD;
    uint8_t outside = next_byte(input);
    memset(air, 0, HEAD);
    air[0] = 5;
    for (int axis = 0; axis < 3; axis++)
        air[4 + axis] = (uint8_t)shape->length[axis];
    air[7] = (uint8_t)shape->w;
    air[8] = (uint8_t)(shape->w >> 8);
    air[13] = (uint8_t)packets;
    for (size_t i = 0; i < packets; i++) {
        for (int axis = 0; axis < 3; axis++) {
            size_t length = shape->length[axis] + (outside == 0xFF);
            air[at++] = (uint8_t)(next_byte(input) % length);
        }
        memset(air + at, (int)i * 37, shape->w);
        size_t copied = input->len < shape->w ? input->len : shape->w;
        memcpy(air + at, input->bytes, copied);
        *input = (struct input){input->bytes + copied, input->len - copied};
        at += shape->w;
    }
    lend_copy(&pack, air, at, choice);
}

/* A place in `bytes`: half of them among the first characters of a line, where the numbers stand. */
static size_t next_place(struct input *input, const uint8_t *bytes, size_t len)
{
    size_t at = (next_byte(input) * 256u + next_byte(input)) % len;
    uint8_t offset = next_byte(input);
    if (offset & 1)
        return at;
    while (at > 0 && bytes[at - 1] != '\n')
        at--;
    return (at + offset / 2 % 20) % len;
}

/* Changes characters of `text` here and there: another one, one less, the rest cut, or characters more. */
static void change_text(struct input *input, uint8_t choice)
{
    static const char *const more[] = {
        "0", "1", "9", "00", "256", "99999", "65536", " ", "\n", "\r", "a", "A", "g", "+", "packet 0 0 0\n", "shape 3 3 3 4\n"};
    static uint8_t changed[LENT_MOST];
    size_t len = text.len;
    memcpy(changed, text.bytes, len);
    for (int changes = 1 + next_byte(input) % 3; changes > 0 && len > 0; changes--) {
        uint8_t kind = next_byte(input), with = next_byte(input);
        size_t at = next_place(input, changed, len);
        if (kind % 8 == 0) {
            len = at;
        } else if (kind % 4 == 0) {
            memmove(changed + at, changed + at + 1, --len - at);
        } else if (kind % 4 == 1) {
            changed[at] = with;
        } else {
            const char *word = more[with % (sizeof more / sizeof *more)];
            size_t size = strlen(word);
            memmove(changed + at + size, changed + at, len - at);
            memcpy(changed + at, word, size);
            len += size;
        }
    }
    lend_copy(&text, changed, len, choice);
}

/* The text of a pack, as it was written or with characters changed, read back. */
void fuzz_change_text(struct input input, uint8_t choice)
{
    struct shape shape = next_shape(&input);
    uint8_t changed = next_byte(&input) & 1;
    struct input places = input;
    next_air(&input, &shape, choice);
    if (write_text(choice, CHANGE_TEXT) != JIBRUFATH_OK)
        return;
    if (!changed) {
        check_written(choice, CHANGE_TEXT);
        return;
    }
    change_text(&places, choice);
    read_text(choice, CHANGE_TEXT);
}
