/* Jibrufath: the proved packet cube, for C and C++. Link with libjibrufath.a, of which there is one for each kind of processor.
 *
 * The cube
 *   A cube has l1 * l2 * l3 cells, each a packet of w bytes. Cell (a, b, c) has number a + l1 * (b + l2 * c), and its bytes begin at
 *   w times that number. On every line of cells along every axis the last two packets are parity, such that the bytes of a layer (the
 *   same byte of each packet) have both sums zero: that of c(i), and that of 2^i times c(i) in the field below. A cube of which all
 *   lines are right in this way is a code cube, and one code cube has a given data string: the bytes of the cells with a < l1 - 2,
 *   b < l2 - 2 and c < l3 - 2, in cell order.
 *
 * Memory
 *   A slice is a pointer and a length, and lengths are exact: one byte more is refused as one byte less is. Slices of one call must
 *   not overlap. A slice of length 0 is not read or written. No call allocates, keeps a pointer, has state or fails otherwise than by
 *   its answer, so that calls on different memory may run at the same time.
 *
 *   cube      jibrufath_cube_bytes: w * cells, cells = l1 * l2 * l3
 *   flags     jibrufath_cells: a byte for each cell, 0 known, 1 missing, 2 known and unsent
 *   data      jibrufath_capacity: w * (l1 - 2) * (l2 - 2) * (l3 - 2)
 *   file      capacity - 4, the most that a file can have; the other four bytes of the data string are its length
 *   output    12 + the count of section 1 + sent * (3 + w), sent the number of cells that are sent; jibrufath_pack_bytes where all are:
 *             17 + cells * (3 + w)
 *   text      jibrufath_text_bytes, of the pack whose text is written
 *   air       where a text is read, jibrufath_text_pack_bytes: 17 + packets * (3 + w)
 *   lists     of a plan that is read, at least 2 bytes a closure, 4 a fibre, 8 a splice: alone among lent slices they may be longer
 *
 *   In all a writer is lent w * cells bytes and those of its output, and a receiver w * cells + cells + capacity - 4. jibrufath_needs
 *   gives the sizes that a pack asks for. The tests encode cubes up to the largest: 128 by 128 by 16 cells of 1,024 bytes, which is
 *   268,435,456 in all, and 255 by 255 by 255 of 16.
 *
 *   The stack that a call takes does not grow with the shape. Measured on the shapes of examples/c/stack.c, the most on x86-64 was
 *   35.1 kB in fill, receive_pack and receive_plan, 10.0 kB in encode, is_code_cube and write_pack, 17.3 kB in mend and mend_axis, 0.9 kB
 *   in write_text, below 3 kB in the other calls on plans, and 0.7 kB in all others. 40 kB, 12 kB, 20 kB, 5 kB, 4 kB and 1 kB are a safe
 *   reserve; a test holds the calls to these, there and on the other processors of targets/. The wasm32 module has a stack of 65,536
 *   bytes of its own.
 *
 * Numbers
 *   Lengths and all other numbers are uint64_t on every processor, on those of 32 bits too: it is what the machine code takes.
 *
 * Linking
 *   An archive calls memcpy and memset, the one for riscv64 memmove as well, and nothing else. The one for armv7 also needs the
 *   compiler's division helpers __aeabi_uidiv and __aeabi_uldivmod, which are in libgcc and in compiler-rt; it is for NEON and the
 *   calling convention with floating-point registers (gnueabihf). The WebAssembly module imports nothing, and exports its memory and,
 *   as __heap_base, where the memory begins that a caller may lend.
 *
 * Answers
 *   Every call but those of the field answers with 64 bits. The low byte is a number of the table below, JIBRUFATH_OK or a refusal.
 *   What stands above it is a count with JIBRUFATH_OK (cells left, a size, or 1 for a code cube), the packet's index from 0 with
 *   refusal 11, the line's number from 1 with refusal 17, and an offset in the plan from 0 with refusal 18; it is 0 with all others.
 *   jibrufath_number and jibrufath_count take an answer apart.
 *
 *   A call makes its checks in the order in which its comment names them, and answers with the first that fails. The checks of a
 *   shape are 1, 2, 3, in this order. Refusals 1 to 11, 15, 17 and 19 change no lent byte, and no refusal changes the file buffer, but for
 *   jibrufath_receive_plan, which has opened the file where it refuses the plan in it. */
#ifndef JIBRUFATH_H
#define JIBRUFATH_H

#include <stdint.h>

/* The version of this interface. The major number grows where a program must be changed or compiled again. */
#define JIBRUFATH_VERSION_MAJOR 3
#define JIBRUFATH_VERSION_MINOR 3
#define JIBRUFATH_VERSION_PATCH 0

#ifdef __cplusplus
extern "C" {
#endif

/* The number in the low byte of an answer. */
enum jibrufath_answer {
    JIBRUFATH_OK = 0,
    JIBRUFATH_DIMENSION = 1,          /* a length is not 3 to 255, an axis not 1 to 3, or no such line */
    JIBRUFATH_PACKET_SIZE = 2,        /* w is not 1 to 1,024 */
    JIBRUFATH_CUBE_SIZE = 3,          /* w * cells is above 268,435,456 */
    JIBRUFATH_SLICE_LENGTH = 4,       /* a lent slice has not the exact length; a list is too short, or ends inside an entry */
    JIBRUFATH_FLAG_VALUE = 5,         /* a flag is above 2 */
    JIBRUFATH_TRUNCATED = 6,          /* the pack ends inside a count or a section */
    JIBRUFATH_HEADER_COUNT = 7,       /* the count of section 1 is neither 5 nor 9, or not 5 for a text */
    JIBRUFATH_TRAILING_BYTES = 8,     /* the pack has bytes after section 3 */
    JIBRUFATH_SECTION_COUNT = 9,      /* the section that must be empty is not */
    JIBRUFATH_CAPACITY = 10,          /* the data string has no room for the file, or not even for its length */
    JIBRUFATH_CELL_INDEX = 11,        /* a packet names a cell outside the cube or an unsent one; the count is the packet's index */
    /* 12 is not given any more, and the number is not used again. */
    JIBRUFATH_CONTRADICTION = 13,     /* the known cells contradict each other */
    JIBRUFATH_FILE_LENGTH = 14,       /* the data string holds no file: too long, or bytes behind it that are not 00h */
    JIBRUFATH_ERASURE = 15,           /* a flag is 1, and mending takes only whole cubes */
    JIBRUFATH_UNCORRECTED = 16,       /* what mending leaves is not a code cube */
    JIBRUFATH_LINE = 17,              /* a line of a text breaks the form; the count is the line's number from 1 */
    JIBRUFATH_ENTRY = 18,             /* a plan breaks a rule, is cut or has bytes left over; the count is the offset */
    JIBRUFATH_USED_CELLS = 19         /* the number of used data cells is below 1, above the data cells, or too low for the file */
};

/* The number of an answer, and its count. */
static inline enum jibrufath_answer jibrufath_number(uint64_t answer)
{
    return (enum jibrufath_answer)(answer & 0xFF);
}

static inline uint64_t jibrufath_count(uint64_t answer)
{
    return answer >> 8;
}

/* Sizes of a shape. Each answers with the size as its count. Checks: 1, 2, 3. */

/* The cells, and so the bytes of flags. */
uint64_t jibrufath_cells(uint64_t l1, uint64_t l2, uint64_t l3, uint64_t w);
/* The bytes of a cube. */
uint64_t jibrufath_cube_bytes(uint64_t l1, uint64_t l2, uint64_t l3, uint64_t w);
/* The bytes of a data string; a file buffer has 4 less. */
uint64_t jibrufath_capacity(uint64_t l1, uint64_t l2, uint64_t l3, uint64_t w);
/* The bytes of a written pack that has every cell. */
uint64_t jibrufath_pack_bytes(uint64_t l1, uint64_t l2, uint64_t l3, uint64_t w);

/* Packs. A pack is three sections, each behind its count in four bytes, low first:
 *   1  count 5: l1, l2, l3 in a byte each, w in two, low first
 *      count 9: the same, then the number of used data cells in four, low first
 *   2  count = bytes of the file, then the file
 *   3  count = packets, then for each a, b, c in a byte each and the w bytes of the cell
 * A job pack holds a file and no packet; an air pack holds packets and no file.
 *
 * A short file in a big cube leaves most data cells 00h. With count 9 the data cells from the number that is used on, counted from 0 in
 * cell order, are unsent: 00h, known to the receiver from the start, and in no packet. All other cells are sent, parity cells always.
 * used * w must be at least 4 + the bytes of the file. With count 5 all data cells are used. */

/* The places in needs. The other 6 are 0, and are kept. */
enum jibrufath_need_place {
    JIBRUFATH_NEED_L1 = 0,
    JIBRUFATH_NEED_L2 = 1,
    JIBRUFATH_NEED_L3 = 2,
    JIBRUFATH_NEED_W = 3,
    JIBRUFATH_NEED_CELLS = 4,         /* the bytes of flags */
    JIBRUFATH_NEED_CUBE_BYTES = 5,
    JIBRUFATH_NEED_CAPACITY = 6,      /* the bytes of a data string */
    JIBRUFATH_NEED_FILE_BYTES = 7,    /* the bytes of the receiver's file buffer */
    JIBRUFATH_NEED_PACK_BYTES = 8,    /* the bytes of the writer's output, which has the cells that are sent */
    JIBRUFATH_NEED_USED = 9,          /* the used data cells: with count 5 all of them */
    JIBRUFATH_NEEDS = 16
};

/* Says what memory a pack's calls are lent: the shape in section 1, and its sizes. Nothing behind section 1 is read.
 *
 * pack and its length; needs, which is an array of 16. All 16 are written by every call, and all are 0 with a refusal: they are the
 * answer, and not lent memory.
 *
 * Checks: 6 count 1 is cut; 7; 6 section 1 is cut; 1, 2, 3; 10 capacity below 4; 19 the used cells are below 1 or above the data
 * cells. */
uint64_t jibrufath_needs(
    const uint8_t *pack, uint64_t pack_len,
    uint64_t needs[16]);

/* Writes a job pack's file as an air pack that has the packet of every cell that is sent, in cell order, behind the same section 1.
 *
 * job and its length; cube; output. OK: cube is the code cube of the file, output the air pack; every byte of both is written, and
 * what they held does not matter. A refusal changes nothing.
 *
 * Checks: 6 count 1 is cut; 7; 6 section 1 is cut; 1, 2, 3; 10 capacity below 4; 19 the used cells are below 1 or above the data cells;
 * 6 count 2 is cut; 10 count 2 above capacity - 4; 19 used * w below 4 + count 2; 6 the file is cut; 6 count 3 is cut; 9 count 3 is
 * not 0; 8; 4. */
uint64_t jibrufath_write_pack(
    const uint8_t *job, uint64_t job_len,
    uint8_t *cube, uint64_t cube_len,
    uint8_t *output, uint64_t output_len);

/* The places in counts. The other 12 are 0, and are kept: 3 to 9 beside the repeats for those of other feeders, 10 to 12 for totals of
 * the axes, 14 and 15 for what may come. */
enum jibrufath_count_place {
    JIBRUFATH_COUNT_FILE_BYTES = 0,   /* the file's length; 0 where no file came out */
    JIBRUFATH_COUNT_PACKETS = 1,      /* the packets of the pack */
    JIBRUFATH_COUNT_REPEATS = 2,      /* those of them whose cell had come before, with the same bytes or with others */
    JIBRUFATH_COUNT_CONFLICTS = 13,   /* the cells whose copies are not all equal */
    JIBRUFATH_COUNTS = 16
};

/* Receives an air pack: packets in any order, each any number of times. Places them, fills what the lines force, and opens the file
 * where no cell is left.
 *
 * A cell is known where its copies are all equal. Copies that differ make their cell missing, whichever came first, and no further
 * copy makes it known again; like any other missing cell it is filled where the lines force its bytes. Copies that are all equal and
 * all wrong make a known cell, and 13 may follow. Unsent cells are known from the start, and 11 refuses a packet for one, whatever its
 * bytes.
 *
 * air and its length; cube; flags; file; counts, which is an array of 16. What cube, flags and file hold before does not matter. OK
 * with count 0: the file came out. OK with another count: so many cells are left, always 27 or more. All 16 counts are written by
 * every call, and all are 0 with a refusal.
 *
 * Checks: 6 count 1 is cut; 7; 6 section 1 is cut; 1, 2, 3; 10 capacity below 4; 19 the used cells are below 1 or above the data cells;
 * 6 count 2 is cut; 9 count 2 is not 0; 6 count 3 is cut; 6 the packets are cut; 8; 4; 11 of any packet; then 13, 14.
 *
 * What memory holds afterwards:
 *
 *   answer               cube                                 flags                                      file
 *   1 to 4, 6 to 11, 19  as before                            as before                                  as before
 *   13                   cells known from packets, else 00h   0 known from packets, 2 unsent, 1 else     as before
 *   14                   filled, a code cube                  2 unsent, 0 else                           as before
 *   OK, cells left       filled, 00h in the cells left        1 in the cells left, 2 unsent, 0 else      as before
 *   OK, a file           filled, a code cube                  2 unsent, 0 else                           the file, then as before */
uint64_t jibrufath_receive_pack(
    const uint8_t *air, uint64_t air_len,
    uint8_t *cube, uint64_t cube_len,
    uint8_t *flags, uint64_t flags_len,
    uint8_t *file, uint64_t file_len,
    uint64_t counts[16]);

/* Texts. The text of an air pack has a line for its shape and one for each packet, in the order of the pack:
 *   shape l1 l2 l3 w
 *   packet a b c, then the w bytes of the cell
 * Words are parted by one space, the bytes too, and every line ends in a newline (0Ah), the last one too. Numbers are decimals of one
 * to five digits without leading zeros, bytes two hexadecimal digits, lower case. A text has at most 4,294,967,295 packets; the w of
 * its first line, whatever it is, says how many bytes stand on each packet line. Characters are ASCII, and no 00h ends a text.
 *
 * What jibrufath_write_text writes, jibrufath_read_text reads back to the same pack; what jibrufath_read_text accepts,
 * jibrufath_write_text writes back to the same characters. Repeats, and copies of a cell that differ, pass both. */

/* The bytes of a pack's text, as the count, whatever cells its packets name. A text has no place for a number of used data cells.
 *
 * Checks: 6 count 1 is cut; 7 it is not 5; 6 section 1 is cut; 1, 2, 3; 10 capacity below 4; 6 count 2 is cut; 9 count 2 is not 0;
 * 6 count 3 is cut; 6 the packets are cut; 8. */
uint64_t jibrufath_text_bytes(
    const uint8_t *air, uint64_t air_len);

/* Writes the text of an air pack.
 *
 * air and its length; text. OK: text is the text of the pack; every byte of it is written, and what it held does not matter. A refusal
 * changes nothing.
 *
 * Checks: 6 count 1 is cut; 7 it is not 5; 6 section 1 is cut; 1, 2, 3; 10 capacity below 4; 6 count 2 is cut; 9 count 2 is not 0;
 * 6 count 3 is cut; 6 the packets are cut; 8; 4; 11 of any packet. */
uint64_t jibrufath_write_text(
    const uint8_t *air, uint64_t air_len,
    uint8_t *text, uint64_t text_len);

/* The bytes of a text's air pack, as the count, whatever cells its packets name. Checks: 17 of any line; 1, 2, 3; 10 capacity below
 * 4. */
uint64_t jibrufath_text_pack_bytes(
    const uint8_t *text, uint64_t text_len);

/* Reads a text, and writes its air pack, which has count 5.
 *
 * text and its length, any bytes; air. OK: air is the pack of the text; every byte of it is written, and what it held does not matter.
 * A refusal changes nothing.
 *
 * Checks: 17 of any line; 1, 2, 3; 10 capacity below 4; 4; 11 of any packet. A number is judged as it stands in the text: a length of
 * 259 is 1, a coordinate of 256 is 11. */
uint64_t jibrufath_read_text(
    const uint8_t *text, uint64_t text_len,
    uint8_t *air, uint64_t air_len);

/* Plans. A splice plan is a file of three sections in this order, each behind its count of entries in four bytes, and nothing behind
 * them. All numbers are low byte first:
 *   closures  a number in 2 bytes, strictly ascending
 *   fibres    the number of a closure that is listed, in 2 bytes, then the fibre's own, 1 to 288, in 2; strictly ascending by both
 *   splices   the indexes of two fibres, from 0, in 4 bytes each: both in the same closure, the first lower; first indexes strictly
 *             ascending, and each fibre in at most one splice
 * A list of entries is their bytes as they stand in a file: 2 a closure, 4 a fibre, 8 a splice.
 *
 * Entries are judged in the order of the file, each once it is whole. The offset with refusal 18 counts from the file's first byte:
 * it is that of the first entry or count that breaks a rule or is cut, or of the first byte left over. Where nothing of an entry or a
 * count is there, that is the file's length. No count breaks a rule by itself: entries are judged up to the one that is cut.
 *
 * What jibrufath_write_plan writes, jibrufath_read_plan reads back to the same lists; what jibrufath_read_plan reads,
 * jibrufath_write_plan writes back to the same bytes. */

/* The places in entries. */
enum jibrufath_entry_place {
    JIBRUFATH_CLOSURES = 0,
    JIBRUFATH_FIBRES = 1,
    JIBRUFATH_SPLICES = 2,
    JIBRUFATH_ENTRIES = 3
};

/* Writes a plan's file.
 *
 * closures, fibres, splices and their lengths; output, 12 bytes and those of the three lists. OK: output is the file; every byte of it
 * is written, and what it held does not matter. A refusal changes nothing.
 *
 * Checks: 4, also of a list that ends inside an entry; 18, with the offset that the entry would have in the file. */
uint64_t jibrufath_write_plan(
    const uint8_t *closures, uint64_t closures_len,
    const uint8_t *fibres, uint64_t fibres_len,
    const uint8_t *splices, uint64_t splices_len,
    uint8_t *output, uint64_t output_len);

/* Says how many entries a plan has, and so how long its lists are.
 *
 * file and its length, any bytes; entries, which is an array of 3: the closures, fibres and splices. All 3 are written by every call,
 * and all are 0 with a refusal. Checks: 18. */
uint64_t jibrufath_measure_plan(
    const uint8_t *file, uint64_t file_len,
    uint64_t entries[3]);

/* Reads a plan's file to lists.
 *
 * file and its length, any bytes; closures, fibres, splices, each at least as long as the entries of its section; entries, as in
 * jibrufath_measure_plan. OK: each list begins with the entries of its section, and the rest of it is kept. A refusal changes no list.
 *
 * Checks: 18; 4 of a list that is too short. */
uint64_t jibrufath_read_plan(
    const uint8_t *file, uint64_t file_len,
    uint8_t *closures, uint64_t closures_len,
    uint8_t *fibres, uint64_t fibres_len,
    uint8_t *splices, uint64_t splices_len,
    uint64_t entries[3]);

/* Receives an air pack whose file is a plan, and shows the plan where no cell is left.
 *
 * air, cube, flags, file and counts are those of jibrufath_receive_pack, and the lists and entries those of jibrufath_read_plan. OK
 * with count 0: the plan is shown, and each list begins with the entries of its section. OK with another count: so many cells are
 * left, and entries are 0. Counts are as jibrufath_receive_pack gives them; counts and entries are all 0 with a refusal.
 *
 * Checks: those of jibrufath_receive_pack; then 18 of the file that came out, and 4 of a list that is too short.
 *
 * What memory holds afterwards:
 *
 *   answer            cube                     flags                              file                       lists
 *   1 to 14, 19       as jibrufath_receive_pack leaves them                       as before                  as before
 *   OK, cells left    filled, 00h where left   1 where left, 2 unsent, 0 else     as before                  as before
 *   18; 4 of a list   filled, a code cube      2 unsent, 0 else                   the file, then as before   as before
 *   OK, a plan        filled, a code cube      2 unsent, 0 else                   the file, then as before   entries, then as before */
uint64_t jibrufath_receive_plan(
    const uint8_t *air, uint64_t air_len,
    uint8_t *cube, uint64_t cube_len,
    uint8_t *flags, uint64_t flags_len,
    uint8_t *file, uint64_t file_len,
    uint8_t *closures, uint64_t closures_len,
    uint8_t *fibres, uint64_t fibres_len,
    uint8_t *splices, uint64_t splices_len,
    uint64_t counts[16],
    uint64_t entries[3]);

/* Cubes. */

/* Writes the code cube that has the data string. Every byte of cube is written. A refusal changes nothing. Checks: 1, 2, 3, 4. */
uint64_t jibrufath_encode(
    const uint8_t *data, uint64_t data_len,
    uint8_t *cube, uint64_t cube_len,
    uint64_t l1, uint64_t l2, uint64_t l3, uint64_t w);

/* Reads the data string of a cube, whether or not that is a code cube. A refusal changes nothing. Checks: 1, 2, 3, 4. */
uint64_t jibrufath_extract(
    const uint8_t *cube, uint64_t cube_len,
    uint8_t *data, uint64_t data_len,
    uint64_t l1, uint64_t l2, uint64_t l3, uint64_t w);

/* Says whether a cube is a code cube. OK: the count is 1 where every line of it is right in every layer, and 0 where one is not.
 * Checks: 1, 2, 3, 4. */
uint64_t jibrufath_is_code_cube(
    const uint8_t *cube, uint64_t cube_len,
    uint64_t l1, uint64_t l2, uint64_t l3, uint64_t w);

/* Gives every missing cell the bytes that the lines force. Bytes of missing cells are not read. A cell with flag 2 is known, with
 * whatever bytes it holds, as one with flag 0 is.
 *
 * OK: the count is the number of cells left, those of the largest set of missing cells that meets every line in none or in at least
 * three. They hold 00h and keep flag 1; cells that are filled get flag 0, and known cells keep 0 or 2. With no cell missing this is a
 * check of the cube.
 * 13: every cell that was missing holds 00h, and the flags are as before. Lines through cells left are not checked.
 *
 * Checks: 1, 2, 3, 4, 5 of all flags, 13. */
uint64_t jibrufath_fill(
    uint8_t *cube, uint64_t cube_len,
    uint8_t *flags, uint64_t flags_len,
    uint64_t l1, uint64_t l2, uint64_t l3, uint64_t w);

/* The places in the counts of a scan. */
enum jibrufath_scan_place {
    JIBRUFATH_SCAN_ERASURES = 0,      /* the missing cells found, at most 3 */
    JIBRUFATH_SCAN_READ = 1           /* the places read */
};

/* Counts the missing cells of a line up to the third, as filling does: with none the line is known, with one or two it is filled, with
 * three it forces nothing, and is not read on.
 *
 * flags, only read; axis 1, 2 or 3; line, the line's number along the axis from 0, lines counted by the number of their first cell;
 * counts, which is an array of 2. A cell is missing where its flag is 1, and no flag is refused: those behind the places read do not
 * matter. OK: the counts are how many missing cells were found, at most 3, and how many places were read: up to and with the third of
 * them, or the whole line. Both are written by every call, and both are 0 with a refusal.
 *
 * Checks: 1 of the axis or a length, 2, 3; 1 no such line; 4. */
uint64_t jibrufath_scan(
    const uint8_t *flags, uint64_t flags_len,
    uint64_t l1, uint64_t l2, uint64_t l3, uint64_t w,
    uint64_t axis, uint64_t line,
    uint64_t counts[2]);

/* One mending pass along an axis: on each line, in each layer, the one wrong byte that the two sums point to is put right. A line
 * whose sums point to no place of it keeps its bytes. A refusal changes nothing. Checks: 1 of a length or the axis, 2, 3, 4. */
uint64_t jibrufath_mend_axis(
    uint8_t *cube, uint64_t cube_len,
    uint64_t l1, uint64_t l2, uint64_t l3, uint64_t w,
    uint64_t axis);

/* Passes along axes 1, 2 and 3; cube and flags are only read. A cell with flag 2 is known.
 *
 * OK: second is the code cube that the passes lead to. 16: second is all 00h.
 *
 * A cube that differs from some code cube in at most seven bytes of each layer, wherever they are, is OK, and second is that code cube:
 * so where seven cells are damaged, in whatever bytes. The same where all damaged cells have one coordinate in common, a plane across any
 * axis, though every byte of it be wrong. In general it holds unless, in some layer, two planes of one third coordinate each have two lines
 * along axis 1 with two wrong bytes each. Seven is tight: eight wrong bytes of a layer may be 16, or lead to another code cube.
 *
 * Checks: 1, 2, 3, 4, 5 of all flags, 15, 16. */
uint64_t jibrufath_mend(
    const uint8_t *cube, uint64_t cube_len,
    const uint8_t *flags, uint64_t flags_len,
    uint8_t *second, uint64_t second_len,
    uint64_t l1, uint64_t l2, uint64_t l3, uint64_t w);

/* The field: bytes as binary polynomials modulo 1C3h. The sum is a ^ b. */

/* The product. */
uint8_t jibrufath_mul(uint8_t a, uint8_t b);
/* The byte whose product with a is 01h; 00h for 00h. */
uint8_t jibrufath_inverse(uint8_t a);
/* 02h to the i-th. */
uint8_t jibrufath_pow(uint8_t i);

#ifdef __cplusplus
}
#endif

#endif
