/* Writes a splice plan as packets, loses some of them, receives the rest and prints the plan: once with enough packets, once without.
 * Then two plans that are refused. All memory is static.
 * cc -std=c99 -Iinclude examples/c/plan.c target/archives/x86-64/libjibrufath.a -o plan */
#include "jibrufath.h"

#include <stdio.h>
#include <string.h>

/* The cube. */
enum { L1 = 5, L2 = 5, L3 = 5, W = 16 };
enum {
    CELLS = L1 * L2 * L3,
    ROOM = W * (L1 - 2) * (L2 - 2) * (L3 - 2) - 4,
    HEAD = 17,
    PACKET = 3 + W
};

/* The plan: closures by number, fibres by closure and number, splices by the indexes of two fibres. */
static const uint16_t planned_closures[] = {17, 210};
static const uint16_t planned_fibres[][2] = {
    {17, 1}, {17, 2}, {17, 3}, {17, 25}, {17, 26}, {17, 27}, {210, 7}, {210, 12}, {210, 288}};
static const uint32_t planned_splices[][2] = {{0, 3}, {1, 5}, {2, 4}, {6, 8}};

/* The bytes of the plan's file: three counts, and as many bytes as the numbers above have. */
enum { PLAN = 12 + sizeof planned_closures + sizeof planned_fibres + sizeof planned_splices };

/* The bytes of an entry. */
enum { CLOSURE = 2, FIBRE = 4, SPLICE = 8 };

static uint8_t job[HEAD + ROOM], output[HEAD + CELLS * PACKET], air[HEAD + CELLS * PACKET];
static uint8_t cube[W * CELLS], flags[CELLS], file[ROOM];
static uint8_t closures[ROOM], fibres[ROOM], splices[ROOM];

/* A number of so many bytes, low byte first. */
static void put(uint8_t *at, int bytes, uint64_t number)
{
    for (int i = 0; i < bytes; i++)
        at[i] = (uint8_t)(number >> (8 * i));
}

static unsigned get(const uint8_t *at, int bytes)
{
    unsigned number = 0;
    for (int i = bytes; i-- > 0;)
        number = number << 8 | at[i];
    return number;
}

/* Lists the planned entries. */
static void list_entries(void)
{
    for (size_t i = 0; i < sizeof planned_closures / 2; i++)
        put(closures + 2 * i, 2, planned_closures[i]);
    for (size_t i = 0; i < sizeof planned_fibres / 2; i++)
        put(fibres + 2 * i, 2, planned_fibres[i / 2][i % 2]);
    for (size_t i = 0; i < sizeof planned_splices / 4; i++)
        put(splices + 4 * i, 4, planned_splices[i / 2][i % 2]);
}

/* Writes the file of the listed entries to the place where a job pack has it. */
static uint64_t write_plan(void)
{
    return jibrufath_write_plan(
        closures, sizeof planned_closures, fibres, sizeof planned_fibres, splices, sizeof planned_splices, job + 13, PLAN);
}

/* Writes the packets of the file in job to output. */
static uint64_t write_packets(uint64_t len)
{
    const uint8_t shape[] = {5, 0, 0, 0, L1, L2, L3, W & 0xFF, W >> 8};
    memcpy(job, shape, sizeof shape);
    put(job + 9, 4, len);
    put(job + 13 + len, 4, 0);
    return jibrufath_write_pack(job, HEAD + len, cube, sizeof cube, output, sizeof output);
}

/* Prints the splices of each closure, by the numbers of the fibres. */
static void print_plan(const uint64_t entries[JIBRUFATH_ENTRIES])
{
    for (uint64_t c = 0; c < entries[JIBRUFATH_CLOSURES]; c++) {
        unsigned closure = get(closures + CLOSURE * c, 2);
        printf("  closure %u:", closure);
        for (uint64_t s = 0; s < entries[JIBRUFATH_SPLICES]; s++) {
            const uint8_t *first = fibres + FIBRE * get(splices + SPLICE * s, 4);
            const uint8_t *second = fibres + FIBRE * get(splices + SPLICE * s + 4, 4);
            if (get(first, 2) == closure)
                printf(" %u-%u", get(first + 2, 2), get(second + 2, 2));
        }
        printf("\n");
    }
}

/* Receives the packets of output from one cell on, and says what came of it. */
static void receive(uint64_t first)
{
    uint64_t packets = CELLS - first, counts[JIBRUFATH_COUNTS], entries[JIBRUFATH_ENTRIES];
    memcpy(air, output, HEAD);
    put(air + 13, 4, packets);
    memcpy(air + HEAD, output + HEAD + first * PACKET, packets * PACKET);
    uint64_t answer = jibrufath_receive_plan(air, HEAD + packets * PACKET, cube, sizeof cube, flags, sizeof flags, file, sizeof file,
        closures, sizeof closures, fibres, sizeof fibres, splices, sizeof splices, counts, entries);
    if (jibrufath_number(answer) != JIBRUFATH_OK) {
        printf("refused %d, offset %d\n", (int)jibrufath_number(answer), (int)jibrufath_count(answer));
    } else if (jibrufath_count(answer) > 0) {
        printf("%d cells left, and no plan\n", (int)jibrufath_count(answer));
    } else {
        printf("%d closures, %d fibres, %d splices\n", (int)entries[JIBRUFATH_CLOSURES], (int)entries[JIBRUFATH_FIBRES],
            (int)entries[JIBRUFATH_SPLICES]);
        print_plan(entries);
    }
}

int main(void)
{
    list_entries();
    if (write_plan() != JIBRUFATH_OK || write_packets(PLAN) != JIBRUFATH_OK)
        return 1;
    printf("a plan of %d bytes, in %d packets of %d\n", (int)PLAN, CELLS, W);
    for (int planes = 2; planes <= 3; planes++) {
        printf("%d packets lost: ", planes * L1 * L2);
        receive((uint64_t)planes * L1 * L2);
    }
    printf("a fibre in two splices: ");
    put(splices + SPLICE + 4, 4, planned_splices[0][1]);
    uint64_t answer = write_plan();
    printf("refused %d, offset %d\n", (int)jibrufath_number(answer), (int)jibrufath_count(answer));
    printf("a file that is cut: ");
    if (write_packets(PLAN - 1) != JIBRUFATH_OK)
        return 1;
    receive(0);
    return 0;
}
