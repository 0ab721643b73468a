/* Writes a small file as packets, loses some of them and receives the rest: once with enough of them, once without. Then every packet
 * comes twice, as through two transponders, and some copies are damaged. Then two packs that a receiver must not trust.
 * cc -std=c99 -Iinclude examples/c/receive.c target/archives/x86-64/libjibrufath.a -o receive */
#include "jibrufath.h"

#include <stdio.h>
#include <string.h>

/* The cube. Everything that the calls are lent has a size that follows from these four numbers. */
enum { L1 = 5, L2 = 5, L3 = 5, W = 16 };
enum {
    CELLS = L1 * L2 * L3,
    ROOM = W * (L1 - 2) * (L2 - 2) * (L3 - 2) - 4,
    HEAD = 17,
    PACKET = 3 + W
};

static uint8_t job[HEAD + ROOM], output[HEAD + CELLS * PACKET], air[HEAD + 2 * CELLS * PACKET];
static uint8_t cube[W * CELLS], flags[CELLS], file[ROOM];

static void put_count(uint8_t *at, uint64_t count)
{
    for (int i = 0; i < 4; i++)
        at[i] = (uint8_t)(count >> (8 * i));
}

/* Makes a job pack of a text, which has room in the cube, and writes its packets to output. */
static uint64_t write_text(const char *text)
{
    const uint8_t shape[] = {5, 0, 0, 0, L1, L2, L3, W & 0xFF, W >> 8};
    size_t len = strlen(text);
    memcpy(job, shape, sizeof shape);
    put_count(job + 9, len);
    memcpy(job + 13, text, len);
    put_count(job + 13 + len, 0);
    return jibrufath_write_pack(job, HEAD + len, cube, sizeof cube, output, sizeof output);
}

/* Leaves in air the packets from one cell on, and answers with the bytes of that pack. */
static uint64_t lose_before(uint64_t first)
{
    uint64_t packets = CELLS - first;
    memcpy(air, output, HEAD);
    put_count(air + 13, packets);
    memcpy(air + HEAD, output + HEAD + first * PACKET, packets * PACKET);
    return HEAD + packets * PACKET;
}

/* Leaves in air every packet twice, with a byte of so many second copies changed, and answers with the bytes of that pack. */
static uint64_t send_twice(uint64_t damaged)
{
    memcpy(air, output, sizeof output);
    memcpy(air + sizeof output, output + HEAD, CELLS * PACKET);
    put_count(air + 13, 2 * CELLS);
    for (uint64_t cell = 0; cell < damaged; cell++)
        air[sizeof output + cell * PACKET + 3] ^= 0x10;
    return sizeof air;
}

/* Receives what stands in air, if the memory above is enough for it, and says what came of it. */
static void receive(uint64_t air_len)
{
    uint64_t needs[JIBRUFATH_NEEDS], counts[JIBRUFATH_COUNTS];
    uint64_t answer = jibrufath_needs(air, air_len, needs);
    const uint64_t cube_len = needs[JIBRUFATH_NEED_CUBE_BYTES], flags_len = needs[JIBRUFATH_NEED_CELLS],
                   file_len = needs[JIBRUFATH_NEED_FILE_BYTES];
    if (cube_len > sizeof cube || flags_len > sizeof flags || file_len > sizeof file) {
        printf("no room for a cube of %llu bytes\n", (unsigned long long)cube_len);
        return;
    }
    if (answer == JIBRUFATH_OK)
        answer = jibrufath_receive_pack(air, air_len, cube, cube_len, flags, flags_len, file, file_len, counts);
    if (jibrufath_number(answer) == JIBRUFATH_CELL_INDEX)
        printf("refused %d, packet %d\n", (int)jibrufath_number(answer), (int)jibrufath_count(answer));
    else if (jibrufath_number(answer) != JIBRUFATH_OK)
        printf("refused %d\n", (int)jibrufath_number(answer));
    else if (jibrufath_count(answer) > 0)
        printf("%d conflicts, %d cells left\n", (int)counts[JIBRUFATH_COUNT_CONFLICTS], (int)jibrufath_count(answer));
    else
        printf("%d conflicts, \"%.*s\"\n", (int)counts[JIBRUFATH_COUNT_CONFLICTS], (int)counts[JIBRUFATH_COUNT_FILE_BYTES],
            (const char *)file);
}

int main(void)
{
    uint64_t answer = write_text("Splice plan 17: fibre 3 to fibre 12, tray B.");
    if (answer != JIBRUFATH_OK) {
        printf("refused %d\n", (int)jibrufath_number(answer));
        return 1;
    }
    printf("%d packets of %d bytes written\n", CELLS, W);
    for (int planes = 2; planes <= 3; planes++) {
        printf("%d packets lost: ", planes * L1 * L2);
        receive(lose_before((uint64_t)planes * L1 * L2));
    }
    printf("every packet twice, %d damaged: ", L1 * L2);
    receive(send_twice(L1 * L2));
    printf("a packet for a cell outside the cube: ");
    air[HEAD] = L1;
    receive(sizeof air);
    printf("a pack of another shape: ");
    memset(air + 4, 255, 3);
    receive(HEAD);
    return 0;
}
