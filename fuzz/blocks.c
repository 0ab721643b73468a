/* Coverage of a library that was compiled without instrumentation: a breakpoint stands at the first instruction of each basic block. The
 * first time it is reached it is counted for libFuzzer and taken out, so that a block costs nothing afterwards. */
#define _GNU_SOURCE
#include "blocks.h"
#include "lent.h"

#include <signal.h>
#include <stdio.h>
#include <stdlib.h>
#include <sys/mman.h>
#include <ucontext.h>

#define PAGE ((uintptr_t)4096)
#define BREAKPOINT 0xCC
#define MOST_BLOCKS 4096

/* libFuzzer reads these counters after each input as it does those of instrumented code. */
__attribute__((section("__libfuzzer_extra_counters"))) static uint8_t reached_now[MOST_BLOCKS];

/* The section that the library's code stands in; the linker names its ends. */
extern uint8_t __start_jibrufath_text[], __stop_jibrufath_text[];

static struct block {
    uint8_t *at;
    uint8_t instruction;
    uint8_t reached;
} blocks[MOST_BLOCKS];
static size_t number, reached;

static void at_breakpoint(int signal_number, siginfo_t *info, void *context)
{
    (void)signal_number, (void)info;
    greg_t *next = &((ucontext_t *)context)->uc_mcontext.gregs[REG_RIP];
    uint8_t *at = (uint8_t *)*next - 1;
    for (size_t i = 0; i < number; i++) {
        if (blocks[i].at == at && !blocks[i].reached) {
            *at = blocks[i].instruction;
            blocks[i].reached = 1;
            reached_now[i] = 1;
            reached++;
            *next = (greg_t)at;
            return;
        }
    }
    abort();
}

static void tell(void)
{
    fprintf(stderr, "basic blocks of the library reached: %zu of %zu\n", reached, number);
}

void watch_blocks(const char *path)
{
    uint8_t *start = (uint8_t *)((uintptr_t)__start_jibrufath_text & ~(PAGE - 1));
    size_t size = (size_t)(__stop_jibrufath_text - start);
    require(mprotect(start, size, PROT_READ | PROT_WRITE | PROT_EXEC) == 0, "code to write in");
    struct sigaction action = {.sa_sigaction = at_breakpoint, .sa_flags = SA_SIGINFO};
    require(sigaction(SIGTRAP, &action, NULL) == 0, "a handler of breakpoints");

    FILE *list = fopen(path, "r");
    require(list != NULL, "the list of blocks");
    for (unsigned long at; fscanf(list, "%lx", &at) == 1; number++) {
        require(number < MOST_BLOCKS, "room for the blocks");
        blocks[number] = (struct block){(uint8_t *)at, *(uint8_t *)at, 0};
    }
    fclose(list);
    for (size_t i = 0; i < number; i++)
        *blocks[i].at = BREAKPOINT;
    atexit(tell);
}
