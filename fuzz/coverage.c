/*
 * A breakpoint at the start of each basic block of the proved code. The first time that one is met, the byte that was
 * there is put back and a counter for libFuzzer set, so that the input is kept; from then on the block runs as it was
 * compiled. The build links the proved code as one section, `proved`, and lists its blocks in blocks.h.
 */
#define _GNU_SOURCE
#include "coverage.h"

#include <signal.h>
#include <stdint.h>
#include <stdio.h>
#include <stdlib.h>
#include <string.h>
#include <sys/mman.h>
#include <ucontext.h>

/* static const uint32_t blocks[]: where the blocks start in the section, in rising order */
#include "blocks.h"

enum { BLOCKS = sizeof blocks / sizeof *blocks, BREAKPOINT = 0xcc, PAGE = 4096 };

extern uint8_t __start_proved[], __stop_proved[];
__attribute__((section("__libfuzzer_extra_counters"))) static uint8_t counters[BLOCKS];
static uint8_t first_bytes[BLOCKS];
static unsigned reached;

/* The number of the block; BLOCKS if none starts there. */
static size_t block_at(uint64_t offset)
{
    size_t first = 0, end = BLOCKS;
    while (first < end) {
        size_t middle = first + (end - first) / 2;
        if (blocks[middle] < offset)
            first = middle + 1;
        else
            end = middle;
    }
    return first < BLOCKS && blocks[first] == offset ? first : BLOCKS;
}

static void meet(int number, siginfo_t *info, void *context)
{
    (void)number;
    (void)info;
    greg_t *next = &((ucontext_t *)context)->uc_mcontext.gregs[REG_RIP];
    uint64_t offset = (uint64_t)*next - 1 - (uint64_t)__start_proved;
    size_t block = block_at(offset);
    if (block == BLOCKS || __start_proved[offset] != BREAKPOINT)
        abort();
    __start_proved[offset] = first_bytes[block];
    counters[block] = 1;
    reached++;
    *next -= 1;
}

static void print_reached(void)
{
    printf("proved code: %u of %d blocks reached\n", reached, BLOCKS);
    fflush(stdout);
}

void start_coverage(void)
{
    struct sigaction action = {.sa_sigaction = meet, .sa_flags = SA_SIGINFO};
    uint8_t *start = (uint8_t *)((uintptr_t)__start_proved & ~(uintptr_t)(PAGE - 1));
    size_t length = (size_t)(__stop_proved - start);
    if (sigaction(SIGTRAP, &action, NULL) != 0 || mprotect(start, length, PROT_READ | PROT_WRITE | PROT_EXEC) != 0) {
        perror("no breakpoints");
        exit(1);
    }
    for (size_t i = 0; i < BLOCKS; i++) {
        first_bytes[i] = __start_proved[blocks[i]];
        __start_proved[blocks[i]] = BREAKPOINT;
    }
    atexit(print_reached);
}
