/*
 * Coverage of the archive for libFuzzer. The archive is compiled without instrumentation, so each of its basic blocks
 * gets a breakpoint, which the first input that reaches the block takes away. libFuzzer is told by a counter and
 * keeps that input. The file GATE_BLOCKS has the address of gate_plan and then of each block, in rising order.
 */
#define _GNU_SOURCE
#include <signal.h>
#include <stdio.h>
#include <stdlib.h>
#include <sys/mman.h>
#include <ucontext.h>
#include "gate.h"

#define MOST_BLOCKS 65536
#define BREAKPOINT 0xcc
#define PAGE 4096ul

__attribute__((section("__libfuzzer_extra_counters"))) static uint8_t counters[MOST_BLOCKS];
static uint8_t *blocks[MOST_BLOCKS], first_byte[MOST_BLOCKS];
static size_t count, reached;

static void on_breakpoint(int number, siginfo_t *info, void *context) {
    (void)number, (void)info;
    greg_t *next = &((ucontext_t *)context)->uc_mcontext.gregs[REG_RIP];
    uint8_t *at = (uint8_t *)*next - 1;
    size_t low = 0, high = count;
    while (low < high) {
        size_t middle = (low + high) / 2;
        if (blocks[middle] < at) low = middle + 1; else high = middle;
    }
    if (low == count || blocks[low] != at) abort();
    *at = first_byte[low];
    counters[low] = 1;
    reached++;
    *next = (greg_t)at;
}

static void report(void) {
    fprintf(stderr, "archive: %zu of %zu basic blocks reached\n", reached, count);
}

int LLVMFuzzerInitialize(int *argc, char ***argv) {
    (void)argc, (void)argv;
    FILE *list = fopen(getenv("GATE_BLOCKS"), "r");
    uintptr_t plan, block;
    if (!list || fscanf(list, "%lx", &plan) != 1) return fprintf(stderr, "no list of blocks\n"), exit(2), 0;
    struct sigaction action = {.sa_sigaction = on_breakpoint, .sa_flags = SA_SIGINFO | SA_NODEFER};
    sigaction(SIGTRAP, &action, NULL);
    while (count < MOST_BLOCKS && fscanf(list, "%lx", &block) == 1) {
        uint8_t *at = (uint8_t *)&gate_plan + (block - plan);
        uint8_t *page = (uint8_t *)((uintptr_t)at & ~(PAGE - 1));
        if (mprotect(page, PAGE, PROT_READ | PROT_WRITE | PROT_EXEC)) return perror("mprotect"), exit(2), 0;
        blocks[count] = at;
        first_byte[count++] = *at;
        *at = BREAKPOINT;
    }
    fclose(list);
    atexit(report);
    return 0;
}
