/* One call in a process of its own, without a C library, as in a control unit (here: Linux on x86-64).
   once < FILE prints slots, or refused, and the number. */
#include "gate.h"

static uint8_t file[GATE_FILE_BYTES + 1], work[GATE_WORK_BYTES], table[GATE_TABLE_BYTES];

/* A call of the kernel: 0 reads, 1 writes, 60 ends the process. */
static long call(long number, long where, const void *bytes, size_t count) {
    long result;
    __asm__ volatile("syscall" : "=a"(result) : "a"(number), "D"(where), "S"(bytes), "d"(count) : "rcx", "r11", "memory");
    return result;
}

/* The word and the number, of at most two digits. */
static void print(const char *word, size_t length, uint32_t number) {
    const char digits[] = {(char)('0' + number / 10), (char)('0' + number % 10), '\n'};
    call(1, 1, word, length);
    call(1, 1, digits + (number < 10), sizeof digits - (number < 10));
}

__attribute__((force_align_arg_pointer)) void _start(void) {
    size_t size = 0;
    for (long got; (got = call(0, 0, file + size, sizeof file - size)) > 0;)
        size += (size_t)got;
    const uint32_t answer = gate_plan(file, size, work, sizeof work, table, sizeof table);
    if (answer < GATE_REFUSED)
        print("slots ", 6, table[4]);
    else
        print("refused ", 8, answer - GATE_REFUSED);
    call(60, 0, 0, 0);
}
