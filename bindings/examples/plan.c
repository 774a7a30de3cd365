/* Plans a file of three jobs, a and b before c, and asks what board 1 does in slot 2, and for the slots' state numbers. */
#include <stdio.h>
#include "gate.h"

static const uint8_t file[] = {1, 1, 0, 1, 2, 1, 0, 3, 3, 3, 0, 15, 0, 'a', 3, 3, 0, 241, 255, 'b', 3, 3, 0, 4, 0, 'c', 4, 2, 0, 1, 3, 4, 2, 0, 2, 3};
static uint8_t work[GATE_WORK_BYTES], table[GATE_TABLE_BYTES], states[GATE_STATES_BYTES];

int main(void) {
    uint32_t length = gate_plan(file, sizeof file, work, sizeof work, table, sizeof table);
    if (length >= GATE_REFUSED) return printf("refused %u\n", (unsigned)(length - GATE_REFUSED)), 1;
    uint32_t name = gate_name_at(table, length, 2, 1);
    printf("check %u, job %u, name %.*s, states", (unsigned)gate_check(file, sizeof file, table, length),
           (unsigned)gate_lookup(table, length, 2, 1), (int)(name & 0xffff), (const char *)table + (name >> 16));
    if (gate_states(file, sizeof file, work, sizeof work, table, sizeof table, states, sizeof states) != length) return 1;
    for (int slot = 0; slot < table[4]; slot++) printf(" %d", states[2 * slot] + 256 * states[2 * slot + 1]);
    printf("\n");
}
