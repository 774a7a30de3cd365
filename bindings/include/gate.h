/*
 * gate.h: the slot-table library libgate.a for units programmed in C.
 *
 * A slice is passed as a pointer and a length in bytes. No pointer may be null, not even with length 0, and the
 * buffers that gate_plan and gate_states write may not overlap each other or the file. No function allocates, keeps anything
 * between calls or changes a file or a table that it reads. Any bytes may be passed: bad ones are refused with the number of
 * the first question that they fail.
 */
#ifndef GATE_H
#define GATE_H

#include <stddef.h>
#include <stdint.h>

#define GATE_FILE_BYTES 49152u  /* the longest job file that is read */
#define GATE_WORK_BYTES 65536u  /* the working buffer that gate_plan and gate_states need */
#define GATE_TABLE_BYTES 7606u  /* the table buffer that gate_plan and gate_states need: the longest table */
#define GATE_STATES_BYTES 128u  /* the buffer for state numbers that gate_states needs: two bytes for each of 64 slots */
#define GATE_REFUSED 65536u     /* what gate_plan, gate_states and gate_lookup add to the number of a refusal */

#ifdef __cplusplus
extern "C" {
#endif

/*
 * Plans a job file: the length of the table, which stands in the first bytes of `table`, or GATE_REFUSED + number.
 * After a refusal `table` is untouched. The first GATE_WORK_BYTES of `work` are zero afterwards; after refusal 1 (a
 * buffer is too short) `work` is untouched too. Bytes behind the table and behind GATE_WORK_BYTES are never touched.
 */
uint32_t gate_plan(const uint8_t *file, size_t file_len, uint8_t *work, size_t work_len, uint8_t *table,
                   size_t table_len);

/*
 * Plans a job file as gate_plan does, with the same answer and the same bytes in `work` and `table`, and puts the state number
 * of each slot of the table, 0 to 6560, into the first bytes of `states`: two bytes a slot, low byte first. The jobs whose
 * windows hold the slot give a digit each in base three, the lowest job the lowest one: 0 not done, 1 done in an earlier slot,
 * 2 running now. After a refusal `states` is untouched, and bytes behind the numbers always are. With fewer than
 * GATE_STATES_BYTES the answer is GATE_REFUSED + 1, and no buffer is touched.
 */
uint32_t gate_states(const uint8_t *file, size_t file_len, uint8_t *work, size_t work_len, uint8_t *table,
                     size_t table_len, uint8_t *states, size_t states_len);

/* Checks a table for a job file: 0 if it passes, else the number of the refusal. */
uint32_t gate_check(const uint8_t *file, size_t file_len, const uint8_t *table, size_t table_len);

/* What a board does in a slot: 0 idle, a job number, 1 to 400, or GATE_REFUSED + number. Slots count from 0, boards from 1. */
uint32_t gate_lookup(const uint8_t *table, size_t table_len, size_t slot, size_t board);

/* The name of that job: its offset in the table times 65536 plus its length; 0 if idle or refused. */
uint32_t gate_name_at(const uint8_t *table, size_t table_len, size_t slot, size_t board);

#ifdef __cplusplus
}
#endif

#endif
