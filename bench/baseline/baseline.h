// The opponent: the planner's algorithm written by hand in C++, without proofs.
#pragma once
#include <cstddef>
#include <cstdint>

const unsigned MAX_JOBS = 400, MAX_SLOTS = 64, PLACES = 8;

// A job has one of eight places, a bit of a byte, while its window is open: no two jobs whose windows share a slot have the same. All
// sets are of places.
struct Tables {
    uint16_t held[MAX_SLOTS];          // the places of slot s: of the jobs whose windows hold it
    uint16_t ends[MAX_SLOTS + 1];      // the places of the slot before s whose windows end with it
    uint16_t due[MAX_SLOTS + 1];       // the places of the slot before s whose jobs must be done before s, and need not earlier, in `slots`
    uint16_t marks[MAX_SLOTS + 1];     // where the row of marks of slot s begins, in bytes
    uint16_t prev[MAX_SLOTS][PLACES];  // of the job at place p of slot s: its givers, as places of the slot before
    uint16_t who[MAX_SLOTS][PLACES];   // the job at place p of slot s, from 0
    uint16_t slots, cap;               // of the plan that is searched: its slots, and the most jobs of one
};

// A readable file without a circle: its tables, filled up to the last slot in which a job enters, and what else the search gets.
struct Jobs {
    Tables t;
    unsigned jobs, limit, boards, least, filled;
    uint16_t offsets[MAX_JOBS], release[MAX_JOBS], tail[MAX_JOBS];
    uint8_t places[MAX_JOBS];
};

extern "C" {
// Questions 2 to 12, and 21: 0, or the number of the refusal. `rows` is room for the needs: at least 22,400 bytes.
unsigned baseline_read(const uint8_t *file, size_t size, uint8_t *rows, Jobs *out);
// The slots of the shortest plan within the limit, 0 where there is none (question 13); its sets, the preferred ones, in `path`.
// `dead` has at least 52,544 bytes.
size_t baseline_search(Jobs *jobs, uint8_t *dead, uint8_t *path);
// The whole call, as gate_plan in gate.h.
uint32_t baseline_plan(const uint8_t *file, size_t file_len, uint8_t *work, size_t work_len, uint8_t *table, size_t table_len);
#ifdef COUNT
extern uint64_t baseline_opened, baseline_tried, baseline_most; // states opened, sets looked at, the most of them in one state: never set back to 0
#endif
}

// Base three: entry b is the sum of 3 to the power k over the set bits k of b.
struct Threes {
    uint16_t entry[256] = {};
    constexpr Threes() {
        for (unsigned b = 1; b < 256; ++b)
            entry[b] = 3 * entry[b / 2] + b % 2;
    }
};
inline constexpr Threes THREES;

inline unsigned low(uint64_t set) { return __builtin_ctzll(set); }

// The slot has what the one before it had, without what ended; the row of marks behind its own begins where its own ends.
inline void carry(Tables &t, unsigned slot) {
    t.held[slot] = t.held[slot - 1] & ~t.ends[slot];
    t.marks[slot + 1] = t.marks[slot] + THREES.entry[t.held[slot - 1]] / 4 + 1;
    const uint16_t ended = t.ends[slot - 1];
    for (unsigned p = 0; p < PLACES; ++p) { // of a place that is not held, no matter what
        t.prev[slot][p] = t.prev[slot - 1][p] & ~ended;
        t.who[slot][p] = t.who[slot - 1][p];
    }
}
