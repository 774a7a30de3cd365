// The search before CR 8: jobs are bits of a word, job i (from 0) is bit 63 - i, and arrays of words are indexed by bit.
#pragma once
#include "baseline/baseline.h"
#include <algorithm>
#include <cstring>

struct WordTables {
    uint64_t givers[64], takers[64];
    uint64_t released[66], followed[66]; // the jobs with a release below s; those with a tail of at least k
};

// What the search before takes.
struct WordJobs {
    WordTables t;
    unsigned least, limit, cap;
};

struct WordFound {
    size_t slots; // 0: there is no plan within the limit
    uint8_t starts[64];
};

const uint32_t WORD_NO_CAP = 128; // no slot meets it

extern "C" WordFound product_search(const WordTables *tables, size_t least, size_t limit, uint8_t *dead, size_t dead_len, uint32_t cap);

// Of a file of at most 64 jobs.
inline void word_jobs(const Jobs &jobs, const uint8_t *rows, WordJobs &out) {
    WordTables &t = out.t;
    memset(&t, 0, sizeof t);
    out.least = 0;
    out.limit = jobs.limit;
    for (unsigned job = 0; job < jobs.jobs; ++job) {
        const uint64_t bit = uint64_t(1) << (63 - job);
        for (unsigned taker = 0; taker < jobs.jobs; ++taker)
            if (rows[56 * job + taker / 8] >> taker % 8 & 1) {
                t.takers[63 - job] |= uint64_t(1) << (63 - taker);
                t.givers[63 - taker] |= bit;
            }
        for (unsigned s = jobs.release[job] + 1; s < 66; ++s)
            t.released[s] |= bit;
        for (unsigned k = 0; k < 66 && k <= jobs.tail[job]; ++k)
            t.followed[k] |= bit;
        out.least = std::max(out.least, jobs.release[job] + jobs.tail[job] + 1u);
    }
    unsigned width = 0;
    for (unsigned s = 1; s <= jobs.limit; ++s)
        width = std::max<unsigned>(width, __builtin_popcountll(t.released[s] & ~t.followed[jobs.limit + 1 - s]));
    out.cap = width <= jobs.boards ? WORD_NO_CAP : jobs.boards;
    out.least = std::max(out.least, (jobs.jobs + out.cap - 1) / out.cap);
}
