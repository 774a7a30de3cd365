// Question 13, depth first over the slots: in each slot every candidate without a giver in the slot before and, of the candidates
// tied to one giver there, one for each such giver; where these are more than the cap, as many of all as the cap says and at most one
// for each such giver. Most states have one such set; else the sets come in the order of preference. Failed states are marked.
//
// A state before a slot is what is done by the end of the slot before, and what ran in it: sets of places of the slot before.
#include "baseline.h"
#include <algorithm>
#include <cstring>

#ifdef COUNT
uint64_t baseline_opened, baseline_tried, baseline_most;
#endif

namespace {

// The work in one state.
struct Tally {
#ifdef COUNT
    uint64_t sets = 0;
    Tally() { ++baseline_opened; }
    void look() {
        ++baseline_tried;
        baseline_most = std::max(baseline_most, ++sets);
    }
#else
    void look() {}
#endif
};

struct Searcher {
    const Tables &t;
    uint8_t *dead, *path;

    bool explore(unsigned slot, unsigned done, unsigned ran);
    bool try_sets(unsigned slot, unsigned here, unsigned done, unsigned ran);
    bool try_row(unsigned slot, unsigned here, unsigned ran, unsigned forced, unsigned open, unsigned count, unsigned must, Tally tally);
    bool try_set(unsigned slot, unsigned here, unsigned places);
};

// The places of a set by falling job number; gives how many.
inline unsigned by_number(const uint16_t *who, unsigned places, uint8_t *row) {
    unsigned count = 0;
    for (; places; ++count) {
        unsigned last = low(places);
        for (unsigned rest = places & (places - 1); rest; rest &= rest - 1)
            if (who[low(rest)] > who[last])
                last = low(rest);
        row[count] = last;
        places ^= 1 << last;
    }
    return count;
}

// The next lower number with as many binary digits 1; 0 where there is none. Its lowest 1 above a 0 moves down by one, and the ones at its
// low end follow right behind.
inline unsigned next_number(unsigned number) {
    const unsigned upper = number & (number + 1);
    return upper ? upper - (1 << (low(upper) - low(number + 1) - 1)) : 0;
}

// What a number takes of a row of places, place k where it has the digit k; none where two of them have the same giver in the slot before.
inline unsigned pick(const uint16_t *prev, unsigned ran, const uint8_t *row, unsigned number) {
    unsigned places = 0, givers = 0;
    for (; number; number &= number - 1) {
        const unsigned p = row[low(number)], near = prev[p] & ran;
        if (givers & near)
            return 0;
        places |= 1 << p;
        givers |= near;
    }
    return places;
}

inline bool Searcher::try_set(unsigned slot, unsigned here, unsigned places) {
    if (!explore(slot + 1, here | places, places))
        return false;
    path[slot] = places;
    return true;
}

// All of `forced`, and just so many of `open` that have different givers, with all that must run now: by falling numbers of the row.
bool Searcher::try_row(unsigned slot, unsigned here, unsigned ran, unsigned forced, unsigned open, unsigned count, unsigned must, Tally tally) {
    uint8_t row[PLACES];
    const unsigned size = by_number(t.who[slot], open, row);
    for (unsigned number = (1 << size) - (1 << (size - count)); number; number = next_number(number)) {
        tally.look();
        const unsigned picked = pick(t.prev[slot], ran, row, number);
        if (picked && !(must & ~(forced | picked)) && try_set(slot, here, forced | picked))
            return true;
    }
    return false;
}

inline bool Searcher::try_sets(unsigned slot, unsigned here, unsigned done, unsigned ran) {
    unsigned forced = 0, tied = 0, tying = 0, shared = 0;
    for (unsigned rest = t.held[slot] & ~here; rest; rest &= rest - 1) {
        const unsigned givers = t.prev[slot][low(rest)], place = rest & -rest, near = givers & ran;
        if (givers & ~done)
            continue;
        if (!near) {
            forced |= place;
        } else if (!(near & (near - 1))) {
            tied |= place;
            shared |= tying & near;
            tying |= near;
        }
    }
    const unsigned able = forced | tied, must = t.due[slot + 1] & ~here;
    if (must & ~able)
        return false;
    Tally tally;
    if (t.cap < PLACES && __builtin_popcount(forced) + __builtin_popcount(tying) > t.cap)
        return try_row(slot, here, ran, 0, able, t.cap, must, tally);
    if (shared)
        return try_row(slot, here, ran, forced, tied, __builtin_popcount(tying), must, tally);
    tally.look();
    return try_set(slot, here, able);
}

bool Searcher::explore(unsigned slot, unsigned done, unsigned ran) {
    if (slot == t.slots)
        return true;
    const unsigned key = 8 * t.marks[slot] + THREES.entry[done] + THREES.entry[ran];
    uint8_t &byte = dead[key / 8];
    const uint8_t mark = 1 << key % 8;
    if (byte & mark)
        return false;
    if (try_sets(slot, done & ~t.ends[slot], done, ran))
        return true;
    byte |= mark;
    return false;
}

// The tables of a plan of so many slots: the slots that are missing, and when each job is due.
void fit(Jobs &jobs, unsigned slots) {
    Tables &t = jobs.t;
    for (; jobs.filled < slots; ++jobs.filled)
        carry(t, jobs.filled);
    memset(t.due, 0, (slots + 1) * sizeof *t.due);
    for (unsigned job = 0; job < jobs.jobs; ++job)
        t.due[slots - jobs.tail[job]] |= 1 << jobs.places[job];
    t.slots = slots;
}

} // namespace

size_t baseline_search(Jobs *jobs, uint8_t *dead, uint8_t *path) {
    Searcher searcher{jobs->t, dead, path};
    for (unsigned slots = jobs->least; slots <= jobs->limit; ++slots) {
        fit(*jobs, slots);
        memset(dead, 0, jobs->t.marks[slots]);
        if (searcher.explore(0, 0, 0))
            return slots;
    }
    return 0;
}
