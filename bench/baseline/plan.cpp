// The rest of the call: reading a job file, circles, releases and tails, places, boards, the table.
#include "baseline.h"
#include <algorithm>
#include <cstdlib>
#include <cstring>

namespace {

const unsigned ROW = 56; // bytes of a job's row of takers: room for 448, in whole words

// Calls `each` with every taker of the job.
template <class Each> inline void for_takers(const uint8_t *rows, unsigned jobs, unsigned job, Each each) {
    const uint8_t *at = rows + ROW * job;
    for (unsigned first = 0; first < jobs; first += 64, at += 8) {
        uint64_t takers;
        memcpy(&takers, at, sizeof takers);
        for (; takers; takers &= takers - 1)
            each(first + low(takers));
    }
}

// Question 8: numbers from 0 of jobs that stand earlier, and different. A need that comes again changes nothing.
inline bool take_need(uint8_t *rows, unsigned jobs, unsigned giver, unsigned taker) {
    if (giver >= jobs || taker >= jobs || giver == taker)
        return false;
    rows[ROW * giver + taker / 8] |= 1 << taker % 8;
    return true;
}

// Questions 3 to 8, 10, and 21.
unsigned read_fields(const uint8_t *file, size_t size, uint8_t *rows, Jobs &out) {
    static const struct { uint16_t least, greatest; } LENGTHS[] = {{1, 1}, {1, 1}, {3, 14}, {2, 2}, {0, 65535}, {4, 4}, {1, 1}};
    out.jobs = out.boards = 0;
    size_t fields = 0;
    for (size_t at = 0; at < size; ++fields) {
        if (size - at < 3)
            return 3;
        const unsigned tag = file[at], length = file[at + 1] | file[at + 2] << 8;
        if (size - at - 3 < length)
            return 3;
        if (tag < 1 || (tag > 6 && tag != 9))
            return 4;
        if (fields < 2 ? tag != fields + 1 : tag < 3)
            return 5;
        const unsigned row = tag == 9 ? 6 : tag - 1;
        if (length < LENGTHS[row].least || length > LENGTHS[row].greatest)
            return 6;
        const uint8_t *value = file + at + 3;
        switch (tag) {
        case 1:
            if (value[0] != 1)
                return 6;
            break;
        case 2:
            if (value[0] < 1 || value[0] > MAX_SLOTS)
                return 6;
            out.limit = value[0];
            break;
        case 3:
            for (unsigned i = 2; i < length; ++i)
                if (value[i] < 33 || value[i] > 126)
                    return 6;
            if (out.jobs == MAX_JOBS)
                return 7;
            memset(rows + ROW * out.jobs, 0, ROW);
            out.offsets[out.jobs++] = at;
            break;
        case 4:
            if (!take_need(rows, out.jobs, value[0] - 1, value[1] - 1))
                return 8;
            break;
        case 6:
            if (!take_need(rows, out.jobs, (value[0] | value[1] << 8) - 1, (value[2] | value[3] << 8) - 1))
                return 8;
            break;
        case 9:
            if (value[0] < 1 || value[0] > PLACES)
                return 6;
            if (out.boards)
                return 21;
            out.boards = value[0];
        }
        at += 3 + length;
    }
    if (!out.boards)
        out.boards = PLACES;
    return fields < 2 || out.jobs == 0 ? 10 : 0;
}

// Levels are gathered as a code: twice the latest, and one more where it was met twice.
inline unsigned raised(unsigned code, unsigned level) { return code < 2 * level ? 2 * level : code == 2 * level ? code + 1 : code; }

// Formula (1): one after the latest of them, two after if the latest are tied. (Each was met one higher.)
inline unsigned behind(unsigned code) { return (code + 1) / 2; }

// Question 11, the releases, and an order in which each job stands behind its givers: jobs whose givers are all peeled are peeled.
bool peel(const uint8_t *rows, unsigned jobs, uint16_t *order, uint16_t *release) {
    uint16_t waits[MAX_JOBS];
    memset(waits, 0, jobs * sizeof *waits);
    memset(release, 0, jobs * sizeof *release);
    for (unsigned job = 0; job < jobs; ++job)
        for_takers(rows, jobs, job, [&](unsigned taker) { ++waits[taker]; });
    unsigned count = 0;
    for (unsigned job = 0; job < jobs; ++job)
        if (!waits[job])
            order[count++] = job;
    for (unsigned next = 0; next < count; ++next) {
        const unsigned job = order[next], level = release[job] = behind(release[job]);
        for_takers(rows, jobs, job, [&](unsigned taker) {
            release[taker] = raised(release[taker], level + 1);
            if (!--waits[taker])
                order[count++] = taker;
        });
    }
    return count == jobs;
}

// The tails, from the last of the order to the first.
void find_tails(const uint8_t *rows, unsigned jobs, const uint16_t *order, uint16_t *tail) {
    for (unsigned next = jobs; next--;) {
        unsigned code = 0;
        for_takers(rows, jobs, order[next], [&](unsigned taker) { code = raised(code, tail[taker] + 1); });
        tail[order[next]] = behind(code);
    }
}

// Question 12: each job takes the lowest place that no job with an open window has, by release; with the tables up to the last slot in
// which a job enters.
bool seat_all(const uint8_t *rows, Jobs &out) {
    Tables &t = out.t;
    const uint16_t *release = out.release;
    uint16_t first[MAX_SLOTS] = {}, next[MAX_JOBS]; // the jobs of each release, linked in rising number: job + 1, 0 for none
    uint8_t givers[MAX_JOBS];                       // of each job that has not entered
    memset(givers, 0, out.jobs);
    memset(t.ends, 0, sizeof t.ends);
    out.filled = 0;
    for (unsigned job = out.jobs; job--;) {
        if (release[job] >= out.limit)
            continue;
        next[job] = first[release[job]];
        first[release[job]] = job + 1;
        out.filled = std::max(out.filled, release[job] + 1u);
    }
    t.held[0] = t.marks[0] = 0;
    t.marks[1] = 1;
    for (unsigned slot = 0; slot < out.filled; ++slot) {
        if (slot)
            carry(t, slot);
        for (unsigned number = first[slot]; number; number = next[number - 1]) {
            const unsigned job = number - 1, last = out.limit - out.tail[job];
            if (out.tail[job] + slot >= out.limit)
                continue;
            const unsigned free = ~t.held[slot] & 255, place = free & -free, p = low(free);
            if (!free)
                return false;
            t.held[slot] |= place;
            t.ends[last] |= place;
            t.prev[slot][p] = givers[job];
            t.who[slot][p] = job;
            out.places[job] = p;
            for_takers(rows, out.jobs, job, [&](unsigned taker) {
                if (release[taker] <= last)
                    givers[taker] |= place;
            });
        }
    }
    return true;
}

// The starts, and the boards from 1: a job with a giver in the slot before takes its board, the others in rising number the lowest left.
// Gives the number of boards.
unsigned place_boards(const Tables &t, const uint8_t *path, unsigned slots, uint8_t *starts, uint8_t *boards) {
    unsigned most = 0;
    for (unsigned slot = 0; slot < slots; ++slot) {
        const uint16_t *who = t.who[slot];
        unsigned free = 255 << 1, others = 0;
        for (unsigned rest = path[slot]; rest; rest &= rest - 1) {
            const unsigned p = low(rest), near = slot ? t.prev[slot][p] & path[slot - 1] : 0;
            starts[who[p]] = slot;
            if (near) {
                const unsigned board = boards[who[p]] = boards[t.who[slot - 1][low(near)]];
                free &= ~(1 << board);
                most = std::max(most, board);
            } else {
                others |= rest & -rest;
            }
        }
        for (; others; free &= free - 1) {
            unsigned p = low(others);
            for (unsigned rest = others & (others - 1); rest; rest &= rest - 1)
                if (who[low(rest)] < who[p])
                    p = low(rest);
            others ^= 1 << p;
            boards[who[p]] = low(free);
            most = std::max(most, low(free));
        }
    }
    return most;
}

// The nearest centimetre; a half goes to the even neighbour.
inline int half_even(int mm) {
    const int whole = mm / 10, rest = mm % 10, away = mm < 0 ? -1 : 1;
    return 2 * abs(rest) + abs(whole % 2) > 10 ? whole + away : whole;
}

size_t write_table(const uint8_t *file, const Jobs &jobs, unsigned slots, unsigned count, const uint8_t *starts, const uint8_t *boards, uint8_t *table) {
    const uint8_t head[] = {16, 3, 0, 1, uint8_t(slots), uint8_t(count)};
    memcpy(table, head, sizeof head);
    uint8_t *to = table + sizeof head;
    for (unsigned job = 0; job < jobs.jobs; ++job) {
        const uint8_t *field = file + jobs.offsets[job];
        const unsigned length = field[1];
        const int mm = int16_t(field[3] | field[4] << 8), cm = half_even(mm);
        const uint8_t fixed[] = {17, uint8_t(length + 2), 0, starts[job], boards[job], uint8_t(cm), uint8_t(cm >> 8)};
        memcpy(to, fixed, sizeof fixed);
        to += sizeof fixed;
        for (unsigned i = 2; i < length; ++i)
            *to++ = field[3 + i];
    }
    return to - table;
}

uint32_t plan_file(const uint8_t *file, size_t size, uint8_t *work, uint8_t *table) {
    Jobs jobs;
    if (unsigned number = baseline_read(file, size, work, &jobs))
        return 65536 + number;
    uint8_t path[MAX_SLOTS], starts[MAX_JOBS], boards[MAX_JOBS];
    const unsigned slots = baseline_search(&jobs, work, path);
    if (slots == 0)
        return 65536 + 13;
    const unsigned count = place_boards(jobs.t, path, slots, starts, boards);
    return write_table(file, jobs, slots, count, starts, boards, table);
}

} // namespace

unsigned baseline_read(const uint8_t *file, size_t size, uint8_t *rows, Jobs *out) {
    if (size > 49152)
        return 2;
    if (unsigned number = read_fields(file, size, rows, *out))
        return number;
    uint16_t order[MAX_JOBS];
    if (!peel(rows, out->jobs, order, out->release))
        return 11;
    find_tails(rows, out->jobs, order, out->tail);
    if (!seat_all(rows, *out))
        return 12;
    out->t.cap = out->boards;
    out->least = (out->jobs + out->boards - 1) / out->boards;
    for (unsigned job = 0; job < out->jobs; ++job)
        out->least = std::max(out->least, out->release[job] + out->tail[job] + 1u);
    return 0;
}

uint32_t baseline_plan(const uint8_t *file, size_t file_len, uint8_t *work, size_t work_len, uint8_t *table, size_t table_len) {
    if (work_len < 65536 || table_len < 7606)
        return 65536 + 1;
    const uint32_t answer = plan_file(file, file_len, work, table);
    memset(work, 0, 65536);
    return answer;
}
