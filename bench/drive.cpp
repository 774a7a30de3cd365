// Calls the product and the baseline on job files.
//   drive count FILE..   under callgrind: a dump for each call, named "FILE WHAT"
//   drive time FILE..    CPU time of a call in nanoseconds: "FILE product baseline"
//   drive stack FILE..   the deepest byte of stack: "FILE search whole check lookup baseline-search baseline-whole"
//   drive answer FILE..  "FILE slots N" and the start of each job, or "FILE refused N"
// Every mode compares the two first: the answer, all bytes of the table and the working buffer, and the sets of the slots; and the table is
// checked and looked up. With BEFORE defined the product is an archive from before CR 8, on files of at most 64 jobs, and alone counted.
#include "../bindings/include/gate.h"
#include "baseline/baseline.h"
#ifdef BEFORE
#include "before.h"
#endif
#include <cstdio>
#include <cstdlib>
#include <cstring>
#include <ctime>
#include <fstream>
#include <functional>
#include <iterator>
#include <new>
#include <string>
#include <ucontext.h>
#include <valgrind/callgrind.h>
#include <vector>

#ifndef BEFORE
extern "C" {
size_t product_tables(const uint8_t *rows, size_t rows_len, size_t jobs, const uint16_t *release, const uint16_t *tail, size_t limit, uint16_t boards, uint8_t *places, uint16_t *tables);
size_t product_search(uint16_t *tables, size_t filled, size_t least, size_t limit, size_t jobs, const uint8_t *places, const uint16_t *tail, uint8_t *dead, size_t dead_len, uint8_t *path);
}
#endif

namespace {

const size_t STACK = 1 << 18;
uint8_t work[GATE_WORK_BYTES], rows[GATE_WORK_BYTES], table[GATE_TABLE_BYTES], other_table[GATE_TABLE_BYTES];
alignas(64) uint8_t stack[STACK];
ucontext_t here, there;
std::function<void()> task;

// The calls that are measured.
struct Calls {
    std::vector<uint8_t> file;
    Jobs jobs, other_jobs; // the search changes its tables: `other_jobs` is a copy for it
    bool searches;         // question 13 is asked
    uint32_t answer, other_answer, checked, looked;
    uint8_t path[MAX_SLOTS], other_path[MAX_SLOTS];
    size_t slots, other_slots;
    size_t last; // where the last row of the table stands

    void whole() { answer = gate_plan(file.data(), file.size(), work, sizeof work, table, sizeof table); }
    void other_whole() { other_answer = baseline_plan(file.data(), file.size(), work, sizeof work, other_table, sizeof other_table); }
    void check() { checked = gate_check(file.data(), file.size(), table, answer); }
    void lookup() { looked = gate_lookup(table, answer, table[last + 3], table[last + 4]); }
    void other_search() { other_slots = baseline_search(&other_jobs, work, other_path); }
#ifdef BEFORE
    WordJobs words;
    WordFound found;

    void read() { word_jobs(jobs, rows, words); }
    void fresh() {}
    void search() {
        new (&found) WordFound(product_search(&words.t, words.least, words.limit, work, sizeof work, words.cap));
        slots = found.slots;
    }
#else
    static const size_t ROOM = 4096; // more numbers than the product's tables have
    uint8_t places[MAX_JOBS];
    uint16_t tables[ROOM], again[ROOM];
    size_t filled;

    void read() {
        memset(places, 0, sizeof places);
        memset(tables, 0, sizeof tables);
        make_tables();
    }
    void make_tables() { filled = product_tables(rows, sizeof rows, jobs.jobs, jobs.release, jobs.tail, jobs.limit, jobs.boards, places, tables); }
    void fresh() {
        memcpy(again, tables, sizeof again);
        other_jobs = jobs;
    }
    void search() { slots = product_search(again, filled, jobs.least, jobs.limit, jobs.jobs, places, jobs.tail, work, sizeof work, path); }
#endif
};

void fail(const char *name, const char *why) {
    fprintf(stderr, "%s: %s\n", name, why);
    exit(1);
}

void compare(const char *name, Calls &c) {
    memset(table, 85, sizeof table);
    memset(other_table, 85, sizeof other_table);
    memset(work, 85, sizeof work);
    c.whole();
    for (uint8_t byte : work)
        if (byte)
            fail(name, "the working buffer is not clear");
    c.other_whole();
    if (c.answer != c.other_answer || memcmp(table, other_table, sizeof table))
        fail(name, "product and baseline differ");
    if (c.answer < GATE_REFUSED) {
        for (size_t at = 6; at < c.answer; at += 3 + table[at + 1])
            c.last = at;
        c.check();
        c.lookup();
        if (c.checked || c.looked != c.jobs.jobs)
            fail(name, "the table does not pass, or a lookup differs");
    }
    if (!c.searches)
        return;
    c.read();
    c.fresh();
    c.search();
    c.other_jobs = c.jobs;
    c.other_search();
    if (c.slots != c.other_slots)
        fail(name, "the two searches differ");
#ifndef BEFORE
    if (memcmp(c.path, c.other_path, c.slots))
        fail(name, "the two searches differ in a set");
#endif
}

void count(const std::string &name, Calls &c, const char *what, void (Calls::*call)()) {
    const std::string label = name + " " + what;
    const char *text = label.c_str();
    c.fresh();
    CALLGRIND_ZERO_STATS;
    (c.*call)();
    CALLGRIND_DUMP_STATS_AT(text);
}

// Everything of one file.
void count_all(const std::string &name, Calls &c) {
    const bool planned = c.answer < GATE_REFUSED;
    if (c.searches)
        count(name, c, "search", &Calls::search);
    if (planned) {
        count(name, c, "check", &Calls::check);
        count(name, c, "lookup", &Calls::lookup);
    }
    count(name, c, "whole", &Calls::whole);
#ifndef BEFORE
    count(name, c, "baseline-whole", &Calls::other_whole);
    if (c.searches) {
        count(name, c, "baseline-search", &Calls::other_search);
        memset(c.places, 0, sizeof c.places);
        memset(c.tables, 0, sizeof c.tables);
        count(name, c, "tables", &Calls::make_tables);
    }
#endif
}

double cpu_now() {
    timespec t;
    clock_gettime(CLOCK_PROCESS_CPUTIME_ID, &t);
    return t.tv_sec * 1e9 + t.tv_nsec;
}

// The least of seven means over as many calls as take two milliseconds.
double nanoseconds(Calls &c, void (Calls::*call)()) {
    double best = 1e18;
    size_t calls = 1;
    for (int turn = 0; turn < 7;) {
        double start = cpu_now();
        for (size_t i = 0; i < calls; ++i)
            (c.*call)();
        double took = cpu_now() - start;
        if (took < 2e6) {
            calls *= 2;
            continue;
        }
        best = std::min(best, took / calls);
        ++turn;
    }
    return best;
}

void print_answer(const char *name, const Calls &c) {
    if (c.answer >= GATE_REFUSED) {
        printf("%s refused %u\n", name, c.answer - GATE_REFUSED);
        return;
    }
    printf("%s slots %d", name, table[4]);
    for (size_t at = 6; at < c.answer; at += 3 + table[at + 1])
        printf(" %d", table[at + 3]);
    printf("\n");
}

void run_task() { task(); }

// Runs the call on a stack full of a pattern; the bytes from its top down to the lowest one that was changed.
size_t deepest(std::function<void()> call) {
    task = call;
    memset(stack, 0xA5, STACK);
    getcontext(&there);
    there.uc_stack.ss_sp = stack;
    there.uc_stack.ss_size = STACK;
    there.uc_link = &here;
    makecontext(&there, run_task, 0);
    swapcontext(&here, &there);
    size_t low = 0;
    while (low < STACK && stack[low] == 0xA5)
        ++low;
    return STACK - low;
}

size_t depth(Calls &c, void (Calls::*call)()) {
    const size_t empty = deepest([] {}); // what the way into the call takes
    c.fresh();
    return deepest([&] { (c.*call)(); }) - empty;
}

} // namespace

int main(int argc, char **argv) {
    const std::string mode = argc > 1 ? argv[1] : "";
    for (int i = 2; i < argc; ++i) {
        std::ifstream in(argv[i], std::ios::binary);
        static Calls c;
        c.file.assign(std::istreambuf_iterator<char>(in), {});
        if (!in && c.file.empty())
            fail(argv[i], "not read");
        c.searches = baseline_read(c.file.data(), c.file.size(), rows, &c.jobs) == 0;
        compare(argv[i], c);
        const bool planned = c.answer < GATE_REFUSED;
        if (mode == "count") {
            count_all(argv[i], c);
        } else if (mode == "time") {
            printf("%s %.0f %.0f\n", argv[i], nanoseconds(c, &Calls::whole), nanoseconds(c, &Calls::other_whole));
        } else if (mode == "stack") {
            printf("%s %zu %zu %zu %zu %zu %zu\n", argv[i], c.searches ? depth(c, &Calls::search) : 0, depth(c, &Calls::whole), planned ? depth(c, &Calls::check) : 0,
                   planned ? depth(c, &Calls::lookup) : 0, c.searches ? depth(c, &Calls::other_search) : 0, depth(c, &Calls::other_whole));
        } else {
            print_answer(argv[i], c);
        }
    }
}
