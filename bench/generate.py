"""Job files for measuring: families of needs with limits at, below and above the optimum, families of many jobs, and files found by hill climbing.

    generate.py LIBRARY FOLDER small|full
    generate.py LIBRARY climb STEPS     prints lines for hardcap.txt

LIBRARY is the baseline as a shared library that counts (see run). Every seed is fixed: the same files each time.
A file's name is FAMILY-JOBS-NUMBER-LIMIT.jobs, LIMIT one of tight (the optimum), below (one less: refusal 13), loose (the
largest that leaves the width at most 8) and found (by climbing); with a cap FAMILY-JOBS-NUMBER-LIMIT-CAP.jobs, CAP the most boards.
"""
import collections
import ctypes
import functools
import math
import pathlib
import random
import sys

SIZES = (8, 16, 32, 48, 64)
CAPPED_SIZES = (16, 32, 64)
MANY_SIZES = (64, 100, 200, 400)
HARD_SIZES = (12, 16, 24, 32, 48, 64, 100, 200, 400)
WORK_BYTES, TABLE_BYTES = 65536, 7606
WORK, TABLE = (ctypes.c_uint8 * WORK_BYTES)(), (ctypes.c_uint8 * TABLE_BYTES)()


def parts(name):
    """Family, jobs, number, limit and cap (nothing without one) of a file's name."""
    family, n, number, limit, *cap = name.split("-")
    return family, int(n), number, limit, int(cap[0]) if cap else None


def field(tag, value):
    return bytes((tag, len(value) & 255, len(value) >> 8)) + bytes(value)


@functools.cache
def job_fields(n):
    return b"".join(field(3, (37 * i % 3000 - 1500).to_bytes(2, "little", signed=True) + b"j%d" % (i + 1)) for i in range(n))


def need_field(giver, taker):
    """Tag 4 where both numbers fit a byte, else tag 6."""
    if giver < 256 and taker < 256:
        return bytes((4, 2, 0, giver, taker))
    return bytes((6, 4, 0, giver & 255, giver >> 8, taker & 255, taker >> 8))


def job_file(n, needs, limit, cap=None):
    boards = field(9, (cap,)) if cap else b""
    return field(1, (1,)) + field(2, (limit,)) + boards + job_fields(n) + b"".join(need_field(g + 1, k + 1) for g, k in sorted(needs))


class Jobs(ctypes.Structure):
    """As in baseline.h."""
    _fields_ = [("held", ctypes.c_uint16 * 64), ("tables", ctypes.c_uint16 * 1221)]
    _fields_ += [(name, ctypes.c_uint) for name in ("jobs", "limit", "boards", "least", "filled")]
    _fields_ += [(name, ctypes.c_uint16 * 400) for name in ("offsets", "release", "tail")] + [("places", ctypes.c_uint8 * 400)]


# slots, or minus the number of the refusal; states opened, sets tried, the most sets tried in one state
Planned = collections.namedtuple("Planned", "slots opened tried most")


class Planner:
    """The baseline."""

    def __init__(self, library):
        self.lib = ctypes.CDLL(library)
        self.lib.baseline_plan.restype = ctypes.c_uint32
        self.work = [ctypes.c_uint64.in_dll(self.lib, f"baseline_{what}") for what in ("opened", "tried", "most")]

    def plan(self, n, needs, limit, cap=None):
        return self.plan_bytes(job_file(n, needs, limit, cap))

    def plan_bytes(self, data):
        for counter in self.work:
            counter.value = 0
        size = ctypes.c_size_t
        answer = self.lib.baseline_plan(data, size(len(data)), WORK, size(WORK_BYTES), TABLE, size(TABLE_BYTES))
        return Planned(TABLE[4] if answer < 65536 else 65536 - answer, *(counter.value for counter in self.work))

    def read(self, data):
        """The number of the refusal, or 0, and what was read."""
        jobs = Jobs()
        return self.lib.baseline_read(data, ctypes.c_size_t(len(data)), WORK, ctypes.byref(jobs)), jobs

    def width(self, n, needs, limit):
        """The width; infinite where it is above 8, or the needs have a circle."""
        number, jobs = self.read(job_file(n, needs, limit))
        return math.inf if number else max((jobs.held[s].bit_count() for s in range(min(jobs.filled, limit))), default=0)

    def tries(self, data):
        """Is at least one length tried?"""
        number, jobs = self.read(data)
        return number == 0 and jobs.least <= jobs.limit

    def limits(self, n, needs, cap=None):
        """The optimum and the loosest limit; nothing where the optimum's width is above 8 or the optimum above 64."""
        loose = 0
        for limit in range(1, 65):
            if self.width(n, needs, limit) > 8:
                break
            loose = limit
        slots = self.plan(n, needs, loose, cap).slots if loose else 0
        return (slots, loose) if slots > 0 else None


def renumbered(n, needs, rng):
    order = list(range(n))
    rng.shuffle(order)
    return {(order[g], order[k]) for g, k in needs}


def chains(n, rng):
    """Chains beside each other, of nearly equal length, with some hand-overs between neighbours."""
    count = rng.choice([c for c in (1, 2, 3, 4, 5) if -(-n // c) <= 60] or [2])
    rows = [list(range(i, n, count)) for i in range(count)]
    needs = {(row[i], row[i + 1]) for row in rows for i in range(len(row) - 1)}
    for _ in range(rng.randrange(1 + n // 8) if count > 1 else 0):
        a, b = rng.sample(rows, 2)
        i = rng.randrange(min(len(a), len(b)) - 1) if min(len(a), len(b)) > 1 else None
        if i is not None:
            needs.add((a[i], b[i + 1]))
    return needs


def layered(n, rng, density, least=2, most=4):
    """Layers of 2 to 4 jobs, or as given; each pair of neighbouring layers joined by this share of the possible needs, at least one a job."""
    layers, at = [], 0
    while at < n:
        size = min(rng.randint(least, most), n - at)
        layers.append(range(at, at + size))
        at += size
    needs = set()
    for above, below in zip(layers, layers[1:]):
        needs |= {(g, k) for g in above for k in below if rng.random() < density}
        needs |= {(rng.choice(above), k) for k in below if not any((g, k) in needs for g in above)}
        needs |= {(g, rng.choice(below)) for g in above if not any((g, k) in needs for k in below)}
    return needs


def trees(n, rng):
    """A tree that mostly grows at its tips; towards the root or away from it."""
    tips, needs = [0], set()
    for k in range(1, n):
        i = rng.randrange(len(tips)) if k % max(1, len(tips)) else 0
        g = min(tips) if rng.random() < 0.7 else tips[i]
        needs.add((g, k))
        if len(tips) >= 4 or rng.random() < 0.8:
            tips.remove(g)
        tips.append(k)
    return needs if rng.random() < 0.5 else {(k, g) for g, k in needs}


def series_parallel(n, rng):
    """Blocks in a row: a fork into 2 to 4 branches of nearly equal length, and a join."""
    needs, at, join = set(), 1, 0
    while at < n:
        size = min(n - at, rng.randint(4, 9))
        branches = min(rng.randint(2, 4), size - 1)
        if branches < 2:
            needs |= {(i - 1 if i > at else join, i) for i in range(at, at + size)}
        else:
            rows = [list(range(at + b, at + size - 1, branches)) for b in range(branches)]
            for row in rows:
                needs |= set(zip([join] + row, row + [at + size - 1]))
        at += size
        join = at - 1
    return needs


def random_needs(n, rng):
    """Each job takes from 1 to 3 of the jobs little before it."""
    back = rng.randint(3, 5)
    needs = set()
    for k in range(1, n):
        near = range(max(0, k - back), k)
        needs |= {(g, k) for g in rng.sample(near, min(len(near), rng.randint(1, 3)))}
    return needs


FAMILIES = {
    "chains": chains,
    "layered30": lambda n, rng: layered(n, rng, 0.3),
    "layered60": lambda n, rng: layered(n, rng, 0.6),
    "layered90": lambda n, rng: layered(n, rng, 0.9),
    "trees": trees,
    "seriesparallel": series_parallel,
    "random": random_needs,
}


def lanes(n, rng, rows):
    """So many chains beside each other, a job in each slot, and jobs left over, each between two jobs of a chain that are some slots apart; with needs
    over two slots and more, which leave the windows as they are. The needs, and the slots."""
    slots = n // rows
    extras = n - rows * slots
    needs = {(i - rows, i) for i in range(rows, rows * slots)}
    for e in range(extras):
        a, b, lane = slots * e // extras, slots * (e + 1) // extras - 1, rng.randrange(rows)
        needs |= {(rows * a + lane, rows * slots + e), (rows * slots + e, rows * b + lane)}
    for _ in range(n // 2):
        g, k = rng.randrange(n), rng.randrange(n)
        if max(g, k) < rows * slots and k // rows >= g // rows + 2:
            needs.add((g, k))
    return needs, slots


def stirred(planner, n, needs, slots, rng):
    """Needs taken out and put in, as long as there is a plan of so many slots."""
    for _ in range(2000):
        again = set(needs)
        for _ in range(rng.randint(1, 3)):
            if rng.random() < 0.4 and again:
                again.discard(rng.choice(sorted(again)))
            if rng.random() < 0.8:
                again.add(tuple(rng.sample(range(n), 2)))
        if len(again) <= 2 * n and planner.plan(n, again, slots).slots > 0:
            needs = again
    return needs


# the rows of chains by number of jobs, and are the needs stirred
MANY = {
    "lanes": (lambda n: 5 if n == 100 else 8, False),
    "extras": (lambda n: 7, False),
    "mutated": (lambda n: 7, True),
}


def many(planner, folder, each):
    for family, (rows, stir) in MANY.items():
        for n in MANY_SIZES:
            for number in range(each):
                rng = random.Random(f"{family} {n} {number}")
                needs, slots = lanes(n, rng, rows(n))
                if stir:
                    needs = stirred(planner, n, needs, slots, rng)
                (folder / f"{family}-{n}-{number}-tight.jobs").write_bytes(job_file(n, renumbered(n, needs, rng), slots))


def family_graphs(planner, each):
    """The first graphs of each family and size that have limits: {(family, jobs): [(needs, optimum, loosest limit)]}."""
    graphs = {}
    for family, make in FAMILIES.items():
        for n in SIZES:
            rng, found = random.Random(f"{family} {n}"), graphs.setdefault((family, n), [])
            for _ in range(4000):
                needs = renumbered(n, make(n, rng), rng)
                limits = planner.limits(n, needs)
                if limits:
                    found.append((needs, *limits))
                if len(found) == each:
                    break
            else:
                print(f"{family} {n}: {len(found)} of {each} found", file=sys.stderr)
    return graphs


def families(folder, graphs):
    for (family, n), found in graphs.items():
        for number, (needs, best, loose) in enumerate(found):
            for name, limit in (("tight", best), ("below", best - 1), ("loose", loose)):
                if 0 < limit and not (name == "loose" and loose == best):
                    (folder / f"{family}-{n:02}-{number}-{name}.jobs").write_bytes(job_file(n, needs, limit))


def capped_families(planner, folder, graphs, caps):
    """Of each family and size the first graph whose width, one slot below the optimum with the cap too, is above the cap."""
    for (family, n), found in graphs.items():
        for cap in caps if n in CAPPED_SIZES else ():
            for number, (needs, _, _) in enumerate(found):
                limits = planner.limits(n, needs, cap)
                if limits and planner.width(n, needs, limits[0] - 1) > cap:
                    for name, limit in (("tight", limits[0]), ("below", limits[0] - 1)):
                        (folder / f"{family}-{n:02}-{number}-{name}-{cap}.jobs").write_bytes(job_file(n, needs, limit, cap))
                    break


def mutated(n, needs, limit, rng):
    needs = set(needs)
    for _ in range(rng.choice((1, 1, 2, 3, 5))):
        kind = rng.random()
        if kind < 0.4 and needs:
            needs.discard(rng.choice(sorted(needs)))
        if kind < 0.8:
            g, k = rng.sample(range(n), 2)
            needs.add((g, k))
        elif kind < 0.9:
            a, b = rng.sample(range(n), 2)
            swap = {a: b, b: a}
            needs = {(swap.get(g, g), swap.get(k, k)) for g, k in needs}
        else:
            limit = min(64, max(1, limit + rng.choice((-1, 1))))
    return needs, limit


def climb(planner, n, rng, steps, start, cap=None):
    """Needs and a limit with as much work for the search as hill climbing finds."""
    def work(needs, limit):
        done = planner.plan(n, needs, limit, cap)
        return 40 * done.opened + 20 * done.tried if done.slots > 0 or done.slots == -13 else -1

    needs, limit = start
    most = work(needs, limit)
    for _ in range(steps):
        again = mutated(n, needs, limit, rng)
        reached = work(*again)
        if reached >= most:
            (needs, limit), most = again, reached
    return needs, limit


# for so many jobs: chains, and the jobs in layers beside them
CROWDED = {200: (2, range(80, 112), (2, 3)), 400: (6, range(30, 60), (1, 2))}


def hard_start(planner, n, rng):
    """Needs and a limit to climb from: layers; with 200 and 400 jobs chains beside them that leave no slot free."""
    while True:
        if n not in CROWDED:
            needs = layered(n, rng, 0.5)
            limits = planner.limits(n, needs)
            if limits:
                return needs, limits[1]
            continue
        chained, layers, sizes = CROWDED[n]
        m = rng.choice(layers)
        needs, limit = layered(m, rng, 0.5, *sizes), -(-(n - m) // chained)
        if planner.plan(m, needs, limit).slots > 0:
            needs |= {(k - chained, k) for k in range(m + chained, n)}
            if planner.plan(n, needs, limit).slots > 0:
                return needs, limit


def hard(planner, folder, each, steps):
    for n in HARD_SIZES:
        for number in range(1 if n in CROWDED else each):
            rng = random.Random(f"hard {n} {number}")
            needs, limit = climb(planner, n, rng, steps, hard_start(planner, n, rng))
            (folder / f"hard-{n:02}-{number}-found.jobs").write_bytes(job_file(n, needs, limit))


# number of jobs and cap of the hard files of many jobs: as many chains as boards, all of them full
HARD_CAPPED = ((100, 2), (99, 3), (100, 4), (200, 4), (200, 5), (399, 7))


def climb_capped(planner, steps):
    """Lines for hardcap.txt, of many jobs."""
    for n, cap in HARD_CAPPED:
        rng = random.Random(f"hardcap {n} {cap}")
        needs, limit = climb(planner, n, rng, steps, lanes(n, rng, cap), cap)
        print(cap, n, limit, *(f"{g + 1}-{k + 1}" for g, k in sorted(needs)), flush=True)


def listed(folder, family, caps):
    """The files that FAMILY.txt lists, those with these caps, as FAMILY-JOBS-NUMBER-found; cap 0 stands for none."""
    numbers = collections.Counter()
    for line in (pathlib.Path(__file__).parent / f"{family}.txt").read_text().splitlines():
        if line.startswith("#"):
            continue
        words = line.split()
        cap, n, limit = (int(word) for word in words[:3])
        needs = {tuple(int(i) - 1 for i in word.split("-")) for word in words[3:]}
        number = numbers[cap, n]
        numbers[cap, n] += 1
        if cap in caps:
            (folder / f"{family}-{n}-{number}-found{f'-{cap}' if cap else ''}.jobs").write_bytes(job_file(n, needs, limit, cap))


def main():
    planner = Planner(sys.argv[1])
    if sys.argv[2] == "climb":
        return climb_capped(planner, int(sys.argv[3]))
    folder, size = pathlib.Path(sys.argv[2]), sys.argv[3]
    folder.mkdir(parents=True, exist_ok=True)
    (folder / "deep-64-0-tight.jobs").write_bytes(job_file(64, {(i, i + 1) for i in range(63)}, 64))  # the longest way down
    graphs = family_graphs(planner, 4 if size == "full" else 1)
    families(folder, graphs)
    capped_families(planner, folder, graphs, (2, 3) if size == "full" else (2,))
    many(planner, folder, 3 if size == "full" else 1)
    hard(planner, folder, 3 if size == "full" else 1, 20000 if size == "full" else 3000)
    listed(folder, "hardcap", range(1, 8) if size == "full" else (2,))
    listed(folder, "dear", range(0, 8))


if __name__ == "__main__":
    main()
