"""report.py FOLDER DOCS: the tables of DOCS/BENCHMARKS.md, between its markers, and DOCS/benchmarks.svg, from FOLDER/*.json. Without before.json or
solvers.json the tables that need them stay as they are."""
import json
import math
import pathlib
import re
import statistics
import sys

import generate
import solvers
from generate import parts

FAMILIES, MANY = list(generate.FAMILIES), list(generate.MANY)
KB = 1000


def table(head, rows):
    lines = ["| " + " | ".join(head) + " |", "|" + "---|" * len(head)]
    return "\n".join(lines + ["| " + " | ".join(str(x) for x in row) + " |" for row in rows])


def count(n):
    return f"{n:,}"


class Data:
    def __init__(self, folder):
        self.folder = folder
        for what in ("counts", "times", "stack", "solvers", "before"):
            path = pathlib.Path(f"{folder}/{what}.json")
            setattr(self, what, json.loads(path.read_text()) if path.exists() else None)
        self.planner = generate.Planner(f"{folder}/count.so")
        self.product = self.counts["g++"]
        self.files = sorted(self.product, key=lambda f: (parts(f)[0], parts(f)[1], f))
        # files that search: some length is tried
        searched = [f for f in self.files if self.planner.tries(self.bytes(f))]
        self.searched, self.capped = [f for f in searched if not parts(f)[4]], [f for f in searched if parts(f)[4]]

    def bytes(self, f):
        return pathlib.Path(f"{self.folder}/files/{f}.jobs").read_bytes()

    def cost(self, f, call):
        return self.product[f][call][0]

    def base(self, f, call):
        """The baseline's instructions: the better of the two compilers, for this file."""
        return min(self.counts[c][f][call][0] for c in self.counts)

    def of(self, family, n=None):
        return [f for f in self.searched if parts(f)[0] == family and n in (None, parts(f)[1])]

    def capped_of(self, family, cap):
        return [f for f in self.capped if parts(f)[0] == family and parts(f)[4] == cap]

    def capped_kinds(self):
        """The families and caps of the capped files, without the hard ones."""
        return sorted({(parts(f)[4], FAMILIES.index(parts(f)[0])) for f in self.capped if parts(f)[0] in FAMILIES})

    def many(self, family, n, call):
        """The instructions of the call on each file of that family and number of jobs."""
        return [self.cost(f, call) for f in self.files if parts(f)[:2] == (family, n)]

    def ratio(self, files, call, against):
        return sum(self.cost(f, call) for f in files) / sum(self.base(f, against) for f in files) if files else None

    def ratios(self, files):
        """The search over the baseline's, for each file."""
        return [self.cost(f, "search") / self.base(f, "baseline-search") for f in files]

    def grown(self, files, call, *also):
        """The call, and what is counted with it, over the call before, for each file where both were made."""
        files = [f for f in files if f in self.before and call in self.before[f]]
        return {f: sum(self.cost(f, x) for x in (call, *also)) / self.before[f][call][0] for f in files}


def ratio_cell(x):
    return "-" if x is None else f"{x:.2f}"


def spread(values, digits=3):
    """Median and range."""
    values = list(values)
    return f"{statistics.median(values):.{digits}f} ({min(values):.{digits}f} to {max(values):.{digits}f})" if values else "-"


def search_table(d):
    rows = []
    for family in FAMILIES + MANY + ["deep", "hard", "dear"]:
        files = d.of(family)
        each = d.ratios(files)
        clear = statistics.median(d.product[f]["search"][1] / d.cost(f, "search") for f in files)
        row = [family, len(files), count(sum(d.cost(f, "search") for f in files)), count(sum(d.base(f, "baseline-search") for f in files))]
        row += [f"{d.ratio(files, 'search', 'baseline-search'):.3f}", f"{min(each):.3f} to {max(each):.3f}", f"{100 * clear:.0f} %"]
        rows.append(row + [f"{sum(x <= 1 for x in each)} of {len(each)}"])
    return table(["family", "files that search", "product", "baseline", "ratio of the sums", "ratios of single files", "of it clearing (median)", "files at most 1"], rows)


def grid(d, call, against):
    sizes = sorted({*generate.SIZES, *generate.MANY_SIZES})
    rows = [[family] + [ratio_cell(d.ratio(d.of(family, n), call, against)) for n in sizes] for family in FAMILIES + MANY]
    return table(["family"] + [f"{n} jobs" for n in sizes], rows)


def before_groups(d):
    """The files of at most 64 jobs, in groups."""
    small = [f for f in d.files if f in d.before]
    for n in generate.SIZES:
        yield f"families, {n} jobs", [f for f in small if parts(f)[0] in FAMILIES and parts(f)[1] == n and not parts(f)[4]]
    yield "families with a cap", [f for f in small if parts(f)[0] in FAMILIES and parts(f)[4]]
    yield "families of many jobs, 64 jobs, and deep", [f for f in small if parts(f)[0] in MANY + ["deep"]]
    yield "hard", [f for f in small if parts(f)[0] == "hard"]
    yield "hard with a cap", [f for f in small if parts(f)[0] == "hardcap"]
    yield "all of these", [f for f in small if parts(f)[0] != "dear"]
    yield "dear", [f for f in small if parts(f)[0] == "dear" and not parts(f)[4]]
    yield "dear with a cap", [f for f in small if parts(f)[0] == "dear" and parts(f)[4]]


def before_table(d):
    rows = []
    for name, files in before_groups(d):
        searching = [f for f in files if f in d.searched or f in d.capped]
        search, both, whole = d.grown(searching, "search"), d.grown(searching, "search", "tables"), d.grown(files, "whole")
        row = [name, len(search), spread(search.values()), sum(x > 1 for x in search.values()), f"{statistics.median(both.values()):.3f}"]
        rows.append(row + [len(whole), spread(whole.values()), sum(x > 1.1 for x in whole.values())])
    return table(["files", "that search", "search / before, median (range)", "above 1", "search and tables / search before, median", "all", "whole call / before, median (range)", "above 1.10"], rows)


def check_table(d):
    rows = []
    for call in ("check", "lookup"):
        for n in generate.SIZES:
            files = [f for f in d.before if parts(f)[1] == n and parts(f)[0] != "dear" and call in d.before[f]]
            mine, old = [d.cost(f, call) for f in files], [d.before[f][call][0] for f in files]
            row = [call, n, len(files), f"{statistics.median(mine):,.0f} ({min(mine):,} to {max(mine):,})", f"{statistics.median(old):,.0f} ({min(old):,} to {max(old):,})"]
            rows.append(row + [spread(d.grown(files, call).values(), 2)])
    return table(["call", "rows", "tables", "instructions, median (range)", "before", "ratio of each, median (range)"], rows)


def whole_table(d):
    rows = []
    for n in generate.SIZES:
        files = [f for family in FAMILIES for f in d.of(family, n)]
        rows.append([f"{n} jobs"] + whole_cells(d, files))
    for n in generate.MANY_SIZES:
        rows.append([f"{n} jobs, families of many"] + whole_cells(d, [f for family in MANY for f in d.of(family, n)]))
    return table(["files", "number", "instructions, median", "whole / baseline's whole, median (range)", "whole / baseline's search, median (range)", "the baseline's own whole / its search, median", "at most 2"], rows + [["hard"] + whole_cells(d, d.of("hard"))])


def whole_cells(d, files):
    mine = [d.cost(f, "whole") / d.base(f, "baseline-search") for f in files]
    own = statistics.median(d.base(f, "baseline-whole") / d.base(f, "baseline-search") for f in files)
    both = spread([d.cost(f, "whole") / d.base(f, "baseline-whole") for f in files], 2)
    met = f"{sum(x <= 2 for x in mine)} of {len(mine)}"
    return [len(files), f"{statistics.median(d.cost(f, 'whole') for f in files):,.0f}", both, spread(mine, 1), f"{own:.1f}", met]


def many_table(d):
    rows = []
    for call in ("whole", "search", "check", "lookup"):
        for family in MANY:
            each = [statistics.median(d.many(family, n, call)) for n in generate.MANY_SIZES]
            rows.append([{"whole": "whole call"}.get(call, call), family] + [f"{x:,.0f}" for x in each] + [f"{each[-1] / each[0]:.2f}", f"{most_grown(d, family, call):.2f}"])
    return table(["call", "family"] + [f"{n} jobs" for n in generate.MANY_SIZES] + ["400 / 64", "the greatest of 400 / the least of 64"], rows)


def most_grown(d, family, call):
    return max(d.many(family, 400, call)) / min(d.many(family, 64, call))


def planned(d, f):
    """The file's limit, the answer, and the baseline's work for it."""
    data = d.bytes(f)
    work = d.planner.plan_bytes(data)
    return solvers.parse(data)[2], f"{work.slots} slots" if work.slots > 0 else f"refused {-work.slots}", work


def hard_rows(d, files, whole=False):
    """A row for each file; `whole` adds the whole call over the one before."""
    rows = []
    for f in files:
        limit, answer, work = planned(d, f)
        search, base = d.cost(f, "search"), d.base(f, "baseline-search")
        old = d.before[f]["search"][0] if d.before and f in d.before else None
        row = [f, limit, answer, count(work.opened), count(work.tried), work.most, count(search), count(base), f"{search / base:.3f}"]
        row += [count(old) if old else "-", f"{search / old:.3f}" if old else "-", count(d.cost(f, "whole"))]
        rows.append(row + ([f"{d.cost(f, 'whole') / d.before[f]['whole'][0]:.3f}"] if whole else []))
    return table(["file", "limit", "answer", "states opened", "sets looked at", "most in one state", "product's search", "baseline's", "ratio", "search before", "ratio", "whole call"] + (["whole call / before"] if whole else []), rows)


def hard_table(d):
    return hard_rows(d, d.of("hard"))


def dear_table(d):
    files = [f for f in d.searched + d.capped if parts(f)[0] == "dear"]
    return hard_rows(d, sorted(files, key=lambda f: (bool(parts(f)[4]), parts(f)[1])), True)


def capped_table(d):
    rows = []
    for cap, family in d.capped_kinds():
        files = d.capped_of(FAMILIES[family], cap)
        each = d.ratios(files)
        row = [FAMILIES[family], cap, len(files), count(sum(d.cost(f, "search") for f in files)), count(sum(d.base(f, "baseline-search") for f in files))]
        rows.append(row + [f"{d.ratio(files, 'search', 'baseline-search'):.3f}", f"{min(each):.3f} to {max(each):.3f}", f"{sum(x <= 1 for x in each)} of {len(each)}"])
    return table(["family", "cap", "files that search", "product", "baseline", "ratio of the sums", "ratios of single files", "files at most 1"], rows)


def hard_capped(d):
    return sorted((f for f in d.capped if parts(f)[0] == "hardcap"), key=lambda f: (parts(f)[4], parts(f)[1], f))


def hard_capped_table(d):
    return hard_rows(d, hard_capped(d))


def worst(d):
    lines = []
    for what, files in (("without a cap", d.of("hard")), ("with a cap", hard_capped(d))):
        for size, some in (("at most 64 jobs", [f for f in files if parts(f)[1] <= 64]), ("100 jobs and more", [f for f in files if parts(f)[1] > 64])):
            if some:
                f = max(some, key=lambda f: d.cost(f, "search"))
                lines.append([what, size, f, count(d.cost(f, "search")), count(d.cost(f, "whole")), f"{1000 * d.times[f][0]:.3f}"])
    return table(["files", "jobs", "the worst found", "search", "whole call", "whole call, ms"], lines)


def solver_ratios(d, name, files, whole):
    """Solver's CPU over the product's, start-up counted on both sides or on neither; a run that was stopped counts with what it had used."""
    start = d.solvers["startup"][name]
    result = []
    for f in files:
        if name in d.solvers["runs"][f]:
            seconds, _, process = d.solvers["runs"][f][name]
            result.append(seconds / process if whole else max(0.0, seconds - start) / d.times[f][0])
    return result


def solver_table(d):
    runs = d.solvers["runs"]
    rows = []
    for name in solvers.SOLVERS:
        files = [f for f in d.asked if parts(f)[1] == 64 and name in runs[f]]
        every = [f for f in d.asked if name in runs[f]]
        net, whole = solver_ratios(d, name, files, False), solver_ratios(d, name, every, True)
        open_ends = sum(not runs[f][name][1] for f in every)
        cpu = statistics.median(runs[f][name][0] for f in files)
        row = [name, len(every), open_ends, f"{1000 * d.solvers['startup'][name]:.1f}", f"{1000 * cpu:.1f}"]
        rows.append(row + [f"{statistics.median(net):,.0f}", f"{min(whole):.1f}", f"{sum(x >= 10 for x in whole)} of {len(whole)}"])
    return table(["solver", "files", "no answer in time", "start-up, ms", "64 jobs: median CPU, ms", "64 jobs: median ratio net of start-up", "least ratio, start-up included", "files at least 10"], rows)


def capped_solver_table(d):
    runs = d.solvers["runs"]
    rows = []
    for what, hard in (("families", False), ("hard", True)):
        for name in solvers.SOLVERS:
            files = [f for f in d.asked_capped if (parts(f)[0] == "hardcap") == hard and name in runs[f]]
            if files:
                net, whole = solver_ratios(d, name, files, False), solver_ratios(d, name, files, True)
                row = [what, name, len(files), sum(not runs[f][name][1] for f in files), f"{1000 * statistics.median(runs[f][name][0] for f in files):.1f}"]
                rows.append(row + [f"{statistics.median(net):,.0f}", f"{min(whole):.1f}", f"{sum(x >= 10 for x in whole)} of {len(whole)}"])
    return table(["files", "solver", "number", "no answer in time", "median CPU, ms", "median ratio net of start-up", "least ratio, start-up included", "files at least 10"], rows)


def stack_rows(d):
    """What, bytes by the code, bytes measured, limit."""
    most, deepest = d.stack["frames"], d.stack["deepest"]
    reached = [max(row[i] for row in deepest.values()) for i in range(6)]
    return [["search", most["search"], reached[0], 12 * KB], ["planner, whole call", most["plan"], reached[1], 24 * KB], ["check", most["check"], reached[2], 32 * KB], ["lookup", most["lookup"], reached[3], None]], reached


def stack_table(d):
    rows, reached = stack_rows(d)
    rows = [[what, count(code), count(seen), count(limit) if limit else "none"] for what, code, seen, limit in rows]
    rows.append(["of the search: one level of the recursion", count(d.stack["frames"]["level"]), "", ""])
    rows.append(["baseline: search, whole call", "", f"{count(reached[4])}, {count(reached[5])}", ""])
    return table(["what", "at most, by the machine code", "measured: the most over all files", "limit"], rows + [["lent: working buffer, table", "65,536, 7,606", "", ""]])


def verdict(ok):
    return "met" if ok else "NOT met"


def before_goals(d):
    """Medians are of the files that were not climbed to for being dear against the search before; no file, of these too."""
    files = [f for f in d.files if parts(f)[0] != "dear"]
    search, whole = d.grown(d.searched + d.capped, "search"), d.grown(d.files, "whole")
    check, lookup = d.grown(files, "check"), d.grown(files, "lookup")
    plain = lambda ratios: [ratios[f] for f in ratios if parts(f)[0] != "dear"]

    def above(ratios, most):
        cells = []
        for name, some in (("", [f for f in ratios if parts(f)[0] != "dear"]), ("dear ", [f for f in ratios if parts(f)[0] == "dear"])):
            worst = max(some, key=ratios.get)
            cells.append(f"{sum(ratios[f] > most for f in some)} of {len(some)} {name}files above, the greatest {worst} {ratios[worst]:.3f}")
        return "; ".join(cells)

    of_64 = [f for f in lookup if parts(f)[1] == 64]
    most = max(d.cost(f, "lookup") for f in of_64)
    return [
        ["up to 64 jobs, search: at most 0.85 of before, median", f"{len(plain(search))} files: {spread(plain(search))}", verdict(statistics.median(plain(search)) <= 0.85)],
        ["up to 64 jobs, search: no file above 1.0 of before", above(search, 1), verdict(max(search.values()) <= 1)],
        ["up to 64 jobs, whole call: at most 1.0 of before, median", f"{len(plain(whole))} files: {spread(plain(whole))}", verdict(statistics.median(plain(whole)) <= 1)],
        ["up to 64 jobs, whole call: no file above 1.10 of before", above(whole, 1.1), verdict(max(whole.values()) <= 1.1)],
        ["lookup in 64 rows: at most half of 19,000, and of before", f"{len(of_64)} tables: at most {count(most)}; {spread([lookup[f] for f in of_64], 2)} of before", verdict(most <= 9500 and max(lookup[f] for f in of_64) <= 0.5)],
        ["check of 64 rows: at most half of before", f"{spread([check[f] for f in of_64], 2)}; {sum(check[f] > 0.5 for f in of_64)} of {len(of_64)} tables above", verdict(max(check[f] for f in of_64) <= 0.5)],
    ]


def goal_table(d):
    sums = {family: d.ratio(d.of(family), "search", "baseline-search") for family in FAMILIES + MANY}
    caps = {(FAMILIES[family], cap): d.ratio(d.capped_of(FAMILIES[family], cap), "search", "baseline-search") for cap, family in d.capped_kinds()}
    hard, hard_caps = d.ratios(d.of("hard")), d.ratios(hard_capped(d))
    single = d.ratios([f for family in FAMILIES + MANY for f in d.of(family)])
    twice = [f for f in d.searched if d.cost(f, "whole") <= 2 * d.base(f, "baseline-search")]
    grown = {call: {family: most_grown(d, family, call) for family in MANY} for call in ("whole", "check", "lookup")}
    each = lambda call: ", ".join(f"{family} {x:.2f}" for family, x in grown[call].items())
    rows = before_goals(d) if d.before else []
    rows += [
        ["search: no more than the baseline's, each family's sum", f"{sum(x <= 1 for x in sums.values())} of {len(sums)} families, the greatest {max(sums.values()):.3f}; single files {sum(x <= 1 for x in single)} of {len(single)}", verdict(max(sums.values()) <= 1)],
        ["search: no more than the baseline's, each hard file", f"{sum(x <= 1 for x in hard)} of {len(hard)}, the greatest {max(hard):.3f}", verdict(max(hard) <= 1)],
        ["search with a cap: no more than the baseline's, each family's sum", f"{sum(x <= 1 for x in caps.values())} of {len(caps)} sums, the greatest {max(caps.values()):.3f}", verdict(max(caps.values()) <= 1)],
        ["search with a cap: no more than the baseline's, each hard file", f"{sum(x <= 1 for x in hard_caps)} of {len(hard_caps)}, the greatest {max(hard_caps):.3f}", verdict(max(hard_caps) <= 1)],
        ["whole call: a file of 400 jobs at most 8 times one of 64", each("whole"), verdict(max(grown["whole"].values()) <= 8)],
        ["check: 400 rows at most 7 times 64", each("check"), verdict(max(grown["check"].values()) <= 7)],
        ["lookup: 400 rows at most 7 times 64", each("lookup"), verdict(max(grown["lookup"].values()) <= 7)],
    ]
    for what, code, seen, limit in stack_rows(d)[0]:
        if limit:
            rows.append([f"stack, {what}: at most {limit // KB} KB", f"{count(code)} bytes by the machine code, {count(seen)} measured", verdict(max(code, seen) <= limit)])
    rows.append(["whole call: at most twice the baseline's search (a goal from before CR 8)", f"{len(twice)} of {len(d.searched)} files", verdict(len(twice) == len(d.searched))])
    return table(["goal", "measured", ""], rows)


def solver_goal_table(d):
    asked = [name for name in solvers.SOLVERS if not solvers.SOLVERS[name][-1]]
    wide = [f for f in d.asked if parts(f)[1] == 64]
    medians = {name: statistics.median(solver_ratios(d, name, wide, False)) for name in asked}
    least = {name: min(solver_ratios(d, name, d.asked, True)) for name in asked}
    return table(["goal", "measured", ""], [
        ["200 times less CPU, net, median of 64 jobs", ", ".join(f"{k} {v:,.0f}" for k, v in medians.items()), verdict(min(medians.values()) >= 200)],
        ["10 times less CPU, start-up included, every file", "least: " + ", ".join(f"{k} {v:.1f}" for k, v in least.items()), verdict(min(least.values()) >= 10)],
    ])


def plot(d, path):
    """Left: search over baseline's search for each file, by the baseline's instructions. Right: the whole call by jobs."""
    out = ['<svg xmlns="http://www.w3.org/2000/svg" width="940" height="380" font-family="sans-serif" font-size="12">', '<rect width="940" height="380" fill="white"/>']
    line = lambda x1, y1, x2, y2, c="#999": out.append(f'<line x1="{x1:.1f}" y1="{y1:.1f}" x2="{x2:.1f}" y2="{y2:.1f}" stroke="{c}"/>')
    text = lambda x, y, s, c="black", a="middle": out.append(f'<text x="{x:.1f}" y="{y:.1f}" fill="{c}" text-anchor="{a}">{s}</text>')
    dot = lambda x, y, c: out.append(f'<circle cx="{x:.1f}" cy="{y:.1f}" r="3" fill="{c}" fill-opacity="0.6"/>')
    searched = d.searched + d.capped
    color = lambda f: "#c33" if parts(f)[0].startswith("hard") else "#393" if parts(f)[0] in MANY else "#36c"
    ratios = dict(zip(searched, d.ratios(searched)))
    low, high = min(0.85, min(ratios.values())), max(1.15, max(ratios.values()))
    costs = [d.base(f, "baseline-search") for f in searched]
    first, last = math.log10(min(costs)), math.log10(max(costs))
    along = lambda n: 60 + 340 * (math.log10(n) - first) / (last - first)
    up = lambda r: 330 - 280 * (r - low) / (high - low)
    text(230, 25, "search: product / baseline, a dot for each file")
    for tick in (10**k for k in range(math.ceil(first), math.floor(last) + 1)):
        text(along(tick), 350, count(tick))
    text(230, 370, "instructions of the baseline's search")
    for tick in (0.1 * k for k in range(math.ceil(10 * low), math.floor(10 * high) + 1)):
        line(60, up(tick), 400, up(tick), "#333" if abs(tick - 1) < 0.01 else "#ddd")
        text(50, up(tick) + 4, f"{tick:.1f}", a="end")
    for f in searched:
        dot(along(d.base(f, "baseline-search")), up(ratios[f]), color(f))
    whole = {f: d.cost(f, "whole") for f in d.files}
    floor, roof = math.log10(min(whole.values())), math.log10(max(whole.values()))
    rise = lambda n: 330 - 280 * (math.log10(n) - floor) / (roof - floor)
    across = lambda n: 530 + 300 * math.log2(n / 8) / math.log2(50)
    text(680, 25, "whole call: instructions by jobs, a dot for each file")
    for tick in (10**k for k in range(math.ceil(floor), math.floor(roof) + 1)):
        line(530, rise(tick), 830, rise(tick), "#ddd")
        text(520, rise(tick) + 4, count(tick), a="end")
    for n in (8, 16, 32, 64, 100, 200, 400):
        text(across(n), 350, n)
    text(680, 370, "jobs")
    for f in d.files:
        dot(across(parts(f)[1]), rise(whole[f]), color(f))
    for i, (name, c) in enumerate((("hard files", "#c33"), ("many jobs", "#393"), ("others", "#36c"))):
        text(845, 60 + 16 * i, name, c, "start")
    path.write_text("\n".join(out + ["</svg>"]) + "\n")


def main():
    folder, docs = sys.argv[1], pathlib.Path(sys.argv[2])
    d = Data(folder)
    made = {
        "goals": goal_table, "search": search_table, "search-grid": lambda d: grid(d, "search", "baseline-search"), "many": many_table, "hard": hard_table,
        "whole": whole_table, "capped": capped_table, "hardcap": hard_capped_table, "worst": worst, "stack": stack_table,
    }
    if d.before:
        made |= {"before": before_table, "check": check_table, "dear": dear_table}
    if d.solvers:
        d.asked, d.asked_capped = [f for f in d.solvers["runs"] if not parts(f)[4]], [f for f in d.solvers["runs"] if parts(f)[4]]
        made |= {"solver-goals": solver_goal_table, "solvers": solver_table, "capped-solvers": capped_solver_table}
    page = docs / "BENCHMARKS.md"
    text = page.read_text()
    for name, make in made.items():
        cells = make(d)
        print(f"\n{name}\n{cells}")
        text, found = re.subn(rf"(<!-- {name} -->\n).*?(<!-- end -->)", lambda m: m.group(1) + cells + "\n" + m.group(2), text, flags=re.S)
        if found != 1:
            sys.exit(f"{page}: the marker {name} stands {found} times")
    page.write_text(text)
    plot(d, docs / "benchmarks.svg")


if __name__ == "__main__":
    main()
