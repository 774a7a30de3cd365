"""Program P for other solvers: CBC and GLPK (integer programming), clingo (answer sets), MiniZinc with Gecode (constraints).

Each gets the job file's needs, limit and most boards and nothing of the planner's windows. All are asked for the fewest slots; clingo
and Gecode can be asked for the preferred list too.
"""
import os
import re
import subprocess
import tempfile


def parse(data):
    """Jobs, needs (from 1), limit and most boards (nothing without tag 9) of a readable job file."""
    jobs, needs, limit, cap, at = 0, [], 0, None, 0
    while at < len(data):
        tag, size = data[at], data[at + 1] + 256 * data[at + 2]
        value = data[at + 3 : at + 3 + size]
        jobs += tag == 3
        limit = value[0] if tag == 2 else limit
        pair = tuple(value) if tag == 4 else (value[0] + 256 * value[1], value[2] + 256 * value[3]) if tag == 6 else None
        needs += [pair] if pair and pair not in needs else []
        cap = value[0] if tag == 9 else cap
        at += 3 + size
    return jobs, needs, limit, cap


def lp(jobs, needs, limit, cap):
    """Program P as section 3.1 prints it, with C at most the limit. With a cap also y(i, s), 1 where job i starts in slot s: one slot for
    each job, its start the sum of s y(i, s), and at most so many jobs for each slot."""
    rows = [f"t{k} - t{g} - x{g}_{k} >= 1" for g, k in needs]
    rows += [f"C - t{i} >= 1" for i in range(1, jobs + 1)]
    for side in (0, 1):
        for i in range(1, jobs + 1):
            own = [f"x{g}_{k}" for g, k in needs if (g, k)[side] == i]
            if len(own) > 1:
                rows.append(" + ".join(own) + f" >= {len(own) - 1}")
    whole = ["C"] + [f"t{i}" for i in range(1, jobs + 1)]
    binaries = [f"x{g}_{k}" for g, k in needs]
    if cap:
        rows += ["\n + ".join(f"y{i}_{s}" for s in range(limit)) + " = 1" for i in range(1, jobs + 1)]
        rows += [f"t{i}" + "".join(f"\n - {s} y{i}_{s}" for s in range(1, limit)) + " = 0" for i in range(1, jobs + 1)]
        rows += ["\n + ".join(f"y{i}_{s}" for i in range(1, jobs + 1)) + f" <= {cap}" for s in range(limit)]
        binaries += [f"y{i}_{s}" for i in range(1, jobs + 1) for s in range(limit)]
    text = "Minimize\n obj: C\nSubject To\n" + "".join(f" r{i}: {row}\n" for i, row in enumerate(rows))
    text += f"Bounds\n 0 <= C <= {limit}\nGenerals\n " + "\n ".join(whole)
    return text + ("\nBinaries\n " + "\n ".join(binaries) if binaries else "") + "\nEnd\n"


def asp(jobs, needs, limit, cap, preferred):
    text = f"job(1..{jobs}). slot(0..{limit - 1}).\n" + "".join(f"need({g},{k}).\n" for g, k in needs)
    text += """{ start(J,S) : slot(S) } = 1 :- job(J).
begun(J,S) :- start(J,S).
begun(J,S+1) :- begun(J,S), slot(S+1).
:- need(G,K), start(K,S), not begun(G,S-1).
:- start(G,S), slot(S+1), 2 { start(K,S+1) : need(G,K) }.
:- start(K,S+1), slot(S), 2 { start(G,S) : need(G,K) }.
used(S) :- start(_,S).
used(S) :- used(S+1), slot(S).
#show start/2.
"""
    text += f":- slot(S), {cap + 1} {{ start(J,S) : job(J) }}.\n" if cap else ""
    top = jobs * limit + 1
    text += f"#minimize {{ 1@{top},S : used(S) }}.\n"
    return text + (f"#maximize {{ 1@({top} - S * {jobs} - J),J,S : start(J,S) }}.\n" if preferred else "")


def mzn(jobs, needs, limit, cap, preferred):
    text = f"array[1..{jobs}] of var 0..{limit - 1}: t; var 1..{limit}: C;\n"
    text += f"constraint forall(i in 1..{jobs})(t[i] + 1 <= C);\n"
    for g, k in needs:
        text += f"var 0..1: x{g}_{k}; constraint t[{g}] + 1 + x{g}_{k} <= t[{k}];\n"
    for side in (0, 1):
        for i in range(1, jobs + 1):
            own = [f"x{g}_{k}" for g, k in needs if (g, k)[side] == i]
            if len(own) > 1:
                text += f"constraint {' + '.join(own)} >= {len(own) - 1};\n"
    if cap:
        ones = f"[1 | i in 1..{jobs}]"
        text += f'include "cumulative.mzn"; constraint cumulative(t, {ones}, {ones}, {cap});\n'
    if not preferred:
        return text + 'solve minimize C;\noutput ["C=\\(C) t=\\(t)\\n"];\n'
    # the first solution of a search through the bits (slot, job) in order, yes before no, is the preferred list
    text += f"array[0..{limit - 1}, 1..{jobs}] of var bool: b;\n"
    text += f"constraint forall(s in 0..{limit - 1}, i in 1..{jobs})(b[s, i] <-> t[i] = s);\n"
    return text + (
        "solve :: seq_search([int_search([C], input_order, indomain_min), bool_search(array1d(b), input_order, indomain_max)]) satisfy;\n"
        'output ["C=\\(C) t=\\(t)\\n"];\n'
    )


def read_cbc(out, _):
    # the log has the word elsewhere too: only its verdict counts
    if re.search(r"^(Result - Problem proven infeasible|Problem is infeasible|Problem proven infeasible|Result - Linear relaxation infeasible|Pre-processing says infeasible)", out, re.M):
        return 13, None
    found = re.search(r"^Objective value:\s+([\d.]+)", out, re.M)
    return (round(float(found.group(1))), None) if found and re.search(r"^Result - Optimal solution found", out, re.M) else None


def read_glpk(out, _):
    if "NO PRIMAL FEASIBLE" in out or "NO INTEGER FEASIBLE" in out:
        return 13, None
    found = re.search(r"Objective:\s+obj = ([\d.]+)", out)
    return (round(float(found.group(1))), None) if found and "INTEGER OPTIMAL" in out else None


def read_asp(out, jobs):
    if "UNSATISFIABLE" in out:
        return 13, None
    if "OPTIMUM FOUND" not in out:
        return None
    last = [line for line in out.splitlines() if line.startswith("start(")][-1]
    starts = dict((int(j), int(s)) for j, s in re.findall(r"start\((\d+),(\d+)\)", last))
    return max(starts.values()) + 1, [starts[j] for j in range(1, jobs + 1)]


def read_mzn(out, _):
    if "UNSATISFIABLE" in out:
        return 13, None
    found = re.findall(r"C=(\d+) t=\[([\d, ]+)\]", out)
    ended = "==========" in out or "first" in out
    return (int(found[-1][0]), [int(s) for s in found[-1][1].split(",")]) if found and ended else None


# name: text of the model, suffix, command, answer from the output, is the preferred list asked
SOLVERS = {
    "CBC": (lambda *p: lp(*p), ".lp", lambda f, time: ["cbc", f, "sec", str(time), "solve"], read_cbc, False),
    "GLPK": (lambda *p: lp(*p), ".lp", lambda f, time: ["glpsol", "--lp", f, "--tmlim", str(time), "-o", "/dev/stdout"], read_glpk, False),
    "clingo": (lambda *p: asp(*p, False), ".asp", lambda f, time: ["clingo", f"--time-limit={time}", f], read_asp, False),
    "Gecode": (lambda *p: mzn(*p, False), ".mzn", lambda f, time: ["minizinc", "--solver", "gecode", "--time-limit", str(1000 * time), f], read_mzn, False),
    "clingo, list": (lambda *p: asp(*p, True), ".asp", lambda f, time: ["clingo", f"--time-limit={time}", f], read_asp, True),
    "Gecode, list": (lambda *p: mzn(*p, True), ".mzn", lambda f, time: ["minizinc", "--solver", "gecode", "--time-limit", str(1000 * time), f], read_mzn, True),
}


def run(name, problem, time):
    """The answer (slots or 13, and starts if given; nothing where time ran out) and the CPU seconds of the solver's processes."""
    model, suffix, command, read, preferred = SOLVERS[name]
    with tempfile.TemporaryDirectory() as folder:
        path, out = os.path.join(folder, "model" + suffix), os.path.join(folder, "out")
        with open(path, "w") as f:
            f.write(model(*problem))
        with open(out, "w") as f:
            process = subprocess.Popen(command(path, time), stdout=f, stderr=subprocess.DEVNULL)
            _, _, used = os.wait4(process.pid, 0)
        with open(out) as f:
            text = f.read()
    if preferred and suffix == ".mzn" and "C=" in text:
        text += "first"
    return read(text, problem[0]), used.ru_utime + used.ru_stime
