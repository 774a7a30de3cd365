"""measure.py counts|before|times|stack|solvers FOLDER: measures over FOLDER/files, results to FOLDER/WHAT.json."""
import glob
import json
import os
import pathlib
import re
import shutil
import subprocess
import sys

import generate
import solvers

COMPILERS = ("g++", "clang++")
TIMEOUT = 10  # seconds by the clock for one run of a solver
SHORT = 0.2  # CPU seconds: below, a run is one of RUNS, and the least counts
RUNS = 7


def files(folder):
    return sorted(glob.glob(f"{folder}/files/*.jobs"))


def name_of(path):
    return pathlib.Path(path).stem


def counted(folder, drive, paths):
    """Instructions of each call, and how many of them are in memset: {file: {call: [all, memset]}}."""
    if len(paths) > 60:  # so that no folder of dumps grows large
        return counted(folder, drive, paths[:60]) | counted(folder, drive, paths[60:])
    dumps = f"{folder}/dumps"
    shutil.rmtree(dumps, ignore_errors=True)
    os.mkdir(dumps)
    command = ["valgrind", "--tool=callgrind", "--compress-strings=no", f"--callgrind-out-file={dumps}/d"]
    subprocess.run(command + [f"{folder}/{drive}", "count"] + paths, check=True, stderr=subprocess.DEVNULL)
    rows = {}
    for path in glob.glob(f"{dumps}/d.*"):
        text = open(path).read()
        label = re.search(r"^desc: Trigger: Client Request: (\S+) (\S+)$", text, re.M)
        if label:
            rows.setdefault(name_of(label.group(1)), {})[label.group(2)] = own_costs(text)
    return rows


def counts(folder):
    """The instructions by the baseline's compiler."""
    return {compiler: counted(folder, f"drive-{compiler}", files(folder)) for compiler in COMPILERS}


def before(folder):
    """The instructions with the archives from before CR 8, on the files that they can read: those of at most 64 jobs."""
    return counted(folder, "drive-before", [path for path in files(folder) if generate.parts(name_of(path))[1] <= 64])


def own_costs(dump):
    """All instructions of a dump, and those in memset itself."""
    total = cleared = 0
    function, of_call = "", False
    for line in dump.splitlines():
        if line.startswith("fn="):
            function = line[3:]
        elif line.startswith("calls="):
            of_call = True
        elif line[:1] in "0123456789+-*":
            if not of_call and line[:1]:
                cost = int(line.split()[-1])
                total += cost
                cleared += cost if function == "memset" else 0
            of_call = False
    return [total, cleared]


def times(folder):
    """CPU seconds of one call inside a process, of product and baseline: {file: [call, baseline]}."""
    out = subprocess.run([f"{folder}/drive-g++", "time"] + files(folder), capture_output=True, text=True, check=True).stdout
    rows = [line.split() for line in out.splitlines()]
    return {name_of(row[0]): [1e-9 * float(x) for x in row[1:]] for row in rows}


def process(folder, path):
    """CPU seconds of a process that reads the file and makes one call."""
    with open(path) as f:
        child = subprocess.Popen([f"{folder}/once"], stdin=f, stdout=subprocess.DEVNULL)
        _, _, used = os.wait4(child.pid, 0)
    return used.ru_utime + used.ru_stime


def timed(folder, path, name, problem):
    """The solver's answer, its CPU seconds, and those of the product's process right after it: each some times in a row, so that both
    find their pages and caches as they left them."""
    answer, seconds = solvers.run(name, problem, TIMEOUT)
    others = [seconds] + [solvers.run(name, problem, TIMEOUT)[1] for _ in range(RUNS - 1 if seconds < SHORT else 0)]
    return answer, min(others), min(process(folder, path) for _ in range(RUNS))


LEVELS = 65  # of the recursion: one for each slot of a plan, and the one behind the last
RED_ZONE = 128  # bytes below its frame that a function which calls none may use


class Frames:
    """Bytes of stack by the machine code of an archive: every call, and the recursion as often as there are levels."""

    def __init__(self, archive):
        code = subprocess.run(["objdump", "-d", "-r", "--no-show-raw-insn", archive], capture_output=True, text=True, check=True).stdout
        self.own, self.calls = {}, {}
        for part in re.split(r"\n(?=[0-9a-f]{16} <)", code)[1:]:
            name, body = re.match(r"[0-9a-f]+ <(.*)>:\n", part).group(1), part.split("\n", 1)[1]
            entry = re.split(r"\n.*\b(?:call|jmp) ", body)[0]  # it saves registers and takes its room here
            if re.search(r"\bcall +\*|,%rsp\b", re.sub(r"\b(?:sub|add) +\$0x[0-9a-f]+,%rsp", "", body)):
                sys.exit(f"{archive}: the stack of {name} cannot be read from its code")
            self.calls[name] = set(re.findall(r"R_X86_64_PLT32\s+(?:\.text\.)?([\w:.]+)", body)) | set(re.findall(r"\bcall +0 <([\w:.]+)>", body))
            saved = len(re.findall(r"\bpush +%", entry))
            local = sum(int(x, 16) for x in re.findall(r"\bsub +\$0x([0-9a-f]+),%rsp", entry))
            room = local + 8 * len(re.findall(r"\bpush +%rax\b", entry))  # given back at once
            passed = max([int(x, 16) for x in re.findall(r"\badd +\$0x([0-9a-f]+),%rsp", body) if int(x, 16) != room] or [0])
            self.own[name] = 8 + 8 * saved + local + passed + (0 if self.calls[name] else RED_ZONE)

    def below(self, name):
        """The most that a call of the function takes."""
        if name not in self.own:
            return 8 + RED_ZONE  # memset and memcpy
        others = max([self.below(called) for called in self.calls[name] if called != name] or [0])
        return (LEVELS if name in self.calls[name] else 1) * self.own[name] + others

    def level(self):
        """One level of the recursion."""
        return max(self.own[name] for name in self.own if name in self.calls[name])


def archives(folder):
    alone = f"{folder}/alone/target/staticlib/libsearch_alone.a"
    return Frames(alone), Frames(f"{folder}/libgate.a")


def stack(folder):
    """The deepest byte of stack that each call reaches: {file: [search, whole, check, lookup, baseline search, baseline whole]}, and the most by the code."""
    out = subprocess.run([f"{folder}/drive-g++", "stack"] + files(folder), capture_output=True, text=True, check=True).stdout
    rows = [line.split() for line in out.splitlines()]
    alone, gate = archives(folder)
    most = {"level": alone.level(), "search": alone.below("product_search")} | {what: gate.below(f"gate_{what}") for what in ("plan", "check", "lookup", "name_at")}
    return {"frames": most, "deepest": {name_of(row[0]): [int(x) for x in row[1:]] for row in rows}}


def product_answer(folder, path):
    out = subprocess.run([f"{folder}/drive-g++", "answer", path], capture_output=True, text=True, check=True).stdout.split()
    return int(out[2]), [int(x) for x in out[3:]] or None


def solver_files(folder):
    """Of the files of at most 64 jobs the first of each kind, all of 64 jobs, and the hard ones; with a cap those at the optimum, and the hard ones."""
    capped = r"hardcap|\w+-\d+-\d+-tight-\d"
    small = [f for f in files(folder) if generate.parts(name_of(f))[1] <= 64]
    return [f for f in small if re.match(capped if generate.parts(name_of(f))[-1] else r"hard|deep|\w+-64-|\w+-\d+-0-", name_of(f))]


def run_solvers(folder):
    """CPU seconds of each solver, start-up taken and whole, every answer compared: {"startup": {}, "runs": {file: {solver: [seconds, answered, product]}}}."""
    trivial = (1, [], 1, None)
    startup = {name: min(solvers.run(name, trivial, TIMEOUT)[1] for _ in range(RUNS)) for name in solvers.SOLVERS}
    runs = {}
    for path in solver_files(folder):
        problem = solvers.parse(open(path, "rb").read())
        slots, starts = product_answer(folder, path)
        row = runs[name_of(path)] = {}
        for name, solver in solvers.SOLVERS.items():
            preferred = solver[-1]
            if preferred and not re.match(r"hard-|\w+-\d+-0-tight", name_of(path)):
                continue  # the list is asked on fewer files
            answer, seconds, mine = timed(folder, path, name, problem)
            if answer and answer[0] != slots:
                sys.exit(f"{path}: {name} answers {answer[0]}, the product {slots}")
            if answer and preferred and starts and answer[1] != starts:
                sys.exit(f"{path}: {name} gives another list: {answer[1]}, the product {starts}")
            row[name] = [seconds, answer is not None, mine]
    return {"startup": startup, "runs": runs}


def main():
    what, folder = sys.argv[1:]
    os.nice(10)  # of this process, so that no start of `nice` is counted in a solver's time
    result = {"counts": counts, "before": before, "times": times, "stack": stack, "solvers": run_solvers}[what](folder)
    pathlib.Path(f"{folder}/{what}.json").write_text(json.dumps(result))


if __name__ == "__main__":
    main()
