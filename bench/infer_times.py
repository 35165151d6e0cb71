"""Prints for each typed example how long `distai infer` takes and how much memory, beside a loop over a solver.

Then it prints for each what the way down took: questions, calls of the solver, refinements and clauses.

usage: infer_times.py PROGRAM ROUNDS SOLVER LIMIT [EXAMPLE..]
"""

import os
import pathlib
import re
import subprocess
import sys
import tempfile

from infer_loop import LimitReached, Loop

EXAMPLES = pathlib.Path(__file__).resolve().parent.parent / "examples"
GOALS = ["lock, token and down in at most 20 starts", "each example in less than 10 s",
         "each at least 10 times faster than the loop", "each in at most 200 MB"]
SMALL = ("lock", "token", "down")
ROW = "{:<36} {:>9} {:>7} {:>6} {:>10} {:>9} {:>7} {:>9} {:>9} {:>8}"
COUNTS = ["rounds", "questions", "put", "calls", "refinements", "clauses"]
COUNT_ROW = "{:<36}" + " {:>11}" * len(COUNTS)


def once(words, statuses=(0, 1)):
    """Processor time and output of one run in the folder of the examples."""
    child = subprocess.Popen(words, cwd=EXAMPLES, stdout=subprocess.PIPE, stderr=subprocess.DEVNULL, text=True)
    told = child.stdout.read()
    _, status, used = os.wait4(child.pid, 0)
    child.returncode = os.waitstatus_to_exitcode(status)
    if child.returncode not in statuses:
        sys.exit(f"{' '.join(map(str, words))}: status {child.returncode}")
    return used.ru_utime + used.ru_stime, told


def best(words):
    """The least processor time of up to five runs, and the output."""
    runs = [once(words)]
    while len(runs) < 5 and runs[0][0] < 2:
        runs.append(once(words))
    return min(runs)


def held(words):
    """The most memory in MiB, or none without `time`. A child of this script would show this script's own at least."""
    if not os.path.exists("/usr/bin/time"):
        return None
    done = subprocess.run(["/usr/bin/time", "-f", "%M", *words], cwd=EXAMPLES, capture_output=True, text=True)
    return int(done.stderr.split()[-1]) / 1024


def commands(path):
    """The options for an example: two literals, and its own bounds too, where one of these isn't what is the default."""
    found = [["--lits", "2"]]
    first = path.with_suffix(".txt").read_text().split("\n")[0].split()
    own = first[first.index("--vars") + 1] if "--vars" in first else ""
    if any(not part.endswith("=2") for part in own.split(",") if part):
        found.append(["--vars", own, "--lits", "2"])
    return found


def bounds_of(program, path, words):
    """The sizes that the program says it needs, and the bounds on variables, of each type."""
    counts = [line.split() for line in once([program, "space", path, *words])[1].splitlines()]
    bounds = {line[1]: int(line[2]) for line in counts if line[0] == "bound"}
    most = dict.fromkeys(bounds, 2)
    if "--vars" in words:
        most.update((name, int(count)) for name, count in (part.split("=") for part in words[1].split(",")))
    return bounds, most


def counts_of(rounds, program, path, words):
    """What the way down took, in the order of `COUNTS`."""
    _, most = bounds_of(program, path, words)
    counts = dict(line.split() for line in once([rounds, path, "2", *map(str, most.values())])[1].splitlines())
    counts["refinements"] = int(counts["calls"]) - int(counts["put"])
    return [counts[name] for name in COUNTS]


def status_of(program, path):
    """The status of the counts, which is 2 for the files that show faults."""
    return subprocess.run([program, "space", path], stdout=subprocess.DEVNULL, stderr=subprocess.DEVNULL).returncode


def typed(program, only):
    """The examples to time: those of the names given, or all, that have types and break no rule."""
    paths = {path.stem: path for path in sorted(EXAMPLES.glob("*.ivy"))}
    with_types = lambda path: re.search(r"^(ordered )?type ", path.read_text(encoding="latin-1"), re.M)
    found = [path for name, path in paths.items() if (not only or name in only) and with_types(path)]
    found = [path for path in found if status_of(program, path) == 0]
    unknown = set(only) - {path.stem for path in found}
    if unknown or not found:
        print(f"no such typed example: {' '.join(sorted(unknown))}", file=sys.stderr)
        sys.exit(2)
    return found


class Bench:
    """The rows as they are printed, and which of them miss a goal."""

    def __init__(self, program, solver, limit, folder):
        self.program, self.solver, self.limit, self.folder = program, solver, limit, folder
        (folder / "empty.ivy").touch()
        (folder / "empty.cnf").write_text("p cnf 0 0\n")
        self.start = min(best([program, "infer", folder / "empty.ivy"])[0] for _ in range(4))
        self.first = min(once([solver, folder / "empty.cnf"], (10,))[0] for _ in range(20))
        self.missed, self.asked, self.differing = {goal: [] for goal in GOALS}, dict.fromkeys(GOALS, 0), []

    def head(self):
        ours, theirs = 1000 * self.start, 1000 * self.first
        print(f"processor time of a start on an empty file: distai {ours:.2f} ms, {self.solver} {theirs:.2f} ms")
        print(ROW.format("example", "program s", "starts", "MiB", "loop s", "solving s", "rounds", "questions", "written s", "ratio"))

    def row(self, path, words):
        """Times one example with one list of options, by the program and by the loop."""
        command = [self.program, "infer", path.name, *words]
        title = " ".join([path.stem, *words[:-2]])
        ours, told = best(command)
        memory = held(command)
        bounds, most = bounds_of(self.program, path, words)
        loop, more = Loop(path.read_text(), bounds, most, 2, self.solver, self.folder, self.limit), ""
        try:
            if loop.report() != told:
                self.differing.append(title)
        except LimitReached:
            more = "> "
        starts, ratio = ours / self.start, loop.spent / ours
        shown = "?" if memory is None else f"{memory:.1f}"
        solving = max(0, loop.spent - loop.questions * self.first)
        print(ROW.format(title, f"{ours:.4f}", f"{starts:.1f}", shown, f"{more}{loop.spent:.2f}", f"{solving:.2f}", loop.rounds,
                         loop.questions, f"{loop.written:.1f}", f"{more}{ratio:.1f}"), flush=True)
        misses = [(starts > 20, f"{starts:.1f}"), (ours >= 10, f"{ours:.1f} s"),
                  (ratio < 10, f"{more}{ratio:.1f}"), (memory is None or memory * 1.048576 > 200, f"{shown} MiB")]
        for goal, (is_missed, value) in zip(GOALS, misses):
            if goal == GOALS[0] and path.stem not in SMALL:
                continue
            self.asked[goal] += 1
            if is_missed:
                self.missed[goal].append(f"{title} ({value})")

    def goals(self):
        for goal, missed in self.missed.items():
            told = "not met: " + ", ".join(missed) if missed else "met" if self.asked[goal] else "not asked"
            print(f"{goal} (of {self.asked[goal]} rows): {told}")


def main():
    program, rounds = (pathlib.Path(path).resolve() for path in sys.argv[1:3])
    solver, limit, only = sys.argv[3], float(sys.argv[4]), sys.argv[5:]
    # All processes share one core.
    os.sched_setaffinity(0, {max(os.sched_getaffinity(0))})
    paths = typed(program, only)
    with tempfile.TemporaryDirectory() as name:
        bench = Bench(program, solver, limit, pathlib.Path(name))
        bench.head()
        for path in paths:
            for words in commands(path):
                bench.row(path, words)
    print("\n" + COUNT_ROW.format("example", *COUNTS))
    for path in paths:
        for words in commands(path):
            print(COUNT_ROW.format(" ".join([path.stem, *words[:-2]]), *counts_of(rounds, program, path, words)))
    print()
    bench.goals()
    if bench.differing:
        sys.exit("the loop's report differs: " + ", ".join(bench.differing))


if __name__ == "__main__":
    main()
