#!/usr/bin/env bash
# How long three spaces of nearly 200,000 clauses take: to be made and all their canonical clauses listed, with the most
# memory held, in which this script's own counts as a least; to be counted by `distai space`; and to ask 1,000 random
# structures, with four elements of each type, whether they meet about 1,000 of the clauses each. The yardstick of the
# last is a loop of the same program that reads the bits of the tuples that the literals name, way by way, and nothing
# else. It answers the same.
#
#     space.sh [DISTAI [BENCH_SPACE]]
#
# The spaces are those of five types with three unary relations each and one literal, of 53 flags and three literals, and
# of one type with three binary relations and three literals, each with at most four variables of a type. Each time is
# the best of five in processor time; what takes more than 60 seconds is not waited for.
set -eu
here=$(cd "$(dirname "$0")/.." && pwd)
work=$(mktemp -d)
trap 'rm -rf "$work"' EXIT
: > "$work/empty.ivy"

# The script `distai` builds the program and looks for newer sources each time, so the program itself is timed.
distai=${1:-$here/crates/distai/out/distai}
if [ $# -lt 1 ]; then
  "$here/distai" infer "$work/empty.ivy" > /dev/null
fi
program=${2:-$here/crates/bench_space/out/bench_space}
if [ $# -lt 2 ]; then
  (cd "$here/crates/bench_space" && rt run -- "$work/empty.ivy" 0 space 0 > /dev/null)
fi

python3 - "$work" "$distai" "$program" <<'PY'
import os, pathlib, subprocess, sys

folder, distai, program = pathlib.Path(sys.argv[1]), *sys.argv[2:]
LIMIT, TIMES = 60, 4
kinds = "abcde"
FORMS = {
    "types": (1, [f"type {t}" for t in kinds] + [f"relation {t}{i}(X:{t})" for t in kinds for i in range(3)]),
    "flags": (3, [f"relation r{i}" for i in range(53)]),
    "pairs": (3, ["type t"] + [f"relation r{i}(X:t, Y:t)" for i in range(3)]),
}


def once(words):
    """Processor time in seconds, megabytes and output of one run; no time where it was not waited for."""
    child = subprocess.Popen(["timeout", str(LIMIT), *words], stdout=subprocess.PIPE, text=True)
    out = child.stdout.read()
    _, status, used = os.wait4(child.pid, 0)
    if os.waitstatus_to_exitcode(status) == 124:
        return None, used.ru_maxrss / 1024, out
    if status:
        sys.exit(f"{' '.join(words)}: status {os.waitstatus_to_exitcode(status)}")
    return used.ru_utime + used.ru_stime, used.ru_maxrss / 1024, out


def best(*words):
    runs = [once([str(word) for word in words])]
    while runs[0][0] is not None and len(runs) < 5:
        runs.append(once([str(word) for word in words]))
    return min(runs, key=lambda run: run[0] or 0)


row = "{:<6} {:>9} {:>9} {:>9} {:>6} {:>9} {:>9} {:>9} {:>7}"
print(row.format("form", "clauses", "listed", "all s", "MB", "distai s", "meets s", "reads s", "ratio"))
for form, (literals, lines) in FORMS.items():
    path = folder / f"{form}.ivy"
    path.write_text("".join(line + "\n" for line in lines))
    bounds = ",".join(f"{line.split()[1]}=4" for line in lines if line.startswith("type"))
    counted, _, counts = best(distai, "space", path, "--lits", literals, *(["--vars", bounds] if bounds else []))
    clauses = dict(line.rsplit(" ", 1) for line in counts.splitlines())["templates"]
    whole, held, listed = best(program, path, literals, "all", 1)
    asked, _, met = best(program, path, literals, "meets", TIMES)
    read, _, same = best(program, path, literals, "reads", TIMES)
    read = (read - best(program, path, literals, "reads", 0)[0]) / TIMES
    if asked is None:
        asks, ratio = f"> {LIMIT // TIMES}", f"> {LIMIT / TIMES / read:.0f}"
    elif met != same:
        sys.exit(f"{form}: {met.strip()} questions are met, and {same.strip()} by their bits")
    else:
        asked = (asked - best(program, path, literals, "meets", 0)[0]) / TIMES
        asks, ratio = f"{asked:.3f}", f"{asked / read:.1f}"
    print(row.format(form, clauses, listed.strip(), f"{whole:.3f}", f"{held:.0f}", f"{counted:.3f}", asks, f"{read:.3f}", ratio))
print("goals: all clauses in about 1 s and 200 MB, counted in a tenth of that, a ratio of at most 5")
PY
