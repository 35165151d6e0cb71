#!/usr/bin/env bash
# How long `distai infer` takes on each typed example, how often a start on an empty file would fit into that, and the
# most memory it holds. The yardstick is a loop that one could script around a solver of the system: the same way down,
# where each question, at each list of sizes in turn, is a formula of its own with all premises written out, put to a
# fresh process of picosat or minisat. Both give the same report; where they don't, the status is 1.
#
# A second table counts what the way down took: rounds and questions; `put`, those put to the solver, since what was
# proved or shown before answers the rest; `calls` of the solver; `refinements`, the calls beyond the first for a question,
# each of which brought one premise in; and the most clauses that were held for one block.
#
# usage: infer.sh [--program PATH] [--rounds PATH] [--solver picosat|minisat] [--limit SECONDS] [EXAMPLE..]
#
# All times are processor time, of one core. Those of the loop (`loop s`) are of the solver's processes alone: neither
# the time in which Python makes the formulas and writes them (`written s`) nor any other of the loop's own counts.
# `solving s` is `loop s` with a start of the solver taken off for each question. `starts` is the program's time as a
# multiple of a start, and `ratio` the loop's time as a multiple of the program's, its start with it. A loop whose
# solver has taken more than the limit, 120 seconds if left out, ends; what is printed with `>` is then a least. Each
# example is asked with the default bounds, and where its own differ with those too, always with two literals.
set -eu
here=$(cd "$(dirname "$0")/.." && pwd)
program= rounds= solver=picosat limit=120
while [ $# -gt 0 ]; do
    case $1 in
    --program) program=$2 ;;
    --rounds) rounds=$2 ;;
    --solver) solver=$2 ;;
    --limit) limit=$2 ;;
    -*)
        echo "no such option: $1" >&2
        exit 2
        ;;
    *) break ;;
    esac
    shift 2
done
case $solver in
picosat | minisat) ;;
*)
    echo "the solver has to be picosat or minisat" >&2
    exit 2
    ;;
esac
if ! command -v "$solver" > /dev/null; then
    echo "$solver is missing: apt-get install -y $solver" >&2
    exit 2
fi
if [ -z "$program" ]; then
    # The script `distai` builds the program and looks for newer sources each time, so the program itself is timed.
    "$here/distai" infer /dev/null > /dev/null
    program=$here/crates/distai/out/distai
fi
if [ -z "$rounds" ]; then
    (cd "$here/crates/bench_rounds" && rt run -- "$here/examples/lock.ivy" 0 > /dev/null)
    rounds=$here/crates/bench_rounds/out/bench_rounds
fi
exec python3 "$here/bench/infer_times.py" "$program" "$rounds" "$solver" "$limit" "$@"
