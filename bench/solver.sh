#!/usr/bin/env bash
# Runs dai_dimacs --any and minisat on the same formulas, and prints the processor time of each, their ratio, the
# propagations of each for a second where minisat prints them, and the ratio of those; then the processor time
# of dai_dimacs for the least model, and the most memory that --any held at a time. A run ends unanswered after
# SECONDS by the clock.
#
# usage: solver.sh PROGRAM [SECONDS]
set -eu
program=$1
limit=${2:-60}
here=$(dirname "$0")
if ! command -v minisat > /dev/null; then
    apt-get update -qq > /dev/null
    apt-get install -y -qq minisat > /dev/null
fi
folder=$(mktemp -d)
trap 'rm -rf "$folder"' EXIT
python3 "$here/solver_formulas.py" "$folder"

# The processor time of a command in seconds, its output in a file. Other work on the machine changes it less
# than the time by the clock.
timed() {
    local TIMEFORMAT='%U %S'
    { time timeout "$limit" "$@" > "$folder/out" 2>&1 || true; } 2> "$folder/time"
    awk '{ time = $1 + $2; printf "%.3f", time < 0.001 ? 0.001 : time }' "$folder/time"
}

echo "cores: $(nproc)"
# The most memory that a command holds, in megabytes.
held() {
    python3 -c 'import resource, subprocess, sys
subprocess.run(["timeout"] + sys.argv[1:], stdout=subprocess.DEVNULL)
print(round(resource.getrusage(resource.RUSAGE_CHILDREN).ru_maxrss / 1024))' "$limit" "$@"
}

row='%-18s %-6s %9s %9s %8s %13s %13s %6s %9s %5s\n'
printf "$row" formula answer any minisat ratio 'our prop/s' 'its prop/s' ratio least MB
for path in "$folder"/*.cnf; do
    name=$(basename "$path" .cnf)
    ours=$(timed "$program" --any "$path")
    answer=$(awk '/^s / { print substr($2, 1, 5) }' "$folder/out")
    count=$(awk '/^c propagations/ { print $3 }' "$folder/out")
    theirs=$(timed minisat "$path")
    other=$(awk '/^(SAT|UNSAT)/ { print substr($1 "ISFIABLE", 1, 5) }' "$folder/out")
    rate=$(awk '/^propagations/ { gsub(/[^0-9 ]/, ""); print $2 }' "$folder/out")
    ratio=$(echo "$ours $theirs" | awk '{ printf "%.2f", $1 / $2 }')
    own=$(echo "${count:-0} $ours" | awk '{ printf "%.0f", $1 / $2 }')
    pace=$(echo "$own ${rate:-0}" | awk '$2 > 0 && $1 > 0 { printf "%.2f", $1 / $2 }')
    least=$(timed "$program" "$path")
    memory=$(held "$program" --any "$path")
    printf "$row" "$name" "${answer:-none}" "$ours" "$theirs" "$ratio" "$own" "${rate:-}" "$pace" "$least" "$memory"
    if [ -n "$answer" ] && [ -n "$other" ] && [ "$answer" != "$other" ]; then
        echo "the answers differ: $answer and $other" >&2
        exit 1
    fi
done
