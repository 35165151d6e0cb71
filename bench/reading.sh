#!/usr/bin/env bash
# How long `infer` takes to read and check a file of 1 MiB, and the ratio to the same lines as comments, of which the
# program reads the bytes and looks for the end of each line. The time of a start, measured on an empty file, is taken
# off both sides.
#
#     reading.sh [PROGRAM]
#
# The file has types, relations, individuals, 64 actions and 64 invariants with long names. Its last invariant names
# nothing that is declared, so the file is refused after all of it was read and checked, and no time goes into
# clauses. Each time is the best of fifteen in processor time.
set -eu
here=$(cd "$(dirname "$0")/.." && pwd)
work=$(mktemp -d)
trap 'rm -rf "$work"' EXIT

large() {
  python3 <<'PY'
import random

pick = random.Random(1).choice
types = [f"cache_line_identifier_{i}" for i in range(8)]
relations = {f"directory_entry_is_valid_{i:02d}": [types[i * k % 8] for k in range(1, 2 + i % 3)] for i in range(48)}
individuals = {f"distinguished_owner_{i:02d}": types[i % 8] for i in range(16)}
variables = {f"Any_line_{i}": sort for i, sort in enumerate(types)}
params = {f"requesting_agent_{i}": sort for i, sort in enumerate(types[:6])}


def term(sort, tables):
    return pick([name for table in tables for name, own in table.items() if own == sort])


def applied(tables):
    name, sorts = pick(list(relations.items()))
    return f"{name}({', '.join(term(sort, tables) for sort in sorts)})"


def compared(tables):
    sort = pick(types)
    return f"{term(sort, tables)} {pick(['=', '~='])} {term(sort, tables)}"


def part(*tables):
    return pick([
        lambda: applied(tables),
        lambda: f"~{applied(tables)}",
        lambda: f"({applied(tables)} | {compared(tables)})",
        lambda: f"({applied(tables)} -> {applied(tables)} & {applied(tables)})",
    ])()


def update(*tables):
    return f"{applied(tables)} := {part(*tables)}"


lines = [f"type {name}" for name in types]
for name, sorts in relations.items():
    lines.append(f"relation {name}({', '.join(f'X{i}:{sort}' for i, sort in enumerate(sorts))})")
lines += [f"individual {name} : {sort}" for name, sort in individuals.items()]
lines.append("after init { " + "; ".join(update(individuals) for _ in range(40)) + " }")
for i in range(64):
    given = ", ".join(f"{name}:{sort}" for name, sort in params.items())
    lines += [f"# Action {i} of 64.", f"export action perform_the_request_{i}({given}) = {{"]
    for _ in range(12):
        lines.append(f"  require {part(params, individuals)} | {part(params, individuals)};")
        lines.append(f"  if {part(params, individuals)} {{ {update(params, individuals)} }}")
        lines.append(f"  else {{ {update(params, individuals)}; {update(params, individuals)} }}")
    lines.append("}")
for i in range(63):
    lines.append(f"invariant [no_two_owners_of_a_line_{i}]")
    lines.append("    " + "\n    & ".join(part(variables, individuals) for _ in range(25)))
lines.append("invariant nowhere")
print("\n".join(lines))
PY
}

# The best of fifteen runs in seconds of processor time. The command has to end with the status.
seconds() {
  python3 - "$@" <<'PY'
import resource, subprocess, sys

def spent():
    used = resource.getrusage(resource.RUSAGE_CHILDREN)
    return used.ru_utime + used.ru_stime

best = 1e9
for _ in range(15):
    begun = spent()
    done = subprocess.run(sys.argv[2:], stdout=subprocess.DEVNULL, stderr=subprocess.DEVNULL)
    best = min(best, spent() - begun)
    if done.returncode != int(sys.argv[1]):
        sys.exit(f"{' '.join(sys.argv[2:])}: status {done.returncode}")
print(f"{best:.6f}")
PY
}

# The script `distai` builds the program and looks for newer sources each time, so the program itself is timed.
if [ $# -gt 0 ]; then
  program=$1
else
  "$here/distai" infer /dev/null > /dev/null
  program=$here/crates/distai/out/distai
fi

large > "$work/large.ivy"
sed 's/^/#/' "$work/large.ivy" > "$work/comments.ivy"
: > "$work/empty.ivy"
bytes=$(($(wc -c < "$work/comments.ivy")))
lines=$(($(wc -l < "$work/large.ivy")))
if [ "$bytes" -gt 1048576 ]; then
  echo "the file is too long: $bytes bytes" >&2
  exit 1
fi

# Only a refusal of the last line says that all of it was read and checked.
told=$("$program" infer "$work/large.ivy" 2>&1 || true)
case "$told" in
  "$work/large.ivy:$lines:"*) ;;
  *)
    echo "the file was not read whole: $told" >&2
    exit 1
    ;;
esac

reading=$(seconds 2 "$program" infer "$work/large.ivy")
start=$(seconds 0 "$program" infer "$work/empty.ivy")
counting=$(seconds 0 "$program" infer "$work/comments.ivy")

python3 - "$bytes" "$lines" "$reading" "$start" "$counting" <<'PY'
import sys
size, lines = int(sys.argv[1]), int(sys.argv[2])
reading, start, counting = map(float, sys.argv[3:])
work, yardstick = reading - start, counting - start
print(f"file: {size} bytes, {lines} lines")
print(f"start, on an empty file: {start * 1e3:.2f} ms, taken off below")
print(f"infer: {work * 1e3:.2f} ms, {size / work / 1e6:.1f} MB/s")
print(f"the same lines as comments: {yardstick * 1e3:.2f} ms")
print(f"ratio: {work / yardstick:.1f} (goal: at most 40, then 10)")
PY
