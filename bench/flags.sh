#!/usr/bin/env bash
# How long `infer` takes on a binary counter of ten flags with up to eight literals (52,905 clauses, several rounds
# of weakening for each of its 1,024 states), and the ratio to a counter of five flags; and how many rounds and questions
# these are, where the program of `bench_rounds` is built or given as the argument.
set -eu
here=$(cd "$(dirname "$0")/.." && pwd)
work=$(mktemp -d)
trap 'rm -rf "$work"' EXIT

counter() {
  python3 - "$1" <<'PY'
import sys
names = [chr(97 + i) for i in range(int(sys.argv[1]))]
for name in names:
    print("relation", name)
print("after init {", "; ".join(f"{n} := false" for n in names), "}")
for i, name in enumerate(names):
    below = names[:i]
    print(f"export action up{i} = {{ require", " & ".join([f"~{name}"] + below) + ";",
          "; ".join([f"{name} := true"] + [f"{n} := false" for n in below]), "}")
PY
}

seconds() {
  python3 - "$here/distai" "$1" <<'PY'
import subprocess, sys, time
best = 1e9
for _ in range(3):
    begun = time.monotonic()
    subprocess.run([sys.argv[1], "infer", sys.argv[2], "--lits", "8"], check=True, stdout=subprocess.DEVNULL)
    best = min(best, time.monotonic() - begun)
print(f"{best:.3f}")
PY
}

rounds=${1:-$here/crates/bench_rounds/out/bench_rounds}
counts() {
  if [ -x "$rounds" ]; then
    echo "  $("$rounds" "$1" 8 | paste -sd ' ' | sed 's/ questions/, questions/')"
  fi
}

"$here/distai" infer /dev/null > /dev/null
counter 5 > "$work/five.ivy"
counter 10 > "$work/ten.ivy"
five=$(seconds "$work/five.ivy")
ten=$(seconds "$work/ten.ivy")
echo "five flags: $five s"
counts "$work/five.ivy"
echo "ten flags: $ten s (goal: at most 2 s)"
counts "$work/ten.ivy"
python3 -c "print(f'ratio: {$ten / $five:.0f}')"
