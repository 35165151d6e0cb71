#!/usr/bin/env python3
"""Run the program on a file that is at every limit on names and variables, and on files with one more of a thing.

The file at the limits has 8 types, 64 relations of 5 arguments, 16 individuals, 64 axioms, 64 invariants, formulas
of 12 variables, 64 actions of 6 parameters and 6 locals, init code of 6 locals, and 16 existential variables in the
requirements of one action and of init. No fault of a place may be told of it. Each other file has one more of one
thing, and E42 has to stand at its place. The program is run as `space`, which refuses the same files as `infer`.

    limits.py [--program PATH]

The last line is `N passed, M failed`.
"""

import argparse
import pathlib
import re
import subprocess
import sys
import tempfile

# What a file may have. `HERE` marks what goes one past a limit.
HERE = "\0"


def listed(count, form, sep=", "):
    return sep.join(form.format(i) for i in range(count))


def over(count, form, sep=", "):
    """So many of a thing, the last one marked."""
    return sep.join((HERE if i == count - 1 else "") + form.format(i) for i in range(count))


def locals_and_requirements(first, second, some=listed, others=listed):
    """A block with two lists of locals, and two requirements with existential variables."""
    return (
        f"{{ local {listed(first[0], 'a{}:t0')} {{ local {some(first[1], 'b{}:t0')} {{ }} }}"
        f" require exists {listed(second[0], 'X{}:t0')}. true; assume ~(forall {others(second[1], 'Y{}:t0')}. false) }}"
    )


BLOCK = locals_and_requirements((3, 3), (8, 8))
ACTION = f"({listed(6, 'p{}:t0')}) = {BLOCK}"
INIT = f"after init {BLOCK}"
FORMULA = f"(forall {listed(4, 'A{}:t1')}. false) & (exists {listed(5, 'B{}:t2')}. forall {listed(3, 'C{}:t1')}. false)"
WHOLE = f"({listed(6, 'A{0} = A{0}:t1', ' & ')}) | (forall {listed(6, 'B{}:t1')}. false)"

AT_LIMITS = [
    *(f"type t{i}" for i in range(8)),
    f"relation wide({listed(5, 'X{}:t0')})",
    *(f"relation r{i}({listed(5, 'X{}:t0')})" for i in range(63)),
    *(f"individual c{i} : t0" for i in range(16)),
    *(f"axiom {WHOLE}" for i in range(64)),
    *(f"{word} {WHOLE}" for word in ("invariant", "conjecture") for i in range(32)),
    *(f"action act{i}{ACTION}" for i in range(63)),
    f"action formulas = {{ require {FORMULA} }}",
    INIT,
]

# One more of each: what is added, or what stands in place of the last lines.
MORE = {
    "types": [f"type {HERE}t8"],
    "relations": [f"relation {HERE}more"],
    "relations of five arguments": [f"relation {HERE}more({listed(5, 'X{}:t0')})"],
    "individuals": [f"individual {HERE}more : t0"],
    "axioms": [f"{HERE}axiom true"],
    "labelled axioms": [f"{HERE}axiom [name] true"],
    "invariants": [f"{HERE}invariant true"],
    "conjectures": [f"{HERE}conjecture [name] true"],
    "actions": [f"action {HERE}more = {{ }}"],
    "exported actions": [f"export action {HERE}more = {{ }}"],
    "locals of init, over two blocks": [f"after init {{ local {HERE}more:t0 {{ }} }}"],
    "existential variables of init, over two blocks": [f"after init {{ require exists {HERE}Z:t0. true }}"],
}
INSTEAD = {
    "arguments of a relation": ("relation wide", f"relation wide({over(6, 'X{}:t0')})"),
    "parameters": ("action act0", f"action act0({over(7, 'p{}:t0')}) = {{ }}"),
    "locals of an action": ("action act0", f"action act0 = {locals_and_requirements((3, 4), (8, 8), over)}"),
    "existential variables of an action": ("action act0", f"action act0 = {locals_and_requirements((3, 3), (8, 9), listed, over)}"),
    "free variables of a formula": ("axiom", f"axiom {over(13, 'A{0} = A{0}:t1', ' & ')}"),
    "bound variables of a formula": ("axiom", f"axiom forall {over(13, 'A{0}:t1')}. true"),
    "variables of an invariant, bound after free": ("invariant", f"invariant A:t1 = B & (forall {over(11, 'C{}:t1')}. true)"),
    "variables of a requirement": ("action formulas", f"action formulas = {{ require {FORMULA} & (forall {HERE}Z:t1. true) }}"),
}


def files():
    """Each file's name and its text, in which what goes past the limit is marked."""
    yield "at the limits", "\n".join(AT_LIMITS)
    for name, lines in MORE.items():
        yield name, "\n".join([*AT_LIMITS, *lines])
    for name, (front, line) in INSTEAD.items():
        at = next(i for i, old in enumerate(AT_LIMITS) if old.startswith(front))
        yield name, "\n".join([*AT_LIMITS[:at], line, *AT_LIMITS[at + 1 :]])


def main():
    parser = argparse.ArgumentParser(description=__doc__, formatter_class=argparse.RawDescriptionHelpFormatter)
    parser.add_argument("--program", default="./distai")
    program = parser.parse_args().program
    passed = failed = 0
    with tempfile.TemporaryDirectory() as folder:
        path = pathlib.Path(folder) / "limits.ivy"
        for name, text in files():
            at = text.find(HERE)
            path.write_text(text.replace(HERE, ""))
            done = subprocess.run([program, "space", path, "--lits", "0"], capture_output=True, text=True)
            if at < 0:
                told = re.search(r":(\d+):(\d+): E(\d+) ", done.stderr)
                right = done.returncode in (0, 2) and told is None
            else:
                line, column = text.count("\n", 0, at) + 1, at - text.rfind("\n", 0, at)
                wanted = ("", f"{path}:{line}:{column}: E42 too many\n", 2)
                right = (done.stdout, done.stderr, done.returncode) == wanted
            passed += right
            failed += not right
            if not right:
                print(f"FAIL {name}: status {done.returncode}, wrote {done.stdout}{done.stderr}", end="")
    print(f"{passed} passed, {failed} failed")
    return 0 if not failed else 1


if __name__ == "__main__":
    sys.exit(main())
