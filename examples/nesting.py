#!/usr/bin/env python3
"""Run the program on every kind of nesting that the grammar lets in, 200 levels deep, with little stack.

Each file has one kind of nesting, or two in turn, as deep as it may be. With a stack of so many KiB the program has
to answer it as it does with a stack of 64 MiB, and one level more has to be E13.

    nesting.py [--program PATH] [--stack KIB]

The last line is `N passed, M failed`.
"""

import argparse
import pathlib
import resource
import subprocess
import sys
import tempfile

LEVELS = 200
FLAGS = "relation p\nrelation q\nafter init { p := true; q := false }\n"
TYPED = "type t\nrelation r(X:t)\nrelation p\nafter init { p := true }\n"


def chain(sign):
    """Brackets, each in a chain: as last part and with a part before."""
    return lambda n: f"{FLAGS}invariant " + f"(p {sign} " * n + "q" + ")" * n


def first(sign):
    """Brackets, each the first part of a chain."""
    return lambda n: f"{FLAGS}invariant " + "(" * n + "p" + f" {sign} q)" * n


def nested_ifs(inner, levels):
    """`if` in `if`, with something of so many levels in the innermost block."""
    return lambda n: f"{FLAGS}export action a = {{ " + "if p { " * (n - levels - 1) + inner(levels) + " }" * (n - levels)


FILES = {
    "brackets": lambda n: f"{FLAGS}invariant " + "(" * n + "p" + ")" * n,
    "negations": lambda n: f"{FLAGS}invariant " + "~" * n + "p",
    "negated brackets": lambda n: f"{FLAGS}invariant " + "~" * (n % 2) + "~(" * (n // 2) + "p" + ")" * (n // 2),
    "conjunctions": chain("&"),
    "disjunctions": chain("|"),
    "equivalences": chain("<->"),
    "conjunctions first": first("&"),
    "disjunctions first": first("|"),
    "equivalences first": first("<->"),
    "implications": lambda n: f"{FLAGS}invariant " + "p -> " * n + "q",
    "implications in brackets": lambda n: f"{FLAGS}invariant " + "(" * (n - 1) + "p" + " -> q)" * (n - 1),
    "brackets in implications": lambda n: f"{FLAGS}invariant " + "p -> " * (n % 2) + "p -> (" * (n // 2) + "q" + ")" * (n // 2),
    "universal quantifiers": lambda n: f"{TYPED}invariant " + "forall X:t. " * n + "r(X)",
    "quantifiers by turns": lambda n: f"{TYPED}action a = {{ require " + "forall X:t. ~exists X:t. " * ((n - 1) // 3)
    + "~" * ((n - 1) % 3) + "r(X) }",
    "brackets in quantifiers": lambda n: f"{TYPED}invariant " + "~" * (n % 2) + "(forall X:t. p & " * (n // 2) + "r(X)" + ")" * (n // 2),
    "axioms": lambda n: "relation p\naxiom " + "(" * n + "p" + ")" * n,
    "requirements": lambda n: f"{FLAGS}action a = {{ require " + "(" * (n - 1) + "p" + ")" * (n - 1) + " }",
    "right sides": lambda n: f"{FLAGS}action a = {{ p := " + "(" * (n - 1) + "p" + ")" * (n - 1) + " }",
    "conditions": lambda n: f"{FLAGS}action a = {{ if " + "(" * (n - 1) + "p" + ")" * (n - 1) + " { } }",
    "ifs": nested_ifs(lambda k: "p := q", 0),
    "elses": lambda n: f"{FLAGS}export action a = {{ " + "if p { } else { " * ((n - 1) // 2) + "if q { " * ((n - 1) % 2)
    + "p := q" + " }" * (n // 2) + " }",
    "else ifs": lambda n: f"{FLAGS}export action a = {{ " + "if p { } else " * (n - 2) + "if q { } }",
    "locals": lambda n: f"{TYPED}action a = {{ " + "".join(f"local x{i}:t {{ " for i in range(n - 1)) + "p := true" + " }" * n,
    "brackets in right sides in ifs": nested_ifs(lambda k: "p := " + "(p & " * k + "q" + ")" * k, 100),
    "brackets in requirements in ifs": nested_ifs(lambda k: "require " + "(" * k + "q" + ")" * k, 100),
    "brackets in conditions in ifs": nested_ifs(lambda k: "if " + "(" * k + "q" + ")" * k + " { }", 100),
}


def run(program, path, kib):
    def limit():
        resource.setrlimit(resource.RLIMIT_STACK, (kib * 1024, kib * 1024))

    done = subprocess.run([program, "infer", path, "--lits", "1"], capture_output=True, text=True, preexec_fn=limit)
    return done.stdout, done.stderr, done.returncode


def main():
    parser = argparse.ArgumentParser(description=__doc__, formatter_class=argparse.RawDescriptionHelpFormatter)
    parser.add_argument("--program", default="./distai")
    parser.add_argument("--stack", type=int, default=1024)
    given = parser.parse_args()
    passed = failed = 0
    with tempfile.TemporaryDirectory() as folder:
        path = pathlib.Path(folder) / "deep.ivy"
        for name, text in FILES.items():
            path.write_text(text(LEVELS))
            wanted, got = run(given.program, path, 65536), run(given.program, path, given.stack)
            path.write_text(text(LEVELS + 1))
            beyond = run(given.program, path, given.stack)
            right = wanted == got and wanted[2] in (0, 1, 2) and ": E1" not in wanted[1]
            refused = beyond[2] == 2 and beyond[1].endswith(": E13 nesting deeper than 200\n")
            passed += right and refused
            failed += not (right and refused)
            if not right:
                print(f"FAIL {name}: status {got[2]}, wrote {got[0]}{got[1]}; with more stack {wanted}")
            if not refused:
                print(f"FAIL {name}, one level more: status {beyond[2]}, wrote {beyond[0]}{beyond[1]}")
    print(f"{passed} passed, {failed} failed")
    return 0 if not failed else 1


if __name__ == "__main__":
    sys.exit(main())
