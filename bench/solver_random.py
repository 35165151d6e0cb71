#!/usr/bin/env python3
"""Checks dai_dimacs against brute force on random formulas.

usage: solver_random.py PROGRAM [COUNT [SEED]]

Each formula has up to 12 variables and clauses of up to 4 literals, some empty, some with a literal
twice or with a literal and its negation. A model is checked clause by clause and must be the least one
where false counts as less; an answer of no model must have none.
"""
import itertools
import os
import random
import subprocess
import sys
import tempfile


def draw(rng):
    """A number of variables and a list of clauses."""
    count = rng.randint(0, 12)
    wanted = rng.randint(0, 6 * count + 2)
    clauses = []
    for _ in range(wanted if count else rng.randint(0, 1)):
        size = rng.choice([1, 2, 2, 3, 3, 3, 3, 4]) if rng.random() > 0.005 else 0
        clauses.append([rng.choice([-1, 1]) * rng.randint(1, count) for _ in range(size if count else 0)])
    return count, clauses


def write(path, count, clauses, rng):
    """The formula as a file, with comments, and clauses over several lines."""
    with open(path, "w") as out:
        out.write("c random\np cnf %d %d\n" % (count, len(clauses)))
        for clause in clauses:
            words = [str(lit) for lit in clause] + ["0"]
            out.write("".join(word + rng.choice([" ", "\n", "\nc note\n"] if word != "0" else ["\n", " "]) for word in words))


def least_model(count, clauses):
    """The least model, where false counts as less, or None."""
    for bits in itertools.product([False, True], repeat=count):
        if all(any(bits[abs(lit) - 1] == (lit > 0) for lit in clause) for clause in clauses):
            return list(bits)
    return None


def answer_of(program, path):
    """The model that the program prints, or None."""
    run = subprocess.run([program, path], capture_output=True, text=True)
    lines = [line for line in run.stdout.splitlines() if not line.startswith("c")]
    if run.returncode == 20 and lines == ["s UNSATISFIABLE"]:
        return None
    if run.returncode == 10 and lines[0] == "s SATISFIABLE":
        words = [int(word) for line in lines[1:] for word in line.removeprefix("v").split()]
        if words[-1] == 0 and [abs(word) for word in words[:-1]] == list(range(1, len(words))):
            return [word > 0 for word in words[:-1]]
    sys.exit("no answer: status %d, %r %r" % (run.returncode, run.stdout, run.stderr))


def main():
    program = os.path.abspath(sys.argv[1])
    wanted = int(sys.argv[2]) if len(sys.argv) > 2 else 2000
    rng = random.Random(int(sys.argv[3]) if len(sys.argv) > 3 else 1)
    models = 0
    with tempfile.TemporaryDirectory() as folder:
        path = os.path.join(folder, "formula.cnf")
        for number in range(wanted):
            count, clauses = draw(rng)
            write(path, count, clauses, rng)
            expected = least_model(count, clauses)
            found = answer_of(program, path)
            if found != expected:
                sys.exit("formula %d: expected %s, found %s\n%s" % (number, expected, found, open(path).read()))
            models += expected is not None
    print("formulas %d, with a model %d, all answers right and least" % (wanted, models))


main()
