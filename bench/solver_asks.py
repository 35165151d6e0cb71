#!/usr/bin/env python3
"""Checks dai_dimacs --ask and --any against brute force on random formulas with questions between clauses.

usage: solver_asks.py PROGRAM [COUNT [SEED]]

Each formula has up to 10 variables, clauses of up to 4 literals, some empty, some with a literal twice or
with a literal and its negation, and questions with up to 5 assumptions, which may clash. A model is checked
against all clauses so far and all assumptions; an answer of no model must have none, and neither may the
clauses with the named assumptions alone.
"""
import itertools
import os
import random
import subprocess
import sys
import tempfile


def draw_clause(rng, count):
    """A clause as a list of numbers."""
    if rng.random() < 0.002:
        return []
    return [rng.choice([-1, 1]) * rng.randint(1, count) for _ in range(rng.choice([1, 2, 2, 3, 3, 3, 3, 4]))]


def draw(rng):
    """A number of variables, and steps: clauses, and questions with their assumptions."""
    count = rng.randint(1, 10)
    steps = []
    for _ in range(rng.randint(1, 5 * count)):
        if rng.random() < 0.2:
            steps.append(("a", [rng.choice([-1, 1]) * rng.randint(1, count) for _ in range(rng.randint(0, 5))]))
        steps.append(("", draw_clause(rng, count)))
    steps.append(("a", []))
    return count, steps


def has_model(count, clauses):
    """Whether some assignment meets the clauses."""
    return any(all(any(bits[abs(lit) - 1] == (lit > 0) for lit in clause) for clause in clauses)
               for bits in itertools.product([False, True], repeat=count))


def check(count, clauses, assumptions, lines, number):
    """Checks the two lines of one answer; whether it is a model."""
    words = [int(word) for word in lines[1].split()[1:]]
    if words[-1] != 0:
        sys.exit("formula %d: no end in %r" % (number, lines))
    words = words[:-1]
    if lines[0] == "s SATISFIABLE" and lines[1].startswith("v"):
        true = set(words)
        if [abs(word) for word in words] != list(range(1, count + 1)):
            sys.exit("formula %d: no whole model in %r" % (number, lines))
        if not all(any(lit in true for lit in clause) for clause in clauses + [[lit] for lit in assumptions]):
            sys.exit("formula %d: %r is no model of %r under %r" % (number, lines, clauses, assumptions))
        return True
    if lines[0] == "s UNSATISFIABLE" and lines[1].startswith("f"):
        if not set(words) <= set(assumptions):
            sys.exit("formula %d: %r names more than %r" % (number, lines, assumptions))
        if has_model(count, clauses + [[lit] for lit in words]):
            sys.exit("formula %d: the names %r don't suffice for %r" % (number, words, clauses))
        return False
    sys.exit("formula %d: no answer in %r" % (number, lines))


def main():
    program = os.path.abspath(sys.argv[1])
    wanted = int(sys.argv[2]) if len(sys.argv) > 2 else 2000
    rng = random.Random(int(sys.argv[3]) if len(sys.argv) > 3 else 1)
    asked = models = 0
    with tempfile.TemporaryDirectory() as folder:
        path = os.path.join(folder, "formula.cnf")
        for number in range(wanted):
            count, steps = draw(rng)
            with open(path, "w") as out:
                out.write("c random\np cnf %d 0\n" % count)
                for word, lits in steps:
                    out.write(" ".join([word] * bool(word) + [str(lit) for lit in lits] + ["0"]) + "\n")
            run = subprocess.run([program, "--ask", path], capture_output=True, text=True)
            if run.returncode != 0:
                sys.exit("formula %d: status %d, %r" % (number, run.returncode, run.stderr))
            lines = run.stdout.splitlines()
            clauses = []
            for word, lits in steps:
                if word:
                    asked += 1
                    models += check(count, clauses, lits, lines[:2], number)
                    lines = lines[2:]
                else:
                    clauses.append(lits)
            if lines:
                sys.exit("formula %d: more answers than questions" % number)
            with open(path, "w") as out:
                out.write("p cnf %d %d\n" % (count, len(clauses)))
                for clause in clauses:
                    out.write(" ".join(map(str, clause + [0])) + "\n")
            run = subprocess.run([program, "--any", path], capture_output=True, text=True)
            answer = [line for line in run.stdout.splitlines() if not line.startswith("c")]
            if run.returncode == 10 and len(answer) == 2:
                check(count, clauses, [], answer, number)
            elif run.returncode != 20 or answer != ["s UNSATISFIABLE"] or has_model(count, clauses):
                sys.exit("formula %d: --any answers %d, %r" % (number, run.returncode, run.stdout))
    print("formulas %d, questions %d, with a model %d, all answers right, all names enough" % (wanted, asked, models))


main()
