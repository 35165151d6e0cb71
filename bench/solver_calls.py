#!/usr/bin/env python3
"""Times 1,000 questions about one formula, with changing assumptions and clauses added between.

usage: solver_calls.py PROGRAM [CALLS [FRESH]]

The formula has 2,000 variables and random clauses of three literals, 5 for each two variables. Each question
has ten assumptions, of which nine are those of the question before, and a clause is added after each. Three
processor times: of `PROGRAM --ask` on all questions; of the same questions as formulas of their own, each
solved by a fresh `PROGRAM`, which prints its least model (FRESH of them, 50 if left out, scaled up, and cut off
after 10 seconds); and of
picosat's own incremental interface, through its library from this script.
"""
import ctypes
import ctypes.util
import os
import random
import resource
import subprocess
import sys
import tempfile

VARS = 2000


def questions(calls):
    """The clauses at first, and for each call its assumptions and the clause that is added after it."""
    rng = random.Random(1)

    def literals(size):
        return [rng.choice([-1, 1]) * var for var in rng.sample(range(1, VARS + 1), size)]
    clauses = [literals(3) for _ in range(5 * VARS // 2)]
    assumptions = literals(10)
    steps = []
    for _ in range(calls):
        steps.append((list(assumptions), literals(3)))
        assumptions = assumptions[1:] + literals(1)
    return clauses, steps


def children():
    """The processor time of all ended children."""
    usage = resource.getrusage(resource.RUSAGE_CHILDREN)
    return usage.ru_utime + usage.ru_stime


def run(words, out):
    """The processor time of a command, with its output in a file."""
    before = children()
    with open(out, "w") as target:
        subprocess.run(words, stdout=target, check=False)
    return children() - before


def by_picosat(clauses, steps):
    """Answers by picosat's library, with the processor time of this process."""
    name = ctypes.util.find_library("picosat")
    if name is None:
        return None, None
    lib = ctypes.CDLL(name)
    lib.picosat_init.restype = ctypes.c_void_p
    solver = ctypes.c_void_p(lib.picosat_init())
    before = resource.getrusage(resource.RUSAGE_SELF)
    lib.picosat_adjust(solver, VARS)

    def add(clause):
        for lit in clause:
            lib.picosat_add(solver, lit)
        lib.picosat_add(solver, 0)
    for clause in clauses:
        add(clause)
    answers = []
    for assumptions, clause in steps:
        for lit in assumptions:
            lib.picosat_assume(solver, lit)
        answers.append(lib.picosat_sat(solver, -1) == 10)
        add(clause)
    after = resource.getrusage(resource.RUSAGE_SELF)
    return answers, after.ru_utime + after.ru_stime - before.ru_utime - before.ru_stime


def main():
    program = os.path.abspath(sys.argv[1])
    calls = int(sys.argv[2]) if len(sys.argv) > 2 else 1000
    fresh = int(sys.argv[3]) if len(sys.argv) > 3 else 50
    clauses, steps = questions(calls)
    with tempfile.TemporaryDirectory() as folder:
        path = os.path.join(folder, "all.cnf")
        with open(path, "w") as out:
            out.write("p cnf %d 0\n" % VARS)
            for clause in clauses:
                out.write(" ".join(map(str, clause + [0])) + "\n")
            for assumptions, clause in steps:
                out.write("a " + " ".join(map(str, assumptions + [0])) + "\n")
                out.write(" ".join(map(str, clause + [0])) + "\n")
        ours = run([program, "--ask", path], path + ".out")
        with open(path + ".out") as lines:
            answers = [line == "s SATISFIABLE\n" for line in lines if line.startswith("s ")]
        spent = 0.0
        for number in range(0, calls, max(1, calls // fresh)):
            every = clauses + [clause for _, clause in steps[:number]] + [[lit] for lit in steps[number][0]]
            with open(path, "w") as out:
                out.write("p cnf %d %d\n" % (VARS, len(every)))
                for clause in every:
                    out.write(" ".join(map(str, clause + [0])) + "\n")
            spent += run(["timeout", "10", program, path], path + ".out")
            with open(path + ".out") as lines:
                found = [line == "s SATISFIABLE\n" for line in lines if line.startswith("s ")]
            if found and found[0] != answers[number]:
                sys.exit("question %d: the fresh answer differs" % number)
        asked = len(range(0, calls, max(1, calls // fresh)))
        spent = spent * calls / asked
        others, theirs = by_picosat(clauses, steps)
    if others is not None and others != answers:
        sys.exit("picosat's answers differ")
    print("calls %d, with a model %d" % (calls, sum(answers)))
    print("one solver    %8.3f s" % ours)
    print("fresh solves  %8.3f s, %.1f times as long (from %d of them)" % (spent, spent / ours, asked))
    if theirs is not None:
        print("picosat       %8.3f s; ours takes %.2f times that" % (theirs, ours / theirs))


main()
