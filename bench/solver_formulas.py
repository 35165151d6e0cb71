#!/usr/bin/env python3
"""Writes the formulas of the solver's benchmark into a folder.

usage: solver_formulas.py FOLDER

Random clauses of three literals near the threshold of 4.26 clauses a variable, pigeons in one hole too
few, and chains of implications.
"""
import os
import random
import sys


def write(folder, name, count, clauses):
    """One formula as a file."""
    with open(os.path.join(folder, name + ".cnf"), "w") as out:
        out.write("p cnf %d %d\n" % (count, len(clauses)))
        for clause in clauses:
            out.write(" ".join(map(str, clause)) + " 0\n")


def random_clauses(count, seed):
    """Random clauses of three variables each."""
    rng = random.Random("%d %d" % (count, seed))
    return [[rng.choice([-1, 1]) * var for var in rng.sample(range(1, count + 1), 3)] for _ in range(round(4.26 * count))]


def pigeons(holes):
    """One pigeon more than holes."""
    def var(pigeon, hole):
        return pigeon * holes + hole + 1
    rows = [[var(pigeon, hole) for hole in range(holes)] for pigeon in range(holes + 1)]
    pairs = [[-var(first, hole), -var(second, hole)] for hole in range(holes) for second in range(holes + 1) for first in range(second)]
    return (holes + 1) * holes, rows + pairs


def chain(count, forward):
    """Each variable implies the next; the first, or the negation of the last, is given."""
    links = [[-var, var + 1] for var in range(1, count)]
    return links + ([[1]] if forward else [[-count]])


def main():
    folder = sys.argv[1]
    for count in [60, 100, 140, 180, 200]:
        for seed in [1, 2, 3]:
            write(folder, "random-%03d-%d" % (count, seed), count, random_clauses(count, seed))
    for holes in [5, 6, 7]:
        write(folder, "pigeons-%d" % holes, *pigeons(holes))
    for count in [25000, 50000, 100000]:
        write(folder, "chain-%06d" % count, count, chain(count, True))
        write(folder, "chain-back-%06d" % count, count, chain(count, False))


main()
