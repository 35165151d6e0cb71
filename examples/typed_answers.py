#!/usr/bin/env python3
"""Compare the reports of `distai infer` with naive ones on random protocols, most of them with types.

The naive report is made by brute force from the definitions: of all clauses within the bounds those are struck that
some initial state breaks, and then again and again those that a step breaks from a structure that meets the axioms and
all clauses that are left, until no more fall. Structures of all sizes up to those that matter are looked at. What is
left is filtered to the clauses that have no other one below them, and each invariant is held against it. All bytes of
the program's output and its status have to be those of the naive report.

    typed_answers.py [--program PATH] [--files N] [--seed S] [--types T] [--keep FOLDER]
    typed_answers.py --answer FILE [--vars t=k,u=m] [--lits L]

With --answer it prints the naive report of one file. With --types every random protocol has so many types. A protocol
that has too many structures for a quick answer is skipped, and another one is made for it. The last line of a
comparison is `N agree, M differ`, and the status is 0 where none differs. Each differing file is printed, and kept in
the folder where one is given.
"""

import argparse
import collections
import itertools
import pathlib
import random
import subprocess
import sys
import tempfile

from naive_clauses import Space
from naive_protocol import Protocol
from naive_structures import Structures, TooMany, structure_count
from small_protocols import Maker

# The most structures of a random protocol, over all lists of sizes, and the most of them times the moves.
MOST_STRUCTURES, MOST_STEPS = 60_000, 400_000
# How many seconds the program may take for a file.
PATIENCE = 300


class Judge:
    """The naive answer to one protocol."""

    def __init__(self, protocol, most, literals):
        self.protocol = protocol
        self.space = Space(protocol, most, literals)
        self.bounds = protocol.size_bounds(most)

    def sizes(self):
        """All lists of sizes that matter."""
        some = itertools.product(*(range(1, bound + 1) for bound in self.bounds.values()))
        return [dict(zip(self.bounds, sizes)) for sizes in some]

    def cost(self):
        """The number of structures, and that number times the ways to make a step."""
        structures = steps = 0
        for sizes in self.sizes():
            count, moves = structure_count(self.protocol, sizes), 0
            for block in [self.protocol.init, *self.protocol.actions]:
                ways = 1
                for sort in [*block.params.values(), *block.locals.values()]:
                    ways *= sizes[sort]
                moves += ways
            structures, steps = structures + count, steps + count * moves
        return structures, steps

    def meeting(self, some, states, clauses):
        """Those of the states before that meet all these clauses."""
        for clause in clauses:
            states = some.meeting(states, some.table, clause, self.space)
        return states

    def struck(self, some, states, table, clauses):
        """The clauses that the table doesn't meet in some of these states."""
        return {clause for clause in clauses if some.meeting(states, table, clause, self.space) != states}

    def greatest(self, worlds):
        """The canonical clauses of the greatest inductive set, in the order of print."""
        kept = self.space.clauses()
        for some in worlds:
            for run, table in some.left_by(self.protocol.init):
                fallen = self.struck(some, run, table, kept)
                kept = [clause for clause in kept if clause not in fallen]
        steps = [[*itertools.chain(*map(some.left_by, self.protocol.actions))] for some in worlds]
        at = 0
        while at < len(worlds):
            premise, fallen = self.meeting(worlds[at], worlds[at].full, kept), set()
            for run, table in steps[at]:
                left = [clause for clause in kept if clause not in fallen]
                fallen |= self.struck(worlds[at], premise & run, table, left)
            kept = [clause for clause in kept if clause not in fallen]
            # What falls is missed as a premise at all sizes, so the smaller ones are looked at again.
            at = 0 if fallen else at + 1
        return kept

    def report(self):
        """The text of the report and the status."""
        worlds = sorted((Structures(self.protocol, sizes) for sizes in self.sizes()), key=lambda some: some.count)
        answer = self.space.minimal(self.greatest(worlds))
        missing = set()
        for some in worlds:
            states = self.meeting(some, some.full, answer)
            for i, (_, form) in enumerate(self.protocol.invariants):
                if states & ~some.closed(form, some.table, {}):
                    missing.add(i)
        lines = [f"invariant [d{i + 1}] {self.space.text(clause)}" for i, clause in enumerate(answer)]
        labels = [label for i, (label, _) in enumerate(self.protocol.invariants) if i in missing]
        lines.append(" ".join(["NOT FOUND", *labels]) if missing else "FOUND")
        return "".join(line + "\n" for line in lines), 1 if missing else 0


def judge_of(text, words):
    """The judge of a file with the options that the words give. Options of no use here are passed over."""
    protocol = Protocol(text)
    options = dict(zip(words[::2], words[1::2]))
    most = dict.fromkeys(protocol.types, 2)
    for part in options.get("--vars", "").split(","):
        if part:
            name, _, number = part.partition("=")
            most[name] = int(number)
    return Judge(protocol, most, int(options.get("--lits", 2)))


def compare(program, number, given, folder):
    """Whether the program's report is the naive one on one random file, and of what kind it is; None where skipped."""
    maker = Maker(random.Random(f"{given.seed} {number}"), given.types)
    text, words = maker.file(), maker.words()
    judge = judge_of(text, words)
    structures, steps = judge.cost()
    if structures > MOST_STRUCTURES or steps > MOST_STEPS:
        return None, "skipped"
    path = folder / f"{number}.ivy"
    path.write_text(text)
    wanted = (*judge.report(), "")
    try:
        done = subprocess.run([program, "infer", path, *words], capture_output=True, text=True, timeout=PATIENCE)
        told = (done.stdout, done.returncode, done.stderr)
    except subprocess.TimeoutExpired:
        told = ("", None, f"no answer after {PATIENCE} seconds")
    if told != wanted:
        print(f"DIFFER: file {number} of seed {given.seed}: {' '.join(words)}\nwanted {wanted}\ntold   {told}\n{text}")
        if given.keep:
            (given.keep / path.name).write_text(f"# {' '.join(words)}\n{text}")
    path.unlink()
    clauses = wanted[0].count("\n") - 1
    return told == wanted, f"{'not found' if wanted[1] else 'found'} {'with' if clauses else 'without'} clauses"


def main():
    parser = argparse.ArgumentParser(description=__doc__, formatter_class=argparse.RawDescriptionHelpFormatter)
    parser.add_argument("--program", default="./distai")
    parser.add_argument("--files", type=int, default=200)
    parser.add_argument("--seed", type=int, default=1)
    parser.add_argument("--types", type=int, choices=[0, 1, 2])
    parser.add_argument("--keep", type=pathlib.Path)
    parser.add_argument("--answer", nargs=argparse.REMAINDER, metavar="FILE")
    given = parser.parse_args()
    sys.setrecursionlimit(10_000)
    if given.answer:
        text = pathlib.Path(given.answer[0]).read_text(encoding="latin-1")
        try:
            text, status = judge_of(text, given.answer[1:]).report()
        except TooMany as sizes:
            parser.error(f"there are too many structures of the sizes {sizes}")
        print(text, end="")
        return status
    kinds, agreed, differing = collections.Counter(), 0, 0
    with tempfile.TemporaryDirectory() as folder:
        for number in itertools.count():
            if agreed + differing == given.files:
                break
            agrees, kind = compare(given.program, number, given, pathlib.Path(folder))
            kinds[kind] += 1
            agreed, differing = agreed + (agrees is True), differing + (agrees is False)
    print(", ".join(f"{kind} {count}" for kind, count in sorted(kinds.items())))
    print(f"{agreed} agree, {differing} differ")
    return 0 if differing == 0 else 1


if __name__ == "__main__":
    sys.exit(main())
