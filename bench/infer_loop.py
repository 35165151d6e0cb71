"""The way down to an answer by a loop around an external solver, as one could script it, for `infer_times.py`.

Each question is a formula of its own, at exact sizes, with all premises written out, and is put to a fresh process of
the solver. Its formulas, structures and clauses are those of the naive judge beside the examples; nothing here is shared
with the program.
"""

import functools
import itertools
import os
import pathlib
import subprocess
import sys
import time

sys.path.insert(0, str(pathlib.Path(__file__).resolve().parent.parent / "examples"))

from naive_clauses import Space
from naive_protocol import Protocol
from naive_structures import Structures

TRUE = 1


class LimitReached(Exception):
    """The solver's processes have taken more than the limit."""


class Bit:
    """A literal of a circuit, where the operators make gates. The literal 1 is true."""

    def __init__(self, circuit, literal):
        self.circuit, self.literal = circuit, literal

    def __bool__(self):
        return self.literal != -TRUE

    def gate(self, other, sign, flip=1):
        """The bit of a gate over both, with the literals turned by the flip before it and after it."""
        right = other.literal if isinstance(other, Bit) else -TRUE
        return Bit(self.circuit, flip * getattr(self.circuit, sign)(flip * self.literal, flip * right))

    def __and__(self, other):
        return self.gate(other, "both")

    def __or__(self, other):
        return self.gate(other, "both", -1)

    def __xor__(self, other):
        return self.gate(other, "differ")

    __rand__, __ror__, __rxor__ = __and__, __or__, __xor__


class Question(Structures):
    """One block over symbolic structures of exact sizes: what is before it, what it leaves, and that it leaves it."""

    def __init__(self, protocol, sizes, block):
        self.protocol, self.sizes = protocol, sizes
        self.clauses, self.last, self.gates, self.table = [[TRUE]], TRUE, {}, {}
        self.full = Bit(self, TRUE)
        for name in [*protocol.relations, *protocol.individuals]:
            atoms, one = self.ground(name)
            self.table.update(zip(atoms, self.fresh(len(atoms), one)))
        for axiom in protocol.axioms:
            self.clauses.append([self.closed(axiom, self.table, {}).literal])
        self.after = self.table
        if block:
            chosen = {**block.params, **block.locals}
            env = {name: self.fresh(sizes[sort], True) for name, sort in chosen.items()}
            self.after, run = self.executed(block.stats, self.table, env, self.full, self.full)
            self.clauses.append([run.literal])
        self.close()

    def close(self):
        """Writes out what has been made of the formula so far."""
        self.count, self.text = len(self.clauses), "".join(map(line_of, self.clauses))

    def fresh(self, count, one):
        """New bits; exactly one of them is true, where that is asked for."""
        numbers = list(range(self.last + 1, self.last + count + 1))
        self.last += count
        if one:
            self.clauses += [numbers, *([-left, -right] for left, right in itertools.combinations(numbers, 2))]
        return [Bit(self, number) for number in numbers]

    def both(self, left, right):
        left, right = min(left, right), max(left, right)
        if left == -right or -TRUE in (left, right):
            return -TRUE
        if left == right or TRUE in (left, right):
            return right if left == TRUE else left
        if ("&", left, right) not in self.gates:
            self.last += 1
            self.gates["&", left, right] = self.last
            self.clauses += [[-self.last, left], [-self.last, right], [self.last, -left, -right]]
        return self.gates["&", left, right]

    def differ(self, left, right):
        for one, other in ((left, right), (right, left)):
            if abs(one) == TRUE:
                return -one * other
        if abs(left) == abs(right):
            return -TRUE if left == right else TRUE
        left, right = min(left, right), max(left, right)
        if ("^", left, right) not in self.gates:
            self.last += 1
            new = self.gates["^", left, right] = self.last
            self.clauses += [[-new, left, right], [-new, -left, -right], [new, -left, right], [new, left, -right]]
        return self.gates["^", left, right]

    def options(self, term, table, env):
        """What a term may be. A parameter or a local is a list of bits, of which one is true."""
        value = env.get(term.text)
        return list(enumerate(value)) if isinstance(value, list) else super().options(term, table, env)


def line_of(literals):
    return " ".join(map(str, [*literals, 0])) + "\n"


class Loop:
    """The way down for one protocol, and what its solver's processes have taken."""

    def __init__(self, text, bounds, most, literals, solver, folder, limit):
        self.protocol = Protocol(text)
        self.space = Space(self.protocol, most, literals)
        self.solver, self.path, self.limit = solver, folder / "question.cnf", limit
        self.spent = self.written = self.questions = self.rounds = 0
        ranges = [range(1, bounds[sort] + 1) for sort in self.protocol.types]
        self.sizes = [dict(zip(self.protocol.types, some)) for some in itertools.product(*ranges)]
        self.below = functools.lru_cache(None)(self.space.below)
        self.grounded, self.asked = functools.lru_cache(None)(self.grounded), functools.lru_cache(None)(self.asked)

    # Formulas.

    def asked(self, number, at):
        """The question's formula about one block at the sizes of this place, without premises and goal."""
        blocks = [self.protocol.init, *self.protocol.actions]
        return Question(self.protocol, self.sizes[at], blocks[number])

    def denied(self, number, at):
        """The formula that an invariant is false."""
        question = Question(self.protocol, self.sizes[at], None)
        _, form = self.protocol.invariants[number]
        question.clauses.append([-question.closed(form, question.table, {}).literal])
        question.close()
        return question

    def grounded(self, clause, at):
        """The atoms of a clause for each way to choose elements, each with whether it is negated."""
        shape, literals = clause
        chosen = [(self.space.atoms[shape][literal // 2], literal % 2) for literal in literals]
        ways = list(self.space.assignments(shape, self.sizes[at]))
        return [[((name, *(way[v] for v in own)), negated) for (name, *own), negated in chosen] for way in ways]

    def premises(self, question, members, at):
        value = lambda key, negated: (-1 if negated else 1) * question.table[key].literal
        return [[value(*part) for part in way] for member in members for way in self.grounded(member, at)]

    def goal(self, question, goal, at):
        """That the clause is false after the block: for some choice of elements, each of its literals."""
        ways, clauses = self.grounded(goal, at), []
        chosen = range(question.last + 1, question.last + len(ways) + 1)
        for number, way in zip(chosen, ways):
            clauses += [[-number, (1 if negated else -1) * question.after[key].literal] for key, negated in way]
        return [list(chosen), *clauses]

    # The solver.

    def solve(self, question, more, extra):
        """The true variables of a model, or none where there is none."""
        start = time.process_time()
        head = f"p cnf {question.last + extra} {question.count + len(more)}\n"
        self.path.write_text(head + question.text + "".join(map(line_of, more)))
        self.written += time.process_time() - start
        out = self.path.with_suffix(".out")
        words = ["minisat", "-verb=0", self.path, out] if self.solver == "minisat" else ["picosat", self.path]
        child = subprocess.Popen(words, stdout=subprocess.PIPE, stderr=subprocess.DEVNULL, text=True)
        told = child.stdout.read()
        _, status, used = os.wait4(child.pid, 0)
        child.returncode = os.waitstatus_to_exitcode(status)
        self.spent, self.questions = self.spent + used.ru_utime + used.ru_stime, self.questions + 1
        if child.returncode not in (10, 20):
            sys.exit(f"{self.solver} ended with status {child.returncode}")
        if self.spent > self.limit:
            raise LimitReached
        if child.returncode == 20:
            return None
        told = out.read_text() if self.solver == "minisat" else told
        return {int(word) for word in told.split() if word.isdigit() and word != "0"}

    # The way down.

    def refutation(self, members, goal):
        """What shows that some step breaks the clause: a question, its place and the model; or nothing."""
        for number in range(len(self.protocol.actions) + 1):
            for at in range(len(self.sizes)):
                if not self.grounded(goal, at):
                    continue
                start = time.process_time()
                question = self.asked(number, at)
                clauses = self.premises(question, members, at) if number else []
                clauses += self.goal(question, goal, at)
                self.written += time.process_time() - start
                model = self.solve(question, clauses, len(self.grounded(goal, at)))
                if model is not None:
                    return question, at, model
        return None

    def breaks(self, found, clause):
        """Whether the state after the step doesn't meet the clause."""
        question, at, model = found
        holds = lambda literal: literal in model if literal > 0 else -literal not in model
        true = lambda key: question.after[key].literal == TRUE or holds(question.after[key].literal)
        return any(all(true(key) == bool(negated) for key, negated in way) for way in self.grounded(clause, at))

    def weakenings(self, clause):
        """The immediate ones: with one more literal, or one more variable."""
        shape, literals = clause
        if len(literals) < self.space.literals:
            for atom in range(len(self.space.atoms[shape])):
                if not {2 * atom, 2 * atom + 1} & set(literals):
                    yield from (self.canonical(shape, sorted([*literals, 2 * atom + sign])) for sign in (0, 1))
        for place in range(len(shape)):
            wide = (*shape[:place], shape[place] + 1, *shape[place + 1:])
            if wide in self.space.atoms:
                yield from {self.canonical(wide, image) for image in self.space.images(clause, wide)}

    def canonical(self, shape, literals):
        return shape, tuple(min(self.space.images((shape, literals), shape)))

    def greatest(self):
        """The minimal clauses of the greatest inductive set, in the order of print."""
        members = [(self.space.shapes[0], ())]
        while True:
            self.rounds += 1
            struck = set()
            for goal in members:
                found = None if goal in struck else self.refutation(members, goal)
                if found:
                    struck |= {member for member in members if self.breaks(found, member)}
                    assert goal in struck, "the model doesn't break the clause that was asked"
            if not struck:
                return members
            members = [member for member in members if member not in struck]
            new = sorted({weak for clause in struck for weak in self.weakenings(clause)}, key=self.space.order)
            kept = list(members)
            for weak in new:
                if not any(self.below(member, weak) for member in kept):
                    kept.append(weak)
            members = sorted(kept, key=self.space.order)

    def report(self):
        answer, missing = self.greatest(), []
        for number, (label, _) in enumerate(self.protocol.invariants):
            for at in range(len(self.sizes)):
                question = self.denied(number, at)
                if self.solve(question, self.premises(question, answer, at), 0) is not None:
                    missing.append(label)
                    break
        lines = [f"invariant [d{i + 1}] {self.space.text(clause)}" for i, clause in enumerate(answer)]
        lines.append(" ".join(["NOT FOUND", *missing]) if missing else "FOUND")
        return "".join(line + "\n" for line in lines)
