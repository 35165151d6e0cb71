#!/usr/bin/env python3
"""Judge random typed files a second time, by a naive reading of the rules of names, types, quantifiers and limits.

This judge has a lexer and a parser of its own (`second_parser.py`), lists every fault of a file and picks the one of
the least place and then of the least number. It shares nothing with the program. Random files with types, faulty in
zero to three places (`random_files.py`), go through both. Where this judge finds a fault, the program has to refuse
the file with exactly that line on standard error and status 2; where it finds none, the program may tell no fault of
a place. The program is run as `space`, which refuses the same files as `infer` and searches nothing.

    second_judge.py [--program PATH] [--files N] [--seed S] [--keep FOLDER]
    second_judge.py --judge FILE

With --judge it prints all faults of one file. The last line of a comparison is `N agree, M differ`, and the status is
0 where none differs. Each differing file is printed, and kept in the folder where one is given.
"""

import argparse
import collections
import pathlib
import random
import re
import subprocess
import sys
import tempfile

from random_files import Maker
from second_parser import (
    Action, Assign, Atom, Axiom, Binder, Compare, Export, If, Individual, Init, Invariant, Joined, Local, Parser, Quantified,
    Relation, Require, Symbol, Type, Variable,
)

WORDS = {
    21: "declared twice", 22: "unknown name", 23: "wrong number of arguments", 24: "wrong type",
    25: "undetermined variable", 26: "order on an unordered type", 27: "axiom over an assigned symbol",
    28: "not universal", 29: "not exists-forall", 30: "quantifier or loose variable", 31: "bad target",
    42: "too many",
}


def parts_of(form):
    """The formulas directly under a formula."""
    return form.parts if isinstance(form, Joined) else [form.body] if isinstance(form, Quantified) else []


class Judge:
    """All faults of the declarations, each a place and a number."""

    def __init__(self, decls):
        self.decls = decls
        self.faults = set()
        # The first declaration of each name of the file.
        self.first = {}
        for decl in decls:
            if isinstance(decl, (Type, Relation, Individual, Action)):
                if decl.name.text in self.first:
                    self.tell(21, decl.name)
                self.first.setdefault(decl.name.text, decl)
        self.assigned = set()
        for decl in decls:
            if isinstance(decl, Init) or isinstance(decl, Action) and self.first[decl.name.text] is decl:
                self.targets(decl.block)
        self.whole_file()
        self.declarations()

    def tell(self, number, at):
        self.faults.add((at if isinstance(at, int) else at.at, number))

    def past(self, limit, places):
        """Everything past the limit, in the order of the file, is one too many; the first is what is told."""
        for at in places[limit:limit + 1]:
            self.tell(42, at)

    def targets(self, stats):
        for stat in stats:
            if isinstance(stat, Assign):
                self.assigned.add(stat.text)
            elif isinstance(stat, If):
                self.targets(stat.then)
                self.targets(stat.other)
            elif isinstance(stat, Local):
                self.targets(stat.block)

    def whole_file(self):
        of = lambda kind: [decl for decl in self.decls if isinstance(decl, kind)]
        self.past(8, [decl.name for decl in of(Type)])
        self.past(64, [decl.name for decl in of(Relation)])
        self.past(16, [decl.name for decl in of(Individual)])
        self.past(64, [decl.name for decl in of(Action)])
        self.past(64, of(Axiom))
        self.past(64, of(Invariant))

    def declarations(self):
        init_locals, init_existential = [], []
        for decl in self.decls:
            if isinstance(decl, Relation):
                self.past(5, [binder.name for binder in decl.binders])
                for binder in decl.binders:
                    self.type_place(binder.sort)
            elif isinstance(decl, Individual):
                self.type_place(decl.sort)
            elif isinstance(decl, Export):
                if not isinstance(self.first.get(decl.name.text), Action):
                    self.tell(22, decl.name)
            elif isinstance(decl, Init):
                self.block(decl.block, {}, init_locals, init_existential)
            elif isinstance(decl, Action):
                self.past(6, [binder.name for binder in decl.params])
                some_locals, some_existential = [], []
                scope = self.bind(decl.params, {})
                self.block(decl.block, scope, some_locals, some_existential)
                self.past(6, some_locals)
                self.past(16, some_existential)
            elif isinstance(decl, (Axiom, Invariant)):
                self.formula([], decl.form, {})
                self.universal(decl.form, True, False)
                if isinstance(decl, Axiom):
                    self.fixed(decl.form)
        self.past(6, init_locals)
        self.past(16, init_existential)

    # Names.

    def type_place(self, name):
        if not isinstance(self.first.get(name.text), Type):
            self.tell(22, name)

    def bind(self, binders, scope):
        """The scope with these parameters or locals. Where two things share a name the earlier one counts."""
        inner, own = dict(scope), {}
        for binder in binders:
            self.type_place(binder.sort)
            text, at = binder.name
            if text in self.first:
                self.tell(21, max(at, self.first[text].name.at))
            if text in scope or text in own:
                self.tell(21, at)
            own.setdefault(text, binder)
            inner.setdefault(text, binder)
        return inner

    def meaning(self, text, scope):
        """What a name stands for: ('relation', sorts), ('element', sort, whether it is an individual), or None."""
        known = [x for x in (scope.get(text), self.first.get(text)) if x is not None]
        if not known:
            return None
        decl = min(known, key=lambda x: x.name.at)
        if isinstance(decl, Relation):
            return "relation", [binder.sort.text for binder in decl.binders]
        if isinstance(decl, Individual):
            return "element", decl.sort.text, True
        if isinstance(decl, Binder):
            return "element", decl.sort.text, False
        return None

    # Blocks.

    def block(self, stats, scope, some_locals, some_existential):
        for stat in stats:
            if isinstance(stat, Require):
                self.formula([], stat.form, scope)
                self.exists_forall(stat.form)
                self.existential(stat.form, True, some_existential)
            elif isinstance(stat, Assign):
                self.assign(stat, scope)
            elif isinstance(stat, If):
                self.formula([], stat.form, scope)
                self.without_variables(stat.form, set())
                self.block(stat.then, scope, some_locals, some_existential)
                self.block(stat.other, scope, some_locals, some_existential)
            else:
                some_locals += [binder.name for binder in stat.binders]
                self.block(stat.block, self.bind(stat.binders, scope), some_locals, some_existential)

    def assign(self, stat, scope):
        meaning = self.meaning(stat.text, scope)
        if meaning is None:
            self.tell(22, stat)
        elif meaning[0] == "element":
            if stat.args:
                self.tell(23, stat)
            if not meaning[2]:
                self.tell(31, stat)
        elif len(stat.args) != len(meaning[1]):
            self.tell(23, stat)
        in_target = set()
        for term in stat.args:
            if isinstance(term, Variable):
                if term.text in in_target:
                    self.tell(31, term)
                in_target.add(term.text)
        sorts = meaning[1] if meaning and meaning[0] == "relation" else []
        to_individual = bool(meaning and meaning[0] == "element" and meaning[2])
        self.formula(places(stat.args, sorts), stat.form, scope, whole=to_individual)
        self.without_variables(stat.form, in_target)
        if to_individual:
            if not (isinstance(stat.form, Atom) and not stat.form.args):
                self.tell(24, stat)
            else:
                right = self.meaning(stat.form.text, scope)
                if right and right[0] == "element" and right[1] != meaning[1]:
                    self.tell(24, stat.form)

    def without_variables(self, form, allowed):
        """A condition or a right side has no quantifier, and no variable but these."""
        if isinstance(form, Quantified):
            self.tell(30, form)
        for term in terms_of(form):
            if isinstance(term, Variable) and term.text not in allowed:
                self.tell(30, term)
        for part in parts_of(form):
            self.without_variables(part, allowed)

    # Quantifiers.

    def universal(self, form, positive, same):
        """An axiom or invariant: each quantifier is universal in force, and none is under `<->`."""
        if isinstance(form, Quantified) and ((form.word == "forall") != positive or same):
            self.tell(28, form)
        for part, sign in signed(form, positive):
            self.universal(part, sign, same or isinstance(form, Joined) and form.sign == "<->")

    def exists_forall(self, form):
        has_free = bool(free_variables(form, set()))

        def walk(form, positive, inside, same):
            if isinstance(form, Quantified):
                universal = (form.word == "forall") == positive
                if not universal and (inside or has_free) or same:
                    self.tell(29, form)
                inside = inside or universal
            for part, sign in signed(form, positive):
                walk(part, sign, inside, same or isinstance(form, Joined) and form.sign == "<->")

        walk(form, True, False, False)

    def existential(self, form, positive, found):
        """The variables of the quantifiers that are existential in force, in order."""
        if isinstance(form, Quantified) and (form.word == "exists") == positive:
            seen = set()
            for binder in form.binders:
                if binder.text not in seen:
                    found.append(binder)
                seen.add(binder.text)
        for part, sign in signed(form, positive):
            self.existential(part, sign, found)

    def fixed(self, form):
        """What an axiom names is assigned nowhere."""
        named = [form] if isinstance(form, Atom) else []
        named += [term for term in terms_of(form) if isinstance(term, Symbol)]
        for name in named:
            if isinstance(self.first.get(name.text), (Relation, Individual)) and name.text in self.assigned:
                self.tell(27, name)
        for part in parts_of(form):
            self.fixed(part)

    # Types.

    def formula(self, target, form, scope, whole=False):
        """The names, types and variables of a formula, with the terms of the target before it, if it has one. Where
        it is the whole right side of an update of an individual, a bare name there is a term."""
        # A variable is its first place. Each has a set of types; links join the variables that are compared.
        types, links, orders, free = collections.OrderedDict(), [], [], {}

        def variable(term, bound):
            if term.sort is not None:
                self.type_place(term.sort)
            if term.text in bound:
                key = bound[term.text]
            else:
                key = free.setdefault(term.text, term.at)
            types.setdefault(key, set())
            if term.sort is not None:
                types[key].add(term.sort.text)
            return key

        def symbol(term):
            """The type of a name that stands as a term, if it has one."""
            meaning = self.meaning(term.text, scope)
            if meaning is None:
                self.tell(22, term)
            elif meaning[0] == "relation":
                self.tell(24, term)
            else:
                return meaning[1]
            return None

        def argument(term, sort, bound):
            if isinstance(term, Variable):
                key = variable(term, bound)
                if sort is not None:
                    types[key].add(sort)
            else:
                own = symbol(term)
                if sort is not None and own is not None and own != sort:
                    self.tell(24, term)

        def compare(form, bound):
            sides = []
            for term in (form.left, form.right):
                if isinstance(term, Variable):
                    sides.append((variable(term, bound), None))
                else:
                    sides.append((None, symbol(term)))
            (left, left_type), (right, right_type) = sides
            if left is not None and right is not None:
                links.append((left, right))
            elif left is not None and right_type is not None:
                types[left].add(right_type)
            elif right is not None and left_type is not None:
                types[right].add(left_type)
            elif left_type is not None and right_type is not None and left_type != right_type:
                self.tell(24, form.right)
            if form.sign in ("<", "<="):
                orders.append((form.left, sides))

        def walk(form, bound, whole):
            if isinstance(form, Atom):
                meaning = self.meaning(form.text, scope)
                sorts = []
                if meaning is None:
                    self.tell(22, form)
                elif meaning[0] == "relation":
                    sorts = meaning[1]
                    if whole:
                        self.tell(24, form)
                    elif len(form.args) != len(sorts):
                        self.tell(23, form)
                else:
                    if form.args:
                        self.tell(23, form)
                    if not whole:
                        self.tell(24, form)
                for term, sort in places(form.args, sorts):
                    argument(term, sort, bound)
            elif isinstance(form, Compare):
                compare(form, bound)
            elif isinstance(form, Quantified):
                inner, own = dict(bound), {}
                for binder in form.binders:
                    if binder.text in own:
                        self.tell(21, binder)
                    else:
                        own[binder.text] = inner[binder.text] = binder.at
                    variable(binder, own)
                walk(form.body, inner, False)
            else:
                for part in parts_of(form):
                    walk(part, bound, False)

        for term, sort in target:
            argument(term, sort, {})
        walk(form, {}, whole)
        changed = True
        while changed:
            changed = False
            for one, other in links:
                both = types[one] | types[other]
                changed = changed or types[one] != both or types[other] != both
                types[one], types[other] = set(both), set(both)
        for at, some in types.items():
            if not some:
                self.tell(25, at)
            elif len(some) > 1:
                self.tell(24, at)
        self.past(12, sorted(types))
        for left, sides in orders:
            some = set()
            for key, sort in sides:
                some |= types[key] if key is not None else {sort}
            if any(isinstance(self.first.get(sort), Type) and not self.first[sort].ordered for sort in some):
                self.tell(26, left)


def places(args, sorts):
    """Each argument with the type of its place, where the declaration has one."""
    return [(term, sorts[i] if i < len(sorts) else None) for i, term in enumerate(args)]


def terms_of(form):
    return form.args if isinstance(form, Atom) else [form.left, form.right] if isinstance(form, Compare) else []


def signed(form, positive):
    """The parts of a formula, each with whether it stands under an even number of negations."""
    if isinstance(form, Joined) and form.sign == "->":
        return [(form.parts[0], not positive), (form.parts[1], positive)]
    if isinstance(form, Joined) and form.sign == "~":
        return [(form.parts[0], not positive)]
    return [(part, positive) for part in parts_of(form)]


def free_variables(form, bound):
    if isinstance(form, Quantified):
        bound = bound | {binder.text for binder in form.binders}
    found = {term.text for term in terms_of(form) if isinstance(term, Variable)} - bound
    for part in parts_of(form):
        found |= free_variables(part, bound)
    return found


def judge(text):
    """All faults of a file, each as line, column and number, in order; the first is the one that is told."""
    faults = sorted(Judge(Parser(text).file()).faults)
    return [(text.count("\n", 0, at) + 1, at - text.rfind("\n", 0, at), number) for at, number in faults]


def compare(program, number, seed, folder, kept):
    """Whether the program tells what this judge tells of one random file, with the number of the first fault."""
    text = Maker(random.Random(f"{seed} {number}")).file()
    path = folder / f"{number}.ivy"
    path.write_text(text)
    faults = judge(text)
    done = subprocess.run([program, "space", path, "--lits", "0"], capture_output=True, text=True, timeout=120)
    if faults:
        line, column, first = faults[0]
        wanted = f"{path}:{line}:{column}: E{first} {WORDS[first]}\n"
        agrees = (done.stdout, done.stderr, done.returncode) == ("", wanted, 2)
    else:
        wanted = "no fault\n"
        told = re.search(r":(\d+):(\d+): E(\d+) ", done.stderr)
        agrees = done.returncode in (0, 2) and told is None
    if not agrees:
        print(f"DIFFER: file {number} of seed {seed}: wanted {wanted}told {done.stderr}status {done.returncode}\n{text}")
        if kept:
            (kept / path.name).write_text(text)
    path.unlink()
    return agrees, faults[0][2] if faults else 0


def main():
    parser = argparse.ArgumentParser(description=__doc__, formatter_class=argparse.RawDescriptionHelpFormatter)
    parser.add_argument("--program", default="./distai")
    parser.add_argument("--files", type=int, default=2000)
    parser.add_argument("--seed", type=int, default=1)
    parser.add_argument("--keep", type=pathlib.Path)
    parser.add_argument("--judge", type=pathlib.Path)
    given = parser.parse_args()
    if given.judge:
        for line, column, number in judge(given.judge.read_text()):
            print(f"{given.judge}:{line}:{column}: E{number} {WORDS[number]}")
        return 0
    counts, agreed = collections.Counter(), 0
    with tempfile.TemporaryDirectory() as folder:
        for number in range(given.files):
            agrees, first = compare(given.program, number, given.seed, pathlib.Path(folder), given.keep)
            agreed += agrees
            counts[first] += 1
    told = ", ".join(f"E{number} {count}" for number, count in sorted(counts.items()) if number)
    print(f"first faults: {told}; no fault {counts[0]}")
    print(f"{agreed} agree, {given.files - agreed} differ")
    return 0 if agreed == given.files else 1


if __name__ == "__main__":
    sys.exit(main())
