#!/usr/bin/env python3
"""Compare `distai space` with a naive count on random files and options.

A file declares types, ordered or not, relations, individuals, init code, actions with parameters and locals, axioms and
invariants, in any order. While it is written, what counts is noted: the types of parameters, locals, variables of
invariants, and variables of requirements that are existential in force. The counts follow from these notes by their
definitions, over a list of all atoms. Every byte of the program's two outputs and its status have to be those of the
counts, or of the first thing that is refused: a bound for what is no type, and then atoms, templates, ground atoms
and moves past their limits.

    space_counts.py [--program PATH] [--files N] [--seed S] [--keep FOLDER]

The last line is `N agree, M differ`, and the status is 0 where none differs. Each differing file is printed, and kept
in the folder where one is given.
"""

import argparse
import collections
import dataclasses
import itertools
import math
import pathlib
import random
import subprocess
import sys
import tempfile

TYPES = "node client server round epoch key_2 b7 v".split()

# What is counted, with its limit and the words by which it is refused.
LIMITS = [
    ("atoms", 64, "E40 atoms {}, limit 64"),
    ("templates", 200_000, "E40 templates {}, limit 200000"),
    ("ground", 50_000, "E41 ground atoms {}, limit 50000"),
    ("moves", 65_536, "E43 moves {}, limit 65536"),
]


@dataclasses.dataclass
class Block:
    """The types of a block's parameters, locals and existential variables."""

    params: list = dataclasses.field(default_factory=list)
    locals: list = dataclasses.field(default_factory=list)
    witnesses: list = dataclasses.field(default_factory=list)


@dataclasses.dataclass
class Protocol:
    """The types in the order of the file, the types of each relation's arguments and of each individual, init, the
    exported actions, and the types of each invariant's variables."""

    types: list
    relations: list
    individuals: list
    init: Block
    exported: list
    invariants: list


@dataclasses.dataclass
class Options:
    """What the words say, and the words."""

    bounds: dict
    lits: int = 2
    size: int = 4
    words: list = dataclasses.field(default_factory=list)


class Writer:
    """One random file and its protocol."""

    def __init__(self, rng):
        self.rng = rng
        types = rng.sample(TYPES, rng.choice([0, 1, 1, 1, 2, 2, 2, 3, 3, 4, 5, 8]))
        self.types = {name: rng.random() < 0.4 for name in types}
        self.relations = self.some_relations()
        individuals = rng.choice([0, 0, 1, 2, 3, 16]) if types else 0
        self.individuals = {f"c{i}": rng.choice(types) for i in range(individuals)}

    def some_relations(self):
        """Many without arguments, or with one, or a few with up to five."""
        rng = self.rng
        if not self.types or rng.random() < 0.05:
            return {f"f{i}": [] for i in range(rng.randint(0, 64))}
        if rng.random() < 0.15:
            return {f"u{i}": [self.sort()] for i in range(rng.randint(3, 20))}
        lengths = [rng.choice([0, 1, 1, 2, 2, 3, 3, 4, 5]) for _ in range(rng.randint(0, 4))]
        return {f"r{i}": [self.sort() for _ in range(length)] for i, length in enumerate(lengths)}

    def sort(self):
        return self.rng.choice(list(self.types))

    def sorts(self, most):
        """So many types at most, and mostly few."""
        return [self.sort() for _ in range(min(most, self.rng.choice([0, 1, 1, 2, 2, 3, 4, 6])))] if self.types else []

    # Formulas.

    def marked(self, name, sort):
        """A formula on one variable, with its type."""
        signs = ["=", "~=", *["<", "<="] * self.types[sort]]
        return f"{name}:{sort} {self.rng.choice(signs)} {name}"

    def typed(self, name, sort):
        """A formula on one variable that says its type, or has it by what else it names."""
        alone = [f"{relation}({', '.join([name] * len(args))})" for relation, args in self.relations.items() if set(args) == {sort}]
        equal = [f"{name} = {individual}" for individual, own in self.individuals.items() if own == sort]
        return self.rng.choice([self.marked(name, sort), *alone, *equal])

    def quantified(self, universal, sorts, within=()):
        """A quantifier of this force over variables of these types, around one of the other force over those within.
        Its names may be bound elsewhere too."""
        rng = self.rng
        names = rng.sample(["X", "Y", "Z", "Node1", "V0", "V1", "W_x", "A", "B", "C", "D", "E"], len(sorts))
        is_marked = [rng.random() < 0.5 for _ in sorts]
        binders = [f"{name}:{sort}" if marked else name for name, sort, marked in zip(names, sorts, is_marked)]
        parts = [self.typed(name, sort) for name, sort, marked in zip(names, sorts, is_marked) if not marked]
        form, positive = rng.choice([("({})", True), ("(~~({}))", True), ("~({})", False), ("(({}) -> false)", False)])
        if within:
            parts.append(self.quantified(universal != positive, within))
        word = "forall" if universal == positive else "exists"
        return form.format(f"{word} {', '.join(binders)}. {' & '.join(parts or ['true'])}")

    def requirement(self, block):
        """A requirement, with quantifiers in an order in which they may stand."""
        rng = self.rng
        existential, universal = self.sorts(16 - len(block.witnesses)), self.sorts(6)
        form = "true"
        if existential and rng.random() < 0.5:
            form = self.quantified(False, existential, universal)
            block.witnesses += existential
        elif universal:
            form = self.quantified(True, universal)
        return f"{rng.choice(['require', 'assume'])} {form}"

    def invariant(self):
        """A universal formula, and the types of its variables, of which some are free."""
        rng = self.rng
        free, bound = self.sorts(6), [self.sorts(3) for _ in range(2)]
        parts = [self.typed(f"V{i}", sort) for i, sort in enumerate(free)]
        parts += [self.quantified(True, sorts) for sorts in bound if sorts]
        rng.shuffle(parts)
        return rng.choice([" & ", " | "]).join(parts or ["true"]), free + sum(bound, [])

    def axiom(self):
        """A formula that names nothing that may be assigned. Its variables count for nothing."""
        parts = [self.marked(f"V{i}", sort) for i, sort in enumerate(self.sorts(6))]
        return " | ".join(parts or ["true"])

    # Blocks and files.

    def block(self, notes, terms, depth=2):
        """A block's text. Its locals and existential variables are noted."""
        rng = self.rng
        stats = []
        for _ in range(rng.choice([0, 1, 1, 2, 3])):
            pick = rng.randrange(4)
            if pick == 0:
                stats.append(self.requirement(notes))
            elif pick == 1 and depth:
                condition = rng.choice(["true", *(f"{term} = {term}" for term in terms)])
                stats.append(f"if {condition} {self.block(notes, terms, depth - 1)}")
                if rng.random() < 0.6:
                    stats[-1] += f" else {self.block(notes, terms, depth - 1)}"
            elif pick == 2 and depth:
                own = {f"l{len(notes.locals) + i}": sort for i, sort in enumerate(self.sorts(6 - len(notes.locals)))}
                if own:
                    notes.locals += own.values()
                    binders = ", ".join(f"{name}:{sort}" for name, sort in own.items())
                    stats.append(f"local {binders} {self.block(notes, [*terms, *own], depth - 1)}")
            elif self.relations:
                name, args = rng.choice(list(self.relations.items()))
                variables = ", ".join(f"X{i}" for i in range(len(args)))
                stats.append(f"{name}({variables}) := true" if args else f"{name} := true")
        return "{ " + "; ".join(stats) + " }"

    def action(self, name):
        """An action's text and its block."""
        block = Block(self.sorts(6))
        params = [f"p{i}:{sort}" for i, sort in enumerate(block.params)]
        head = f"action {name}({', '.join(params)})" if params else f"action {name}"
        body = self.block(block, [param.split(":")[0] for param in params])
        return f"{head} = {body}", block

    def file(self):
        """The file's text and its protocol."""
        rng = self.rng
        types = {f"{'ordered ' * ordered}type {name}": name for name, ordered in self.types.items()}
        decls = [*types]
        for name, args in self.relations.items():
            binders = ", ".join(f"{rng.choice('Xy')}{i}:{sort}" for i, sort in enumerate(args))
            decls.append(f"relation {name}({binders})" if args else f"relation {name}")
        decls += [f"individual {name} : {sort}" for name, sort in self.individuals.items()]
        init, exported, invariants = Block(), [], []
        decls += [f"after init {self.block(init, [])}" for _ in range(rng.randint(0, 2))]
        for i in range(rng.choice([0, 1, 1, 2, 2])):
            text, block = self.action(f"a{i}")
            here, later = rng.random() < 0.6, rng.choice([0, 0, 0, 1, 2])
            decls += ["export " * here + text] + [f"export a{i}"] * later
            exported += [block] if here or later else []
        for word in rng.choices(["invariant", "conjecture"], k=rng.choice([0, 1, 1, 2])):
            text, variables = self.invariant()
            decls.append(f"{word} {rng.choice(['', '[safe] ', '[7] '])}{text}")
            invariants.append(variables)
        if rng.random() < 0.3:
            decls.append(f"axiom {self.axiom()}")
        rng.shuffle(decls)
        in_order = [types[decl] for decl in decls if decl in types]
        relations, individuals = list(self.relations.values()), list(self.individuals.values())
        return "\n".join(decls) + "\n", Protocol(in_order, relations, individuals, init, exported, invariants)

    def options(self, path):
        """Options, some of them left out or of no use, in any order."""
        rng = self.rng
        options, given = Options({}), []
        if self.types and rng.random() < 0.8:
            named = rng.sample(list(self.types), rng.randint(1, len(self.types)))
            options.bounds = {name: rng.choice([0, 1, 1, 2, 2, 3, 4][: 7 if len(self.types) < 6 else 5]) for name in named}
        if rng.random() < 0.04:
            options.bounds[rng.choice(["nothing", "r0", "c0", "a0"])] = 1
        if options.bounds:
            listed = list(options.bounds.items())
            rng.shuffle(listed)
            given.append(["--vars", ",".join(f"{name}={bound}" for name, bound in listed)])
        if rng.random() < 0.8:
            options.lits = rng.choice([0, 1, 1, 2, 2, 3, 4, 8])
            given.append(["--lits", f"{rng.choice(['', '00'])}{options.lits}"])
        if rng.random() < 0.7:
            options.size = rng.randint(1, 6)
            given.append(["--size", str(options.size)])
        given += [pair for pair in (["--seed", "18446744073709551615"], ["--workers", "3"]) if rng.random() < 0.1]
        rng.shuffle(given)
        options.words = ["space", str(path), *itertools.chain(*given)]
        return options


# The counts.


def tuples(sorts, limits):
    """Every list of numbers of these types, each number below the limit of its type."""
    return list(itertools.product(*(range(limits[sort]) for sort in sorts)))


def atoms(protocol, counts):
    """The atoms over so many variables of each type."""
    of_relations = [(i, *some) for i, sorts in enumerate(protocol.relations) for some in tuples(sorts, counts)]
    of_individuals = [(i, "=", *some) for i, sort in enumerate(protocol.individuals) for some in tuples([sort], counts)]
    return of_relations + of_individuals


def shapes(bounds):
    """Every way to have so many variables of each type, up to its bound."""
    return [dict(zip(bounds, some)) for some in itertools.product(*(range(bound + 1) for bound in bounds.values()))]


def clauses(count, lits):
    """How many ways there are to choose at most so many of the atoms, and for each one whether it is negated."""
    return sum(math.comb(count, chosen) * 2**chosen for chosen in range(lits + 1))


def size_bound(protocol, sort, bound):
    individuals = protocol.individuals.count(sort)
    own = [(block.params + block.locals + block.witnesses).count(sort) for block in [protocol.init, *protocol.exported]]
    variables = [some.count(sort) for some in protocol.invariants]
    return max(individuals + max(own) + bound, individuals + max(variables, default=0), 1)


def counts(protocol, options):
    """Every count by its name, and the size bounds of the types."""
    bounds = {sort: options.bounds.get(sort, 2) for sort in protocol.types}
    sizes = {sort: size_bound(protocol, sort, bounds[sort]) for sort in protocol.types}
    ground = {sort: max(size, options.size) for sort, size in sizes.items()}
    return sizes, {
        "types": len(protocol.types),
        "shapes": len(shapes(bounds)),
        "atoms": len(atoms(protocol, bounds)),
        "templates": sum(clauses(len(atoms(protocol, shape)), options.lits) for shape in shapes(bounds)),
        "ground": sum(len(tuples(sorts, ground)) for sorts in protocol.relations) + sum(ground[sort] for sort in protocol.individuals),
        "moves": sum(options.size ** len(block.params + block.locals) for block in protocol.exported),
    }


def answer(protocol, options):
    """Output, errors and status, and what is refused."""
    sizes, some = counts(protocol, options)
    path = options.words[1]
    if not set(options.bounds) <= set(protocol.types):
        at = options.words.index("--vars") + 2
        return ("", f"distai: word {at}: E03 unknown type\n", 2), ["E03"]
    refused = [(name, f"{path}: {text.format(some[name])}\n") for name, limit, text in LIMITS if some[name] > limit]
    if refused:
        return ("", refused[0][1], 2), [name for name, _ in refused]
    lines = [f"{name} {some[name]}" for name in ("types", "shapes", "atoms", "templates")]
    lines += [f"bound {sort} {size}" for sort, size in sizes.items()]
    lines += [f"{name} {some[name]}" for name in ("ground", "moves")]
    return ("".join(line + "\n" for line in lines), "", 0), []


def compare(program, number, seed, folder, kept):
    """Whether the program's answer is the naive one on one random file, and what is refused there."""
    writer = Writer(random.Random(f"{seed} {number}"))
    text, protocol = writer.file()
    path = folder / f"{number}.ivy"
    options = writer.options(path)
    wanted, refused = answer(protocol, options)
    path.write_text(text)
    done = subprocess.run([program, *options.words], capture_output=True, text=True, timeout=120)
    told = (done.stdout, done.stderr, done.returncode)
    if told != wanted:
        print(f"DIFFER: file {number} of seed {seed}: {' '.join(options.words)}\nwanted {wanted}\ntold   {told}\n{text}")
        if kept:
            (kept / path.name).write_text(text)
    path.unlink()
    return told == wanted, refused


def main():
    parser = argparse.ArgumentParser(description=__doc__, formatter_class=argparse.RawDescriptionHelpFormatter)
    parser.add_argument("--program", default="./distai")
    parser.add_argument("--files", type=int, default=500)
    parser.add_argument("--seed", type=int, default=1)
    parser.add_argument("--keep", type=pathlib.Path)
    given = parser.parse_args()
    kinds, agreed, several = collections.Counter(), 0, 0
    with tempfile.TemporaryDirectory() as folder:
        for number in range(given.files):
            agrees, refused = compare(given.program, number, given.seed, pathlib.Path(folder), given.keep)
            agreed += agrees
            kinds[refused[0] if refused else "counted"] += 1
            several += len(refused) > 1
    print(", ".join(f"{kind} {count}" for kind, count in sorted(kinds.items())) + f"; past several limits {several}")
    print(f"{agreed} agree, {given.files - agreed} differ")
    return 0 if agreed == given.files else 1


if __name__ == "__main__":
    sys.exit(main())
