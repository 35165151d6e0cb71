"""All structures of a list of sizes at once, and what formulas say of them and blocks do to them.

The structures are numbered. A *column* is a whole number that has one bit for each of them, 1 where something is true.
A *table* has the column of each ground atom: `(relation, elements..)`, and `(individual, element)` where the individual
is that element. So a formula's column comes from the columns of its parts, and what a block leaves is again a table
over the same structures.
"""

import itertools

from naive_protocol import parts_of, terms_of
from second_parser import Assign, Atom, Compare, If, Local, Quantified, Require, Symbol, Truth, Variable


def repeated(piece, width, times):
    """The bits of a piece of this width, so many times."""
    column, at, step = 0, 0, piece
    while times:
        if times & 1:
            column |= step << at
            at += width
        step |= step << width
        width, times = 2 * width, times >> 1
    return column


def ones(column):
    """The places of the bits that are 1."""
    text, at = bin(column)[:1:-1], -1
    while (at := text.find("1", at + 1)) >= 0:
        yield at


# The most structures of one list of sizes.
MOST = 2**26


class TooMany(Exception):
    """There are too many structures to look at all of them."""


class Structures:
    """The structures of a list of sizes that meet the axioms."""

    def __init__(self, protocol, sizes):
        self.protocol, self.sizes = protocol, sizes
        fixed = fixed_names(protocol)
        names = [*protocol.relations, *protocol.individuals]
        atoms = [self.ground(name) for name in names if name in fixed]
        self.count, table = count_of(atoms), {}
        if self.count > MOST:
            raise TooMany(sizes)
        spread(atoms, 1, self.count, table)
        self.full = (1 << self.count) - 1
        meeting = self.full
        for axiom in protocol.axioms:
            meeting &= self.closed(axiom, table, {})
        # What the axioms speak of is fixed: each way in which it meets them is taken with each way of all the rest.
        rest = [self.ground(name) for name in names if name not in fixed]
        ways, width = list(ones(meeting)), count_of(rest)
        self.count, self.table = len(ways) * width, {}
        if self.count > MOST:
            raise TooMany(sizes)
        self.full = (1 << self.count) - 1
        for key, column in table.items():
            digits = bin(column)[:1:-1].ljust(ways[-1] + 1 if ways else 0, "0")
            self.table[key] = int("".join(digits[way] * width for way in reversed(ways)) or "0", 2)
        spread(rest, 1, self.count, self.table)

    def ground(self, name):
        """The ground atoms of a name, and whether exactly one of them is true."""
        sorts = self.protocol.relations.get(name)
        own = [self.protocol.individuals[name]] if sorts is None else sorts
        return [(name, *some) for some in self.elements(own)], sorts is None

    def elements(self, sorts):
        return itertools.product(*(range(self.sizes[sort]) for sort in sorts))

    # Formulas.

    def options(self, term, table, env):
        """What a term may be: elements, each with the column where it is that element."""
        if term.text in env:
            return [(env[term.text], self.full)]
        sort = self.protocol.individuals[term.text]
        return [(element, table[term.text, element]) for element in range(self.sizes[sort])]

    def closed(self, form, table, env):
        """The column of a formula whose free variables stand for all elements."""
        free = self.protocol.free[id(form)]
        column = self.full
        for some in self.elements(free.values()):
            column &= self.column(form, table, {**env, **dict(zip(free, some))})
        return column

    def column(self, form, table, env):
        if isinstance(form, Truth):
            return self.full if form.value == "true" else 0
        if isinstance(form, (Atom, Compare)):
            return self.basic(form, table, env)
        if isinstance(form, Quantified):
            sorts = [self.protocol.bound[binder.at] for binder in form.binders]
            names = [binder.text for binder in form.binders]
            parts = [self.column(form.body, table, {**env, **dict(zip(names, some))}) for some in self.elements(sorts)]
            return self.joined("&" if form.word == "forall" else "|", parts)
        return self.joined(form.sign, [self.column(part, table, env) for part in form.parts])

    def joined(self, sign, parts):
        if sign == "~":
            return self.full ^ parts[0]
        if sign == "->":
            return self.full ^ parts[0] | parts[1]
        column = parts[0]
        for part in parts[1:]:
            column = column & part if sign == "&" else column | part if sign == "|" else self.full ^ column ^ part
        return column

    def basic(self, form, table, env):
        """The column of a relation or comparison."""
        found = 0
        for some in itertools.product(*(self.options(term, table, env) for term in terms_of(form))):
            elements = [element for element, _ in some]
            if isinstance(form, Atom):
                column = table[form.text, *elements]
            else:
                left, right = elements
                holds = {"=": left == right, "~=": left != right, "<": left < right, "<=": left <= right}[form.sign]
                column = self.full if holds else 0
            for _, where in some:
                column &= where
            found |= column
        return found

    # Blocks.

    def left_by(self, block):
        """For each list of arguments and choices: where the block leaves a state, and the table of what it leaves."""
        sorts = [*block.params.values(), *block.locals.values()]
        for some in self.elements(sorts):
            # Locals are known by their places until their block begins.
            env = dict(zip([*block.params, *block.locals], some))
            table, run = self.executed(block.stats, self.table, env, self.full, self.full)
            yield run, table

    def executed(self, stats, table, env, here, run):
        """Executes where `here` has a 1. Where `run` has a 0, some requirement was false."""
        for stat in stats:
            if isinstance(stat, Require):
                run &= self.full ^ here | self.closed(stat.form, table, env)
            elif isinstance(stat, Assign):
                table = {**table, **self.changed(stat, table, env, here)}
            elif isinstance(stat, If):
                where = here & self.column(stat.form, table, env)
                table, run = self.executed(stat.then, table, env, where, run)
                table, run = self.executed(stat.other, table, env, here ^ where, run)
            elif isinstance(stat, Local):
                own = {binder.name.text: env[binder.name.at] for binder in stat.binders}
                table, run = self.executed(stat.block, table, {**env, **own}, here, run)
        return table, run

    def changed(self, stat, table, env, here):
        """The new columns of what is assigned; all is read from the old table."""
        if stat.text in self.protocol.individuals:
            right = dict(self.options(Symbol(stat.form.text, stat.form.at), table, env))
            size = self.sizes[self.protocol.individuals[stat.text]]
            changes = [((stat.text, element), here, right.get(element, 0)) for element in range(size)]
        else:
            changes = []
            for some in self.elements(self.protocol.relations[stat.text]):
                own, where = dict(env), here
                for term, element in zip(stat.args, some):
                    if isinstance(term, Variable):
                        own[term.text] = element
                    else:
                        where &= dict(self.options(term, table, env)).get(element, 0)
                if where:
                    changes.append(((stat.text, *some), where, self.column(stat.form, table, own)))
        return {key: where & new | (self.full ^ where) & table[key] for key, where, new in changes}

    # Clauses.

    def meeting(self, states, table, clause, space):
        """Those of the states whose table meets the clause."""
        shape, literals = clause
        chosen = [(space.atoms[shape][literal // 2], literal % 2) for literal in literals]
        for some in space.assignments(shape, self.sizes):
            bad = states
            for (name, *variables), negated in chosen:
                column = table[name, *(some[variable] for variable in variables)]
                bad &= column if negated else self.full ^ column
                if not bad:
                    break
            states ^= bad
        return states


def fixed_names(protocol):
    """The relations and individuals that an axiom names."""
    named, forms = set(), list(protocol.axioms)
    while forms:
        form = forms.pop()
        named |= {form.text} if isinstance(form, Atom) else set()
        named |= {term.text for term in terms_of(form) if isinstance(term, Symbol)}
        forms += [part for part, _ in parts_of(form)]
    return named


def count_of(atoms):
    """How many ways there are to make them true or false."""
    count = 1
    for some, one in atoms:
        count *= len(some) if one else 2 ** len(some)
    return count


def spread(atoms, width, count, table):
    """Gives each ground atom its column: the first changes fastest."""
    for some, one in atoms:
        for i, key in enumerate(some):
            block = (1 << width) - 1
            if one:
                period = width * len(some)
                table[key] = repeated(block << i * width, period, count // period)
            else:
                table[key] = repeated(block << width, 2 * width, count // (2 * width))
                width *= 2
        width *= len(some) if one else 1


def structure_count(protocol, sizes):
    """How many structures of these sizes there are, axioms or not."""
    count = 1
    for sorts in protocol.relations.values():
        tuples = 1
        for sort in sorts:
            tuples *= sizes[sort]
        count *= 2**tuples
    for sort in protocol.individuals.values():
        count *= sizes[sort]
    return count
