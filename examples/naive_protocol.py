"""A file of the language as `naive_answer.py` needs it: what is declared, the type of each variable, and the sizes up
to which structures have to be looked at.

The file is taken to break no rule. Nothing here is shared with the program.
"""

import dataclasses

from second_parser import (
    Action, Atom, Axiom, Compare, Export, If, Individual, Init, Invariant, Joined, Local, Parser, Quantified,
    Relation, Require, Type, Variable,
)


def terms_of(form):
    """The terms directly in a formula."""
    return form.args if isinstance(form, Atom) else [form.left, form.right] if isinstance(form, Compare) else []


def parts_of(form):
    """The formulas directly under a formula, each with whether it stands under one negation."""
    if isinstance(form, Quantified):
        return [(form.body, False)]
    if isinstance(form, Joined) and form.sign == "->":
        return [(form.parts[0], True), (form.parts[1], False)]
    return [(part, form.sign == "~") for part in form.parts] if isinstance(form, Joined) else []


@dataclasses.dataclass
class Code:
    """A block: its name, the types of its parameters by name, and of its locals by their places, and its statements."""

    name: str
    params: dict
    locals: dict
    stats: list


class Protocol:
    """The declarations of a file. Types tell whether they are ordered; relations have the types of their arguments."""

    def __init__(self, text):
        decls = Parser(text).file()
        of = lambda kind: [decl for decl in decls if isinstance(decl, kind)]
        self.types = {decl.name.text: decl.ordered for decl in of(Type)}
        self.relations = {decl.name.text: [binder.sort.text for binder in decl.binders] for decl in of(Relation)}
        self.individuals = {decl.name.text: decl.sort.text for decl in of(Individual)}
        exported = {decl.name.text for decl in of(Export)} | {decl.name.text for decl in of(Action) if decl.exported}
        self.init = code("init", [], [stat for decl in of(Init) for stat in decl.block])
        self.actions = [code(decl.name.text, decl.params, decl.block) for decl in of(Action) if decl.name.text in exported]
        self.axioms = [decl.form for decl in of(Axiom)]
        self.invariants = [(decl.label or str(i + 1), decl.form) for i, decl in enumerate(of(Invariant))]
        # The type of each quantified variable by its place, and of each free variable by the place of its formula.
        self.bound, self.free = {}, {}
        for form in [*self.axioms, *(form for _, form in self.invariants)]:
            self.closed(form, {})
        for block in [self.init, *self.actions]:
            self.statements(block.stats, dict(block.params))

    def statements(self, stats, names):
        """Notes the types of the variables of all formulas that are required."""
        for stat in stats:
            if isinstance(stat, Require):
                self.closed(stat.form, names)
            elif isinstance(stat, If):
                self.statements(stat.then, names)
                self.statements(stat.other, names)
            elif isinstance(stat, Local):
                self.statements(stat.block, {**names, **{binder.name.text: binder.sort.text for binder in stat.binders}})

    def closed(self, form, names):
        """Notes the types of one formula's variables, which may be quantified or free."""
        sorts = Sorts(self, names)
        sorts.walk(form, {})
        self.bound.update({key: sort for key, sort in sorts.known.items() if isinstance(key, int)})
        self.free[id(form)] = {key: sort for key, sort in sorts.known.items() if isinstance(key, str)}

    def size_bounds(self, most):
        """For each type the size up to which structures matter, where a clause has at most so many variables of it."""
        bounds = {}
        for sort in self.types:
            individuals = list(self.individuals.values()).count(sort)
            own = [self.chosen(block).count(sort) for block in [self.init, *self.actions]]
            asked = [self.variables(form).count(sort) for _, form in self.invariants]
            bounds[sort] = max(individuals + max(own) + most[sort], individuals + max(asked, default=0), 1)
        return bounds

    def chosen(self, block):
        """The types of what a block chooses: parameters, locals, and variables that its requirements may choose."""
        return [*block.params.values(), *block.locals.values(), *(self.bound[at] for at in witnesses(block.stats))]

    def variables(self, form):
        """The types of a formula's variables, free and bound."""
        return [*self.free[id(form)].values(), *(self.bound[binder.at] for binder in binders_of(form))]


class Sorts:
    """The types of one formula's variables: a bound one is known by its place, a free one by its name."""

    def __init__(self, protocol, names):
        self.protocol, self.names, self.known, self.equal = protocol, names, {}, []

    def walk(self, form, scope):
        self.gather(form, scope)
        for _ in self.equal:
            for one, other in self.equal:
                sort = self.known.get(one) or self.known.get(other)
                if sort:
                    self.known[one] = self.known[other] = sort

    def gather(self, form, scope):
        if isinstance(form, Quantified):
            scope = {**scope, **{binder.text: binder.at for binder in form.binders}}
            for binder in form.binders:
                if binder.sort:
                    self.known[binder.at] = binder.sort.text
        for term in terms_of(form):
            if isinstance(term, Variable) and term.sort:
                self.known[scope.get(term.text, term.text)] = term.sort.text
        if isinstance(form, Atom):
            for term, sort in zip(form.args, self.protocol.relations.get(form.text, [])):
                if isinstance(term, Variable):
                    self.known[scope.get(term.text, term.text)] = sort
        elif isinstance(form, Compare):
            self.compared(form, scope)
        for part, _ in parts_of(form):
            self.gather(part, scope)

    def compared(self, form, scope):
        sides = []
        for term in (form.left, form.right):
            if isinstance(term, Variable):
                sides.append((scope.get(term.text, term.text), None))
            else:
                sides.append((None, self.names.get(term.text) or self.protocol.individuals[term.text]))
        (left, left_sort), (right, right_sort) = sides
        if left is not None and right is not None:
            self.equal.append((left, right))
        elif left is not None:
            self.known[left] = right_sort
        elif right is not None:
            self.known[right] = left_sort


def code(name, params, stats):
    return Code(name, {binder.name.text: binder.sort.text for binder in params}, locals_of(stats), stats)


def locals_of(stats):
    """The types of all locals of a block by their places, in the order of the file."""
    found = {}
    for stat in stats:
        if isinstance(stat, If):
            found.update(locals_of([*stat.then, *stat.other]))
        elif isinstance(stat, Local):
            found.update({binder.name.at: binder.sort.text for binder in stat.binders})
            found.update(locals_of(stat.block))
    return found


def witnesses(stats):
    """The places of the variables that requirements of a block may choose: those that are existential in force."""
    found = []
    for stat in stats:
        if isinstance(stat, Require):
            found += existential(stat.form, False)
        elif isinstance(stat, If):
            found += witnesses([*stat.then, *stat.other])
        elif isinstance(stat, Local):
            found += witnesses(stat.block)
    return found


def existential(form, negated):
    found = []
    if isinstance(form, Quantified) and (form.word == "exists") != negated:
        found += [binder.at for binder in form.binders]
    for part, under_negation in parts_of(form):
        found += existential(part, negated != under_negation)
    return found


def binders_of(form):
    found = list(form.binders) if isinstance(form, Quantified) else []
    for part, _ in parts_of(form):
        found += binders_of(part)
    return found
