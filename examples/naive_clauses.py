"""Clauses within bounds, by their definitions: their order, what is below what, and their texts.

A variable is a type's name and a number from 0. A shape is a number of variables for each type. A clause is a shape and
literals in order: twice the number of an atom of the shape, one more where it is negated.
"""

import itertools


class Space:
    """The shapes within the bounds, each with its atoms: `(relation, variables..)` and `(individual, variable)`."""

    def __init__(self, protocol, most, literals):
        self.protocol, self.sorts, self.literals = protocol, list(protocol.types), literals
        self.shapes = list(itertools.product(*(range(most[sort] + 1) for sort in self.sorts)))
        self.atoms = {shape: self.atoms_of(shape) for shape in self.shapes}

    def variables(self, shape, sort):
        return [(sort, number) for number in range(shape[self.sorts.index(sort)])]

    def atoms_of(self, shape):
        found = []
        for name, sorts in self.protocol.relations.items():
            found += [(name, *some) for some in itertools.product(*(self.variables(shape, sort) for sort in sorts))]
        for name, sort in self.protocol.individuals.items():
            found += [(name, variable) for variable in self.variables(shape, sort)]
        return found

    def mapped(self, shape, choices):
        """Each way to give the shape's variables different ones of their types' choices, in order where ordered."""
        per_sort = []
        for count, sort in zip(shape, self.sorts):
            ways = itertools.combinations if self.protocol.types[sort] else itertools.permutations
            keys = self.variables(shape, sort)
            per_sort.append([dict(zip(keys, some)) for some in ways(choices[sort], count)])
        for some in itertools.product(*per_sort):
            yield {key: value for part in some for key, value in part.items()}

    def assignments(self, shape, sizes):
        """The elements that the variables may stand for."""
        return self.mapped(shape, {sort: range(sizes[sort]) for sort in self.sorts})

    def images(self, clause, shape):
        """The literals of the clause for each way to put its variables in the place of variables of the shape."""
        own, literals = clause
        number = {atom: i for i, atom in enumerate(self.atoms[shape])}
        for way in self.mapped(own, {sort: self.variables(shape, sort) for sort in self.sorts}):
            moved = lambda atom: (atom[0], *(way[variable] for variable in atom[1:]))
            yield sorted(2 * number[moved(self.atoms[own][literal // 2])] + literal % 2 for literal in literals)

    def below(self, left, right):
        """Whether the left clause, put on some of the right one's variables, has only literals of the right one."""
        fits = all(few <= many for few, many in zip(left[0], right[0]))
        return fits and any(set(image) <= set(right[1]) for image in self.images(left, right[0]))

    def is_canonical(self, clause):
        """Whether no renaming of the variables gives a lesser list of literals."""
        return all(list(clause[1]) <= image for image in self.images(clause, clause[0]))

    def order(self, clause):
        """By what clauses are printed in order."""
        shape, literals = clause
        return sum(shape), shape, len(literals), literals

    def clauses(self):
        """All canonical clauses, in the order of print."""
        found = []
        for shape in self.shapes:
            for count in range(self.literals + 1):
                for some in itertools.combinations(range(len(self.atoms[shape])), count):
                    found += [(shape, signed) for signed in itertools.product(*((2 * i, 2 * i + 1) for i in some))]
        return sorted(filter(self.is_canonical, found), key=self.order)

    def minimal(self, clauses):
        """Those of the canonical clauses, given in the order of print, that have no other one below them."""
        found = []
        for clause in clauses:
            # What is below a clause and isn't a renaming of it comes before it.
            if not any(self.below(other, clause) for other in found):
                found.append(clause)
        return found

    # Texts.

    def name(self, variable):
        sort, number = variable
        return f"{sort[0].upper()}{sort[1:]}{number + 1}"

    def literal(self, shape, literal):
        name, *variables = self.atoms[shape][literal // 2]
        names = [self.name(variable) for variable in variables]
        if name in self.protocol.individuals:
            return f"{names[0]} {'~=' if literal % 2 else '='} {name}"
        return "~" * (literal % 2) + (f"{name}({','.join(names)})" if names else name)

    def text(self, clause):
        shape, literals = clause
        own = {sort: self.variables(shape, sort) for sort in self.sorts}
        quantified = [f"{self.name(variable)}:{sort}" for sort in self.sorts for variable in own[sort]]
        guards = []
        for sort, some in own.items():
            ordered = self.protocol.types[sort]
            pairs = zip(some, some[1:]) if ordered else itertools.combinations(some, 2)
            guards += [f"{self.name(one)} {'<' if ordered else '~='} {self.name(other)}" for one, other in pairs]
        text = " | ".join(self.literal(shape, literal) for literal in literals) or "false"
        text = f"{' & '.join(guards)} -> {text}" if guards else text
        return f"forall {', '.join(quantified)}. {text}" if quantified else text
