"""Random small protocols of the language with at most two types, for `typed_answers.py`.

Each has so few parameters, locals, individuals and variables of a type that structures of three elements of it tell
all there is to tell.
"""

import re

NAMES = "p q r s link up held seen".split()
VARIABLES = "XYZ"
SIZE = 3


class Maker:
    """One random protocol and the options to ask with."""

    def __init__(self, rng, types=None):
        self.rng = rng
        count = rng.choice([0, 1, 1, 1, 1, 2, 2]) if types is None else types
        sorts = rng.sample(["node", "round", "key"], count)
        ordered = rng.choice([None, *sorts[:1]]) if rng.random() < 0.7 else rng.choice([None, *sorts])
        self.types = {sort: sort == ordered for sort in sorts}
        self.most = {sort: rng.choice([1, 2, 2] if sort == ordered else [0, 1, 1, 1, 2, 2, 2]) for sort in sorts}
        self.literals = rng.choice([0, 1, 1, 2, 2, 2, 2, 3])
        sizes = [0, 0, 1, 1, 1, 1, 2] if sorts else [0]
        names = iter(rng.sample(NAMES, len(NAMES)))
        places = lambda: [rng.choice(sorts) for _ in range(rng.choice(sizes))]
        self.relations = {next(names): places() for _ in range(rng.randint(1, 3))}
        if not sorts:
            self.relations.update({next(names): [] for _ in range(rng.randint(0, 2))})
        self.individuals = {f"c{i}": sort for i, sort in enumerate(sorts) if self.most[sort] < SIZE and rng.random() < 0.3}
        # How many elements of a type a block may choose, and how many variables of it an invariant may have.
        named = lambda sort: list(self.individuals.values()).count(sort)
        self.room = {sort: SIZE - named(sort) - self.most[sort] for sort in sorts}
        self.asked = {sort: SIZE - named(sort) for sort in sorts}
        everything = [*self.relations, *self.individuals]
        self.fixed = set(rng.sample(everything, 1)) if rng.random() < 0.35 and len(everything) > 1 else set()

    def words(self):
        """The options, some of them left out where they say what holds without them."""
        rng = self.rng
        bounds = [f"{sort}={most}" for sort, most in self.most.items() if most != 2 or rng.random() < 0.5]
        given = [["--vars", ",".join(bounds)]] if bounds else []
        given += [["--lits", str(self.literals)]] if self.literals != 2 or rng.random() < 0.5 else []
        rng.shuffle(given)
        return [word for pair in given for word in pair]

    # Formulas. `names` and `variables` have the types of what may stand as a term.

    def term(self, sort, names, variables):
        """A term of a type, or none where there is none."""
        own = [name for name, its in variables.items() if its == sort]
        return self.rng.choice([*own, *own, *(name for name, its in names.items() if its == sort)] or [None])

    def atom(self, names, variables, relations=None):
        rng = self.rng
        for _ in range(6):
            if self.types and rng.random() < 0.25:
                sort = rng.choice(list(self.types))
                left, right = self.term(sort, names, variables), self.term(sort, names, variables)
                if left and right and left != right:
                    mark = f":{sort}" if left in variables else ""
                    return f"{left}{mark} {rng.choice(['=', '~=', *['<', '<='] * (2 * self.types[sort])])} {right}"
                continue
            name = rng.choice(list(self.relations) if relations is None else relations or [None])
            if name:
                args = [self.term(sort, names, variables) for sort in self.relations[name]]
                if None not in args:
                    return f"{name}({', '.join(args)})" if args else name
        return rng.choice(["true", "true", "false"])

    def form(self, names, variables, depth=2, relations=None):
        """A formula without quantifiers."""
        rng = self.rng
        pick = rng.random() if depth else 0
        again = lambda: self.unit(self.form(names, variables, depth - 1, relations))
        if pick < 0.4:
            atom = self.atom(names, variables, relations)
            return atom if rng.random() < 0.6 else f"~{self.unit(atom)}"
        if pick < 0.85:
            return rng.choice([" & ", " | "]).join(again() for _ in range(rng.choice([2, 2, 3])))
        return rng.choice([" -> ", " <-> "]).join([again(), again()])

    def unit(self, text):
        return text if re.fullmatch(r"~?\w+(\([^()]*\))?", text) else f"({text})"

    def some_variables(self, room):
        """Variables with their types, not more of a type than there is room for."""
        pool = [sort for sort, count in room.items() for _ in range(count)]
        self.rng.shuffle(pool)
        return dict(zip(VARIABLES, pool[: self.rng.choice([0, 1, 2, 2, 3])]))

    def bound(self, variables):
        return ", ".join(f"{name}:{sort}" for name, sort in variables.items())

    def whole(self, room, names, relations=None):
        """A formula whose variables are universal: free, or bound here, or by a negated `exists`."""
        variables = self.some_variables(room)
        form = self.form(names, variables, 2, relations)
        pick = self.rng.random()
        if variables and pick < 0.2:
            return f"forall {self.bound(variables)}. {form}"
        if variables and pick < 0.3:
            return f"~(exists {self.bound(variables)}. {form})"
        return form

    def about_others(self, names):
        """A requirement about all other elements of a type, or all that are above or below one; or none."""
        rng = self.rng
        sort = rng.choice([sort for sort in self.types for _ in range(1 + 2 * self.types[sort])] or [None])
        own = [name for name, its in names.items() if its == sort]
        about = [name for name, sorts in self.relations.items() if sorts and set(sorts) == {sort}]
        if not own or not about:
            return None
        name, element = rng.choice(about), rng.choice(own)
        args = [rng.choice(["X1", "X1", element]) for _ in self.relations[name]]
        signs = ["<", "<", "<="] if self.types[sort] else ["~=", "~="]
        side = f"{element} {rng.choice(signs)} X1" if rng.random() < 0.5 else f"X1:{sort} {rng.choice(signs)} {element}"
        return f"forall X1:{sort}. {side} -> {rng.choice(['', '~'])}{name}({', '.join(args)})"

    def about_some(self, names, room):
        """A requirement that some element, other than those at hand, is as they are; or none."""
        rng = self.rng
        sort = rng.choice([sort for sort, count in room.items() if count] or [None])
        about = [name for name, sorts in self.relations.items() if sorts == [sort]]
        if not about:
            return None
        room[sort] -= 1
        own = [name for name, its in names.items() if its == sort]
        sign, name = rng.choice(["", "~"]), rng.choice(about)
        like = [part for element in own for part in (f"X1 ~= {element}", f"{sign}{name}({element})")]
        return f"exists X1:{sort}. {' & '.join([*like, f'{sign}{name}(X1)'])}"

    def requirement(self, names, room):
        """A formula that may ask for elements, no more of them than there is room for."""
        rng = self.rng
        about = rng.choice([None, None, None, self.about_others, self.about_others, lambda names: self.about_some(names, room)])
        about = about and about(names)
        if about:
            return about
        some = self.some_variables(room) if rng.random() < 0.3 else {}
        for sort in some.values():
            room[sort] -= 1
        every = self.some_variables(dict.fromkeys(self.types, 1)) if rng.random() < 0.4 else {}
        every = {f"{name}1": sort for name, sort in every.items()}
        form = self.form(names, {**some, **every})
        if every and (some or rng.random() < 0.7):
            form = f"forall {self.bound(every)}. {form}"
        return f"exists {self.bound(some)}. {form}" if some else form

    # Statements.

    def block(self, names, room, depth=2, least=1):
        stats = [self.stat(names, room, depth) for _ in range(self.rng.randint(least, 3))]
        return "{ " + "; ".join(stats) + " }"

    def stat(self, names, room, depth):
        rng = self.rng
        pick = rng.random()
        left = [sort for sort, count in room.items() if count]
        if pick < 0.3:
            return f"{rng.choice(['require', 'require', 'assume'])} {self.requirement(names, room)}"
        if depth and pick < 0.45:
            text = f"if {self.form(names, {})} {self.block(names, room, depth - 1)}"
            return text + (f" else {self.block(names, room, depth - 1, 0)}" if rng.random() < 0.5 else "")
        if depth and left and pick < 0.6:
            sort = rng.choice(left)
            room[sort] -= 1
            name = f"m{depth}"
            name = name if name not in names else f"k{depth}"
            return f"local {name}:{sort} {self.block({**names, name: sort}, room, depth - 1)}"
        return self.assign(names)

    def assign(self, names):
        rng = self.rng
        free = [name for name in [*self.relations, *self.individuals] if name not in self.fixed]
        name = rng.choice(free)
        if name in self.individuals:
            others = [other for other, sort in names.items() if sort == self.individuals[name]]
            return f"{name} := {rng.choice(others)}"
        variables, args = {}, []
        for number, sort in enumerate(self.relations[name]):
            term = self.term(sort, names, {}) if rng.random() < 0.6 else None
            args.append(term or VARIABLES[number])
            if not term:
                variables[VARIABLES[number]] = sort
        right = rng.choice(["true", "true", "false"]) if rng.random() < 0.6 else self.form(names, variables)
        return f"{name}({', '.join(args)}) := {right}" if args else f"{name} := {right}"

    # Files.

    def start(self, name):
        """Init of one relation."""
        args = [VARIABLES[i] for i in range(len(self.relations[name]))]
        variables = dict(zip(args, self.relations[name]))
        plain = self.rng.random() < 0.8
        value = self.rng.choice(["false", "false", "true"]) if plain else self.form(self.individuals, variables)
        return f"{name}({', '.join(args)}) := {value}" if args else f"{name} := {value}"

    def init(self):
        rng = self.rng
        stats = [self.start(name) for name in self.relations if name not in self.fixed and rng.random() < 0.85]
        room = dict(self.room)
        stats += [self.stat(dict(self.individuals), room, 1) for _ in range(rng.choice([0, 0, 0, 1]))]
        rng.shuffle(stats)
        return "after init { " + "; ".join(stats) + " }"

    def action(self, name):
        rng = self.rng
        room = dict(self.room)
        params = {}
        for own in ("x", "y")[: rng.choice([0, 1, 1, 1, 2])]:
            left = [sort for sort, count in room.items() if count]
            if left:
                params[own] = rng.choice(left)
                room[params[own]] -= 1
        names = {**self.individuals, **params}
        head = f"{name}({self.bound(params)})" if params else name
        body = self.block(names, room, least=2)
        if rng.random() < 0.6:
            asked = rng.random() < 0.5 and self.about_others(names) or rng.random() < 0.4 and self.about_some(names, room)
            body = f"{{ require {asked or self.form(names, {})}; {body[2:]}"
        return f"{'export ' if rng.random() < 0.95 else ''}action {head} = {body}"

    def file(self):
        rng = self.rng
        decls = [f"{'ordered ' if ordered else ''}type {name}" for name, ordered in self.types.items()]
        for name, sorts in self.relations.items():
            binders = ", ".join(f"{VARIABLES[i]}:{sort}" for i, sort in enumerate(sorts))
            decls.append(f"relation {name}({binders})" if sorts else f"relation {name}")
        decls += [f"individual {name} : {sort}" for name, sort in self.individuals.items()]
        fixed = {name: sort for name, sort in self.individuals.items() if name in self.fixed}
        relations = [name for name in self.relations if name in self.fixed]
        if self.fixed and rng.random() < 0.85:
            decls.append(f"axiom {self.whole(dict.fromkeys(self.types, 3), fixed, relations)}")
        if len(self.fixed) < len(self.relations) + len(self.individuals):
            decls += [self.init()] if rng.random() < 0.95 else []
            decls += [self.action(f"a{i}") for i in range(rng.choice([1, 1, 2]))]
        for _ in range(rng.choice([1, 1, 2])):
            label = rng.choice(["", "[safe] ", "[Safe] ", "[7] "])
            decls.append(f"{rng.choice(['invariant', 'conjecture'])} {label}{self.whole(self.asked, self.individuals)}")
        return "\n".join(decls) + "\n"
