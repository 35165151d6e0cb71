"""Random files of the language with types, faulty in zero to three places, for `second_judge.py`.

A file obeys the rules of names, types, quantifiers and limits, save at places that its plan spoils; and now and then
it breaks one by chance.
"""

import re

SPOILS = (
    "21 global,21 parameter,21 later,21 list,21 scope,21 quantifier,22 type,22 name,22 target,22 export,23 few,23 many,"
    "23 target,23 element,24 argument,24 other side,24 two types,24 relation,24 atom,24 side,24 name,25 free,25 bound,"
    "26 order,27 axiom,28 exists,28 chain,29 inside,29 free,29 chain,30 quantifier,30 condition,30 loose,31 target,"
    "31 twice,42 types,42 relations,42 individuals,42 arguments,42 actions,42 parameters,42 locals,42 variables,"
    "42 axioms,42 invariants,42 existential"
).split(",")
SMALL = "node client server round link lock up owner seen vote epoch done ready token a b c p q r x y z m n k".split()
CAPITAL = ["X", "Y", "Z", "V", "W", "Node1", "A_b"]


class Maker:
    """One random file: declarations that obey the rules, save at the places that the plan spoils."""

    def __init__(self, rng):
        self.rng = rng
        self.plan = rng.sample(SPOILS, rng.choice([0, 1, 1, 2, 2, 3]))
        self.fresh = [f"{word}{i or ''}" for i in range(12) for word in rng.sample(SMALL, len(SMALL))][::-1]
        self.types = {self.new(): rng.random() < 0.4 for _ in range(rng.randint(1, 3))}
        sort = lambda: rng.choice(list(self.types))
        self.relations = {self.new(): [sort() for _ in range(rng.choice([0, 1, 1, 2, 2, 3]))] for _ in range(rng.randint(2, 4))}
        self.individuals = {self.new(): sort() for _ in range(rng.randint(0, 3))}
        self.fixed = {name for name in [*self.relations, *self.individuals] if rng.random() < 0.3}
        self.actions = [self.new() for _ in range(rng.randint(1, 3))]

    def new(self):
        return self.fresh.pop()

    def spoils(self, kind, odds=0.5):
        """Whether this place is to have a fault of the kind; each of the plan is used once."""
        if kind in self.plan and self.rng.random() < odds:
            self.plan.remove(kind)
            return True
        return False

    def sort(self, own=None):
        """A type, or now and then what is none."""
        if self.spoils("22 type", 0.2):
            return self.rng.choice([self.new(), *self.relations, *self.actions])
        return own or self.rng.choice(list(self.types))

    def other_sort(self, sort):
        return self.rng.choice([other for other in self.types if other != sort] or [sort])

    # Formulas. `names` has the type of each name that may stand as a term, `variables` that of each variable.

    def term(self, sort, names, variables, mark=0.2):
        fitting = [name for name, own in names.items() if own == sort]
        own = [name for name, its in variables.items() if its == sort]
        pool = own * 2 + fitting
        if self.spoils("24 relation", 0.15):
            return self.rng.choice(list(self.relations))
        if self.spoils("22 name", 0.15):
            return self.rng.choice([self.new(), *self.types, *self.actions])
        if not pool:
            return None
        name = self.rng.choice(pool)
        if name[0].isupper() and self.rng.random() < mark:
            return f"{name}:{self.sort(sort)}"
        return name

    def atom(self, names, variables, relations=None):
        rng = self.rng
        if names and self.spoils("24 atom", 0.15):
            return rng.choice(list(names))
        if names and self.spoils("23 element", 0.15):
            return f"{rng.choice(list(names))}({rng.choice(list(names))})"
        if self.spoils("22 name", 0.15):
            return rng.choice([self.new(), *self.types, *self.actions])
        for _ in range(4):
            if rng.random() < 0.3:
                sort = rng.choice(list(self.types))
                left = self.term(sort, names, variables, 0.9)
                if left is None:
                    continue
                if self.spoils("24 other side", 0.4):
                    sort = self.other_sort(sort)
                right = self.term(sort, names, variables, 0.5)
                if right is None:
                    continue
                signs = ["=", "~="] + (["<", "<="] if self.types[sort] or self.spoils("26 order") else [])
                return f"{left} {rng.choice(signs)} {right}"
            name = rng.choice(list(relations or self.relations))
            sorts = list(self.relations[name])
            if sorts and self.spoils("24 argument", 0.2):
                i = rng.randrange(len(sorts))
                sorts[i] = self.other_sort(sorts[i])
            args = [self.term(sort, names, variables) for sort in sorts]
            if None in args:
                continue
            if args and self.spoils("23 few", 0.2):
                args.pop()
            elif args and self.spoils("23 many", 0.2):
                args.append(args[0])
            return f"{name}({', '.join(args)})" if args else name
        return rng.choice(["true", "false"])

    def form(self, names, variables, quantify, depth=3, positive=True, relations=None):
        """A formula; `quantify` says which quantifiers it may have at this place: a set of those in force."""
        rng = self.rng
        again = lambda **more: self.form(names, variables, **{"quantify": quantify, "depth": depth - 1, "positive": positive, "relations": relations, **more})
        pick = rng.random()
        if depth == 0 or pick < 0.25:
            return self.atom(names, variables, relations)
        if pick < 0.4:
            return f"~({again(positive=not positive)})" if rng.random() < 0.5 else "~" + self.unit(again(positive=not positive))
        if pick < 0.75:
            sign = rng.choice([" & ", " | "])
            return sign.join(self.unit(again()) for _ in range(rng.randint(2, 3)))
        if pick < 0.85:
            return f"{self.unit(again(positive=not positive))} -> {self.unit(again())}"
        if pick < 0.92 or not quantify:
            sides = [self.unit(again(quantify=set())) for _ in range(rng.randint(2, 3))]
            if quantify and self.spoils(self.chain_kind, 0.6):
                sides[0] = f"({rng.choice(['forall', 'exists'])} X:{self.sort()}. {self.atom(names, {**variables, 'X': next(iter(self.types))}, relations)})"
            return " <-> ".join(sides)
        return self.quantified(names, variables, quantify, depth, positive, relations)

    chain_kind = "28 chain"

    def unit(self, text):
        return text if re.fullmatch(r"[\w:]+(\([^()]*\))?", text) else f"({text})"

    def quantified(self, names, variables, quantify, depth, positive, relations):
        rng = self.rng
        force = rng.choice(sorted(quantify))
        if force == "exists" and "forall" in quantify and rng.random() < 0.3:
            force = "forall"
        if force == "forall":
            quantify = quantify - {"exists"}
        word = force if positive else {"forall": "exists", "exists": "forall"}[force]
        own = {name: rng.choice(list(self.types)) for name in rng.sample(CAPITAL, rng.choice([1, 1, 2]))}
        inner = {**variables, **own}
        binders = []
        for name, sort in own.items():
            if self.spoils("25 bound"):
                binders.append("Unused")
            binders.append(f"{name}:{self.sort(sort)}" if rng.random() < 0.9 else name)
            if self.spoils("24 two types", 0.4):
                inner[name] = self.other_sort(sort)
            if self.spoils("21 quantifier"):
                binders.append(name)
        return f"{word} {', '.join(binders)}. {self.form(names, inner, quantify, depth - 1, positive, relations)}"

    def free(self):
        names = self.rng.sample(CAPITAL, self.rng.choice([0, 1, 2, 2, 3]))
        return {name: self.rng.choice(list(self.types)) for name in names}

    def whole(self, relations=None, names=None):
        """The formula of an axiom or invariant."""
        self.chain_kind = "28 chain"
        variables = self.free()
        if relations is not None and not relations:
            return "true"
        form = self.form(names if names is not None else dict(self.individuals), variables, {"forall"}, relations=relations)
        if self.spoils("28 exists"):
            form = f"({form}) & (exists V:{self.sort()}. V = V)"
        return self.with_more(form, variables)

    def with_more(self, form, variables):
        """One part more that spoils the types or the number of the variables."""
        if self.spoils("25 free"):
            form = f"({form}) | {self.rng.choice(['Free = Free', 'Free = Other', 'Free ~= Free'])}"
        if variables and self.spoils("24 two types"):
            name, sort = self.rng.choice(list(variables.items()))
            form = f"{name}:{sort} = {name}:{self.other_sort(sort)} & ({form})"
        if self.spoils("42 variables"):
            sort = next(iter(self.types))
            form = f"({form}) & " + " & ".join(f"V{i}:{sort} = V{i}" for i in range(self.rng.randint(9, 14)))
        return form

    def requirement(self, names):
        self.chain_kind = "29 chain"
        variables = self.free() if self.rng.random() < 0.5 else {}
        quantify = {"forall"} if variables else {"exists", "forall"}
        form = self.form(names, variables, quantify)
        sort = self.sort()
        if self.spoils("29 inside"):
            form = f"forall V:{sort}. {self.rng.choice(['~', ''])}(exists W:{sort}. V = W)"
        if self.spoils("29 free"):
            form = f"V:{sort} = V & (exists W:{sort}. W = W)"
        if self.spoils("42 existential"):
            some = ", ".join(f"E{i}:{sort}" for i in range(self.rng.choice([9, 11])))
            form = f"(exists {some}. true) & (exists {some}. true)"
        return self.with_more(form, variables)

    # Statements.

    def block(self, names, room, depth=2, least=0):
        stats = [self.stat(names, room, depth) for _ in range(self.rng.randint(least, 3))]
        text = "".join(stat + ("" if stat[-1] == "}" and self.rng.random() < 0.5 else ";") + "\n" for stat in stats)
        return "{\n" + (text[:-2] + "\n" if text[-2:-1] == ";" and self.rng.random() < 0.5 else text) + "}"

    def stat(self, names, room, depth):
        rng = self.rng
        pick = rng.random()
        if pick < 0.25:
            return f"{rng.choice(['require', 'assume'])} {self.requirement(names)}"
        if pick < 0.7 or depth == 0:
            return self.assign(names)
        if pick < 0.87:
            form = self.form(names, {}, set(), 2)
            if self.spoils("30 condition"):
                sort = self.sort()
                form = f"({form}) | {rng.choice([f'X:{sort} = X', 'X = Y', f'(exists X:{sort}. true)'])}"
            text = f"if {form} {self.block(names, room, depth - 1)}"
            if rng.random() < 0.5:
                text += f" else {self.block(names, room, depth - 1)}"
            return text
        binders, own = [], {}
        count = 9 if self.spoils("42 locals") else min(room[0], rng.choice([1, 1, 2]))
        room[0] -= min(count, room[0])
        for _ in range(count):
            name = self.new()
            sort = rng.choice(list(self.types))
            if self.spoils("21 scope"):
                name = rng.choice([*names, *self.relations])
            binders.append(f"{name}:{self.sort(sort)}")
            own[name] = sort
            if self.spoils("21 list", 0.3):
                binders.append(binders[0])
        if not binders:
            return self.assign(names)
        return f"local {', '.join(binders)} {self.block({**names, **own}, room, depth - 1)}"

    def assign(self, names):
        rng = self.rng
        if self.spoils("22 target"):
            return f"{rng.choice([self.new(), *self.types, *self.actions])} := true"
        locals_ = [name for name in names if name not in self.individuals]
        if locals_ and self.spoils("31 target"):
            return f"{rng.choice(locals_)} := {rng.choice(list(names))}"
        free = [name for name in self.individuals if name not in self.fixed]
        if free and rng.random() < 0.3:
            name = rng.choice(free)
            sort = self.individuals[name]
            if self.spoils("24 side"):
                return f"{name} := {self.form(names, {}, set(), 1)}"
            if self.spoils("24 name"):
                sort = self.other_sort(sort)
            right = rng.choice([other for other, own in names.items() if own == sort] or [name])
            return f"{name} := {rng.choice(['{}', '({})']).format(right)}"
        free = [name for name in self.relations if name not in self.fixed] or list(self.relations)
        name = rng.choice(free)
        variables, args = {}, []
        for sort in self.relations[name]:
            left = [own for own in CAPITAL if own not in variables]
            if rng.random() < 0.6:
                if variables and self.spoils("31 twice"):
                    args.append(rng.choice(list(variables)))
                    continue
                args.append(rng.choice(left))
                variables[args[-1]] = sort
            else:
                args.append(self.term(sort, names, {}) or "X9")
                if args[-1] == "X9":
                    args[-1] = rng.choice(left)
                    variables[args[-1]] = sort
        if args and self.spoils("23 target"):
            args.pop()
        form = self.form(names, variables, set(), 2)
        if self.spoils("30 quantifier"):
            form = f"({form}) & (forall X:{self.sort()}. true)"
        if self.spoils("30 loose"):
            form = f"Loose:{self.sort()} = Loose | ({form})"
        return f"{name}({', '.join(args)}) := {form}" if args else f"{name} := {form}"

    # Files.

    def binders(self, sorts, name):
        return "(" + ", ".join(f"{name(i)}:{self.sort(sort)}" for i, sort in enumerate(sorts)) + ")" if sorts else ""

    def action(self, name):
        rng = self.rng
        params = {self.new(): rng.choice(list(self.types)) for _ in range(rng.choice([0, 1, 1, 2, 3]))}
        if self.spoils("42 parameters"):
            params.update({self.new(): next(iter(self.types)) for _ in range(6)})
        later = [x for x in self.relations]
        if self.spoils("21 parameter"):
            params[rng.choice([*later, *self.types, *self.actions])] = rng.choice(list(self.types))
        listed = list(params.items())
        if listed and self.spoils("21 list", 0.5):
            listed.append(listed[0])
        text = "(" + ", ".join(f"{own}:{self.sort(sort)}" for own, sort in listed) + ")" if listed else ""
        exported = rng.choice(["export ", ""])
        body = self.block({**self.individuals, **params}, [6], least=1)
        return f"{exported}action {name}{text} = {body}"

    def file(self):
        rng = self.rng
        decls = [f"{'ordered ' if ordered else ''}type {name}" for name, ordered in self.types.items()]
        for name, sorts in self.relations.items():
            if self.spoils("42 arguments"):
                sorts = sorts + [self.sort() for _ in range(6)]
            decls.append(f"relation {name}" + self.binders(sorts, lambda i: rng.choice(["X", "y"]) + str(i)))
        decls += [f"individual {name} : {self.sort(sort)}" for name, sort in self.individuals.items()]
        decls += [self.action(name) for name in self.actions]
        decls += [f"export {name}" for name in self.actions if rng.random() < 0.5]
        room = [6]
        decls += [f"after init {self.block(dict(self.individuals), room)}" for _ in range(rng.randint(0, 2))]
        label = lambda: rng.choice(["", "", "[safe] ", "[Safe] ", "[7] "])
        for _ in range(rng.randint(0, 2)):
            fixed = {name for name in self.relations if name in self.fixed}
            if self.spoils("27 axiom"):
                fixed = set(self.relations)
            names = {name: sort for name, sort in self.individuals.items() if name in self.fixed}
            decls.append(f"axiom {label()}{self.whole(sorted(fixed), names)}")
        word = lambda: rng.choice(["invariant", "conjecture"])
        decls += [f"{word()} {label()}{self.whole()}" for _ in range(rng.randint(1, 3))]
        for kind, some in {
            "22 export": lambda: [f"export {rng.choice([self.new(), *self.relations, *self.types])}"],
            "21 global": lambda: [f"{rng.choice(['type', 'relation'])} {rng.choice([*self.types, *self.relations, *self.individuals, *self.actions])}"],
            "42 types": lambda: [f"type {self.new()}" for _ in range(9)],
            "42 relations": lambda: [f"relation {self.new()}" for _ in range(64)],
            "42 individuals": lambda: [f"individual {self.new()} : {next(iter(self.types))}" for _ in range(17)],
            "42 actions": lambda: [f"action {self.new()} = {{ }}" for _ in range(64)],
            "42 axioms": lambda: ["axiom true"] * 65,
            "42 invariants": lambda: [f"{word()} true" for _ in range(64)],
        }.items():
            if self.spoils(kind, 0.8):
                decls += some()
        if self.spoils("21 later"):
            decls.append(f"action late({self.actions[0]}:{next(iter(self.types))}) = {{ }}")
        rng.shuffle(decls)
        return "#lang ivy1.7\n" * rng.randint(0, 1) + self.spread("\n".join(decls)) + rng.choice(["", "\n"])

    def spread(self, text):
        """Other blanks and comments here and there, so that places differ."""
        change = lambda _: self.rng.choice([" ", " ", " ", " ", "  ", "\t", "\n   ", " # and (so\n "])
        return re.sub(r"(?<=[,&|.]) ", change, text)
