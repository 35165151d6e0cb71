"""A lexer and a parser of their own for `second_judge.py` and `typed_answers.py`, one method for each part of the grammar."""

import collections
import re

RESERVED = set(
    "type ordered relation individual axiom after init action export invariant conjecture require assume local if "
    "else true false forall exists".split()
)
TOKEN = re.compile(
    r"[ \t\r\n]+|#[^\n]*|(?P<word>[A-Za-z0-9][A-Za-z0-9_]*)|(?P<sign><->|->|:=|~=|<=|[(){}\[\],;:.=~&|<*])"
)

Token = collections.namedtuple("Token", "kind text at")
Name = collections.namedtuple("Name", "text at")
Binder = collections.namedtuple("Binder", "name sort")
Variable = collections.namedtuple("Variable", "text at sort")
Symbol = collections.namedtuple("Symbol", "text at")
# Formulas: a truth value, an atom, a comparison, a connective with its parts, a quantifier.
Truth = collections.namedtuple("Truth", "value")
Atom = collections.namedtuple("Atom", "text at args")
Compare = collections.namedtuple("Compare", "left sign right")
Joined = collections.namedtuple("Joined", "sign parts")
Quantified = collections.namedtuple("Quantified", "word at binders body")
# Statements.
Require = collections.namedtuple("Require", "form")
Assign = collections.namedtuple("Assign", "text at args form")
If = collections.namedtuple("If", "form then other")
Local = collections.namedtuple("Local", "binders block")
# Declarations.
Type = collections.namedtuple("Type", "name ordered")
Relation = collections.namedtuple("Relation", "name binders")
Individual = collections.namedtuple("Individual", "name sort")
Axiom = collections.namedtuple("Axiom", "at form")
Init = collections.namedtuple("Init", "block")
Action = collections.namedtuple("Action", "name params block exported")
Export = collections.namedtuple("Export", "name")
Invariant = collections.namedtuple("Invariant", "at form label")


def tokens_of(text):
    at, tokens = 0, []
    while at < len(text):
        found = TOKEN.match(text, at)
        if not found:
            raise SyntaxError(f"bad byte at {at}")
        word = found.group("word")
        if word:
            if word in RESERVED:
                tokens.append(Token(word, word, at))
            else:
                kind = "digits" if word[0].isdigit() else "upper" if word[0].isupper() else "lower"
                tokens.append(Token(kind, word, at))
        elif found.group("sign"):
            tokens.append(Token(found.group(), found.group(), at))
        at = found.end()
    tokens.append(Token("end", "", at))
    return tokens


class Parser:
    """The grammar, one method for each part. Files that break it are the concern of other tests."""

    def __init__(self, text):
        self.tokens, self.at = tokens_of(text), 0

    def sees(self, *kinds):
        return self.tokens[self.at].kind in kinds

    def next(self, *kinds):
        token = self.tokens[self.at]
        if token.kind not in kinds:
            raise SyntaxError(f"{token} where {kinds} may stand")
        self.at += 1
        return token

    def takes(self, *kinds):
        return self.next(*kinds) if self.sees(*kinds) else None

    def name(self, *kinds):
        token = self.next(*(kinds or ("lower",)))
        return Name(token.text, token.at)

    def list_of(self, part):
        parts = [part()]
        while self.takes(","):
            parts.append(part())
        return parts

    def bracketed(self, part):
        if not self.takes("("):
            return []
        parts = self.list_of(part)
        self.next(")")
        return parts

    def file(self):
        decls = []
        while not self.sees("end"):
            decls.append(self.decl())
        return decls

    def decl(self):
        word = self.next("type", "ordered", "relation", "individual", "axiom", "after", "export", "action", "invariant", "conjecture")
        if word.kind == "type":
            return Type(self.name(), False)
        if word.kind == "ordered":
            self.next("type")
            return Type(self.name(), True)
        if word.kind == "relation":
            return Relation(self.name(), self.bracketed(lambda: self.binder("upper", "lower")))
        if word.kind == "individual":
            name = self.name()
            self.next(":")
            return Individual(name, self.name())
        if word.kind == "after":
            self.next("init")
            return Init(self.block())
        if word.kind == "export" and not self.takes("action"):
            return Export(self.name())
        if word.kind in ("export", "action"):
            name, params = self.name(), self.bracketed(lambda: self.binder("lower"))
            self.next("=")
            return Action(name, params, self.block(), word.kind == "export")
        label = None
        if self.takes("["):
            label = self.next("lower", "upper", "digits").text
            self.next("]")
        return Axiom(word.at, self.formula()) if word.kind == "axiom" else Invariant(word.at, self.formula(), label)

    def binder(self, *kinds):
        name = self.name(*kinds)
        self.next(":")
        return Binder(name, self.name())

    def block(self):
        stats = []
        self.next("{")
        while not self.sees("}"):
            stats.append(self.stat())
            if not self.takes(";") and not isinstance(stats[-1], (If, Local)):
                break
        self.next("}")
        return stats

    def stat(self):
        if self.takes("require", "assume"):
            return Require(self.formula())
        if self.takes("if"):
            return self.cond()
        if self.takes("local"):
            binders = self.list_of(lambda: self.binder("lower"))
            return Local(binders, self.block())
        name, args = self.name(), self.bracketed(self.term)
        self.next(":=")
        return Assign(name.text, name.at, args, self.formula())

    def cond(self):
        form, then, other = self.formula(), self.block(), []
        if self.takes("else"):
            other = [self.cond()] if self.takes("if") else self.block()
        return If(form, then, other)

    def chain(self, sign, part):
        parts = [part()]
        while self.takes(sign):
            parts.append(part())
        return parts[0] if len(parts) == 1 else Joined(sign, parts)

    def formula(self):
        return self.chain("<->", self.implication)

    def implication(self):
        left = self.chain("|", lambda: self.chain("&", self.unary))
        return Joined("->", [left, self.implication()]) if self.takes("->") else left

    def unary(self):
        if self.takes("~"):
            return Joined("~", [self.unary()])
        if self.sees("forall", "exists"):
            word = self.next("forall", "exists")
            binders = self.list_of(self.variable)
            self.next(".")
            return Quantified(word.kind, word.at, binders, self.formula())
        if self.sees("true", "false"):
            return Truth(self.next("true", "false").kind)
        if self.takes("("):
            form = self.formula()
            self.next(")")
            return form
        left = self.term()
        if isinstance(left, Symbol) and self.sees("("):
            return Atom(left.text, left.at, self.bracketed(self.term))
        if isinstance(left, Symbol) and not self.sees("=", "~=", "<", "<="):
            return Atom(left.text, left.at, [])
        return Compare(left, self.next("=", "~=", "<", "<=").kind, self.term())

    def variable(self):
        name = self.name("upper")
        return Variable(name.text, name.at, self.name() if self.takes(":") else None)

    def term(self):
        if self.sees("upper"):
            return self.variable()
        return Symbol(*self.name())
