"""The grammar of modules (docs/TOKENS.md), read from the left: which tokens may stand at a place, and what names are declared."""

from dataclasses import dataclass, field

from tokens import END, NAME, NUMBER, STRING, Token

RELATIONS = ("=", "<>", "<", "<=", ">", ">=")


class Stuck(Exception):
    """No module goes on with the token that is read."""


@dataclass
class Declared:
    """A declared name: its kind, its token, and the entry that it is a local name of, by its token, if it is one."""

    kind: str
    token: Token
    entry: Token | None = None


@dataclass
class Reader:
    """What was read of the tokens. Of each token up to `at` it is kept which kinds could have stood in its place."""

    tokens: list[Token]
    at: int = 0
    hoped: list[set[str]] = field(default_factory=list)
    declared: list[Declared] = field(default_factory=list)
    entry: Token | None = None
    # each entry that was read, by its name's token, and the place behind it
    ends: dict[Token, int] = field(default_factory=dict)

    def __post_init__(self):
        self.hoped = [set() for _ in self.tokens]

    @property
    def token(self) -> Token:
        return self.tokens[self.at]

    def sees(self, *kinds: str) -> bool:
        self.hoped[self.at].update(kinds)
        return self.token.kind in kinds

    def takes(self, *kinds: str) -> bool:
        found = self.sees(*kinds)
        self.at += found
        return found

    def wants(self, *kinds: str) -> Token:
        for kind in kinds:
            if not self.takes(kind):
                raise Stuck
        return self.tokens[self.at - 1]

    def declares(self, kind: str) -> Token:
        token = self.wants(NAME)
        self.declared.append(Declared(kind, token, self.entry))
        return token

    # ---- the rules of the grammar

    def module(self):
        self.wants("module", NAME, ";")
        while self.takes("op"):
            self.op()
        while self.takes("param"):
            self.variable("param")
        while self.takes("var"):
            self.variable("var")
        while self.takes("entry"):
            self.an_entry()
        self.wants("begin")
        self.statements()
        self.wants("end", ".", END)

    def op(self):
        self.declares("op")
        self.bracketed(self.type)
        self.wants(":")
        self.bracketed(self.type)
        self.wants(";")

    def variable(self, kind: str):
        self.declares(kind)
        self.wants(":")
        self.type()
        self.wants(";")

    def an_entry(self):
        name = self.declares("entry")
        self.wants("of", NAME)
        self.entry = name
        self.bracketed(lambda: self.declares("parameter"))
        while self.takes("var"):
            self.variable("var")
        self.wants("begin")
        self.statements()
        self.ends[name] = self.wants("end", ";").to
        self.entry = None

    def bracketed(self, item):
        """`(`, items with commas between them or none, `)`"""
        self.wants("(")
        if self.takes(")"):
            return
        item()
        while self.takes(","):
            item()
        self.wants(")")

    def name(self):
        self.wants(NAME)

    def type(self):
        if self.takes("row"):
            self.wants(NUMBER)
        elif not self.takes("int", "bool", "text", "link"):
            raise Stuck

    def statements(self):
        while self.statement():
            self.wants(";")

    def statement(self) -> bool:
        """Whether a statement was read; none begins with the token where none was."""
        if not self.sees(NAME, *STATEMENTS):
            return False
        kind = self.token.kind
        self.at += 1
        if kind == NAME:
            self.index()
            self.wants(":=")
            self.expression()
        else:
            STATEMENTS[kind](self)
        return True

    def index(self):
        if self.takes("["):
            self.expression()
            self.wants("]")

    def condition(self):
        self.expression()
        self.wants("then")
        self.statements()
        if self.takes("else"):
            self.statements()
        self.wants("end")

    def loop(self):
        self.expression()
        self.wants("do")
        self.statements()
        self.wants("end")

    def connect(self):
        self.wants(NAME, "on", NAME)
        self.bracketed(self.expression)
        self.wants(":")
        self.bracketed(self.name)

    def accept(self):
        self.wants(NAME, "on", NAME)
        self.bracketed(self.name)
        self.wants("do")
        self.statements()
        self.wants("end")

    def attempt(self):
        self.statements()
        while self.takes("when"):
            self.wants(NAME, "do")
            self.statements()
        self.wants("end")

    def chain(self, part, *signs: str):
        part()
        while self.takes(*signs):
            part()

    def expression(self):
        self.chain(self.conjunction, "or")

    def conjunction(self):
        self.chain(self.relation, "and")

    def relation(self):
        self.sum()
        if self.takes(*RELATIONS):
            self.sum()

    def sum(self):
        self.chain(self.term, "+", "-")

    def term(self):
        self.chain(self.unary, "*", "/", "mod")

    def unary(self):
        self.takes("-", "not")
        if self.takes("("):
            self.expression()
            self.wants(")")
        elif self.takes(NAME):
            self.index()
        elif not self.takes(NUMBER, STRING, "true", "false"):
            raise Stuck


STATEMENTS = {
    "if": Reader.condition,
    "while": Reader.loop,
    "write": Reader.expression,
    "await": Reader.expression,
    "stop": lambda reader: None,
    "raise": Reader.name,
    "new": lambda reader: reader.wants(NAME, ",", NAME),
    "destroy": Reader.name,
    "bind": lambda reader: reader.wants(NAME, "to", NAME),
    "unbind": lambda reader: reader.wants(NAME, "from", NAME),
    "connect": Reader.connect,
    "accept": Reader.accept,
    "reply": lambda reader: reader.bracketed(reader.expression),
    "try": Reader.attempt,
}


def read(tokens: list[Token]) -> Reader:
    """What is read of the tokens, up to the first with which no module goes on."""
    reader = Reader(tokens)
    try:
        reader.module()
    except Stuck:
        pass
    return reader
