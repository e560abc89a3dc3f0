"""Random modules that talk: they connect, accept, bind and unbind, make links and send them, destroy links, and reply or do not."""

LINKS = 4
# The operations of each module: the name, and how many arguments and results it has, which are links, but those of `tell`.
OPS = [('zero', 0, 0), ('give', 1, 0), ('swap', 2, 1), ('tell', 1, 1), ('many', 3, 2), ('back', 0, 1), ('eight', 8, 8)]
EXCEPTIONS = ['BUSYLINK', 'DEADLINK', 'NOLINK', 'FAILED', 'REPLIED', 'LINKSFULL']


def tried(statement):
    return f'try {statement}; ' + ''.join(f'when {name} do ' for name in EXCEPTIONS) + 'end;\n'


class Module:
    """A random module with so many params, all of whose exceptions are handled."""

    def __init__(self, chance, params, ops):
        self.random, self.params, self.ops = chance, params, ops
        self.accepts = chance.choice([0, 1, 4, 12])
        self.often = chance.choice([0, 0.5, 0.9, 1])
        self.around = []

    def below(self, bound):
        return self.random.randrange(bound)

    def link(self):
        if self.around and self.below(4) == 0:
            return self.random.choice(self.around)
        number = self.below(self.params + LINKS)
        return f'p{number}' if number < self.params else f'v{number - self.params}'

    def some_links(self, count):
        first = self.below(LINKS)
        return [f'v{(first + place) % LINKS}' for place in range(count)]

    def values(self, op, count):
        """Often of new links, since a link that is bound or serves is not to be sent."""
        if op[0] == 'tell':
            return '', 'n'
        if count == 0 or count > LINKS or self.below(3) == 0:
            return '', ', '.join(self.link() for _ in range(count))
        links = self.some_links(count + count % 2)
        made = ''.join(f'new {links[place]}, {links[place + 1]}; ' for place in range(0, len(links), 2))
        return made, ', '.join(links[:count])

    def names(self, op, count):
        """Different variables."""
        return 'n' if op[0] == 'tell' else ', '.join((self.some_links(LINKS) + [f'w{place}' for place in range(LINKS)])[:count])

    def entry_name(self):
        return self.random.choice(self.ops)[0] + '_entry'

    def reply(self, op):
        """Mostly there is one, and at times two."""
        made, values = self.values(op, op[2])
        return tried(f'{made}reply ({values})') * self.random.choices([0, 1, 2], [2, 16, 1])[0]

    def connect(self):
        op = self.random.choice(self.ops)
        made, values = self.values(op, op[1])
        return f'{made}connect {op[0]} on {self.link()} ({values}) : ({self.names(op, op[2])})'

    def accept(self, depth):
        op, on = self.random.choice(self.ops), self.link()
        self.around.append(on)
        # the link itself is sent on before the reply: that is refused
        moved = tried(f'connect give on {self.link()} ({on}) : ()') if self.below(3) == 0 else ''
        body = self.some(depth + 1, 2) + moved + self.reply(op) + self.some(depth + 1, 2)
        self.around.pop()
        return f'accept {op[0]} on {on} ({self.names(op, op[1])}) do {body}end'

    def spread(self):
        """A new link, one end of which is bound here, and the other one is given away."""
        kept, given = self.some_links(2)
        return f'new {kept}, {given}; bind {kept} to {self.entry_name()}; connect give on {self.link()} ({given}) : ()'

    def flicker(self, depth):
        """An entry is bound for a while alone, so that a request may come too late for it."""
        on, entry = self.link(), self.entry_name()
        return f'bind {on} to {entry}; {self.some(depth + 1, 1)}unbind {on} from {entry}'

    def statement(self, depth):
        if depth < 3 and self.below(40) < self.accepts:
            return self.accept(depth)
        ways = [
            (20, self.connect),
            (3, self.spread),
            (5, lambda: self.flicker(depth) if depth < 3 else self.connect()),
            (2, lambda: f'bind {self.link()} to {self.entry_name()}'),
            (1, lambda: f'unbind {self.link()} from {self.entry_name()}'),
            (1, lambda: f'destroy v{self.below(LINKS)}'),
            (3, lambda: f'v{self.below(LINKS)} := {self.link()}'),
            (1, lambda: 'write n'),
            (1, lambda: 'm := 0; while m < 400 do m := m + 1; end'),
        ]
        return self.random.choices([way for _, way in ways], [weight for weight, _ in ways])[0]()

    def some(self, depth, most):
        return ''.join(tried(self.statement(depth)) for _ in range(self.below(most + 1)))

    def entry(self, op):
        name, arguments, _ = op
        names = [f'a{place}' for place in range(arguments)]
        keeps = 'n := n + a0;\n' if name == 'tell' else ''.join(f'v{place % LINKS} := {each};\n' for place, each in enumerate(names))
        return f'entry {name}_entry of {name} ({", ".join(names)})\nbegin\n{keeps}{self.some(2, 1)}{self.reply(op)}{self.some(2, 1)}end;\n'

    def text(self):
        def list_of(op, count):
            return ', '.join(['int' if op[0] == 'tell' else 'link'] * count)

        ops = ''.join(f'op {op[0]} ({list_of(op, op[1])}) : ({list_of(op, op[2])});\n' for op in OPS)
        params = ''.join(f'param p{place} : link;\n' for place in range(self.params))
        links = ''.join(f'var v{place} : link;\nvar w{place} : link;\n' for place in range(LINKS))
        binds = ''.join(tried(f'bind p{place} to {op[0]}_entry') for place in range(self.params) for op in OPS if self.random.random() < self.often)
        body = self.some(0, 8)
        rounds = self.random.choice([1, 10, 100])
        return (
            f'module m;\n{ops}{params}{links}var n : int;\nvar m : int;\nvar rounds : int;\n{"".join(map(self.entry, OPS))}'
            f'begin\n{binds}while rounds < {rounds} do\nrounds := rounds + 1;\n{body}end;\nend.\n'
        )
