"""Random modules of the language: well typed ones, and ones with slips.

A module without slips obeys all rules. A slip is a choice that goes wrong: a name of another kind or type, a value of another type, one
more or one less in a list, a row or a message that is too long, a reply where there is no request. `broken` changes a token or two, so that
also the tokens, the grammar and the nesting fail.
"""
from random import Random

INT, BOOL, TEXT, LINK = 'int', 'bool', 'text', 'link'
EXCEPTIONS = ['BUSYLINK', 'DEADLINK', 'NOLINK', 'DIVIDE', 'OVERFLOW', 'RANGE', 'FAILED', 'REPLIED', 'LINKSFULL']
LONG = 'a_name_that_has_32_bytes_as_most_'
NAMES = [*'abcdefghijklmnpqrs', 'x1', 'x_', 'int1', 'End', 'divide', 'DIVIDE', LONG[:32], LONG[:31], LONG[:31] + 'S']
TEXTS = ["''", "'a'", "'--'", "'two words'", "'" + 'x' * 64 + "'"]
NUMBERS = ['0', '1', '7', '007', '9223372036854775807']
SIGNS = [*';,()[]:=<+-*.', ':=', 'and', 'not', 'end', 'begin', 'var', 'true', '1', "'t'", '#', "'"]
# Pairs of tokens that are read as another token where nothing stands between them.
JOINED = {':=', '<>', '<=', '>=', '--'}
WIDTHS = {INT: 9, BOOL: 2, TEXT: 66, LINK: 1}
MOST_PACKET, MOST_LINKS, MOST_OPEN = 256, 8, 64
# How deep statements are in one another.
DEPTH = 2


def is_row(kind):
    return isinstance(kind, int)


def width(kind):
    return 2 + 8 * kind if is_row(kind) else WIDTHS[kind]


def spelled(kind):
    return ['row', str(kind)] if is_row(kind) else [kind]


def signature(name, kinds, results):
    both = (','.join(''.join(spelled(kind)) for kind in kinds) for kinds in (kinds, results))
    return name + ':'.join(f'({kinds})' for kinds in both)


def with_commas(items):
    """Lists of tokens, in brackets and with commas between them."""
    inner = [token for item in items for token in [',', *item]]
    return ['(', *inner[1:], ')']


class Maker:
    """Makes the tokens of the module of a seed. The choices that are to slip are given by their numbers."""

    def __init__(self, seed, wrong=()):
        self.random = Random(seed)
        self.wrong = wrong
        self.choices = 0

    # ------------------------------------------------------------ choices

    def slips(self):
        self.choices += 1
        return self.choices in self.wrong

    def one_in(self, number):
        return self.random.randrange(number) == 0

    def pick(self, items):
        return self.random.choice(items)

    def any_name(self):
        return self.pick([*self.names, *self.locals, *NAMES])

    def any_kind(self):
        return self.pick([INT, INT, BOOL, BOOL, TEXT, LINK, 1, 2, 16, 17 if self.slips() else 3, 0 if self.slips() else 4])

    def meant(self, name):
        return self.locals.get(name) or self.names.get(name) or (None, None)

    def all_named(self, sort, kind=None):
        """The names that mean this here: a var of a type or of any, an op, an entry."""
        found = [name for name in {**self.names, **self.locals} if self.meant(name)[0] == sort]
        return [name for name in found if kind is None or self.meant(name)[1] == kind]

    def named(self, sort, kind=None):
        """One of these names, or None where there is none."""
        if self.slips():
            return self.any_name()
        return self.pick(self.all_named(sort, kind) or [None])

    # ------------------------------------------------------------ declarations

    def declare(self, space, sort, kind):
        """A new name of a space, which stands for its first declaration."""
        free = [name for name in NAMES if name not in space]
        name = self.pick(NAMES if self.slips() or not free else free)
        space.setdefault(name, (sort, kind))
        return name

    def kinds(self, most):
        """Types that fit into a message, or that just don't."""
        kinds = [LINK] * self.random.randint(0, 9) if self.one_in(9) else [self.any_kind() for _ in range(self.random.randint(0, 4))]
        if self.one_in(6):
            kinds = [self.pick([INT, BOOL, TEXT, 16, 9]) for _ in range(self.random.randint(0, 30))]
        if self.slips():
            return kinds
        while kinds.count(LINK) > MOST_LINKS:
            kinds.remove(LINK)
        while sum(map(width, kinds)) > most:
            kinds.pop()
        return kinds

    def op(self):
        results = self.kinds(MOST_PACKET - 6)
        kinds = self.kinds(MOST_PACKET)
        name = self.declare(self.names, 'op', (kinds, results))
        while 6 + len(signature(name, kinds, results)) + sum(map(width, kinds)) > MOST_PACKET and not self.slips():
            (kinds or results).pop()
        return ['op', name, *with_commas(map(spelled, kinds)), ':', *with_commas(map(spelled, results)), ';']

    def variable(self, word, space, kind):
        name = self.declare(space, 'var', kind)
        return [word, name, ':', *spelled(kind), ';']

    def variables(self, space, count):
        return [token for _ in range(count) for token in self.variable('var', space, self.any_kind())]

    def entry(self, name, op):
        """An entry of an op, of which the name is declared already."""
        kinds, results = self.names.get(op, (None, None))[1] if self.names.get(op, ('',))[0] == 'op' else ([], None)
        self.locals = {}
        count = max(len(kinds) + (self.pick([-1, 1]) if self.slips() else 0), 0)
        parameters = [self.declare(self.locals, 'var', kinds[i] if i < len(kinds) else INT) for i in range(count)]
        head = ['entry', name, 'of', op, *with_commas([parameter] for parameter in parameters)]
        head += self.variables(self.locals, self.random.randint(0, 3))
        body = self.statements(DEPTH, results if results is not None else [])
        self.locals = {}
        return [*head, 'begin', *body, 'end', ';']

    def module(self):
        self.names, self.locals = {}, {}
        tokens = ['module', self.pick(NAMES), ';']
        for _ in range(self.random.randint(0, 4)):
            tokens += self.op()
        for _ in range(self.random.randint(0, 2)):
            tokens += self.variable('param', self.names, self.any_kind() if self.slips() else LINK)
        tokens += self.variables(self.names, self.random.randint(0, 7))
        ops = [name for name in self.names if self.names[name][0] == 'op'] or ([self.any_name()] if self.slips() else [])
        # entries are declared first, since an entry may name a later one
        entries = [self.declare(self.names, 'entry', None) for _ in range(self.random.randint(0, 3) if ops else 0)]
        for name in entries:
            tokens += self.entry(name, self.any_name() if self.slips() else self.pick(ops))
        return [*tokens, 'begin', *self.statements(DEPTH, None), 'end', '.']

    # ------------------------------------------------------------ statements

    def statements(self, depth, answers):
        """Statements where a reply gives values of these types, or where none may stand."""
        found = []
        for _ in range(self.random.randint(0, depth + 1)):
            found += [*(self.statement(depth, answers) or ['stop']), ';']
        return found

    def statement(self, depth, answers):
        """One statement, or None where the names for it are not declared."""
        makers = [self.assign, self.assign, self.write, self.act, self.new, self.bind, self.connect, self.connect]
        if depth:
            makers += [self.choose, self.repeat, self.accept, self.accept, self.attempt]
        if answers is not None or self.slips():
            makers += [self.reply] * 2
        maker = self.pick(makers)
        if maker == self.reply:
            return maker(answers or [])
        return maker(depth - 1, answers) if maker in (self.choose, self.repeat, self.accept, self.attempt) else maker()

    def assign(self):
        name = self.named('var')
        kind = self.meant(name)[1] if self.meant(name)[0] == 'var' else self.any_kind()
        if name and (is_row(kind) and self.one_in(2) or self.slips()):
            return [name, '[', *self.value(INT), ']', ':=', *self.value(INT)]
        return name and [name, ':=', *self.value(kind)]

    def write(self):
        word, kind = self.pick([('write', self.pick([INT, BOOL, TEXT])), ('await', BOOL)])
        return [word, *self.value(kind)]

    def act(self):
        link = self.named('var', LINK)
        raised = ['raise', self.any_name() if self.slips() else self.pick(EXCEPTIONS)]
        return ['destroy', link] if link and self.one_in(2) else raised

    def new(self):
        first, second = self.named('var', LINK), self.named('var', LINK)
        return ['new', first, ',', second] if first and second and (first != second or self.slips()) else None

    def bind(self):
        link, entry = self.named('var', LINK), self.named('entry')
        word, between = self.pick([('bind', 'to'), ('unbind', 'from')])
        return [word, link, between, entry] if link and entry else None

    def lengthened(self, kinds):
        """These types, or with a slip one less or one more."""
        if not self.slips():
            return kinds
        return kinds[:-1] if self.one_in(2) else [*kinds, self.any_kind()]

    def op_and_link(self):
        """An op and its types, and a link."""
        op, link = self.named('op'), self.named('var', LINK)
        kinds, results = self.meant(op)[1] if self.meant(op)[0] == 'op' else (self.kinds(99), self.kinds(99))
        return op, link, self.lengthened(kinds), self.lengthened(results)

    def targets(self, kinds):
        """Names of variables of these types, or None where one is not declared."""
        names = [self.named('var', kind) for kind in kinds]
        return None if None in names else with_commas([name] for name in names)

    def connect(self):
        op, link, kinds, results = self.op_and_link()
        targets = self.targets(results)
        values = [self.value(kind) for kind in kinds]
        if not (op and link and targets) or [] in values:
            return None
        return ['connect', op, 'on', link, *with_commas(values), ':', *targets]

    def reply(self, kinds):
        values = [self.value(kind) for kind in self.lengthened(kinds)]
        return None if [] in values else ['reply', *with_commas(values)]

    def accept(self, depth, _):
        op, link, kinds, results = self.op_and_link()
        targets = self.targets(kinds)
        if not (op and link and targets):
            return None
        return ['accept', op, 'on', link, *targets, 'do', *self.statements(depth, results), 'end']

    def choose(self, depth, answers):
        otherwise = ['else', *self.statements(depth, answers)] if self.one_in(2) else []
        return ['if', *self.value(BOOL), 'then', *self.statements(depth, answers), *otherwise, 'end']

    def repeat(self, depth, answers):
        return ['while', *self.value(BOOL), 'do', *self.statements(depth, answers), 'end']

    def attempt(self, depth, answers):
        tokens = ['try', *self.statements(depth, answers)]
        for _ in range(self.random.randint(0, 2)):
            name = self.any_name() if self.slips() else self.pick(EXCEPTIONS)
            tokens += ['when', name, 'do', *self.statements(depth, answers)]
        return [*tokens, 'end']

    # ------------------------------------------------------------ expressions

    def value(self, kind, depth=2):
        """An expression of a type; nothing where no variable has a type of which there are only variables."""
        has_slipped = self.slips()
        if has_slipped:
            kind = self.any_kind()
        if is_row(kind) or kind == LINK:
            name = self.named('var', kind) or (self.any_name() if has_slipped else None)
            return [] if name is None else self.bracketed([name])
        if not depth or self.one_in(3):
            return self.bracketed(self.atom(kind))
        if kind == TEXT:
            return self.bracketed(self.atom(TEXT))
        return self.bracketed(self.number(depth - 1) if kind == INT else self.truth(depth - 1))

    def bracketed(self, tokens):
        return ['(', *tokens, ')'] if tokens and self.one_in(6) else tokens

    def atom(self, kind):
        literal = {INT: NUMBERS, BOOL: ['true', 'false'], TEXT: TEXTS}[kind]
        name = self.named('var', kind)
        rows = [name for name in self.all_named('var') if is_row(self.meant(name)[1])]
        if kind == INT and (rows or self.slips()) and self.one_in(4):
            row = self.any_name() if self.slips() or not rows else self.pick(rows)
            return [row, '[', *self.value(INT, 1), ']']
        return [name] if name and self.one_in(2) else [self.pick(literal)]

    def member(self, kind, depth):
        """An operand: an atom, or a whole expression in brackets. Of the operators some bind closer, and need no brackets."""
        value = self.value(kind, depth) or self.atom(INT)
        return value if len(value) == 1 or self.slips() else ['(', *value, ')']

    def chain(self, kind, signs, depth, member=None):
        member = member or (lambda: self.member(kind, depth))
        tokens = member()
        for _ in range(self.random.randint(1, 3)):
            tokens = [*tokens, self.pick(['+', 'and', '=', 'or'] if self.slips() else signs), *member()]
        return tokens

    def number(self, depth):
        product = lambda: self.chain(INT, ['*', '/', 'mod'], depth) if self.one_in(3) else self.member(INT, depth)
        forms = [lambda: self.chain(INT, ['+', '-'], depth, product), lambda: ['-', *self.member(INT, depth)], product]
        return self.pick(forms)()

    def relation(self, depth):
        sign = self.pick(['=', '<>', '<', '<=', '>', '>='])
        kind = self.pick([INT, BOOL, TEXT]) if sign in ('=', '<>') else INT
        return [*self.member(kind, depth), sign, *self.member(kind, depth)]

    def truth(self, depth):
        member = lambda: self.relation(depth) if self.one_in(2) else self.member(BOOL, depth)
        both = lambda: self.chain(BOOL, ['and'], depth, member)
        either = lambda: self.chain(BOOL, ['or'], depth, both)
        return self.pick([lambda: self.relation(depth), lambda: ['not', *self.member(BOOL, depth)], both, either])()

    # ------------------------------------------------------------ texts

    def broken(self, tokens):
        """The tokens with one or two of them taken away, doubled, or put in place of others."""
        tokens = list(tokens)
        for _ in range(self.random.randint(1, 2)):
            place = self.random.randrange(len(tokens))
            change = self.random.randrange(5)
            if change == 0:
                del tokens[place]
            elif change == 1:
                tokens.insert(place, tokens[place])
            elif change == 2:
                tokens[place] = self.pick(tokens)
            elif change == 3:
                tokens[place] = self.pick([*SIGNS, *NAMES])
            else:
                depth = self.random.randint(MOST_OPEN - 8, MOST_OPEN + 2)
                tokens[place : place + 1] = ['(' * depth, tokens[place], ')' * depth]
            if not tokens:
                return ['.']
        return tokens

    def text(self, tokens):
        """A text of these tokens, with blanks, lines and comments between them, or nothing where nothing is needed."""
        text = []
        for before, token in zip(['', *tokens], tokens):
            ends = before[-1:] + token[:1]
            is_needed = ends in JOINED or all(byte.isalnum() or byte in "_'" for byte in ends)
            text += [self.pick([' ', ' ', '\n', '\t', '\r\n', ' -- a comment; end.\n', ' ' if is_needed else '']) if before else '', token]
        return ''.join(text) + self.pick(['', '\n', ' -- the end'])


def made(seed, slips):
    """The maker and the tokens of the module of a seed with so many slips, each at a choice that is as likely as any other."""
    maker = Maker(seed)
    tokens = maker.module()
    if slips == 0:
        return maker, tokens
    maker = Maker(seed, {1 + maker.random.randrange(maker.choices) for _ in range(slips)})
    return maker, maker.module()
