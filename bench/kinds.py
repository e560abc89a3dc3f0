"""Kinds of modules, each made of one piece that is repeated. All of them obey the rules of the language, once their end stands behind them."""
import math

BEGIN, END = 'module m;\n', 'end.\n'


def variables(*names, kind='int'):
    return ''.join(f'var {name} : {kind};\n' for name in names)


def text_of(count, piece):
    return ', '.join([piece] * count)


BODY = 'begin\n'
SENTENCE = 'one long comment that goes on '
LOOPS = 'while a < b do ' * 31
PAIR_OP, LIST_OP = 'op o (int, int) : (int);\n', f'op o () : ({text_of(27, "int")});\n'
ENTRY = 'entry entry_%d of o (x, y) var sum : int; var much : bool; begin sum := x + y; much := sum > x; reply (sum); end;\n'
LINKS = (
    'new p, q; bind p to e; connect o on q (a, 2) : (b); accept o on p (a, b) do reply (a + b); end; '
    'try destroy p; raise DIVIDE; when DIVIDE do stop; when DEADLINK do unbind q from e; end;\n'
)
TRIES = 'while a < b do try a := a / b; when DIVIDE do b := 1; when OVERFLOW do raise RANGE; end; end;\n'
# In these entries each local hides a variable of the module, and is used three times.
HIDDEN = [f'local_{i}' for i in range(16)]
SCOPE = (
    'entry entry_%d of o (x, y)\n' + variables(*HIDDEN) + BODY
    + ''.join(f'{a} := {b} + x * {c};\n' for a, b, c in zip(HIDDEN, HIDDEN[1:] + HIDDEN, HIDDEN[7:] + HIDDEN)) + 'reply (local_0); end;\n'
)
# A kind has what stands before the pieces, the piece, of which each `%d` is its number, and what stands behind them and before the end.
KINDS = {
    'statements': (variables('count', 'limit', 'total') + BODY, 'if count < limit then count := count + 1; else write total; end;\n', ''),
    'expressions': (
        variables('total', 'first', 'second') + variables('table', kind='row 8') + BODY + 'total := first',
        ' + 2 * (second - 3) / table[7]',
        ';\n',
    ),
    'relations': (variables('a', 'b') + variables('c', kind='bool') + BODY + 'c := c', ' or a < b and not (b = 1)', ';\n'),
    'dense': (variables('a') + BODY + 'a:=1', '+1', ';\n'),
    'products': (variables('a') + BODY + 'a:=(1)', '*(1)', ';\n'),
    'sums': (variables('a') + BODY + 'a:=1', '+1*1', ';\n'),
    'minuses': (variables('a') + BODY + 'a:=-1', '*-1', ';\n'),
    'truths': (variables('a', kind='bool') + BODY, 'a:=(1<1)=(1<1);', ''),
    'stops': (BODY, 'stop;', ''),
    'nesting': (variables('a', 'b', 'x') + BODY, LOOPS + 'x := ' + '(' * 31 + '1' + ')' * 31 + '; ' + 'end; ' * 31 + '\n', ''),
    'tries': (variables('a', 'b') + BODY, TRIES, ''),
    'handlers': (BODY + 'try\n', 'when DIVIDE do stop;\n', 'end;\n'),
    'lists': (LIST_OP + 'entry e of o ()\n' + BODY, 'reply(1' + ',1' * 26 + ');', 'end;\n' + BODY),
    'texts': (BODY, "write 'a text of thirty-two bytes, or so';\n", ''),
    'comment': (variables('a') + '-- ', SENTENCE, '\n' + BODY),
    'declarations': ('', 'var variable_%d : row 16;\n', BODY),
    'ops': ('', f'op operation_%d ({text_of(8, "int")}) : ({text_of(8, "bool")});\n', BODY),
    'entries': (PAIR_OP, ENTRY, BODY),
    'locals': ('op o () : ();\nentry e of o ()\n', 'var variable_%d : bool;\n', BODY + 'end;\n' + BODY),
    'scopes': (PAIR_OP + variables(*HIDDEN, kind='bool'), SCOPE, BODY),
    'links': (
        PAIR_OP + variables('p', 'q', kind='link') + variables('a', 'b') + 'entry e of o (x, y) begin reply (x); end;\n' + BODY,
        LINKS,
        '',
    ),
}
# Kinds with many names: the form of a name, and how many bytes of the module there are for each. Those of `alike` have 32 bytes.
NAMED = {'names': ('variable_{}', 200), 'alike': ('v' * 26 + '{:06d}', 800)}


def repeated(before, piece, behind, size, most=math.inf):
    """What stands before and behind, and as many of the pieces as have room between them, or `most` of them."""
    text, room = [before], size - len(before) - len(behind)
    number = 0
    while True:
        more = piece.replace('%d', str(number))
        if len(more) > room or number == most:
            return ''.join(text) + behind
        text.append(more)
        room -= len(more)
        number += 1


def names(form, share, size, most=math.inf):
    """A name for each share of the size, and statements that use each of them many times, or `most` of them."""
    count = max(size // share, 1)
    before = variables(*map(form.format, range(count))) + BODY
    text, room = [before], size - len(before)
    number = 0
    while True:
        target, first, second = (form.format(number * step % count) for step in (1, 7, 31))
        more = f'{target} := {first} + {second};\n'
        if len(more) > room or number == most:
            return ''.join(text)
        text.append(more)
        room -= len(more)
        number += 1


def inside(kind, room, most=math.inf):
    """What stands between the name and the end of a module of a kind: the longest that has room, of no more than `most` pieces."""
    return names(*NAMED[kind], room, most) if kind in NAMED else repeated(*KINDS[kind], room, most)
