"""Scripts that are one piece repeated, from a few bytes to the most that a script may have. `{n}` in a piece is how many stand before it."""
MOST_LINKS = 65_536


def header(kernels, homes, wires, version=1):
    lines = ['version 2'] * (version == 2) + [f'kernels {kernels}']
    lines += [f'process {process} on {kernel}' for process, kernel in enumerate(homes)]
    lines += [f'wire {first} {second}' for first, second in wires]
    return ''.join(line + '\n' for line in lines)


def message(sender, taker, end, text, ends=''):
    """A message over an end of the link 0.0, from one process to another."""
    other = 'b' if end == 'a' else 'a'
    return f'p{taker} receive 0.0{other}\np{sender} send 0.0{end} {text}{ends}\nsettle\np{sender} wait\np{taker} wait\n'


def there_and_back(ends):
    return message(0, 1, 'a', 'x', ends) + message(1, 0, 'b', 'x', ends)


def ring(kernels):
    """A message from each process to the next one, each on a kernel of its own."""
    nexts = [(i, (i + 1) % kernels) for i in range(kernels)]
    receives = ''.join(f'p{taker} receive {sender}.0b\n' for sender, taker in nexts)
    sends = ''.join(f'p{sender} send {sender}.0a x\n' for sender, _ in nexts)
    waits = ''.join(f'p{i} wait\np{i} wait\n' for i in range(kernels))
    return receives + sends + 'settle\n' + waits


def each(processes, line):
    """A line of each process."""
    return ''.join(f'p{process} {line}\n' for process in range(processes))


PAIR = header(1, [0, 0], [(0, 1)])
CANCELS = 'p1 receive 0.0b\np1 cancel 0.0b in\nsettle\np0 send 0.0a x\np0 cancel 0.0a out\n'
REFUSALS = 'p0 wait\np0 send 0.0b x\np1 wait\ntake 0 0\n'
WIRED = header(8, [process % 8 for process in range(64)], [(wire % 64, (7 * wire + 1) % 64) for wire in range(4096)])
RECEIVE = 'p0 make\np0 receive 0.{n}b\n'
SEND = 'p0 send 0.{n}a x\n'
# A kind has what stands before the pieces, and the piece. Of the last ones see below.
KINDS = {
    'rounds': (PAIR, message(0, 1, 'a', 'x')),
    'long': (PAIR, message(0, 1, 'a', 'm' * 256)),
    'coded': (PAIR, message(0, 1, 'a', '%00%FF' * 128)),
    'kernels': (header(8, range(8), [(i, (i + 1) % 8) for i in range(8)]), ring(8)),
    'moves': (header(3, [0, 1, 2], [(0, 1), (0, 2)]), there_and_back(' +0.1a')),
    'eight': (header(3, [0, 1, 2], [(0, 1)] + [(0, 2)] * 8, 2), there_and_back(''.join(f' +0.{i}a' for i in range(1, 9)))),
    'cancels': (PAIR, CANCELS),
    'prints': (PAIR, 'p0 print hello\n'),
    'refusals': (PAIR + 'p1 receive 0.0b\np1 wait\nsettle\n', REFUSALS),
    'reports': (header(1, [0], []), RECEIVE + SEND + 'settle\n'),
    'queues': (header(1, [0], []), RECEIVE),
    'waiting': (header(1, [0], []), 'p0 make\n' + SEND),
    'wires': (WIRED, each(8, 'make')),
    'links': None,
    'exits': None,
    'gone': None,
    'parcels': None,
}


def numbered(piece, count):
    """A piece so many times."""
    return ''.join(piece.replace('{n}', str(n)) for n in range(count)) if '{n}' in piece else piece * count


def most(piece, size):
    """How many times a piece has room in so many bytes."""
    if '{n}' not in piece:
        return size // len(piece)
    count = 0
    while size >= 0:
        size -= len(piece.replace('{n}', str(count)))
        count += 1
    return count - 1


def links(size):
    """64 processes on 8 kernels, of which each makes links, then exits, and then the packets are taken."""
    before = header(8, [i % 8 for i in range(64)], [])
    room = size - len(before) - sum(len(f'p{i} exit\nsettle\n') for i in range(64))
    makes = max(room // len(each(64, 'make')), 0)
    return before + ''.join(f'p{i} make\n' * makes + f'p{i} exit\nsettle\n' for i in range(64))


def exits(size):
    """Eight processes on eight kernels make links, then each of them exits, and nothing is taken."""
    before, after = header(8, range(8), []), each(8, 'exit')
    return before + each(8, 'make') * ((size - len(before) - len(after)) // len(each(8, 'make'))) + after


def gone(size):
    """The same, and then all packets are taken: four for each link, at most 10,000 by a `settle`."""
    settles = 'settle\n' * (size // 18_000 + 2)
    return exits(size - len(settles)) + settles


def parcels(size):
    """A receive is asked for on each of many links, and then a message is sent on each, which is not taken."""
    before = header(1, [0], [])
    settles = 'settle\n' * (size // 400_000 + 1)
    count = most(RECEIVE + SEND, size - len(before) - len(settles))
    return before + numbered(RECEIVE, count) + settles + numbered(SEND, count)


OTHERS = {'links': links, 'exits': exits, 'gone': gone, 'parcels': parcels}


def script(kind, size):
    """The longest script of a kind that has at most so many bytes."""
    if kind in OTHERS:
        return OTHERS[kind](size)
    before, piece = KINDS[kind]
    return before + numbered(piece, max(most(piece, size - len(before)), 1))
