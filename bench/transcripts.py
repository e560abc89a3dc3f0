"""Transcripts of any length, of scripts that are one piece repeated.

Once a piece has been performed a few times, each number in the lines of a kernel grows by as much from one piece to the next. So these
numbers are learned from the transcripts of the first pieces, and the lines of the others are made from them. `bench/audit` compares the
longest transcript that a script can give rise to with the one that is made here."""
import math
import re

from scripts import KINDS as SCRIPTS, MOST_LINKS, each, header, numbered

# What stands before the pieces of a kind, and the piece. Eight kernels are steady over two rings.
KINDS = {kind: SCRIPTS[kind] for kind in ('rounds', 'long', 'coded', 'moves', 'eight', 'reports', 'queues', 'waiting', 'wires')}
KINDS['kernels'] = (SCRIPTS['kernels'][0], SCRIPTS['kernels'][1] * 2)
KINDS['makes'] = KINDS['exits'] = (header(8, range(8), []), each(8, 'make'))
# Each of these lines finds no packet, so its transcript is of notes alone.
KINDS['notes'] = (header(1, [], []), 'take 0 0\n')
# What stands behind the pieces of a kind.
AFTER = {'exits': each(8, 'exit')}
# So many pieces there can be: a kernel makes no more links.
MOST_PIECES = dict.fromkeys(('makes', 'exits', 'reports', 'queues', 'waiting'), MOST_LINKS)
# The wires are links too.
MOST_PIECES['wires'] = MOST_LINKS - 512
# So many pieces are performed before the lines are steady.
FIRST = 4


def entries_of(transcript):
    """The header, and the entries of each kernel, each with its lines."""
    lines = transcript.decode('ascii').splitlines(keepends=True)
    body = next(at for at, line in enumerate(lines) if line[0].isdigit())
    entries = {}
    for line in lines[body:-1]:
        if line[0].isdigit():
            of_kernel = entries.setdefault(int(line.split()[1][1:]), [])
            of_kernel.append(line)
        else:
            of_kernel[-1] += line
    return ''.join(lines[:body]), entries


def with_false_entry(transcript):
    """A transcript with another stamp in its first entry: from there on an audit tests forms alone."""
    return re.sub(rb'^\d+ k', b'9999999 k', transcript, count=1, flags=re.MULTILINE)


def with_false_last(transcript):
    """A transcript whose last line alone is false: it tells of a packet under way."""
    return transcript.removesuffix(b'quiet\n') + b'open\n'


class Notes:
    """The transcripts of notes alone. The header of their script has one line."""

    def transcript(self, pieces, size=math.inf):
        """The transcript of so many notes, but of no more than have room in so many bytes."""
        lines, last = [b'transcript 1\nkernels 1\n'], b'quiet\n'
        room = size - len(lines[0]) - len(last)
        for number in range(2, pieces + 2):
            note = b'note %d nothing\n' % number
            room -= len(note)
            if room < 0:
                break
            lines.append(note)
        return b''.join([*lines, last])


class Lines:
    """The lines of one entry in each piece: a text with the numbers that grow left out, and these as (first, growth)."""

    def __init__(self, texts):
        parts = [re.split(r'(\d+)', text) for text in texts]
        self.text, self.numbers = '', []
        for seen in zip(*parts, strict=True):
            if len(set(seen)) == 1:
                self.text += seen[0].replace('%', '%%')
            else:
                first, second, third = map(int, seen)
                if third - second != second - first:
                    raise ValueError(f'numbers that do not grow evenly: {texts}')
                self.text += '%d'
                self.numbers.append((first, second - first))

    def of(self, piece):
        """The lines in the piece that is so many behind the first."""
        return self.text % tuple([first + growth * piece for first, growth in self.numbers])


def last_line(transcript):
    return transcript.decode('ascii').splitlines(keepends=True)[-1]


class Repeated:
    """A piece that is repeated behind what stands before it. `perform` gives the transcript of a script."""

    def __init__(self, before, piece, perform):
        performed = [perform(before + numbered(piece, count)) for count in range(FIRST, FIRST + 4)]
        runs = [entries_of(transcript) for transcript in performed]
        self.header, self.start = runs[0]
        self.end = last_line(performed[0])
        self.steady = {}
        for kernel, last in runs[3][1].items():
            ends = [len(entries.get(kernel, [])) for _, entries in runs]
            blocks = [last[begin:end] for begin, end in zip(ends, ends[1:])]
            self.steady[kernel] = [Lines(texts) for texts in zip(*blocks, strict=True)]

    def transcript(self, pieces, size=math.inf):
        """The transcript of so many pieces, but of no more than have room in so many bytes."""
        placed = [(int(text.split(' ', 1)[0]), kernel, text) for kernel, entries in self.start.items() for text in entries]
        room = size - len(self.header) - len(self.end) - sum(len(text) for _, _, text in placed)
        for piece in range(pieces - FIRST):
            more = [(kernel, lines.of(piece)) for kernel, entries in self.steady.items() for lines in entries]
            room -= sum(len(text) for _, text in more)
            if room < 0:
                break
            placed += [(int(text.split(' ', 1)[0]), kernel, text) for kernel, text in more]
        placed.sort()
        return (self.header + ''.join([text for _, _, text in placed]) + self.end).encode('ascii')


class Exits(Repeated):
    """Pieces that are one Make at each of eight kernels, and then each of the processes that made them exits; what they send is not taken."""

    def transcript(self, pieces, size=math.inf):
        makes = super().transcript(pieces, size - len(self.exits(MOST_LINKS))).decode('ascii')
        made = makes.count('\n. make ') // 8
        return (makes[: -len(self.end)] + self.exits(made + 1) + 'open\n').encode('ascii')

    def exits(self, stamp):
        return ''.join(f'{stamp} k{kernel} p{kernel} exit\n. exit p{kernel}\n' for kernel in range(8))
