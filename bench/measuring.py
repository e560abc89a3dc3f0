"""What the benches share: runs of the built program and of the plain one beside it, and how time grows with the length of the input."""
import filecmp
import glob
import math
import os
import shutil
import subprocess
import sys
from dataclasses import dataclass

TOP = os.path.dirname(os.path.dirname(os.path.realpath(__file__)))
BENCH = os.path.join(TOP, 'bench')
LAUNCHER = os.path.join(TOP, 'bin', 'lynx')
PROGRAM = os.path.join(TOP, 'crates', 'lynx', 'out', 'lynx')
WHY = os.path.join(TOP, 'crates', 'lynx_why', 'out', 'lynx_why')
EXAMPLE = os.path.join(TOP, 'examples', 'one_message.script')
MOST_BYTES = 1_048_576
# What the files end with that programs of bench/ are made of.
SOURCES = ['c', 'rs', 'lynx']
# Memory less than this is not told apart from what the start of a program takes.
TOLD_APART = 1 << 19


@dataclass
class Run:
    """The processor seconds of a run, user and system, the bytes that it held at most, and its page faults."""
    seconds: float
    held: int
    faults: int


def build():
    """Lets the launcher build the program where that is needed."""
    done = subprocess.run([LAUNCHER, 'drive', EXAMPLE], stdin=subprocess.DEVNULL, stdout=subprocess.DEVNULL)
    if done.returncode != 0:
        sys.exit('bench: the program does not perform examples/one_message.script')


def build_why():
    """The same for the program that tells why."""
    done = subprocess.run([LAUNCHER, 'why', EXAMPLE.replace('.script', '.transcript')], stdin=subprocess.DEVNULL, stdout=subprocess.DEVNULL)
    if done.returncode != 0:
        sys.exit('bench: the program does not tell why of examples/one_message.transcript')


def compiled(source, compiler):
    """The program of a source of bench/, compiled again where it is older than any source there."""
    source = os.path.join(BENCH, source)
    folder = os.path.join(os.path.dirname(source), 'out')
    program = os.path.join(folder, os.path.splitext(os.path.basename(source))[0])
    sources = [path for ending in SOURCES for path in glob.glob(f'{BENCH}/**/*.{ending}', recursive=True)]
    newest = max(map(os.path.getmtime, sources))
    if not os.path.exists(program) or os.path.getmtime(program) < newest:
        os.makedirs(folder, exist_ok=True)
        if subprocess.run(compiler + ['-o', program, source]).returncode != 0:
            sys.exit(f'bench: {source} could not be compiled')
    return program


def plain(name):
    """The plain program that lynx is measured beside, or None where there is no Rust compiler."""
    if shutil.which('rustc') is None:
        print('bench: there is no rustc, so nothing is measured beside', file=sys.stderr)
        return None
    return compiled(os.path.join('plain', name + '.rs'), ['rustc', '-O', '--edition', '2021'])


def accepts(program, folder, module):
    """Whether a program, with the words of a command, takes a module."""
    name = os.path.join(folder, 'm')
    with open(name, 'w') as file:
        file.write(module)
    return subprocess.run([*program, name], stdin=subprocess.DEVNULL, capture_output=True).returncode == 0


def tests_types(program, folder):
    """Whether a program for `check` tests the typing rules: a name that is nowhere declared tells."""
    return not accepts(program, folder, 'module m; begin write undeclared; end.\n')


def stay_on_one_processor():
    """This process and those that it starts keep to one processor, where the system has that."""
    if hasattr(os, 'sched_setaffinity'):
        os.sched_setaffinity(0, {max(os.sched_getaffinity(0))})


class Bench:
    """Runs programs with their output in files of a folder."""

    def __init__(self, folder, program, beside):
        self.folder = folder
        self.programs = [program] + ([beside] if beside else [])
        self.launch = compiled('launch.c', ['cc', '-O1'])
        stay_on_one_processor()

    def path(self, name):
        return os.path.join(self.folder, name)

    def out(self, place):
        """Where the program at that place of the list puts its text."""
        return self.path(f'out{place}')

    def once(self, place, words):
        """One run: its status, its seconds and what it held. What stands on standard error goes behind the output."""
        with open(self.out(place), 'wb') as sink:
            launch = [self.launch, self.path('report')] + self.programs[place] + words
            subprocess.run(launch, stdin=subprocess.DEVNULL, stdout=sink, stderr=sink, check=True)
        with open(self.path('report')) as report:
            status, microseconds, kilobytes, faults = map(int, report.read().split())
        return status, Run(microseconds / 1e6, kilobytes * 1024, faults)

    def fastest(self, words, want, runs):
        """Of each program the least seconds, the most held and the most faults, as they run in turn; each has to end with the wanted status."""
        best = [Run(math.inf, 0, 0) for _ in self.programs]
        for _ in range(runs):
            for place, program in enumerate(self.programs):
                status, run = self.once(place, words)
                if status != want:
                    sys.exit(f'bench: {" ".join(program + words)} ended with status {status}')
                most = best[place]
                best[place] = Run(min(most.seconds, run.seconds), max(most.held, run.held), max(most.faults, run.faults))
        if len(best) == 2 and not filecmp.cmp(self.out(0), self.out(1), shallow=False):
            sys.exit(f'bench: lynx and the plain program put different texts for {" ".join(words)}')
        return best


def net(runs, base):
    """The runs less what a run of next to nothing takes."""
    return [
        Run(max(run.seconds - least.seconds, 1e-6), max(run.held - least.held, 1), run.faults - least.faults) for run, least in zip(runs, base)
    ]


def ratios(runs, nets):
    """The rate beside the plain program's, and the memory beside its, as two columns; nothing where there is no such program."""
    if len(runs) < 2:
        return ''
    memory = f'{nets[0].held / nets[1].held:8.1f}' if nets[1].held >= TOLD_APART else f'{"-":>8}'
    return f'{runs[1].seconds / runs[0].seconds:8.2f} {memory}'


def slope(points):
    """The slope of the straight line that lies closest to the points, by least squares."""
    mean_x = sum(x for x, _ in points) / len(points)
    mean_y = sum(y for _, y in points) / len(points)
    return sum((x - mean_x) * (y - mean_y) for x, y in points) / sum((x - mean_x) ** 2 for x, _ in points)


def exponent(sizes, seconds):
    """The e for which the seconds grow as the e-th power of the sizes."""
    return slope([(math.log(size), math.log(time_)) for size, time_ in zip(sizes, seconds)])


def load():
    """How busy the machine is, as one line."""
    return 'load of the machine: ' + ' '.join(f'{number:.1f}' for number in os.getloadavg()) + f' on {os.cpu_count()} processors'
