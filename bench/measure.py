"""What the scripts of this folder share: runs with their processor time and memory, instructions, growth, and tables.

Times are processor seconds of the program alone, the least of several runs, of which the output goes to /dev/null.
Memory is the maximum resident set in MB (2^20 bytes). A run is started by a small process of its own, since the memory
of whatever starts a program counts as the program's: less than the 5 MB of that process isn't seen.
"""
import collections
import importlib.machinery
import importlib.util
import math
import os
import re
import shutil
import subprocess
import sys

TOP = os.path.dirname(os.path.dirname(os.path.realpath(__file__)))
# A run that takes more processor seconds than this is ended.
LONGEST = 300
# Runs are repeated until they took so many seconds together, at least and at most so often.
ENOUGH, FEWEST, MOST = 0.3, 3, 15

# Reads lines of words with NUL between them: where the output and the refusal go, and the call. Tells what a run took.
LAUNCHER = r'''
import os, resource, sys
for line in sys.stdin.buffer:
    said, refused, *words = line[:-1].split(b'\0')
    child = os.fork()
    if child == 0:
        try:
            resource.setrlimit(resource.RLIMIT_CPU, (LONGEST, LONGEST))
            for number, place in enumerate((b'/dev/null', said, refused)):
                os.dup2(os.open(place, os.O_RDWR | os.O_CREAT | os.O_TRUNC, 0o600), number)
            os.execv(words[0], words)
        finally:
            os._exit(127)
    _, status, used = os.wait4(child, 0)
    code = os.WEXITSTATUS(status) if os.WIFEXITED(status) else -os.WTERMSIG(status)
    print(used.ru_utime + used.ru_stime, used.ru_maxrss, code, flush=True)
'''.replace('LONGEST', str(LONGEST))

# What is counted of a split, in order.
COUNTS = ('accesses', 'stages', 'table_bits', 'writeback', 'transfer_bytes')

Used = collections.namedtuple('Used', 'seconds megabytes status')


class Wrong(Exception):
    """The program did something else than what was worked out beside it."""


class Launcher:
    """Runs programs in a folder."""

    def __init__(self, folder):
        self.folder = folder
        self.process = subprocess.Popen([sys.executable, '-I', '-S', '-c', LAUNCHER], cwd=folder, text=True,
                                        stdin=subprocess.PIPE, stdout=subprocess.PIPE)

    def close(self):
        self.process.stdin.close()
        self.process.wait()

    def run(self, program, words, said='/dev/null', refused='/dev/null'):
        self.process.stdin.write('\0'.join([said, refused, program, *words]) + '\n')
        self.process.stdin.flush()
        seconds, kilobytes, status = self.process.stdout.readline().split()
        return Used(float(seconds), int(kilobytes) / 1024, int(status))

    def checked(self, program, call):
        """Runs a call, and sees that what it prints is what was worked out beside it."""
        used = self.run(program, call.words, 'said', 'refused')
        with open(os.path.join(self.folder, 'refused'), encoding='utf-8', errors='replace') as file:
            refusal = file.read().rstrip('\n')
        if used.status != call.status or not refusal.startswith(call.refusal) or bool(refusal) != bool(call.refusal):
            raise Wrong(f'it ended with {used.status}: {refusal[:200]}')
        if call.check:
            with open(os.path.join(self.folder, 'said'), 'rb') as file:
                call.check(file)
        return used

    def instructions(self, program, words):
        """How many instructions a run has. The C library is told to copy by plain ones, each of which is counted."""
        if not shutil.which('valgrind'):
            return None
        plain = 'glibc.cpu.x86_rep_movsb_threshold=1073741824:glibc.cpu.x86_rep_stosb_threshold=1073741824'
        ended = subprocess.run(['valgrind', '--tool=callgrind', '--callgrind-out-file=/dev/null', program, *words],
                               cwd=self.folder, env={**os.environ, 'GLIBC_TUNABLES': plain}, stdin=subprocess.DEVNULL,
                               stdout=subprocess.DEVNULL, stderr=subprocess.PIPE, text=True)
        counted = re.search(r'Collected : (\d+)', ended.stderr)
        return int(counted.group(1)) if counted else None


class Call:
    """A call of the program: its words, what looks at what it printed, how it ends, and how its refusal begins."""

    def __init__(self, words, check=None, status=0, refusal=''):
        self.words, self.check, self.status, self.refusal = words, check, status, refusal


class Shape:
    """What is measured at five sizes. `make(folder, size)` writes the inputs into a folder and answers the call.

    A shape is of the group that its name begins with. Of each thing that a size counts, `times` are done."""

    def __init__(self, name, title, unit, sizes, times, make):
        self.group, self.name, self.title = name.split('-')[0], name, title
        self.unit, self.sizes, self.times, self.make = unit, tuple(sizes), times, make


class Shapes:
    """A list of shapes."""

    def __init__(self):
        self.all = []

    def add(self, *parts):
        self.all.append(Shape(*parts))

    def shape(self, unit, sizes, times=1):
        """What stands over a function that makes inputs: its name and its text are those of the shape."""
        def added(make):
            self.add(make.__name__.replace('_', '-'), make.__doc__.rstrip('.'), unit, sizes, times, make)
            return make
        return added

    def named(self, words):
        """The shapes that a list of names and groups names; all of them where it is empty."""
        return [each for each in self.all if not words or each.name in words or each.group in words]


def least(launcher, program, words):
    """What the shortest of several runs took, with the most memory of them."""
    runs = []
    while len(runs) < FEWEST or len(runs) < MOST and sum(each.seconds for each in runs) < ENOUGH:
        runs.append(launcher.run(program, words))
    return Used(min(each.seconds for each in runs), max(each.megabytes for each in runs), runs[0].status)


def in_turns(launcher, programs, words, turns):
    """The runs of several programs that take turns, a list for each."""
    runs = [[] for _ in programs]
    for turn in range(turns):
        for place in range(len(programs)):
            place = (place + turn) % len(programs)
            runs[place].append(launcher.run(programs[place], words))
    return runs


def growth(sizes, values, start):
    """The exponent by which values grow with sizes: the slope of the line that fits their logarithms best.

    What the start of the process takes is left out of each value, and so are the sizes at which it takes more than a
    third. With fewer than three sizes there is none."""
    points = [(math.log(size), math.log(value - start)) for size, value in zip(sizes, values) if value >= 3 * start]
    if len(points) < 3:
        return None
    across, up = (sum(each) / len(points) for each in zip(*points))
    return sum((x - across) * (y - up) for x, y in points) / sum((x - across) ** 2 for x, _ in points)


def middle(numbers):
    numbers = sorted(numbers)
    return (numbers[(len(numbers) - 1) // 2] + numbers[len(numbers) // 2]) / 2


def three(number):
    """A number with three digits that count."""
    if not number:
        return '-' if number is None else '0'
    places = 2 - math.floor(math.log10(abs(number)))
    return f'{round(number, places):,.{max(0, places)}f}'


def whole(number):
    """A count: a whole number, or one with three digits where it is small."""
    return f'{number:,.0f}' if number and number >= 1000 else three(number)


def exponent(number):
    return '-' if number is None else f'{number:.2f}'


def table(head, rows):
    """Lines of columns with blanks between them: the first on the left, the others on the right."""
    wide = [max(len(row[place]) for row in [head, *rows]) for place in range(len(head))]
    return [''.join(f'{cell:<{wide[0]}}' if not place else f'  {cell:>{wide[place]}}' for place, cell in enumerate(row))
            for row in [head, *rows]]


def page_row(cells):
    """A row of a table of a page."""
    return '|' + ''.join(f' {cell} |' if cell else ' |' for cell in cells)


def page_table(head, rows):
    """The same as lines of a page."""
    return [page_row(head), '|' + '---|' * len(head), *map(page_row, rows)]


def script_beside(name):
    """Another script of this folder as a module."""
    loader = importlib.machinery.SourceFileLoader(name, os.path.join(TOP, 'bench', name))
    module = importlib.util.module_from_spec(importlib.util.spec_from_loader(name, loader))
    loader.exec_module(module)
    return module


def machine():
    """The machine in words."""
    with open('/proc/cpuinfo', encoding='utf-8') as file:
        model = re.search(r'^model name\s*: (.*)$', file.read(), re.M)
    memory = os.sysconf('SC_PAGE_SIZE') * os.sysconf('SC_PHYS_PAGES') / 2 ** 30
    return f'{os.cpu_count()} processors ({model.group(1) if model else os.uname().machine}), {memory:.0f} GB of memory'
