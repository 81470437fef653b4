"""Reads what `run`, `replay` or `lossy` printed, for the scripts beside this file. docs/texts.md has the form."""
import re
import sys

NUMBER = '(?:0|[1-9][0-9]*)'
VERDICT = rf'(?:drop|send {NUMBER} (?:-|(?:[0-9a-f]{{2}})+))'
# A line of a packet in a report; what isn't told of a packet is absent.
REPORTED = re.compile(
    rf'packet (?P<number>{NUMBER}) (?P<way>pass|up|slow|fast) admitted (?P<admitted>{NUMBER})'
    rf'(?: decided (?P<decided>{NUMBER}) version {NUMBER} (?:held|released (?P<released>{NUMBER}) '
    rf'(?P<verdict>{VERDICT})))?')
# And in the answer of a run.
ANSWERED = re.compile(rf'packet (?P<number>{NUMBER}) (?P<verdict>{VERDICT})')
COUNTS = re.compile(rf'packets ({NUMBER}) admitted ({NUMBER}) decided ({NUMBER}) released ({NUMBER})')
ROWS = re.compile(rf'(object|switch) ([A-Za-z][A-Za-z0-9_]*) ({NUMBER})')
ROW = re.compile(rf'((?:{NUMBER} )*)->((?: {NUMBER})+)')


class NotTold(Exception):
    """Why a file isn't what `run`, `replay` or `lossy` printed."""


class Packet:
    """A packet as it is told: its way (`slow` or `fast`, where it is decided), its verdict, and events of a replay."""

    def __init__(self, found):
        told = found.groupdict()
        self.number = int(told['number'])
        self.way, self.verdict = told.get('way'), told['verdict']
        self.admitted, self.decided, self.released = (
            None if told.get(name) is None else int(told[name]) for name in ('admitted', 'decided', 'released'))


class Told:
    """What the text of a file tells.

    `packets` has each packet by its number. `objects` and `switch` have the rows of objects by name, in order: pairs of
    the list of keys and that of values. In a report `counts` are those of its second line, and `order` is the serial
    order; in the answer of a run both are None.
    """

    def __init__(self, name):
        self.packets, self.objects, self.switch = {}, {}, {}
        self.counts = self.order = None
        try:
            with open(name, encoding='ascii') as file:
                self.lines = [line for line in file.read().split('\n') if line and not line.startswith('#')]
        except UnicodeDecodeError:
            raise NotTold(f'{name}: it is no text of `run`, `replay` or `lossy`') from None
        except OSError as error:
            raise NotTold(f'{name}: {error.strerror}') from None
        self.at = 0
        try:
            self.read_all()
        except ValueError:
            line = self.lines[self.at] if self.at < len(self.lines) else 'its end'
            raise NotTold(f'{name}: it is no text of `run`, `replay` or `lossy`, by {line[:60]!r}') from None

    def next(self, form=None):
        """The next line, as the form matches it; without a form, passed over."""
        found = True if form is None else form.fullmatch(self.lines[self.at]) if self.at < len(self.lines) else None
        if not found:
            raise ValueError
        self.at += 1
        return found

    def begins(self, *words):
        return self.at < len(self.lines) and self.lines[self.at].split(' ')[0] in words

    def read_all(self):
        is_report = self.begins('report')
        if is_report:
            self.next(re.compile('report 1'))
            self.counts = [int(number) for number in self.next(COUNTS).groups()]
            for form in (rf'events {NUMBER} idle {NUMBER}', rf'version {NUMBER} visible {NUMBER}', 'drained (yes|no)'):
                self.next(re.compile(form))
        while self.begins('packet'):
            packet = Packet(self.next(REPORTED if is_report else ANSWERED))
            self.packets[packet.number] = packet
        if is_report:
            places = self.next(re.compile(rf'order (-|{NUMBER}(?: {NUMBER})*)')).group(1)
            self.order = [] if places == '-' else [int(place) for place in places.split(' ')]
        while self.begins('object', 'switch'):
            part, name, count = self.next(ROWS).groups()
            rows = (self.objects if part == 'object' else self.switch)[name] = []
            for _ in range(int(count)):
                keys, values = self.next(ROW).groups()
                rows.append(([int(key) for key in keys.split()], [int(value) for value in values.split()]))
        self.next(re.compile('end'))
        # Behind the report of a run over links stands a line for each link.
        while self.begins('link'):
            self.next(re.compile('link .*'))
        if self.at < len(self.lines):
            raise ValueError


def told_or_stop(name):
    """What a file tells; where it is none, the script ends with status 2."""
    try:
        return Told(name)
    except NotTold as why:
        stop(why)


def stop(why):
    print(f'{sys.argv[0]}: {why}', file=sys.stderr)
    sys.exit(2)
