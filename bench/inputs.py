"""Packets, sources, schedules and reports that the scripts of this folder make, and what has to come of them."""
import itertools
import os

from measure import TOP, Wrong

TRANSLATOR = os.path.join(TOP, 'examples/translator/translator.gal')
SYN, ACK = 0x02, 0x10
SERVER, PUBLIC = 0xc6336407, 0xc0000201
# Each of these turns the numbers below 16,384, or 2^20, into each other, in no order.
MIXED, MIXED_ROWS = 7919, 649_657


def write(folder, name, text):
    with open(os.path.join(folder, name), 'wb' if isinstance(text, bytes) else 'w') as file:
        if isinstance(text, (bytes, str)):
            file.write(text)
        else:
            file.writelines(text)
    return name


def limits(folder, table_bits=10 ** 12, stages=4096, writeback=16, transfer_bytes=64):
    return write(folder, 'limits.toml', f'table_bits = {table_bits}\nstages = {stages}\nwriteback = {writeback}\n'
                                        f'transfer_bytes = {transfer_bytes}\n')


# ---- packets

def frame(source, source_port, target, target_port, flags, data, sum_ip, sum_tcp, protocol):
    head = bytes.fromhex('0200000000010200000000020800')
    ip = bytes.fromhex('4500') + (40 + len(data)).to_bytes(2, 'big') + bytes.fromhex('0001400040') + bytes([protocol])
    ip += sum_ip.to_bytes(2, 'big') + source.to_bytes(4, 'big') + target.to_bytes(4, 'big')
    tcp = source_port.to_bytes(2, 'big') + target_port.to_bytes(2, 'big') + bytes.fromhex('000000010000000050')
    tcp += bytes([flags]) + bytes.fromhex('2000') + sum_tcp.to_bytes(2, 'big') + bytes(2)
    return (head + ip + tcp + data).hex()


def tcp(source, source_port, target, target_port, flags, data=b''):
    """A frame whose checksums are 0: no middlebox here looks at them."""
    return frame(source, source_port, target, target_port, flags, data, 0, 0, 6)


def host(flow):
    """The address of the host that begins a flow; those of 16,384 flows come in no order."""
    return 0x0a000000 + flow * MIXED % 16384


def of_flow(flow, data=b''):
    """A packet of a flow, from the inside."""
    return tcp(host(flow), 5000, SERVER, 80, SYN, data)


def adjust(kept, old, new):
    """A checksum after a word under it changed: equation 3 of RFC 1624."""
    total = (kept ^ 0xffff) + (old ^ 0xffff) + new
    while total > 0xffff:
        total = (total & 0xffff) + (total >> 16)
    return total ^ 0xffff


def translated(flow, number, data=b''):
    """What the translator makes of a packet of a flow that is the so-manyth new one, from 0."""
    address, public = host(flow), 1024 + number
    moved = adjust(adjust(0, address >> 16, PUBLIC >> 16), address & 0xffff, PUBLIC & 0xffff)
    return 'send 1 ' + frame(PUBLIC, public, SERVER, 80, SYN, data, moved, adjust(moved, 5000, public), 6)


UDP = frame(host(0), 5000, SERVER, 80, SYN, b'', 0, 0, 17)


def trace(folder, count, packet, port=0):
    """Writes a trace of so many packets; `packet` is their bytes, or says those of each."""
    if isinstance(packet, str):
        return write(folder, 'trace.txt', f'{port} {packet}\n' * count)
    return write(folder, 'trace.txt', (f'{port} {packet(i)}\n' for i in range(count)))


# ---- schedules

# What one packet of the server takes where so many rows of replicated objects change.
def served(changes):
    commands = 3 * changes + 2 if changes else 0
    return 'a\nu 0\n' + 'c\nw\nk\n' * commands + 'h 0\nd 0\n'


def schedule(folder, *parts):
    return write(folder, 'schedule.txt', parts)


# ---- what is printed

def verdict_of(verdicts, number):
    return verdicts if isinstance(verdicts, str) else verdicts(number)


def expect(what, given, wanted):
    if given != wanted:
        raise Wrong(f'{what}: {str(given)[:120]}, and not {str(wanted)[:120]}')


def same(file, wanted):
    """Sees that these lines come next in a file."""
    wanted = iter(wanted)
    while True:
        part = ''.join(itertools.islice(wanted, 4096)).encode()
        if not part:
            return
        given = file.read(len(part))
        if given != part:
            pairs = zip(given.decode(errors='replace').split('\n'), part.decode().split('\n'))
            expect('a line', *next((pair for pair in pairs if pair[0] != pair[1]), ('the end', 'more lines')))


def lines(*parts):
    """Looks at a text that has just these lines; a part is a line or a list of lines."""
    def check(file):
        for part in parts:
            same(file, [part] if isinstance(part, str) else part)
        expect('the end', file.read(1), b'')
    return check


def answer(count, verdicts, *parts):
    """Looks at what `run` prints: the verdicts and then these lines; without any, what follows isn't looked at."""
    packets = (f'packet {i} {verdict_of(verdicts, i)}\n' for i in range(count))
    return lines(packets, *parts) if parts else lambda file: same(file, packets)


def report(count, verdicts, fast=lambda number: False, events=None, idle=0, rows=(), order=None, after=()):
    """Looks at a report of a drained replay: how many events there were, where it is given; what became of each packet;
    the order, which is that of the numbers, or given, or 'any'; which parts there are, with how many rows; and the
    lines that follow the end."""
    def check(file):
        expect('the first line', next(file, b''), b'report 1\n')
        expect('the packets', next(file).decode(),
               f'packets {count} admitted {count} decided {count} released {count}\n')
        counted = next(file).decode()
        if events is not None:
            expect('the events', counted, f'events {events} idle {idle}\n')
        next(file)
        expect('the end of the run', next(file), b'drained yes\n')
        for number in range(count):
            words = next(file).decode().rstrip('\n').split(' ', 11)
            expect('a packet', (words[:3], words[11]), (['packet', str(number), 'fast' if fast(number) else 'slow'],
                                                        verdict_of(verdicts, number)))
        if order != 'any':
            wanted = ' '.join(map(str, range(count) if order is None else order))
            expect('the order', next(file).decode(), f'order {wanted}\n')
        else:
            expect('the order', sorted(map(int, next(file).split()[1:])), list(range(count)))
        check_parts(file, rows, after)
    return check


def check_parts(file, rows, after):
    """The parts of objects, by name and number of rows, up to `end`; then the lines after it."""
    parts = []
    for line in file:
        if line == b'end\n':
            break
        if line[:1] in b'os':
            kind, name, number = line.split()
            parts.append((kind.decode(), name.decode(), int(number)))
    expect('the parts', parts, list(rows))
    expect('the lines after the end', [line.decode() for line in file], list(after))
