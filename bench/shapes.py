"""The shapes that `bench/all` measures: for each its sizes, its inputs, and what the program has to print.

What is expected is worked out here, and never taken from the program. Each function makes the inputs of a size in a
folder, and answers the call.
"""
import random
import struct

import inputs
from inputs import TRANSLATOR, answer, limits, lines, of_flow, report, schedule, served, trace, translated, write
from measure import COUNTS, Call, Shapes

SHAPES = Shapes()
shape = SHAPES.shape
PACKETS = (1024, 2048, 4096, 8192, 16384)
REPLAY = ['replay', TRANSLATOR, 'trace.txt', 'schedule.txt', 'limits.toml']
# The greatest packets of which 16,384 fit into a trace of 64 MiB.
LONG = 2046


def halves(most):
    """Five sizes up to the greatest, each about twice the one before."""
    return [most >> turn for turn in (4, 3, 2, 1, 0)]


# ---- run

@shape('packet', PACKETS)
def run_known(folder, size):
    """The translator, packets of one flow."""
    trace(folder, size, of_flow(0))
    return Call(['run', TRANSLATOR, 'trace.txt'], answer(size, translated(0, 0)))


@shape('packet', PACKETS)
def run_new(folder, size):
    """The translator, each packet of a new flow."""
    trace(folder, size, of_flow)
    return Call(['run', TRANSLATOR, 'trace.txt'], answer(size, lambda i: translated(i, i)))


@shape('packet', PACKETS)
def run_long(folder, size):
    """The translator, packets of 2,046 bytes of one flow."""
    data = (bytes(range(256)) * 8)[:LONG - 54]
    trace(folder, size, of_flow(0, data))
    return Call(['run', TRANSLATOR, 'trace.txt'], answer(size, translated(0, 0, data)))


# ---- sources, read for a run on no packet

BYTES = halves(262_144)


def filled(size, begin, one, end):
    """A text of about so many bytes: `one` says the text of the so-manyth part."""
    text, bytes_of, count = [begin], len(begin) + len(end), 0
    while bytes_of + len(one(count)) <= size:
        text.append(one(count))
        bytes_of += len(text[-1])
        count += 1
    return ''.join([*text, end])


def source(name, title, *text):
    """A shape of a source that is read for a run on no packet."""
    def made(folder, size):
        write(folder, 'source.gal', filled(size, *text))
        write(folder, 'trace.txt', '')
        return Call(['run', 'source.gal', 'trace.txt'], lines('end\n'))
    SHAPES.add(f'source-{name}', title, 'byte', BYTES, 1, made)


source('assignments', 'Assignments to a field', 'process {', lambda i: ' eth.src = 1:48;', ' }')
source('branches', 'Branches, each with a drop', 'process {', lambda i: ' if 1:1 { drop; }', ' }')
source('locals', 'Locals, each with a name of its own', 'process {', lambda i: f' let a{i} = 1:8;', ' }')
source('table', 'A table of rows', 'table t (32) -> (8) {',
       lambda i: f' ({i * inputs.MIXED_ROWS % 2 ** 20}:32) -> (1:8);', ' } process { }')
source('brackets', 'Expressions in 60 brackets', 'process {',
       lambda i: f' ip.tos = {"(" * 60}{i % 256}:8{")" * 60};', ' }')
source('nested', 'Branches, 60 of them in one another', 'process {', lambda i: ' if 1:1 {' * 60 + '}' * 60, ' }')


# ---- compile: flattening, choosing, shrinking

def chain_of_sums(count, first='meta.len', before='', after=''):
    """A chain of sums of 16 bits, each of which needs the one before."""
    sums = ''.join(f'let a{i} = a{i - 1} + {i}:16;\n' for i in range(1, count + 1))
    return f'process {{\n{before}let a0 = {first};\n{sums}{after}send cast(8, a{count});\n}}\n'


def compiled(folder, text, instructions=None, takes=None, shrink=False, **kept):
    """A call of `compile`: how many instructions there are, and what the split takes, where it is given."""
    write(folder, 'source.gal', text)
    limits(folder, **kept)

    def check(file):
        counted = int(next(file).split()[-1])
        if instructions is not None:
            inputs.expect('the instructions', counted, instructions)
        taken = next(file).split()
        inputs.expect('what the split takes', taken[1::2], [name.encode() for name in COUNTS])
        for place, wanted in (takes or {}).items():
            inputs.expect(place, int(taken[taken.index(place.encode()) + 1]), wanted)
        rest = [line for line in file if line[:1] != b'#']
        inputs.expect('the lines of the split', len(rest), counted + 2)
    return Call(['compile', 'source.gal', 'limits.toml', *(['shrink'] if shrink else [])], check)


@shape('sum', halves(2043))
def compile_sums(folder, size):
    """A chain of sums, strict."""
    # Each sum has a constant; there are the length, the cast, and three constants of the output.
    return compiled(folder, chain_of_sums(size), 2 * size + 5, {'stages': size + 1}, transfer_bytes=65535)


@shape('branch', halves(1020))
def compile_branches(folder, size):
    """Branches that write a field, strict."""
    text = ''.join(f'if meta.len == {i + 1}:16 {{ ip.tos = {i % 256}:8; }}\n' for i in range(size))
    return compiled(folder, f'process {{\n{text}send 1:8;\n}}\n', transfer_bytes=65535)


@shape('branch', halves(9000))
def compile_locals(folder, size):
    """Locals, and as many branches that do nothing, strict."""
    text = ''.join(f'let a{i} = c;\n' for i in range(size)) + 'if c { }\n' * size
    return compiled(folder, f'process {{\nlet c = meta.len == 1:16;\n{text}send 1:8;\n}}\n', transfer_bytes=65535)


@shape('branch', halves(1300))
def compile_nested(folder, size):
    """Locals, and as many branches that drop, each of which stands in the block of the one before, strict."""
    text = ''.join(f'let a{i} = c;\n' for i in range(size)) + 'if c { drop; }\n' * size
    return compiled(folder, f'process {{\nlet c = meta.len == 1:16;\n{text}send 1:8;\n}}\n', transfer_bytes=65535)


@shape('look', halves(1361))
def compile_looks(folder, size):
    """Looks of one map, each by the value of the one before; `shrink`, 2 bytes of header."""
    text = ''.join(f'look f{i}, a{i} = m[a{i - 1} + 1:16];\n' for i in range(1, size + 1))
    text = f'map m (16) -> (16) capacity 1024;\nprocess {{\nlet a0 = meta.len;\n{text}send cast(8, a{size});\n}}\n'
    return compiled(folder, text, shrink=True, transfer_bytes=2)


@shape('sum', halves(1000))
def compile_turns(folder, size):
    """Sums and products in turn; `shrink`, 2 bytes of header."""
    text = ''.join(f'let a{i} = b{i - 1} + 1:16;\nlet b{i} = a{i} * 3:16;\n' for i in range(1, size + 1))
    text = f'process {{\nlet b0 = meta.len;\n{text}send cast(8, b{size});\n}}\n'
    return compiled(folder, text, shrink=True, transfer_bytes=2)


LOOK = 'map m (16) -> (16) capacity 1024;\n'


@shape('sum', halves(2040))
def compile_bits(folder, size):
    """One look, then sums; `shrink`, no bits of tables."""
    text = LOOK + chain_of_sums(size, 'v', 'look f, v = m[meta.len];\n')
    return compiled(folder, text, takes={'table_bits': 0}, shrink=True, table_bits=0, transfer_bytes=65535)


@shape('sum', halves(2040))
def compile_empty(folder, size):
    """One look, then sums, and up to 5,100 branches that hold nothing; `shrink`, no bits of tables."""
    text = LOOK + chain_of_sums(size, 'v', 'look f, v = m[meta.len];\n', 'if f { }\n' * (5 * size // 2))
    return compiled(folder, text, takes={'table_bits': 0}, shrink=True, table_bits=0, transfer_bytes=65535)


@shape('operator', halves(1900))
def compile_puts(folder, size):
    """One look and 64 puts, then operators; `shrink`, no bits of tables."""
    text = ''.join(f'put p{i} = m[meta.len] -> v + {i}:16;\n' for i in range(64)) + 'let a0 = v;\n'
    text += ''.join(f'let a{i} = a{i - 1} ^ {i}:16;\n' for i in range(1, size + 1))
    text = f'{LOOK}process {{\nlook f, v = m[meta.len];\n{text}send cast(8, a{size});\n}}\n'
    return compiled(folder, text, takes={'table_bits': 0}, shrink=True, table_bits=0, writeback=64,
                    transfer_bytes=65535)


@shape('sum', halves(2043))
def compile_check(folder, size):
    """A chain of sums, and its split as a text, by `check`."""
    # Three constants and the length come first; then each sum has its constant before it, and the cast is last.
    stages = [0] * 4 + [stage for i in range(1, size + 1) for stage in (0, i)] + [size + 1]
    write(folder, 'source.gal', chain_of_sums(size))
    carried = (f'{i} {stage} carried\n' for i, stage in enumerate(stages))
    write(folder, 'split.txt', [f'split 1 {len(stages)}\n', *carried, 'end\n'])
    limits(folder)
    return Call(['check', 'source.gal', 'limits.toml', 'split.txt'],
                lines(f'ok accesses 0 stages {size + 1} table_bits 0 writeback 0 transfer_bytes 2\n'))


# ---- chains

@shape('statement', [25, 50, 100, 200, 400])
def chain_line(folder, size):
    """32 elements in a line, of so many statements each."""
    write(folder, 'Line.gal', 'process {\n' + 'eth.dst = 1:48;\n' * (size - 1) + 'send 0:8;\n}\n')
    write(folder, 'conf', [*(f'e{i} :: Line;\n' for i in range(32)),
                           *(f'e{i} [0] -> [0] e{i + 1};\n' for i in range(31)), 'e31 [0] -> [0] out;\n'])
    return Call(['chain', 'conf'], holds('send 0:8', 1, '= 1 : 48', 32 * (size - 1)))


def holds(*counts):
    """Looks at a text, of which each part, without blanks, has to stand so often in it."""
    def check(file):
        text = file.read().decode().replace(' ', '').replace('\n', '')
        for part, count in zip(counts[::2], counts[1::2]):
            inputs.expect(part, text.count(part.replace(' ', '')), count)
    return check


TWICE = 'process {\nif meta.port == 0:8 {\nsend 0:8;\n}\nsend 1:8;\n}\n'


def doubling(folder, elements, *last):
    """Elements that each send at two places, so that each stands twice as often as the one before."""
    write(folder, 'Twice.gal', TWICE)
    wires = [f'e{i} [{k}] -> [{k}] e{i + 1};\n' for i in range(elements - 1) for k in (0, 1)]
    return [*(f'e{i} :: Twice;\n' for i in range(elements)), *wires, *last]


@shape('send', [4, 16, 64, 256, 1024])
def chain_twice(folder, size):
    """1 to 5 elements, each of which sends at two places by two wires."""
    elements = (size.bit_length() - 1) // 2
    write(folder, 'conf', doubling(folder, elements, *(f'e{elements - 1} [{k}] -> [{k}] out;\n' for k in (0, 1))))
    return Call(['chain', 'conf'], holds('send', size))


@shape('copy', [2 ** k for k in (4, 7, 10, 13, 16)])
def chain_refused(folder, size):
    """Copies of a `let` of 131,067 bytes, too many to be made: refused."""
    elements = size.bit_length() - 1

    def total(depth):
        return f'( {total(depth - 1)} ) + ( {total(depth - 1)} )' if depth else 'tcp.flags + tcp.flags'
    long = f'let a = {total(12)} ;'.replace('tcp.flags', 'ip.proto', 4)
    inputs.expect('bytes of the let', len(long), 131067)
    write(folder, 'Twice.gal', TWICE)
    write(folder, 'Long.gal', f'process {{ {long} }}\n')
    write(folder, 'conf', [*(f'e{i} :: Twice;\n' for i in range(elements)), f'e{elements} :: Long;\n',
                           *(f'e{i} [0] -> [0] e{i + 1};\n' for i in range(elements))])
    return Call(['chain', 'conf'], lines(), 14, 'chain: ')


# ---- replays

@shape('packet', PACKETS)
def replay_fast(folder, size):
    """The translator with its split, one flow: all packets but the first are fast."""
    trace(folder, size, of_flow(0))
    limits(folder)
    schedule(folder, served(3), 'a\n' * (size - 1))
    return Call(REPLAY, report(size, translated(0, 0), lambda i: i > 0, 37 + size - 1, 0, translator_rows(1)))


@shape('packet', PACKETS)
def replay_idle(folder, size):
    """The translator with its split, one flow, 64 events a packet: 63 of them find nothing to do."""
    trace(folder, size, of_flow(0))
    limits(folder)
    schedule(folder, (served(3) + 'd 9\n' * 27) * size)
    return Call(REPLAY, report(size, translated(0, 0), lambda i: i > 0, 64 * size, 27 + 63 * (size - 1),
                               translator_rows(1)))


@shape('packet', PACKETS)
def replay_new(folder, size):
    """The translator with its split, each packet of a new flow, with 11 commands."""
    trace(folder, size, of_flow)
    limits(folder)
    schedule(folder, served(3) * size)
    return Call(REPLAY, report(size, lambda i: translated(i, i), events=37 * size, rows=translator_rows(size)))


@shape('packet', PACKETS)
def replay_drain(folder, size):
    """The translator with its split, each packet of a new flow, by the word `drain`."""
    call = replay_new(folder, size)
    schedule(folder, 'drain\n')
    return call


@shape('packet', PACKETS)
def replay_merged(folder, size):
    """The translator with its split, new flows, all run before the first command: one batch of all."""
    trace(folder, size, of_flow)
    limits(folder, writeback=65536)
    schedule(folder, 'a\n' * size, 'u 0\n' * size, 'drain\n')
    return Call(REPLAY, report(size, lambda i: translated(i, i), events=4 * size + 3 * (9 * size + 2),
                               rows=translator_rows(size)))


@shape('packet', PACKETS)
def replay_waiting(folder, size):
    """The translator with its split, new flows, all run before the first command: a batch for each."""
    call = replay_merged(folder, size)
    limits(folder, writeback=1)
    call.check = report(size, lambda i: translated(i, i), events=4 * size + 3 * 11 * size, rows=translator_rows(size))
    return call


@shape('packet', PACKETS)
def replay_up(folder, size):
    """The translator with a split of no stages: each packet goes to the server."""
    trace(folder, size, of_flow)
    limits(folder, stages=0)
    schedule(folder, served(0) * size)
    return Call([*REPLAY, 'shrink'],
                report(size, lambda i: translated(i, i), events=4 * size, rows=translator_rows(size, kept=False)))


@shape('packet', PACKETS)
def replay_server(folder, size):
    """The translator with no split, each packet of a new flow."""
    trace(folder, size, of_flow)
    schedule(folder, served(0) * size)
    return Call(REPLAY[:-1],
                report(size, lambda i: translated(i, i), events=4 * size, rows=translator_rows(size, kept=False)))


@shape('packet', PACKETS)
def replay_long(folder, size):
    """Packets of 2,046 bytes that only pass, on the server."""
    body = (bytes(range(256)) * 8)[:LONG].hex()
    write(folder, 'source.gal', 'process { send 2:8; }\n')
    trace(folder, size, body)
    schedule(folder, served(0) * size)
    return Call(['replay', 'source.gal', 'trace.txt', 'schedule.txt'], report(size, f'send 2 {body}', events=4 * size))


@shape('packet', PACKETS)
def replay_overtaking(folder, size):
    """All packets on their way at once, each taken from the middle."""
    write(folder, 'source.gal', 'process { send 2:8; }\n')
    trace(folder, size, '00')
    taken = [(i * inputs.MIXED) % (size - i) for i in range(size)]
    schedule(folder, 'a\n' * size, *(''.join(f'{event} {j}\n' for j in taken) for event in 'uhd'))
    standing = list(range(size))
    return Call(['replay', 'source.gal', 'trace.txt', 'schedule.txt'],
                report(size, 'send 2 00', events=4 * size, order=[standing.pop(j) for j in taken]))


def translator_rows(flows, kept=True):
    """The parts of the report of the translator after so many new flows, with what the switch keeps."""
    parts = (('out', flows), ('back', flows), ('next', 1))
    return [(kind, *part) for kind in ('object', 'switch') for part in parts if kept or kind == 'object']


def filling(capacity):
    """A source of three kinds of packets: they store 60 rows, or remove a row and store one, or only look."""
    puts = ''.join(f'put stored{i} = rows[eth.src, {i}:6] -> meta.port;\n' for i in range(60))
    return (f'map rows (48, 6) -> (8) capacity {capacity};\nprocess {{\n'
            f'if eth.type == 0x0800:16 {{\n{puts}send 1:8;\n}}\n'
            'if eth.type == 0x0802:16 {\ndel gone = rows[eth.dst, 0:6];\nput new = rows[eth.src, 0:6] -> meta.port;\n'
            'send 1:8;\n}\n'
            'look known, port = rows[eth.dst, 0:6];\nif known {\nsend port;\n}\ndrop;\n}\n')


def address(i):
    """Addresses of Ethernet in no order."""
    return f'02{i * inputs.MIXED % 1_048_573:010x}'


@shape('packet', PACKETS)
def replay_batches(folder, size):
    """A map that is filled, and then packets that each remove a row and store another."""
    # One packet of sixteen fills, by 60 rows, so that the map has four rows for each packet to come.
    fillers = size // 16
    write(folder, 'source.gal', filling(60 * fillers))
    limits(folder, writeback=64)

    def packet(i):
        if i < fillers:
            return f'ffffffffffff{address(i)}0800'
        return f'{address(i - fillers)}{address(i)}0802'
    trace(folder, size, packet)
    schedule(folder, served(60) * fillers, served(2) * (size - fillers))
    events = fillers * (4 + 3 * 182) + (size - fillers) * (4 + 3 * 8)
    return Call(['replay', 'source.gal', 'trace.txt', 'schedule.txt', 'limits.toml'],
                report(size, lambda i: f'send 1 {packet(i)}', events=events,
                       rows=[(kind, 'rows', 60 * fillers) for kind in ('object', 'switch')]))


# ---- events, and made packets

@shape('event', halves(1_048_576))
def events(folder, size):
    """Events that find nothing to do."""
    write(folder, 'source.gal', 'process { send 2:8; }\n')
    trace(folder, 1, '00')
    schedule(folder, served(0), 'd 4294967295\n' * (size - 4))
    return Call(['replay', 'source.gal', 'trace.txt', 'schedule.txt'],
                report(1, 'send 2 00', events=size, idle=size - 4))


@shape('packet', PACKETS)
def gen(folder, size):
    """Packets that are made from a number."""
    # Rounds of 16 packets: 128 of new flows, each with 8 changes in one batch of 50 commands, and then of known ones.
    rounds = size // 16
    new = min(rounds, 128)
    known = rounds - new
    return Call(['gen', '7', str(size)], lines(
        f'gen 7 {size}\n', f'packets {size}\n', f'fast {16 * known}\n', f'slow {16 * new}\n', 'dropped 0\n',
        f'version {8 * new}\n', f'commands {50 * new}\n', f'events {256 * rounds}\n',
        f'idle {42 * new + 240 * known}\n', 'drained yes\n', 'end\n'))


# ---- stage by stage

# The pass of the translator has stages up to this one before the server. The page of performance says where it stands.
STAGES = 14


@shape('packet', PACKETS)
def fine_one(folder, size):
    """The translator stage by stage, UDP that it drops: one pass after the other."""
    trace(folder, size, inputs.UDP)
    limits(folder)
    schedule(folder, 'fine\n', ('a\n' + 's 0\n' * STAGES) * size)
    return Call(REPLAY, report(size, 'drop', lambda i: True, (STAGES + 1) * size, 0, translator_rows(0)))


@shape('packet', PACKETS)
def fine_together(folder, size):
    """The translator stage by stage, UDP that it drops: all passes under way at once."""
    call = fine_one(folder, size)
    schedule(folder, 'fine\n', 'a\n' * size, 's 0\n' * (STAGES * size))
    return call


@shape('packet', PACKETS)
def fine_last(folder, size):
    """The translator stage by stage, UDP that it drops: all under way, the last one goes on first."""
    call = fine_one(folder, size)
    schedule(folder, 'fine\n', 'a\n' * size, *(f's {j}\n' * STAGES for j in reversed(range(size))))
    call.check = report(size, 'drop', lambda i: True, (STAGES + 1) * size, 0, translator_rows(0), 'any')
    return call


@shape('packet', PACKETS)
def fine_new(folder, size):
    """The translator stage by stage by the word `drain`, each packet of a new flow."""
    call = replay_new(folder, size)
    schedule(folder, 'fine\n', 'drain\n')
    call.check = report(size, lambda i: translated(i, i), rows=translator_rows(size))
    return call


# The highest stage of the pass before the server of the source below.
PASS_STAGES = 5


def passes_and_commands(folder, size, servers, events):
    """Packets of which the first ones store 32 rows each on the server, and the others pass and find none; all rows go
    in one batch. The events come once the passes of the others are under way."""
    puts = ''.join(f'put p{i} = m[eth.src, {i}:5] -> {i}:8;\n' for i in range(32))
    write(folder, 'source.gal', 'map m (48, 5) -> (8) capacity 65536;\nprocess {\nif eth.type == 0x0800:16 {\n' + puts +
          'send 1:8;\n}\nlook known, port = m[eth.dst, 0:5];\nif known {\nsend port;\n}\ndrop;\n}\n')
    limits(folder, writeback=65536)
    trace(folder, size, lambda i: f'ffffffffffff02{i:010x}0800' if i < servers else f'06{i:010x}ffffffffffff0801')
    schedule(folder, 'fine\n', 'a\n' * servers, 's 0\n' * (PASS_STAGES * servers), 'u 0\n' * servers,
             'a\n' * (size - servers), events, 'drain\n')
    return Call(['replay', 'source.gal', 'trace.txt', 'schedule.txt', 'limits.toml'],
                report(size, lambda i: f'send 1 ffffffffffff02{i:010x}0800' if i < servers else 'drop',
                       lambda i: i >= servers, rows=[(kind, 'm', 32 * servers) for kind in ('object', 'switch')],
                       order='any'))


@shape('packet', PACKETS)
def fine_commands(folder, size):
    """Seven passes of eight packets under way, and under them four commands a packet, which stage rows."""
    return passes_and_commands(folder, size, size // 8, 'c\nw\n' * (32 * (size // 8)))


@shape('packet', PACKETS)
def fine_waits(folder, size):
    """All passes but one under way, and 16 events a packet that find a command which waits for them."""
    # 32 rows are staged, and the bit is set, before the first change of the main table has to wait.
    return passes_and_commands(folder, size, 1, 'c\n' * 34 + 'w\n' * (33 + 16 * size))


# ---- deep chains

def sum_of(count, first):
    """What a chain of sums leaves: the verdict of a packet of 60 bytes."""
    return f'send {(first + count * (count + 1) // 2) % 65536 % 256} {"00" * 60}'


def deep(folder, size, packets, *events):
    write(folder, 'source.gal', chain_of_sums(size))
    trace(folder, packets, '00' * 60)
    limits(folder, transfer_bytes=65535)
    schedule(folder, *events)
    return Call(['replay', 'source.gal', 'trace.txt', 'schedule.txt', 'limits.toml'],
                report(packets, sum_of(size, 60), lambda i: True))


@shape('sum', halves(2043), 1024)
def deep_plain(folder, size):
    """1,024 packets through so many sums on the switch, each of which needs the one before."""
    return deep(folder, size, 1024, 'a\n' * 1024)


@shape('sum', halves(2043), 128)
def deep_fine(folder, size):
    """128 packets through so many sums stage by stage, all under way at once."""
    return deep(folder, size, 128, 'fine\n', 'a\n' * 128, 's 0\n' * (128 * (size + 1)))


# ---- the server's part

def on_server(folder, packets, text, verdict, row=()):
    write(folder, 'source.gal', text)
    trace(folder, packets, '00' * 60)
    schedule(folder, served(0) * packets)
    return Call(['replay', 'source.gal', 'trace.txt', 'schedule.txt'],
                report(packets, verdict, events=4 * packets, rows=row))


@shape('operator', halves(2039), 1024)
def server_operators(folder, size):
    """1,024 packets through so many sums on the server."""
    return on_server(folder, 1024, chain_of_sums(size), sum_of(size, 60))


@shape('look', halves(1361), 1024)
def server_looks(folder, size):
    """1,024 packets through so many looks on the server, each by the value of the one before."""
    # A vector of zeros: each look finds 0 at the index 60 or 1.
    text = ''.join(f'look f{i}, a{i} = v[a{i - 1} + 1:32];\n' for i in range(1, size + 1))
    text = f'process {{\nlet a0 = cast(32, meta.len);\n{text}send cast(8, a{size});\n}}\n'
    text = f'vector v length 1024 -> (32);\n{text}'
    return on_server(folder, 1024, text, f'send 0 {"00" * 60}', [('object', 'v', 1024)])


# ---- links

def linked(name, items, sent):
    return f'link {name} items {items} sent {sent} delivered {items} known {items}\n'


@shape('packet', PACKETS)
def links_frames(folder, size):
    """Frames that are sent, come and are taken in an order of chance, those down twice."""
    write(folder, 'source.gal', 'process { send byte(0:16); }\n')
    trace(folder, size, lambda i: f'{i % 256:02x}')
    limits(folder)
    chance = random.Random(size)

    def mixed(count):
        return chance.sample(range(count), count)

    def taken(event):
        return ''.join(f'{event} {chance.randrange(size - i)}\n' for i in range(size))

    def each(begin, numbers):
        return ''.join(f'{begin} {j}\n' for j in numbers)
    schedule(folder, 'a\n' * size, each('x up', mixed(size)), each('y up', mixed(size)), taken('u'),
             each('z up', mixed(size)), taken('h'), each('x down', mixed(size)), each('x down', mixed(size)),
             each('y down', mixed(2 * size)), taken('d'), each('z down', mixed(2 * size)))
    return Call(['lossy', 'source.gal', 'trace.txt', 'schedule.txt', 'limits.toml'],
                report(size, lambda i: f'send {i % 256} {i % 256:02x}', events=4 * size, order='any',
                       after=[linked('up', size, size), linked('down', size, 2 * size), linked('ctl', 0, 0),
                              linked('ack', 0, 0)]))


@shape('packet', PACKETS)
def links_commands(folder, size):
    """Packets one after the other, each with five commands."""
    write(folder, 'source.gal', 'map seen (16) -> (8) capacity 60000;\nprocess {\nlook f, n = seen[0:16];\n'
                                'put a = seen[1:16] -> byte(0:16);\nsend byte(0:16);\n}\n')
    trace(folder, size, lambda i: f'{i % 256:02x}')
    limits(folder)

    def crossing(name, j):
        return f'x {name} 0\ny {name} {j}\nz {name} {j}\n'

    def packet(i):
        commands = ''.join(f'c\n{crossing("ctl", j)}w\n{crossing("ack", j)}k\n' for j in range(5 * i, 5 * i + 5))
        return f'a\n{crossing("up", i)}u 0\n{commands}h 0\n{crossing("down", i)}d 0\n'
    schedule(folder, *(packet(i) for i in range(size)))
    counts = {'up': size, 'down': size, 'ctl': 5 * size, 'ack': 5 * size}
    links = [linked(name, count, count) for name, count in counts.items()]
    return Call(['lossy', 'source.gal', 'trace.txt', 'schedule.txt', 'limits.toml'],
                report(size, lambda i: f'send {i % 256} {i % 256:02x}', events=19 * size,
                       rows=[('object', 'seen', 1), ('switch', 'seen', 1)], after=links))


# ---- audits, of reports that are written here

def told(packets, verdicts, versions, parts):
    """The lines of a report in which each packet goes up, is run, is let go and comes down before the next comes in."""
    yield f'report 1\npackets {packets} admitted {packets} decided {packets} released {packets}\n'
    yield f'events {4 * packets} idle 0\nversion {packets if versions else 0} visible 0\ndrained yes\n'
    for i in range(packets):
        version = i + 1 if versions else 0
        yield (f'packet {i} slow admitted {4 * i + 1} decided {4 * i + 2} version {version} released {4 * i + 4} '
               f'{inputs.verdict_of(verdicts, i)}\n')
    yield f'order {" ".join(map(str, range(packets)))}\n'
    yield from parts
    yield 'end\n'


def audited(folder, source_name, packets, *parts):
    write(folder, 'report.txt', told(packets, *parts))
    return Call(['audit', source_name, 'trace.txt', 'report.txt'], lines(f'ok decided {packets} released {packets}\n'))


@shape('packet', halves(3620))
def audit_long(folder, size):
    """Reports of packets of 9,216 bytes, up to 64 MiB."""
    body = (bytes(range(256)) * 36).hex()
    write(folder, 'source.gal', 'process { send 1:8; }\n')
    trace(folder, size, body)
    return audited(folder, 'source.gal', size, f'send 1 {body}', False, [])


@shape('packet', PACKETS)
def audit_new(folder, size):
    """Reports of the translator, each packet of a new flow."""
    trace(folder, size, of_flow)
    out = sorted((inputs.host(i), 1024 + i) for i in range(size))
    parts = [f'object out {size}\n', *(f'{address} 5000 -> {port}\n' for address, port in out), f'object back {size}\n',
             *(f'{1024 + i} -> {inputs.host(i)} 5000\n' for i in range(size)), f'object next 1\n-> {1024 + size}\n']
    return audited(folder, TRANSLATOR, size, lambda i: translated(i, i), True, parts)


# ---- captures

@shape('packet', PACKETS)
def pcap_in(folder, size):
    """Captures of packets of 4,079 bytes, up to 64 MiB."""
    body = (bytes(range(256)) * 16)[:4079]
    record = [struct.pack('<IIII', i, 0, len(body), len(body)) + body for i in range(size)]
    write(folder, 'capture.pcap', struct.pack('<IHHIIII', 0xa1b2c3d4, 2, 4, 0, 0, 9216, 1) + b''.join(record))
    return Call(['pcap', 'in', 'capture.pcap', '3'], lines(f'3 {body.hex()}\n' for _ in range(size)))


@shape('packet', PACKETS)
def pcap_out(folder, size):
    """Traces of packets of 2,046 bytes, up to 64 MiB."""
    body = (bytes(range(256)) * 8)[:LONG]
    trace(folder, size, body.hex())

    def check(file):
        inputs.expect('the header', file.read(24), struct.pack('>IHHIIII', 0xa1b2c3d4, 2, 4, 0, 0, 9216, 1))
        for i in range(size):
            inputs.expect('a record', file.read(16 + LONG), struct.pack('>IIII', i, 0, LONG, LONG) + body)
        inputs.expect('the end', file.read(), b'')
    return Call(['pcap', 'out', 'trace.txt', 'big', 'micro'], check)


# ---- rows

TOP_ROW = 2 ** 64 - 1


def vector(folder, size):
    """A source with a vector of so many rows, of which its one packet changes the eighth."""
    write(folder, 'source.gal', f'vector v length {size} -> (64);\nprocess {{\n'
                                f'put stored = v[7:32] -> {TOP_ROW}:64;\ndrop;\n}}\n')
    write(folder, 'trace.txt', '0 -\n')


def vector_rows(size):
    return (f'{i} -> {TOP_ROW if i == 7 else 0}\n' for i in range(size))


@shape('row', halves(1_048_576))
def rows_stored(folder, size):
    """64 rows stored by each packet, up to the most rows of all, and listed."""
    puts = ''.join(f'put p{i} = m[eth.src, {i}:6] -> {i}:8;\n' for i in range(64))
    write(folder, 'source.gal', f'map m (48, 6) -> (8) capacity 1048576;\nprocess {{\n{puts}send 1:8;\n}}\n')
    packets = size // 64
    sources = [(i * inputs.MIXED % 16384) for i in range(packets)]
    trace(folder, packets, lambda i: f'ffffffffffff02{sources[i]:010x}0800')
    rows = (f'{(2 << 40) + source} {i} -> {i}\n' for source in sorted(sources) for i in range(64))
    return Call(['run', 'source.gal', 'trace.txt'],
                answer(packets, lambda i: f'send 1 ffffffffffff02{sources[i]:010x}0800',
                       f'object m {size}\n', rows, 'end\n'))


@shape('row', halves(1_048_576))
def rows_listed(folder, size):
    """A vector of so many rows, listed by `run`."""
    vector(folder, size)
    return Call(['run', 'source.gal', 'trace.txt'],
                lines('packet 0 drop\n', f'object v {size}\n', vector_rows(size), 'end\n'))


@shape('row', halves(1_048_576))
def rows_audited(folder, size):
    """A vector of so many rows, in a report that is audited."""
    vector(folder, size)
    return audited(folder, 'source.gal', 1, 'drop', True, [f'object v {size}\n', *vector_rows(size)])


@shape('row', [60 * packets for packets in PACKETS])
def rows_filled(folder, size):
    """A map on the server and on the switch, filled by packets of a replay, 60 rows each."""
    packets = size // 60
    write(folder, 'source.gal', filling(size))
    limits(folder, writeback=64)
    trace(folder, packets, lambda i: f'ffffffffffff{address(i)}0800')
    schedule(folder, 'drain\n')
    return Call(['replay', 'source.gal', 'trace.txt', 'schedule.txt', 'limits.toml'],
                report(packets, lambda i: f'send 1 ffffffffffff{address(i)}0800', events=packets * (4 + 3 * 182),
                       rows=[(kind, 'rows', size) for kind in ('object', 'switch')]))


@shape('row', halves(983_040))
def rows_replicated(folder, size):
    """A vector of so many rows that the switch keeps, and one packet that changes a row."""
    write(folder, 'source.gal', f'vector v length {size} -> (64);\nprocess {{\nlook found, now = v[7:32];\n'
                                f'put stored = v[7:32] -> now + 1:64;\nsend cast(8, now);\n}}\n')
    write(folder, 'trace.txt', '0 00\n')
    limits(folder)
    schedule(folder, served(1))
    return Call(['replay', 'source.gal', 'trace.txt', 'schedule.txt', 'limits.toml'],
                report(1, 'send 0 00', events=19, rows=[('object', 'v', size), ('switch', 'v', size)]))
