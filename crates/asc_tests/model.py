#!/usr/bin/env python3
"""What `asc run` and `asc save` come to without workers, from the definitions in crates/*/specs: another implementation.

    python3 crates/asc_tests/model.py              says which rows of the table SOUGHT of src/sought.rt, of those without
                                                   workers, have another report than the definitions give (five minutes)
    python3 crates/asc_tests/model.py LINE WORD..  prints what a line comes to, as "asc run image --seek --report", for a
                                                   program of these words in hexadecimal digits

Atomics, chosen addresses and workers are left out. A state is its words: word 0 is the pc, word k register k, words 32 and
33 the reservation, and memory follows from word 34 (place 136) on. A word that is absent is 0. So a place is
4 * word + byte, as in asc_model/specs/State.antt.
"""
import re
import sys
from functools import lru_cache
from pathlib import Path

M32 = 2**32 - 1
BASE = 0x10000  # images of `wrap` are loaded and entered there


def signed(a, bits=32):
    return a - (1 << bits) if a >> (bits - 1) & 1 else a


# ---- instructions (asc_model/specs/Instruction, Arithmetic, Effect)

def divide(a, b):
    q = abs(signed(a)) // abs(signed(b)) if b else 0
    return -1 if b == 0 else (q if (signed(a) < 0) == (signed(b) < 0) else -q)


def remainder(a, b):
    r = abs(signed(a)) % abs(signed(b)) if b else 0
    return a if b == 0 else (-r if signed(a) < 0 else r)


BY_TWO = {
    'add': lambda a, b: a + b, 'sub': lambda a, b: a - b, 'sll': lambda a, b: a << b % 32,
    'slt': lambda a, b: int(signed(a) < signed(b)), 'sltu': lambda a, b: int(a < b), 'xor': lambda a, b: a ^ b,
    'srl': lambda a, b: a >> b % 32, 'sra': lambda a, b: signed(a) >> b % 32, 'or': lambda a, b: a | b,
    'and': lambda a, b: a & b, 'mul': lambda a, b: a * b, 'mulh': lambda a, b: signed(a) * signed(b) >> 32,
    'mulhsu': lambda a, b: signed(a) * b >> 32, 'mulhu': lambda a, b: a * b >> 32, 'div': divide,
    'divu': lambda a, b: a // b if b else -1, 'rem': remainder, 'remu': lambda a, b: a % b if b else a,
    'eq': lambda a, b: a == b, 'ne': lambda a, b: a != b, 'lt': lambda a, b: signed(a) < signed(b),
    'ge': lambda a, b: signed(a) >= signed(b), 'ltu': lambda a, b: a < b, 'geu': lambda a, b: a >= b,
}
PLAIN = {(f3, 0): n for f3, n in enumerate('add sll slt sltu xor srl or and'.split())}
PLAIN |= {(0, 32): 'sub', (5, 32): 'sra'}
PLAIN |= {(f3, 1): n for f3, n in enumerate('mul mulh mulhsu mulhu div divu rem remu'.split())}
BRANCHES = {0: 'eq', 1: 'ne', 4: 'lt', 5: 'ge', 6: 'ltu', 7: 'geu'}


@lru_cache(None)
def decode(word):
    """(kind, operation, rd, rs1, rs2, immediate), or None for a word that is no instruction. Atomics are left out."""
    f7, rs2, rs1, f3, rd, op = word >> 25, word >> 20 & 31, word >> 15 & 31, word >> 12 & 7, word >> 7 & 31, word & 127
    i_imm = signed(word >> 20, 12) & M32
    if op == 0x37 or op == 0x17:
        return ('lui' if op == 0x37 else 'auipc', None, rd, 0, 0, word & 0xFFFFF000)
    if op == 0x6F:
        imm = (word >> 31 << 20) | (word >> 12 & 255) << 12 | (word >> 20 & 1) << 11 | (word >> 21 & 1023) << 1
        return ('jal', None, rd, 0, 0, signed(imm, 21) & M32)
    if op == 0x67 and f3 == 0:
        return ('jalr', None, rd, rs1, 0, i_imm)
    if op == 0x63 and f3 in BRANCHES:
        imm = (word >> 31 << 12) | (word >> 7 & 1) << 11 | (word >> 25 & 63) << 5 | (word >> 8 & 15) << 1
        return ('branch', BRANCHES[f3], 0, rs1, rs2, signed(imm, 13) & M32)
    if op == 0x03 and f3 in (0, 1, 2, 4, 5):
        return ('load', (1 << f3 % 4, f3 < 4), rd, rs1, 0, i_imm)
    if op == 0x23 and f3 < 3:
        return ('store', 1 << f3, 0, rs1, rs2, signed((f7 << 5) | rd, 12) & M32)
    if op == 0x13 and f3 in (1, 5):
        return ('imm', PLAIN[f3, f7], rd, rs1, 0, rs2) if f7 == 0 or (f3, f7) == (5, 32) else None
    if op == 0x13:
        return ('imm', PLAIN[f3, 0], rd, rs1, 0, i_imm)
    if op == 0x33 and (f3, f7) in PLAIN:
        return ('two', PLAIN[f3, f7], rd, rs1, rs2, 0)
    if op == 0x0F and f3 < 2:
        return ('fence', None, 0, 0, 0, 0)
    return {0x73: ('ecall', None, 0, 0, 0, 0), 0x100073: ('ebreak', None, 0, 0, 0, 0)}.get(word)


# ---- one step (Step, Places)

def byte_at(w, place):
    return w.get(place // 4, 0) >> 8 * (place % 4) & 255


def put_byte(w, place, byte):
    at = 8 * (place % 4)
    w[place // 4] = w.get(place // 4, 0) & ~(255 << at) | byte << at


def place_of(address):
    return 136 + address - BASE


CALL = 'call'


def step(w, size, trace=None):
    """Does one step, and answers None; or CALL, or a fault (kind, pc, value), where nothing is done."""
    pc = w[0]
    if pc % 4:
        return (1, pc, pc)
    if not BASE <= pc <= BASE + size - 4:
        return (2, pc, pc)
    word = w.get(place_of(pc) // 4, 0)
    i = decode(word)
    if i is None:
        return (3, pc, word)
    kind, op, rd, rs1, rs2, imm = i
    if kind == 'ecall':
        return CALL
    if kind == 'ebreak':
        return (6, pc, 0)
    a, b = (w[rs1] if rs1 else 0), (w[rs2] if rs2 else 0)
    target, value, data = pc + 4 & M32, None, None
    if kind == 'imm':
        value = BY_TWO[op](a, imm)
    elif kind == 'two':
        value = BY_TWO[op](a, b)
    elif kind == 'branch':
        target = pc + imm & M32 if BY_TWO[op](a, b) else target
    elif kind == 'load' or kind == 'store':
        address = a + imm & M32
        n = op[0] if kind == 'load' else op
        if not (BASE <= address and address + n <= BASE + size):
            return (4 if kind == 'load' else 5, pc, address)
        data = range(place_of(address), place_of(address) + n)
        if kind == 'load':
            value = sum(byte_at(w, p) << 8 * k for k, p in enumerate(data))
            value = signed(value, 8 * n) if op[1] else value
    elif kind == 'lui' or kind == 'auipc':
        value = imm if kind == 'lui' else pc + imm
    elif kind == 'jal' or kind == 'jalr':
        value, target = target, (pc + imm if kind == 'jal' else (a + imm) & ~1) & M32
    if target % 4:
        return (1, pc, target)
    if trace is not None:
        words = (0, place_of(pc) // 4) + ((rs1,) if rs1 else ()) + ((rs2,) if rs2 else ())
        trace.read(w, [4 * k + j for k in words for j in range(4)] + list(data if kind == 'load' else ()))
        trace.write([4 * k + j for k in ((0, rd) if rd else (0,)) for j in range(4)] + list(data if kind == 'store' else ()))
    w[0] = target
    if rd and value is not None:
        w[rd] = value & M32
    if kind == 'store':
        for k, p in enumerate(data):
            put_byte(w, p, b >> 8 * k & 255)
    return None


# ---- entries (DependencyVector, Reach, Entry, Join, EntryFile)

class Trace:
    def __init__(self):
        self.first, self.wrote, self.touched = {}, set(), set()

    def read(self, w, places):
        for p in places:
            if p not in self.touched:
                self.first[p] = byte_at(w, p)
                self.touched.add(p)

    def write(self, places):
        self.wrote.update(places)
        self.touched.update(places)


class Entry:
    def __init__(self, reads, writes, steps):
        self.reads, self.writes, self.steps = dict(sorted(reads.items())), dict(sorted(writes.items())), steps
        self.places, self.bytes = tuple(self.reads), tuple(self.reads.values())
        self.key = (self.places, self.bytes, steps)  # two entries are the same where these are


def trace_entry(start, size, pc, laps, span, cap=4096):
    """The entry of a guess, or None where it has no step."""
    w, trace, n, met = dict(start), Trace(), 0, 0
    while not (met == laps or n == span or cap < len(trace.touched) + 32) and step(w, size, trace) is None:
        n, met = n + 1, met + (w[0] == pc)
    return Entry(trace.first, {p: byte_at(w, p) for p in trace.wrote}, n) if n else None


def join_of(a, b):
    known = {**a.reads, **a.writes}
    if any(known.get(p, byte) != byte for p, byte in b.reads.items()) or a.steps + b.steps > 10**9:
        return None
    if sum(map(len, (a.reads, a.writes, b.reads, b.writes))) > 4096:
        return None
    return Entry(a.reads | {p: v for p, v in b.reads.items() if p not in known}, a.writes | b.writes, a.steps + b.steps)


class Content:
    """Entries, the oldest first (asc_shard/specs/Content), and by their read places and bytes (asc_traj/specs/Content)."""

    def __init__(self, capacity=1024):
        self.capacity, self.held, self.groups = capacity, {}, {}

    def add(self, e):
        if e.key in self.held:
            return False
        self.held[e.key] = e
        self.groups.setdefault(e.places, {}).setdefault(e.bytes, set()).add(e.steps)
        if len(self.held) > self.capacity:
            old = self.held.pop(next(iter(self.held)))
            self.groups[old.places][old.bytes].discard(old.steps)
            if not self.groups[old.places][old.bytes]:
                del self.groups[old.places][old.bytes]
            if not self.groups[old.places]:
                del self.groups[old.places]
        return True

    def longest(self, w, left):
        found = [n for places, group in self.groups.items()
                 for n in group.get(tuple(byte_at(w, p) for p in places), ()) if n <= left]
        return max(found, default=None)

    def file(self, size):
        cells = lambda c: b''.join(p.to_bytes(4, 'little') + bytes([v]) for p, v in c.items())
        out = b'ASCE' + bytes([1, 2, 0, 0]) + b''.join(n.to_bytes(4, 'little') for n in (BASE, size, len(self.held)))
        for e in self.held.values():
            out += e.steps.to_bytes(8, 'little') + len(e.reads).to_bytes(4, 'little') + len(e.writes).to_bytes(4, 'little')
            out += cells(e.reads) + cells(e.writes)
        return out


def content_in(file):
    """The content of a file that is taken to be good."""
    number, at, content = (lambda i, n: int.from_bytes(file[i:i + n], 'little')), 20, Content()
    for _ in range(number(16, 4)):
        steps, counts, lists = number(at, 8), (number(at + 8, 4), number(at + 12, 4)), []
        at += 16
        for count in counts:
            lists.append({number(at + 5 * k, 4): file[at + 5 * k + 4] for k in range(count)})
            at += 5 * count
        content.add(Entry(*lists, steps))
    assert at == len(file)
    return content


# ---- the machine of a run without workers (asc_find/specs/Serial, asc_guess/specs/Guess, asc_shape/specs/Stride)

class Serial:
    def __init__(self, line, size, content):
        self.line, self.size, self.content = line, size, content
        self.prev, self.last, self.issued, self.made = None, None, 0, 0

    def visit(self, number, w):
        self.prev, self.last = self.last, dict(w)
        if self.prev is None:
            return
        ahead = self.line['ahead']
        for target in range(max(self.issued, number) + 1, number + ahead + 1) if number >= 2 else ():
            for kind in self.line['guess']:
                self.made += 1
                self.add(self.guess(kind, target - number))
        self.issued = number + ahead

    def guess(self, kind, ahead):
        if kind == 'last':
            return self.last
        keys = self.last.keys() | self.prev.keys()
        at = lambda w, k: w.get(k, 0)
        return {k: at(self.last, k) + ahead * (at(self.last, k) - at(self.prev, k)) & M32 for k in keys}

    def add(self, guess):
        e = trace_entry(guess, self.size, self.last[0], self.line['laps'], self.line['span'])
        if e and self.content.add(e) and self.line['join']:
            others = list(self.content.held.values())[:-1]
            joins = (join_of(a, e) for a in reversed(others))
            due = next((j for j in joins if j), None)
            if due:
                self.content.add(due)


# ---- the search for an address (asc_seek/specs/Heads, Seek)

class Head:
    def __init__(self, address, count):
        self.address, self.times, self.first, self.last = address, 1, count, count

    def lap(self):
        return (self.last - self.first) // (self.times - 1)


class Seek:
    SLOTS = 4096

    def __init__(self, line):
        self.least, self.ahead = line['min'], line['ahead']
        self.lap = 1  # without workers
        self.since, self.stretch, self.spent, self.table, self.best = 0, 65536, 0, {}, None
        self.phase, self.log = 'profile', []

    def watched(self):
        return self.address if self.phase != 'profile' else None

    def note(self, count, before, now):
        """The step to a count led from an address to another, while heads are noted."""
        if self.phase == 'profile' and now < before:
            head = self.table.get(now // 4 % self.SLOTS)
            if head is None:
                self.table[now // 4 % self.SLOTS] = Head(now, count)
            elif head.address == now:
                head.times, head.last = head.times + 1, count

    def visited(self, at, reply):
        if self.phase == 'trial' and not self.begun:
            self.begun, self.start = True, at
        self.given += max(0, at + (reply or 0) - max(at, self.reached()))

    def reached(self):
        return self.start + (self.ahead + 1) * self.lap_now

    def end(self):
        if self.phase == 'profile':
            return self.since + self.stretch
        if self.phase == 'trial':
            lap = self.lap_now
            if not self.begun:
                return self.start + max(4 * lap, self.stretch // 4)
            scored = max(12 * lap, self.stretch // 4) if self.given else max(4 * lap, self.stretch // 16)
            return self.reached() + scored
        return self.until

    def turn(self, count):
        if count < self.end():
            return
        if self.phase == 'profile':
            self.best = None
            self.try_next(count, None)
        elif self.phase == 'trial':
            score = 1000 * self.given // (count - self.reached()) if self.begun else 0
            if score > (self.best[2] if self.best else 249):
                self.best = (self.address, self.lap_now, score)
            self.log.append((count, 'tried', hex(self.address), self.lap_now, score))
            if score >= 900:
                self.settle(count)
            else:
                self.try_next(count, self.head)
        elif 3 * max(0, count - self.reached()) <= 4 * self.given:
            self.log.append((count, 'pays', self.address and hex(self.address)))
            self.until = count + max(64 * self.lap_now, 65536)
        else:
            self.log.append((count, 'seeks anew'))
            self.since, self.stretch, self.table, self.phase = count, 2 * self.stretch, {}, 'profile'

    def try_next(self, count, tried):
        order = lambda h: (h.lap(), h.address)
        heads = [h for h in self.table.values() if h.times >= self.least and h.lap() >= self.lap]
        heads = sorted((h for h in heads if tried is None or order(tried) < order(h)), key=order)
        if heads and count < self.since + 9 * self.stretch:
            self.phase, self.head, self.begun, self.start, self.given = 'trial', heads[0], False, count, 0
            self.address, self.lap_now = heads[0].address, heads[0].lap()
            self.log.append((count, 'tries', hex(self.address), self.lap_now))
        else:
            self.settle(count)

    def settle(self, count):
        self.spent += count - self.since
        self.phase, self.start, self.given = 'service', count, 0
        self.address, self.lap_now = self.best[:2] if self.best else (None, 0)
        reached = self.reached() if self.best else count
        self.until = max(8 * self.spent, reached + max(64 * self.lap_now, 65536))
        self.log.append((count, 'keeps', self.address and hex(self.address), 'until', self.until))


# ---- devices and guest calls (asc_calls/specs, asc_outside)

class Devices:
    def __init__(self, input=b'', most=3, room=64, fails=(0, 0, 0)):
        self.input, self.most, self.room, self.fails = bytearray(input), most, room, fails
        self.calls, self.put, self.ended = [0, 0, 0], [None, bytearray(), bytearray()], False

    def fail(self, device):
        self.calls[device] += 1
        return self.calls[device] == self.fails[device]


def serve(w, size, brk, low, high, devices):
    """('went', brk), ('exit', code) or the text of a failed device."""
    number, a, b, n = w[17], w[10], w[11], w[12]
    if number in (93, 94):
        return ('exit', a % 256)
    inside = BASE <= b and b + n <= BASE + size
    answer = 2**32 - 38
    if number == 214:
        brk = answer = a if low <= a <= high else brk
    elif number in (63, 64):
        if not (a == 0 if number == 63 else a in (1, 2)):
            answer = 2**32 - 9
        elif n == 0 or not inside:
            answer = 0 if n == 0 else 2**32 - 14
        else:
            done = 0
            while done < n and not (number == 63 and devices.ended):
                if devices.fail(0 if number == 63 else a):
                    return 'input failed' if number == 63 else ('output failed' if a == 1 else 'error output failed')
                k = min(devices.most, n - done)
                if number == 63:
                    piece = devices.input[:k]
                    del devices.input[:k]
                    devices.ended = not piece
                    for j, byte in enumerate(piece):
                        put_byte(w, place_of(b + done + j), byte)
                    done += len(piece)
                else:
                    k = min(k, devices.room - len(devices.put[a]))
                    if k == 0:
                        return 'output failed' if a == 1 else 'error output failed'
                    devices.put[a] += bytes(byte_at(w, place_of(b + done + j)) for j in range(k))
                    done += k
            answer = done
    w[10], w[0] = answer, w[0] + 4 & M32
    return ('went', brk)


# ---- a run (Execution, Visits, SerialRun, asc_top/specs/Numbers and Program, asc_words/specs/Line and Report)

DEFAULTS = {'steps': 2**40, 'min': 4, 'ahead': 4, 'laps': 1, 'span': 10**6, 'memory': 1024, 'pc': None, 'guess': 'stride',
            'load': None, 'join': False, 'seek': False, 'report': False}


def line_of(text):
    words, line = text.split(), dict(DEFAULTS)
    line['save'], k = words[1] == 'save', 3
    while k < len(words):
        name = words[k][2:]
        if DEFAULTS[name] is False:
            line[name], k = True, k + 1
        else:
            value = words[k + 1]
            line[name] = value if name in ('guess', 'load') else int(value, 16 if name == 'pc' else 10)
            k += 2
    line['guess'] = {'none': [], 'last': ['last'], 'stride': ['stride'], 'both': ['last', 'stride']}[line['guess']]
    return line


def start_of(words, size):
    w = {k: 0 for k in range(34)}
    w |= {34 + k: word for k, word in enumerate(words) if word}
    w[0], w[2] = BASE, BASE + size - 64
    return w


class Result:
    pass


def run(text, words, devices=None, saved=None):
    line, r = line_of(text), Result()
    size, limit = 1024 * line['memory'], line['steps']
    devices = devices or (Devices(room=2**20) if line['save'] else Devices())
    w = start_of(words, size)
    low = (BASE + 4 * len(words) + 15) // 16 * 16
    brk, high = low, max(low, BASE + size - 65536)
    machine = Serial(line, size, content_in(saved) if line['load'] else Content())
    seen = line['save'] or line['report'] or line['load']
    seek = Seek(line) if seen and line['seek'] and line['pc'] is None and line['guess'] else None
    assert not seen or seek or line['pc'] is not None or not line['guess'], 'an address that is chosen is not modelled'
    count = skipped = asked = hits = 0
    ended = None
    while ended is None and count < limit:
        address = (seek.watched() if seek else line['pc']) if seen else None
        reply = None
        visit = address is not None and w[0] == address
        if visit:
            asked += 1
            machine.visit(asked, w)
            reply = machine.content.longest(w, limit - count)
            if reply:
                hits, skipped = hits + 1, skipped + reply
            if seek:
                seek.visited(count, reply)
        for _ in range(reply or 1):  # the plain run, also of what is jumped over
            before = w[0]
            answer = step(w, size)
            assert reply is None or answer is None
            if answer == CALL:
                answer = serve(w, size, brk, low, high, devices)
                if answer[0] == 'went':
                    brk, answer = answer[1], None
            if answer is not None:
                ended = answer
                count += answer[0] == 'exit'
                break
            count += 1
        if seek and ended is None:
            if not visit:
                seek.note(count, before, w[0])
            seek.turn(count)
    r.content, r.seek, r.devices, r.count, r.w = machine.content, seek, devices, count, w
    r.file = r.content.file(size)
    numbers = f'asc: executed {count - skipped} skipped {skipped} asked {asked} hits {hits} made {machine.made} refused 0\n'
    numbers = numbers if line['report'] else ''
    if ended is None:
        r.answer, r.report = f'Limit({count})', f'asc: limit after {count}\n' + numbers
    elif isinstance(ended, str):
        r.answer, r.report = ended, f'asc: {ended}\n'
    elif ended[0] == 'exit':
        r.answer, r.report = f'Exit({ended[1]})', numbers
    else:
        r.answer = 'Fault(%d, %#x, %#x, %d)' % (*ended, count)
        r.report = 'asc: fault %d at %08x value %08x after %d\n' % (*ended, count) + numbers
    return r


# ---- the rows of the tests

SOUGHT = Path(__file__).resolve().parent / 'src/sought.rt'
PROGRAM = re.compile(r'const (\w+): &\[u32\] =\s*&\[(.*?)\];', re.S)
ROW = re.compile(r'\(\s*"(asc [^"]*)",\s*(\w+),\s*[\w:()]+?,\s*"((?:[^"\\]|\\.)*)",?\s*\)', re.S)


def rows_of(text):
    """Each row of the table of runs: its line, its program, and the report."""
    programs = {name: [int(word.replace('_', ''), 0) for word in re.sub(r'//.*', '', body).split(',') if word.strip()]
                for name, body in PROGRAM.findall(text)}
    table = text[text.index('static SOUGHT'):]
    table = re.sub(r'^\s*//.*$', '', table[:table.index('\n];')], flags=re.M)
    for line, name, report in ROW.findall(table):
        yield line, programs[name], re.sub(r'\\\n\s*', '', report).replace('\\n', '\n')


def main():
    if sys.argv[1:]:
        got = run(sys.argv[1], [int(word, 16) for word in sys.argv[2:]])
        print(got.answer)
        print(got.report, end='')
        return
    rows = [row for row in rows_of(SOUGHT.read_text()) if '--workers' not in row[0]]
    wrong = 0
    for line, program, report in rows:
        got = run(line, program).report
        if got != report:
            wrong += 1
            print(f'{line}\n  has    {report!r}\n  wanted {got!r}')
    print(f'{len(rows)} rows, {wrong} wrong')
    sys.exit(wrong > 0)


if __name__ == '__main__':
    main()
