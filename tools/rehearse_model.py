#!/usr/bin/env python3
"""A model of `rehearse`, written from docs/REHEARSAL.md and docs/PROTOCOL.md alone.

Standard input -> standard output. Every call asks the questions of the
protocol's table in their order; the first no raises Refused(number, place).
"""
import sys
from hashlib import sha256

MAX_PAGES = 16777216
MAX_NUMBER = 65535
MAX_INPUT = 65536
MAX_EVENTS = 1000
ROWS_A_HOUSE = 64
HEAD = 37
ALL, ROTATING = 1, 2


class Refused(Exception):
    def __init__(self, number, place=0):
        super().__init__(number, place)
        self.number = number
        self.place = place


def ask(yes, number, place=0):
    """Put one question: a no refuses with this number."""
    if not yes:
        raise Refused(number, place)


def digest(pages):
    return sha256(pages).digest()


def statement(mark, j, k, d):
    """36 bytes: mark, house, number (most significant byte first), digest."""
    return bytes([mark, j]) + k.to_bytes(2, "big") + d


# ---- 5. Witness rules

class Rule:
    def __init__(self, n, t, mark):
        ask(1 <= n <= 16, 1)
        ask(3 * t + 1 <= n, 2)
        self.n, self.t, self.mark = n, t, mark

    def named(self, j, k):
        if not (j < self.n and k > 0):
            return set()
        if self.mark == ALL:
            return set(range(self.n))
        return {(j + k + r) % self.n for r in range(3 * self.t + 1)}

    def need(self):
        if self.mark == ALL:
            return (self.n + self.t + 1 + 1) // 2       # the half rounded up
        return 2 * self.t + 1

    def accepts(self, houses, j, k):
        if not (j < self.n and k > 0):
            return False
        return len(houses & self.named(j, k)) >= self.need()


# ---- 6. The register

class Register:
    L = 2

    def __init__(self, n, rows):
        ask(1 <= n <= 16, 1)
        ask(n <= rows <= 65535, 3)
        self.n = n
        self.used = []                                  # (house, statement)
        self.remaining = [rows // n] * n

    def left(self, house):
        return self.remaining[house] if house < self.n else 0

    def checks(self, house, stmt, seal):
        if house >= self.n or len(seal) != self.L:
            return False
        row = int.from_bytes(seal, "big")
        return row < len(self.used) and self.used[row] == (house, stmt)

    def sign(self, house, stmt, memory):
        ask(self.left(house) >= 1, 14)
        ask(len(memory) >= self.L, 15)
        memory[:self.L] = len(self.used).to_bytes(2, "big")
        self.used.append((house, stmt))
        self.remaining[house] -= 1


# ---- 7. The machine

class Row:
    def __init__(self):
        self.last = 0
        self.slots = [None] * 4                         # for last+1 .. last+4


class Station:
    def __init__(self, house):
        ask(house < 16, 4)
        self.house = house
        self.count = 0
        self.rows = [Row() for _ in range(16)]


class Gathering:
    def __init__(self, j, k, d):
        self.j, self.k, self.d = j, k, d
        self.houses = set()
        self.closed = False


class Exchange:
    def __init__(self, rule, kind):
        self.rule, self.kind = rule, kind

    def announce(self, station, pages):
        ask(station.house < self.rule.n, 4)
        ask(station.count < MAX_NUMBER, 5)
        ask(station.count < station.rows[station.house].last + 4, 6)
        ask(len(pages) <= MAX_PAGES, 7)
        station.count += 1
        return station.count, digest(pages)

    def note(self, station, j, k, d, memory):
        ask(station.house < self.rule.n, 4)
        ask(j < self.rule.n, 8)
        row = station.rows[j]
        ask(k > row.last, 9)
        ask(k <= row.last + 4, 10)
        ask(station.house in self.rule.named(j, k), 11)
        slot = k - row.last - 1
        ask(row.slots[slot] is None or row.slots[slot] == d, 13)
        ask(row.slots[slot] is None, 12)
        ask(self.kind.left(station.house) >= 1, 14)
        ask(len(memory) >= self.kind.L, 15)
        row.slots[slot] = d
        self.kind.sign(station.house, statement(self.rule.mark, j, k, d), memory)

    def start(self, j, k, d):
        ask(j < self.rule.n, 8)
        ask(k >= 1, 9)
        return Gathering(j, k, d)

    def gathered(self, g):
        return statement(self.rule.mark, g.j, g.k, g.d)

    def add(self, g, i, seal, memory):
        assert not g.closed
        L, c = self.kind.L, len(g.houses)
        ask(i < self.rule.n, 8)
        ask(i in self.rule.named(g.j, g.k), 11)
        ask(i not in g.houses, 16)
        ask(len(seal) == L, 17)
        ask(self.kind.checks(i, self.gathered(g), seal), 18)
        ask(len(memory) >= HEAD + (c + 1) * (1 + L), 15)
        at = HEAD + c * (1 + L)
        memory[at:at + 1 + L] = bytes([i]) + seal
        g.houses.add(i)

    def close(self, g):
        ask(self.rule.accepts(g.houses, g.j, g.k), 19)
        g.closed = True
        return g

    def issue(self, g, memory):
        assert g.closed
        c = len(g.houses)
        length = HEAD + c * (1 + self.kind.L)
        ask(len(memory) >= length, 15)
        memory[:HEAD] = self.gathered(g) + bytes([c])
        return length

    def file(self, station, bundle, pages):
        n, L = self.rule.n, self.kind.L
        ask(station.house < n, 4)
        ask(len(pages) <= MAX_PAGES, 7)
        ask(len(bundle) >= HEAD, 20)
        ask(bundle[0] == self.rule.mark, 21)
        j, k = bundle[1], int.from_bytes(bundle[2:4], "big")
        ask(j < n, 8)
        row = station.rows[j]
        ask(k > row.last, 9)
        ask(k == row.last + 1, 10)
        d, c = bundle[4:36], bundle[36]
        ask(d == digest(pages), 22)
        ask(len(bundle) == HEAD + c * (1 + L), 23)
        signers = set()
        for place in range(1, c + 1):
            at = HEAD + (place - 1) * (1 + L)
            i, seal = bundle[at], bundle[at + 1:at + 1 + L]
            ask(i < n, 8, place)
            ask(i in self.rule.named(j, k), 11, place)
            ask(i not in signers, 16, place)
            ask(self.kind.checks(i, bundle[:36], seal), 18, place)
            signers.add(i)
        ask(self.rule.accepts(signers, j, k), 19)
        row.last = k
        row.slots = row.slots[1:] + [None]
        return station.house, j, k, d, sum(2 ** i for i in signers)


# ---- The rehearsal: form of the input

def read_number(field):
    """The number a field writes, or refusal 24."""
    ask(field != b"" and all(48 <= b <= 57 for b in field), 24)
    ask(field == b"0" or field[:1] != b"0", 24)
    ask(len(field) <= 5 and int(field) <= MAX_NUMBER, 24)
    return int(field)


def read_event(line, ended):
    """(call, at, house, number, text) of an event line, or refusal 24."""
    ask(ended, 24)
    fields = line.split(b" ")
    ask(len(fields) == 5, 24)
    call, text = fields[0], fields[4]
    ask(call in (b"announce", b"note", b"file"), 24)
    at, house, number = [read_number(f) for f in fields[1:4]]
    ask(1 <= len(text) <= 64 and all(33 <= b <= 126 for b in text), 24)
    ask(call != b"announce" or (house == 0 and number == 0), 24)
    return call.decode(), at, house, number, text


def read_opening(data):
    """n, t, mark and the event lines as pairs (bytes, ended), or refusal 24."""
    pieces = data.split(b"\n")
    ended, tail = pieces[:-1], pieces[-1]
    ask(len(data) <= MAX_INPUT, 24)
    ask(len(ended) >= 3, 24)
    ask(ended[0] == b"houses bad rule", 24)
    fields = ended[1].split(b" ")
    ask(len(fields) == 3, 24)
    n, t, mark = [read_number(f) for f in fields]
    ask(mark in (ALL, ROTATING), 24)
    ask(ended[2] == b"call at house number text", 24)
    events = [(line, True) for line in ended[3:]]
    if tail != b"":
        events.append((tail, False))
    ask(len(events) <= MAX_EVENTS, 24)
    return n, t, mark, events


# ---- The rehearsal: what happens

def play_announce(exchange, stations, at, text):
    ask(at < len(stations), 4)
    number, _ = exchange.announce(stations[at], text)
    return number


def play_note(exchange, stations, at, house, number, text):
    ask(at < len(stations), 4)
    memory = bytearray(exchange.kind.L)
    exchange.note(stations[at], house, number, digest(text), memory)
    return int.from_bytes(memory, "big")


def play_file(exchange, stations, at, house, number, text):
    rule, kind = exchange.rule, exchange.kind
    ask(at < len(stations), 4)
    g = exchange.start(house, number, digest(text))
    memory = bytearray(HEAD + rule.n * (1 + kind.L))
    stmt = statement(rule.mark, house, number, digest(text))
    for row, (signer, signed) in enumerate(kind.used):
        if signed == stmt:
            try:
                exchange.add(g, signer, row.to_bytes(2, "big"), memory)
            except Refused as r:                        # "No add of step 3 is refused"
                raise AssertionError("add refused with %d" % r.number)
    closed = exchange.close(g)
    length = exchange.issue(closed, memory)
    return exchange.file(stations[at], bytes(memory[:length]), text)[4]


def play_event(exchange, stations, event):
    call, at, house, number, text = event
    if call == "announce":
        return play_announce(exchange, stations, at, text)
    if call == "note":
        return play_note(exchange, stations, at, house, number, text)
    return play_file(exchange, stations, at, house, number, text)


def rehearse(data):
    report = ["line call outcome value"]
    try:
        n, t, mark, events = read_opening(data)
        rule = Rule(n, t, mark)
    except Refused as r:
        report.append("1 open %d 0" % r.number)
        events = []
    else:
        exchange = Exchange(rule, Register(n, ROWS_A_HOUSE * n))
        stations = [Station(i) for i in range(n)]
    for place, (line, ended) in enumerate(events, 1):
        call, outcome, value = "line", 0, 0
        try:
            event = read_event(line, ended)
            call = event[0]
            value = play_event(exchange, stations, event)
        except Refused as r:
            outcome = r.number
        report.append("%d %s %d %d" % (place, call, outcome, value))
    return "".join(line + "\n" for line in report).encode()


if __name__ == "__main__":
    sys.stdout.buffer.write(rehearse(sys.stdin.buffer.read()))
