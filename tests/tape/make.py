#!/usr/bin/env python3
"""Makes crates/replay_tape/data/*.bin: tapes, good and damaged, with the answers that the format's description asks for.

Run from the repository's root:  python3 tests/tape/make.py
It writes the files anew (always the same bytes) and prints what crates/replay_tape/stdout must hold.

The reader below is written from the description (document 01, "The tape" and questions 1 to 8) and not from the crate `tape`.

A file is a list of words of two bytes, the lowest first:
  1, length, the tape's bytes
  2, n, number, place, gates, labels, which, start, end
     the answers to the first n bytes of the tape before: the number and place of the refusal, or 0 0 and the number of gates and labels;
     and where the label `which` starts and ends (0 0 if there is none)
  3, n, length, then for each gate its offset, its code and three qubits, 0 where it has fewer: so many bytes of them
     the gates of the first n bytes of the tape before, which are accepted
  0  the end
"""
import math
import os
import random
import struct

MAX_QUBITS, MAX_FLAGS, MAX_GATES, MAX_LABEL = 128, 7, 1024, 40
MAX_TOLERANCE, MAX_ENTRY = 0.001, 2
HEADER_MARK, GATE_MARK, LABEL_MARK = b'\x51\x48', b'\x51\x47', b'\x51\x4c'
HEADER_BYTES, FLOAT_BYTES = 20, 8
# of a gate in a file: its offset, its code and three qubits, in words of two bytes
GATE_BYTES = 2 * 5
ONE = [0x00, 0x01, 0x02, 0x03, 0x04, 0x05, 0x06, 0x07, 0x08]
TWO = [0x10, 0x11, 0x12, 0x13, 0x14]
QUBITS = {**{c: 1 for c in ONE}, 0x0F: 1, **{c: 2 for c in TWO}, 0x1F: 2, 0x20: 3}
ENTRIES = {0x0F: 8, 0x1F: 32}


# ---- the reader

class Refused(Exception):
    def __init__(self, number, place):
        self.answer = (number, place)


def read(tape):
    """((number, place), gates, labels): gates are (offset, code, qubits), labels are (start, end)."""
    try:
        return (0, 0), *records(tape, header(tape))
    except Refused as r:
        return r.answer, [], []


def header(tape):
    if len(tape) < HEADER_BYTES or not tape.startswith(HEADER_MARK):
        raise Refused(1, 0)
    n, flags = tape[2], tape[3]
    if n > MAX_QUBITS or flags > MAX_FLAGS:
        raise Refused(2, 0)
    (tolerance,) = struct.unpack_from('<d', tape, 4)
    if math.isnan(tolerance) or tolerance < 0 or tolerance > MAX_TOLERANCE:
        raise Refused(3, 0)
    return n


def records(tape, n):
    at, gates, labels = HEADER_BYTES, [], []
    while at < len(tape):
        mark = tape[at:at + 2]
        if mark == GATE_MARK:
            if len(gates) == MAX_GATES:
                raise Refused(4, at)
            if at + 2 >= len(tape) or tape[at + 2] not in QUBITS:
                raise Refused(5, at)
            code = tape[at + 2]
            k, entries = QUBITS[code], ENTRIES.get(code, 0)
            end = at + 3 + k + FLOAT_BYTES * entries
            if end > len(tape):
                raise Refused(5, at)
            qubits = list(tape[at + 3:at + 3 + k])
            if any(q >= n for q in qubits):
                raise Refused(6, at)
            if len(set(qubits)) < k:
                raise Refused(7, at)
            for x in struct.unpack_from('<%dd' % entries, tape, at + 3 + k):
                if not math.isfinite(x) or abs(x) > MAX_ENTRY:
                    raise Refused(8, at)
            gates.append((at, code, qubits))
        elif mark == LABEL_MARK:
            if at + 2 >= len(tape) or tape[at + 2] > MAX_LABEL:
                raise Refused(5, at)
            end = at + 3 + tape[at + 2]
            if end > len(tape) or any(b < 0x20 or b > 0x7E for b in tape[at + 3:end]):
                raise Refused(5, at)
            labels.append((at + 3, end))
        else:
            raise Refused(5, at)
        at = end
    return gates, labels


# ---- tapes

def head(n=3, flags=3, tolerance=0.0, limit=1 << 30):
    return HEADER_MARK + bytes([n, flags]) + struct.pack('<d', tolerance) + struct.pack('<Q', limit)


def gate(code, *qubits, entries=()):
    return GATE_MARK + bytes([code, *qubits]) + b''.join(struct.pack('<d', x) for x in entries)


def label(text, length=None):
    return LABEL_MARK + bytes([len(text) if length is None else length]) + text


def of_bits(b):
    return struct.unpack('<d', struct.pack('<Q', b))[0]


def raw_tolerance(b):
    return head()[:4] + struct.pack('<Q', b) + head()[12:]


def raw_entry(code, place, b):
    k = QUBITS[code]
    entries = [struct.pack('<d', 0.5)] * ENTRIES[code]
    entries[place] = struct.pack('<Q', b)
    return head() + gate(code, *range(k)) + b''.join(entries)


GIVEN2 = [1.0, 0.0, 0.0, -0.0, 2.0, -2.0, 0.5, 0.25]
GIVEN4 = [0.0625 * i - 1.0 for i in range(ENTRIES[0x1F])]
# a record of each kind
KINDS = (head() + gate(0x00, 0) + label(b'first') + gate(0x10, 0, 2) + gate(0x0F, 1, entries=GIVEN2) + label(b'') + gate(0x20, 2, 0, 1)
         + gate(0x1F, 2, 1, entries=GIVEN4) + label(b'the last one') + gate(0x13, 1, 0))
ABOVE_TOLERANCE, TWO_BITS = 0x3F50624DD2F1A9FD, 0x4000000000000000
NANS = [0x7FF8000000000000, 0x7FF0000000000001, 0xFFF8000000000000, 0x7FFFFFFFFFFFFFFF]


def edges():
    h = head()
    # 1
    for t in (b'', h[:19], h, b'\x50' + h[1:], b'\x51\x47' + h[2:], h[1:], bytes(300)):
        yield t
    # 2
    for n in (0, 1, 127, 128, 129, 255):
        yield head(n=n)
    for flags in (0, 7, 8, 255):
        yield head(flags=flags)
    yield head(n=129, tolerance=1.0)
    # 3
    for b in [0, 1 << 63, 1, (1 << 63) | 1, 0x3F50624DD2F1A9FC, 0x3F50624DD2F1A9FB, ABOVE_TOLERANCE, 0x3FF0000000000000, 0x7FF0000000000000,
              0xFFF0000000000000, 0xBF50624DD2F1A9FC] + NANS:
        yield raw_tolerance(b)
        yield raw_tolerance(b) + b'\x51'
    for limit in (0, (1 << 64) - 1):
        yield head(limit=limit)
    # 5
    for t in (h, b'\x51', b'\x51\x47', b'\x51\x4c', b'\x51\x00\x00', b'\x00\x47\x00\x00', b'\x51\x4d\x00', b'\x50\x4c\x00', b'\x47\x51',
              b'\x51\x57' + h[2:], b'\x51\x47\x00'):
        yield h + t
        yield h + label(b'before') + t
        yield h + gate(0x04, 2) + t
    for code in range(256):
        yield h + gate(code, 0, 1, 2)
    for b in (0x00, 0x1F, 0x20, 0x7E, 0x7F, 0x80, 0xFF):
        for text in (bytes([b]), b'a' * 39 + bytes([b]), bytes([b]) + b'b'):
            yield h + label(text) + gate(0x02, 0)
    for k in (0, 1, 39, 40, 41, 64, 255):
        yield h + label(b'c' * k)
        yield h + label(b'c' * k) + label(b'd')
        yield h + label(b'c' * k)[:-1]
    # 6
    for n in (0, 1, 2, 127, 128):
        for q in (0, 1, 2, 126, 127, 128, 255):
            yield head(n=n) + gate(0x01, q)
    for qs in ((0, 3), (3, 0), (2, 1), (3, 3)):
        yield h + gate(0x12, *qs)
    for qs in ((0, 1, 3), (0, 3, 1), (3, 0, 1), (3, 3, 3), (2, 1, 0)):
        yield h + gate(0x20, *qs)
    # 7, after 6 and before 8
    for qs in ((0, 0, 1), (0, 1, 0), (1, 0, 0), (2, 2, 2), (0, 0, 3)):
        yield h + gate(0x20, *qs)
    for code in TWO + [0x1F]:
        yield h + gate(code, 1, 1, entries=[9.0] * ENTRIES.get(code, 0))
        yield h + gate(code, 1, 3, entries=[9.0] * ENTRIES.get(code, 0))
    yield h + gate(0x0F, 3, entries=[9.0] * ENTRIES[0x0F])
    # 8
    for b in [TWO_BITS, TWO_BITS | 1 << 63, TWO_BITS + 1, TWO_BITS + 1 | 1 << 63, 0x7FF0000000000000, 0xFFF0000000000000, 1, 1 << 63,
              0x7FEFFFFFFFFFFFFF] + NANS:
        yield raw_entry(0x0F, 0, b)
        yield raw_entry(0x0F, 7, b)
        yield raw_entry(0x1F, 31, b)
    yield raw_entry(0x1F, 0, NANS[0])
    yield raw_entry(0x1F, 16, TWO_BITS + 1)
    # the first refusal counts
    yield h + gate(0x02, 3) + gate(0x09, 0)
    yield h + gate(0x09, 0) + gate(0x02, 3)
    yield h + label(b'a') + gate(0x10, 0, 0) + label(b'\x00')


def many():
    """4, and that it comes before 5 to 8"""
    h = head()
    full = h + gate(0x02, 0) * MAX_GATES
    for rest in (b'', gate(0x02, 0), gate(0x02, 0) * 2, b'\x51\x47', b'\x51', gate(0x09, 0), gate(0x02, 9), gate(0x10, 1, 1),
                 label(b'x'), label(b'x') + gate(0x02, 0), label(b'\x1f'), h):
        yield full + rest


def damaged(seed, count):
    """KINDS without its long given matrix, some bytes changed, taken out or put in."""
    rng = random.Random(seed)
    base = head() + gate(0x00, 0) + label(b'first') + gate(0x10, 0, 2) + label(b'') + gate(0x20, 2, 0, 1) + label(b'last') + gate(0x13, 1, 0)
    for _ in range(count):
        t = bytearray(base)
        for _ in range(rng.choice((1, 1, 1, 2, 3))):
            at = rng.randrange(len(t))
            what = rng.randrange(4)
            if what == 0:
                t[at] = rng.choice((0, 1, 2, 3, 0x47, 0x48, 0x4C, 0x51, rng.randrange(256)))
            elif what == 1:
                del t[at]
            elif what == 2:
                t.insert(at, rng.randrange(256))
            else:
                t[at] ^= 1 << rng.randrange(8)
        yield bytes(t)


# ---- the file

class File:
    def __init__(self):
        self.bytes, self.checks, self.walks = bytearray(), 0, 0

    def words(self, *ws):
        self.bytes += struct.pack('<%dH' % len(ws), *ws)

    def tape(self, t):
        self.words(1, len(t))
        self.bytes += t

    def check(self, t, which=0):
        (number, place), gates, labels = read(t)
        start, end = labels[which] if which < len(labels) else (0, 0)
        self.words(2, len(t), number, place, len(gates), len(labels), which, start, end)
        self.checks += 1

    def walk(self, t):
        _, gates, _ = read(t)
        self.words(3, len(t), GATE_BYTES * len(gates))
        for at, code, qubits in gates:
            self.words(at, code, *(qubits + [0, 0])[:3])
        self.walks += 1

    def write(self, name):
        self.words(0)
        here = os.path.dirname(os.path.abspath(__file__))
        with open(os.path.join(here, '../../crates/replay_tape/data', name), 'wb') as out:
            out.write(self.bytes)
        print('%s check_tape %d of %d' % (name, self.checks, self.checks))
        print('%s label %d of %d' % (name, self.checks, self.checks))
        print('%s gates %d of %d' % (name, self.walks, self.walks))
        print('%s end' % name)


def main():
    f = File()
    f.tape(KINDS)
    for n in range(len(KINDS) + 1):
        f.check(KINDS[:n])
        if read(KINDS[:n])[0] == (0, 0):
            f.walk(KINDS[:n])
    for which in range(5):
        f.check(KINDS, which)
        f.check(KINDS[:-1], which)
    for t in edges():
        f.tape(t)
        f.check(t)
        if read(t)[0] == (0, 0):
            f.walk(t)
    for t in damaged(1, 120):
        f.tape(t)
        f.check(t, 1)
    f.write('tapes.bin')
    f = File()
    for t in many():
        f.tape(t)
        f.check(t)
    f.write('many.bin')


if __name__ == '__main__':
    main()
