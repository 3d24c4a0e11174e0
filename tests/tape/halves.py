#!/usr/bin/env python3
"""Tapes whose parities lie at halves of a millionth and right beside them, and what the printing program must print of each, by exact fractions.

  tests/tape/halves.py make     writes crates/replay_print/data/half*.bin, always the same bytes
  tests/tape/halves.py printed  prints what must be printed of these files, each under its name; what it needs it reads from them

A tape has four given gates, on the pairs 0 1, 2 3, 4 5, 6 7 of eight qubits: a on 00 and 11, c from 00 to 11, -c back, and 1 on 01 and 10. Both qubits
of a pair then have the parity a a - c c. a and c have so few digits that the engine rounds nothing but this: both squares and their difference. The
parity of a tape is wished for, and an a and a c are looked for that come to it and whose squares have the sum 1 but for their last digits. "Half to
even" is what Python's `round` does with a fraction.
"""
import math
import os
import struct
import sys
from fractions import Fraction

from make import FLOAT_BYTES, HEADER_BYTES, gate, head

MILLION = 10 ** 6
QUBITS = 8
# of a given gate on two qubits, and of the two entries in it
GATE_BYTES = 5 + 32 * FLOAT_BYTES
A, C = 0, 24
DATA = os.path.join(os.path.dirname(__file__), '../../crates/replay_print/data')


# ---- the parities of each tape

def at_halves(j):
    """Exact halves are the odd multiples of 1/128; and the nearest numbers that are such differences."""
    z = Fraction(j, 128)
    return [z, -z, z - step(z), z + step(z)]


def near_halves(w):
    """Other halves of a millionth are no f64s: the numbers right below and above w and a half."""
    half = Fraction(2 * w + 1, 2 * MILLION)
    below = half // step(half) * step(half)
    return [below, below + step(half), -below, -below - step(half)]


def lost(i):
    """Four f64s from 1/2 to 1 that have i / 2^47 more than a half millionth behind the point, a whole number 64 i over 2^53: so near that who counts in
    fewer digits takes them for halves."""
    period = 1 << 47
    first = ((1 << 46) + i) * pow(MILLION >> 6, -1, period) % period
    digits = [first + k * period for k in range(64)]
    even = [m for m in digits if m * MILLION >> 53 & 1 == 0 and m >> 52 == 1]
    odd = [m for m in digits if m * MILLION >> 53 & 1 == 1 and m >> 52 == 1]
    return [Fraction(m, 1 << 53) for m in (even[0], odd[0], even[-1], odd[-1])]


def step(z):
    """How far apart differences of two squares are that a float holds: the larger square is below 1."""
    return Fraction(1, 1 << (53 if abs(z) >= Fraction(1, 2) else 54))


TAPES = ([(f'half_{j}', at_halves(j)) for j in (1, 3, 5, 9, 61, 63, 65, 127)]
         + [(f'half_near_{w}', near_halves(w)) for w in (0, 1, 499999, 999998)]
         + [(f'half_lost_{sign}{i}', lost(i if sign == 'more' else -i)) for i in (1, 15) for sign in ('more', 'less')])


# ---- tapes

def parity(a, c):
    return a * a - c * c


def entries(z):
    """a and c of a parity."""
    grid = 1 << 50
    near = round(math.sqrt((1 - z) / 2) * grid)
    for k in range(1 << 20):
        c = (near + k) / grid
        root = round(math.sqrt(float(z) + c * c) * grid)
        for a in ((root + d) / grid for d in (-1, 0, 1)):
            if parity(a, c) == z:
                return a, c
    raise ValueError(z)


def tape(parities):
    out = head(n=QUBITS, flags=0, tolerance=1e-10)
    for k, z in enumerate(parities):
        a, c = entries(z)
        rows = [[a, 0, 0, -c], [0, 1, 0, 0], [0, 0, 1, 0], [c, 0, 0, a]]
        out += gate(0x1F, 2 * k, 2 * k + 1, entries=[x for row in rows for y in row for x in (float(y), 0.0)])
    return out


# ---- texts

def parities(tape):
    """Of all qubits, by the entries on the tape."""
    for at in range(HEADER_BYTES, len(tape), GATE_BYTES):
        a, c = (struct.unpack_from('<d', tape, at + 5 + place * FLOAT_BYTES)[0] for place in (A, C))
        yield from [parity(a, c)] * 2


def text(tape):
    lines = ['qubits 8 blocks 4 gaussian 4 bad 0 interactions 0', 'order identity 0 1 2 3 4 5 6 7']
    return lines + [f'q{q} {round(Fraction(z) * MILLION)}' for q, z in enumerate(parities(tape))]


def main(what):
    for name, wished in TAPES:
        path = os.path.join(DATA, name + '.bin')
        if what == 'make':
            with open(path, 'wb') as f:
                f.write(tape(wished))
        else:
            with open(path, 'rb') as f:
                print('\n'.join([name + '.bin', *text(f.read())]))


if __name__ == '__main__':
    if sys.argv[1:] not in (['make'], ['printed']):
        sys.exit(__doc__)
    main(sys.argv[1])
