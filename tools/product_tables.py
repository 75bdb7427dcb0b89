#!/usr/bin/env python3
"""Writes the tables of crate field: tools/product_tables.py, then rt fmt in crates/field

NIBBLES has in row n at place y the product of the byte y and the four bits n as polynomials, with nothing reduced.
ABOVE has in row k at place x what x stands for, modulo 1100Bh, where it stands 16 + 8 * k places up.
POINTS has the first twenty powers of 2, and GAPS in row i at place k the inverse of the sum of powers i and k.
The checker computes each entry from its rule, so a fault in this script cannot pass it.
"""
import os

from words import POLYNOMIAL, power

ROOT = os.path.join(os.path.dirname(os.path.abspath(__file__)), '..', 'crates', 'field')


def unreduced(a, b):
    r = 0
    while b:
        if b & 1:
            r ^= a
        a <<= 1
        b >>= 1
    return r


def reduced(v):
    for i in reversed(range(16, 40)):
        if v >> i & 1:
            v ^= POLYNOMIAL << (i - 16)
    return v


def inverse(a):
    return power(a, 2 ** 16 - 2)


def row(entries, digits):
    return '[' + ', '.join('0x%0*X' % (digits, e) for e in entries) + ']'


def table(rows, digits):
    return '[' + ', '.join(row(r, digits) for r in rows) + ']'


def write(name, text):
    with open(os.path.join(ROOT, 'src', name), 'w') as f:
        f.write(text)


nibbles = [[unreduced(y, n) for y in range(256)] for n in range(16)]
above = [[reduced(x << up) for x in range(256)] for up in (16, 24)]
write('tables.rt', f'''// Tables for products of two-byte words. Written by tools/product_tables.py.
ghost use Rattle.std.specs.Prelude.{{◌≡◌, ◌<◌}};
ghost use Rattle.field.specs.Polynomials.{{times, one_above}};

// Row n has the bytes times n.
const NIBBLES: [[u16; 256]; 16] = {table(nibbles, 3)};

// A byte times four bits, with nothing reduced.
pub(crate) fn nibble_times_byte(n: u16, y: u8) -> u16
    requires {{ n < 16 }}
    ensures {{ result ≡ times 15 0 4 y n }}
{{
    NIBBLES[n as usize][y as usize]
}}

// Row k has what the bytes stand for 16 + 8 * k places up.
const ABOVE: [[u16; 256]; 2] = {table(above, 4)};

// What a byte stands for 16 + 8 * k places up.
pub(crate) fn above(k: usize, x: u8) -> u16
    requires {{ k < 2 }}
    ensures {{ result ≡ times 15 0x1100B 8 (one_above k) x }}
{{
    ABOVE[k][x as usize]
}}
''')

points = [reduced(1 << i) for i in range(20)]
gaps = [[inverse(p ^ q) for q in points] for p in points]
write('points.rt', f'''// The points of the twenty positions, and the inverses of their differences. Written by tools/product_tables.py.
ghost use Rattle.std.specs.Prelude.{{◌≡◌, ◌<◌, bit_xor}};
ghost use Rattle.field.specs.Polynomials.{{word_product, word_inverse}};
ghost use Rattle.field.specs.Sums.{{power}};

const POINTS: [u16; 20] = {row(points, 4)};

pub(crate) fn near_point(i: usize) -> u16
    requires {{ i < 20 }}
    ensures {{ result ≡ power word_product 2 i }}
{{
    POINTS[i]
}}

// Row i has the inverses of the differences of point i and the others, and 0 at its own place.
const GAPS: [[u16; 20]; 20] = {table(gaps, 4)};

pub(crate) fn near_gap(i: usize, k: usize) -> u16
    requires {{ (i < 20) × (k < 20) }}
    ensures {{ result ≡ word_inverse (bit_xor (power word_product 2 i) (power word_product 2 k)) }}
{{
    GAPS[i][k]
}}
''')
