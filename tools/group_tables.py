#!/usr/bin/env python3
"""Writes the table of crate check_groups: tools/group_tables.py

PRODUCTS has for word q of a group, its low byte (0) or its high byte (1), at place x the products of x, or of 256 times
x, with the four numbers by which that word goes into the check words behind the group, sixteen bits each, the first
lowest. The checker computes each entry from its rule, so a fault in this script cannot pass it.
"""
import os

from words import WIDTH, power, product

ROOT = os.path.join(os.path.dirname(os.path.abspath(__file__)), '..', 'crates', 'check_groups')


def numbers():
    """numbers()[p][q]: by what word q of a group goes into check word p behind it."""
    x = [power(2, i) for i in range(8)]
    rows = []
    for p in range(4, 8):
        row = []
        for q in range(4):
            up = down = 1
            for k in range(4, 8):
                if k != p:
                    up = product(up, x[q] ^ x[k])
                    down = product(down, x[p] ^ x[k])
            row.append(product(up, power(down, 2 ** WIDTH - 2)))
        rows.append(row)
    return rows


def entry(q, x):
    return sum(product(row[q], x) << (16 * p) for p, row in enumerate(ROWS))


def lines(entries):
    """Five entries to a line."""
    words = ['0x%016X' % e for e in entries]
    return ''.join('            ' + ', '.join(words[i:i + 5]) + ',\n' for i in range(0, len(words), 5))


ROWS = numbers()
tables = ''
for q in range(4):
    parts = [lines(entry(q, x * shift) for x in range(256)) for shift in (1, 256)]
    tables += '    [\n' + ''.join(f'        [\n{part}        ],\n' for part in parts) + '    ],\n'
with open(os.path.join(ROOT, 'src', 'tables.rt'), 'w') as f:
    f.write(f'''// Products of the words of a group, by their bytes. Written by tools/group_tables.py.
ghost use Rattle.std.specs.Prelude.{{◌≡◌, ◌*◌, ◌^◌, ◌<◌}};
ghost use Rattle.check_groups.specs.Groups.{{products}};

// By word, byte of the word, and value of the byte.
#[rattlefmt::skip]
const PRODUCTS: [[[u64; 256]; 2]; 4] = [
{tables}];

// The products of a byte, at its place in the word of this position.
pub(crate) fn product(position: usize, byte: usize, x: u8) -> u64
    requires position {{ position < 4 }}
    requires byte {{ byte < 2 }}
    ensures {{ result ≡ products position (x * 256 ^ byte) }}
{{
    PRODUCTS[position][byte][x as usize]
}}
''')
