#!/usr/bin/env python3
"""Prints the values of blocks that the program `vectors` compares, worked out from the rules in words.

    tools/block_values.py

The EDC of a Data Field starts at 0045h; each two-byte word, low byte first, is exclusive-ored in, and
the sum is then rotated left by one bit. A control field is written here as a row of binary digits,
field behind field. The CRC is that of tools/crc_values.py, by division.
"""
from crc_values import crc, filled

FIELD_LEN = 8208
CHECK_WORDS_LEN = 8228
NO_LINK = 0xFFFFFF


def edc(field):
    total = 0x0045
    for i in range(0, len(field), 2):
        digits = format(total ^ int.from_bytes(field[i : i + 2], "little"), "016b")
        total = int(digits[1:] + digits[0], 2)
    return total


def packed(*fields):
    """Fields (width, value) in order, as bytes."""
    digits = "".join(format(value, f"0{width}b") for width, value in fields)
    assert len(digits) % 8 == 0 and len(digits) == sum(width for width, _ in fields)
    return int(digits, 2).to_bytes(len(digits) // 8, "big")


def control1(form=0, mark=0, number=0, sequence=0, kind=0, entities=0, back=0):
    return packed((26, 0), (6, form), (24, mark), (8, 0), (32, number), (16, sequence), (4, 0), (12, 0),
                  (3, kind), (1, 0), (4, entities), (24, back))


def control2(offset, first, place, blocks, starts, entity, envelope, tag):
    return packed((5, 0), (5, offset), (32, first), (24, place), (5, blocks), (1, starts), (8, entity),
                  (16, envelope), (24, tag), (1, 0), (7, 0))


def body(field, first, second):
    """What the CRC of a data or end block is over."""
    return field + edc(field).to_bytes(2, "little") + bytes(2) + first + second


def end_body(back, place, envelope, tag):
    return body(bytes(FIELD_LEN), control1(form=5, kind=4, back=back), control2(15, 0, place, 0, 0, 0, envelope, tag))


def check_body(words, entities, back, second):
    return words + control1(kind=5, entities=entities, back=back)[16:] + second


def entry(kind, last, count, total):
    return packed((3, kind), (1, 0), (1, 0), (1, last), (1, 0), (9, 0), (16, count), (32, total))


def data_body(blocks):
    """A record of 100 bytes of fill 7, and a tape mark behind it."""
    field = filled(7, 100) + bytes(8092) + entry(3, 1, 8092, 0) + entry(2, 0, 100, 100)
    assert len(field) == FIELD_LEN
    first = control1(form=5, kind=1, number=1, entities=1, back=NO_LINK)
    return body(field, first, control2(1, 1, 0, blocks, 1, 1, 1, 1))


def single(place):
    """Zeros with 01h at one place."""
    return bytes(place) + b"\x01" + bytes(FIELD_LEN - place - 1)


def main():
    print(f"EDC of zeros: 0x{edc(bytes(FIELD_LEN)):04X}")
    for place in [0, 1, 8206, 8207]:
        print(f"EDC with 01 at {place:,}: 0x{edc(single(place)):04X}")
    for seed in [7, 9]:
        print(f"EDC of fill {seed}: 0x{edc(filled(seed, FIELD_LEN)):04X}")
    print(f"EDC of 41 bytes of fill 7: 0x{edc(filled(7, 41)):04X}")
    for back, places in [(13, [14, 15, 16, 24]), (7, [8, 9, 18])]:
        for place in places:
            print(f"end block, back link {back}, place {place}: 0x{crc(end_body(back, place, 2, 1)):016X}")
    for blocks in [6, 3]:
        print(f"data block 1 of {blocks}: 0x{crc(data_body(blocks)):016X}")
    second = control2(3, 4, 0x123456, 6, 0, 2, 0x0304, 0x0A0B0C)
    print(f"check block: 0x{crc(check_body(filled(11, CHECK_WORDS_LEN), 5, 0x654321, second)):016X}")


main()
