#!/usr/bin/env python3
"""Prints the CRC-64 values that the program `vectors` compares, worked out by division.

    tools/crc_values.py

A message of n bits is a polynomial over the two-element field, its first bit the highest term; its
CRC is what is left of the message times x^64 after division by the polynomial. Neither a register
nor a table occurs here, so that a fault in the library's way to the value would not be repeated.
"""
DIVISOR = (1 << 64) | 0x42F0E1EBA9EA3693


def crc(message):
    rest = int.from_bytes(message, "big") << 64
    while rest.bit_length() > 64:
        rest ^= DIVISOR << (rest.bit_length() - 65)
    return rest


def filled(seed, length):
    """The bytes of crates/vectors/src/filling.rt."""
    return bytes((seed * 131 + i * 7 + i // 251) % 256 for i in range(length))


def main():
    for message in [b"123456789", b"\x01", b"\x80", b"\xff", bytes(255) + b"\x01", b"\xff" * 32, bytes(range(256))]:
        print(f"{message[:12]!r} ({len(message)} bytes): 0x{crc(message):016X}")
    print("fill 7, 0 to 40 bytes:")
    for length in range(41):
        print(f"    0x{crc(filled(7, length)):016X},")
    print(f"fill 9, 8,248 bytes: 0x{crc(filled(9, 8248)):016X}")


if __name__ == "__main__":
    main()
