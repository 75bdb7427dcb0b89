"""The field of two-byte words for the scripts that write tables: products modulo 1100Bh, and powers."""

WIDTH, POLYNOMIAL = 16, 0x1100B


def product(a, b):
    r = 0
    for i in reversed(range(WIDTH)):
        r <<= 1
        if r >> WIDTH:
            r ^= POLYNOMIAL
        if (b >> i) & 1:
            r ^= a
    return r


def power(a, n):
    r = 1
    while n:
        if n & 1:
            r = product(r, a)
        a = product(a, a)
        n >>= 1
    return r
