"""What crates/decimal_run prints, by Python's own decimal digits: for each number of eight bytes, low byte first, the number and its
low four bytes as a signed number. The numbers are the ends of the ranges, the places where a digit is added, and some of each size."""
import random
import struct


def numbers():
    for digits in range(1, 20):
        yield from (10**digits - 1, 10**digits)
    for bits in (31, 32, 63):
        yield from (2**bits - 1, 2**bits, 2**bits + 1)
    yield from (0, 1, 2**64 - 2, 2**64 - 1)
    yield from (e % 2**32 for e in (-1, -9, -10, -31, -16384, 16383, -(10**9), -(2**31) + 1))
    draw = random.Random(20240131)
    for bits in range(1, 65):
        yield draw.getrandbits(bits)


def signed(low):
    return low - 2**32 if low >= 2**31 else low


def stored():
    """Its standard input and output."""
    given = list(numbers())
    return struct.pack(f"<{len(given)}Q", *given), "".join(f"{x} {signed(x % 2**32)}\n" for x in given).encode()
