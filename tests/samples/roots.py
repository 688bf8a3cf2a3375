"""The bits in crates/roots/specs/Samples.antt: arguments, and the processor's own root of each.

math.sqrt is the processor's square root, which IEEE 754 asks to be correctly rounded. The rows go to
standard output:  python3 tests/samples/roots.py
"""
import math
import random
import struct


def number(bits):
    return struct.unpack("<d", struct.pack("<Q", bits))[0]


def pattern(x):
    return struct.unpack("<Q", struct.pack("<d", x))[0] if x == x else 0x7FF8000000000000


def shown(bits):
    digits = "%016X" % bits
    return "0x" + "_".join(digits[i : i + 4] for i in range(0, 16, 4))


random.seed(20261115)
specials = [0, 1 << 63, 0x7FF << 52, 0xFFF << 52, 0x7FF8 << 48, 0xFFF0000000000001, 0xBFF << 52, (1 << 63) + 1, (0xFFF << 52) - 1]
subnormals = [1, 2, 3, 4, (1 << 52) - 1, 1 << 51, 1 << 16]
subnormals += [random.getrandbits(20) | 1, random.getrandbits(35) | 1, random.getrandbits(51) | 1 << 50]
extremes = [1 << 52, (1 << 52) + 1, (1 << 53) - 1, 1 << 53, (0x7FF << 52) - 1, (0x7FF << 52) - 2, 0x7FE << 52, (0x7FE << 52) - 1]
roots_of = [1.0, 9.0, 25.0, 2.25, 94906265.0**2, 67108863.0**2, 0.0625]
squares = [pattern(x) + d for x in roots_of for d in (-1, 0, 1)]
generics = [random.getrandbits(62) % (0x7FF << 52) for _ in range(8)]

for name, group in (("specials", specials), ("subnormals", subnormals), ("extremes", extremes), ("squares", squares), ("generics", generics)):
    for b in group:
        x = number(b)
        root = math.sqrt(x) if x >= 0 else math.nan
        print("%s: sample %s %s" % (name, shown(b), shown(pattern(root))))
