"""The bits in crates/vectors/specs/Samples.antt, computed apart from the proofs.

Python's float is binary64, its + - * / round to nearest, math.sqrt is the processor's root and math.fmod
is exact, so this program is an implementation of document 01's stand-ins of its own. It writes the file's
rows to standard output:  python3 tests/samples/vectors.py
"""
import math
import struct

PI, TWO_PI = 3.141592653589793, 6.283185307179586
INF = float("inf")


def bits(x):
    digits = "%016X" % struct.unpack("<Q", struct.pack("<d", x))[0] if x == x else "7FF8000000000000"
    return "0x" + "_".join(digits[i : i + 4] for i in range(0, 16, 4))


def add(a, b): return [x + y for x, y in zip(a, b)]
def sub(a, b): return [x - y for x, y in zip(a, b)]
def scale(a, s): return [s * x for x in a]
def dot(a, b): return (a[0] * b[0] + a[1] * b[1]) + a[2] * b[2]
def norm(v): return math.sqrt(dot(v, v))
def normalize(v): return scale(v, 1.0 / norm(v))
def orthogonalize(v, f): return sub(f, scale(v, dot(v, f) / dot(v, v)))


def cross(a, b):
    return [a[1] * b[2] - a[2] * b[1], a[2] * b[0] - a[0] * b[2], a[0] * b[1] - a[1] * b[0]]


def times(q, m):
    return [(q[0] * m[0][j] + q[1] * m[1][j]) + q[2] * m[2][j] for j in range(3)]


def outer(s, a, b): return [[(s * x) * y for y in b] for x in a]
def projection(z): return [[float(i == j) - z[i] * z[j] for j in range(3)] for i in range(3)]


def upward(xs):
    total = 0.0
    for x in xs:
        total = total + x
    return total


def rotated(a, b, v):
    n, c = cross(a, b), dot(a, b)
    m, k = cross(n, v), dot(n, v) / (1.0 + c)
    return [(c * v[i] + m[i]) + n[i] * k for i in range(3)]


def reduced(angle):
    if not math.isfinite(angle):
        return math.nan
    a = math.fmod(angle, TWO_PI)
    return a - TWO_PI if a > PI else a + TWO_PI if a < -PI else a


def series(z, divisors):
    t = 1.0
    for d in reversed(divisors):
        t = 1.0 - z / d * t
    return t


def sine(angle):
    a = reduced(angle)
    return a * series(a * a, [float(2 * k * (2 * k + 1)) for k in range(1, 14)])


def cosine(angle):
    a = reduced(angle)
    return series(a * a, [float((2 * k - 1) * 2 * k) for k in range(1, 15)])


def row(name, numbers):
    print("%s: %s" % (name, " ∷ ".join(bits(x) for x in numbers)))


a, b, c, s = [0.7, -1.3, 2.9], [-0.4, 0.9, 1.7], [1.1, 0.3, -2.3], 0.37
m = [a, b, c]
p, q = [0.7, -1.3, 2.9, 0.37], [-0.4, 0.9, 1.7, -2.1]
columns = [p, q, [1.1, 0.3, -2.3, 0.6], [0.2, -0.8, 1.9, 3.1]]

for angle in [0.0, -0.0, 1.0, PI / 2, -PI / 2, 3.2, -3.2, 1e6, 1e300, INF, -INF, math.nan]:
    row("angle, sine, cosine", [angle, sine(angle), cosine(angle)])
row("sum", add(a, b))
row("difference", sub(a, b))
row("scaled", scale(a, s))
row("sum of three", add(add(a, b), c))
row("dot, norm", [dot(a, b), norm(a)])
row("unit", normalize(a))
row("cross", cross(a, b))
row("orthogonalized", orthogonalize(a, b))
row("edge length", [norm(sub(b, a))])
row("row times block", times([0.9, -0.6, 1.3], m))
for name, block in (("outer product", outer(s, a, b)), ("projection", projection(normalize(a)))):
    row(name, [x for line in block for x in line])
row("dot of four", [upward(x * y for x, y in zip(p, q))])
row("dot of four zeros", [upward([-0.0 * 1.0] * 4)])
row("block of four times vector", [upward(q[j] * columns[j][i] for j in range(4)) for i in range(4)])
row("block of four zeros times vector", [upward([1.0 * -0.0] * 4) for i in range(4)])
row("rotated", rotated(normalize(a), normalize(b), c))
