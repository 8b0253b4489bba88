#!/usr/bin/env python3
"""SNOW 3G with UEA2 and UIA2 (TS 35.215, TS 35.216), ZUC with 128-EEA3 and 128-EIA3 (TS 35.221, TS 35.222), over whole octets.

Written from the specifications' rules alone; the tables are computed by their rules, none is typed in but ZUC's small ones.
As a program it answers the lines of program `vectors` that begin with nea1, nia1, nea3 and nia3.
    streams.py < LINES
    streams.py SEED NUMBER      that many random lines for each of the four
"""
import random
import sys

MASK = 0xFFFFFFFF


def times_x(v, c):
    return (v << 1 ^ c if v & 128 else v << 1) & 255


def product(a, b, c):
    """In the field of octets where x^8 = c."""
    total = 0
    while a:
        if a & 1:
            total ^= b
        a, b = a >> 1, times_x(b, c)
    return total


def power(a, e, c):
    total = 1
    for _ in range(e):
        total = product(total, a, c)
    return total


def rotated(x, k, bits):
    return (x << k | x >> (bits - k)) & ((1 << bits) - 1)


def rijndael(x):
    b = power(x, 254, 0x1B)
    return b ^ rotated(b, 1, 8) ^ rotated(b, 2, 8) ^ rotated(b, 3, 8) ^ rotated(b, 4, 8) ^ 0x63


def sq(x):
    total = 0x25
    for e in (1, 9, 13, 15, 33, 41, 45, 47, 49):
        total ^= power(x, e, 0x69)
    return total


def word_of(octets):
    return int.from_bytes(bytes(octets), "big")


class Snow3g:
    SR = [rijndael(x) for x in range(256)]
    SQ = [sq(x) for x in range(256)]

    @staticmethod
    def alpha(powers):
        steps = []
        for c in range(256):
            v, row = c, {}
            for i in range(246):
                row[i] = v
                v = times_x(v, 0xA9)
            steps.append(word_of([row[i] for i in powers]))
        return steps

    @staticmethod
    def box(table, c, w):
        a, b, d, e = (table[o] for o in w.to_bytes(4, "big"))
        ma, mb, md, me = (times_x(v, c) for v in (a, b, d, e))
        return word_of([ma ^ b ^ d ^ me ^ e, ma ^ a ^ mb ^ d ^ e, a ^ mb ^ b ^ md ^ e, a ^ b ^ md ^ d ^ me])

    def __init__(self, k, iv):
        one = MASK
        self.s = [k[0] ^ one, k[1] ^ one, k[2] ^ one, k[3] ^ one, k[0], k[1], k[2], k[3],
                  k[0] ^ one, k[1] ^ one ^ iv[3], k[2] ^ one ^ iv[2], k[3] ^ one, k[0] ^ iv[1], k[1], k[2], k[3] ^ iv[0]]
        self.r = (0, 0, 0)
        for _ in range(32):
            self.register(self.machine())
        self.machine()
        self.register(0)

    def machine(self):
        r1, r2, r3 = self.r
        f = (self.s[15] + r1 & MASK) ^ r2
        self.r = (r2 + (r3 ^ self.s[5]) & MASK, self.box(self.SR, 0x1B, r1), self.box(self.SQ, 0x69, r2))
        return f

    def register(self, f):
        s = self.s
        v = (s[0] << 8 & MASK) ^ MUL[s[0] >> 24] ^ s[2] ^ s[11] >> 8 ^ DIV[s[11] & 255] ^ f
        self.s = s[1:] + [v]

    def word(self):
        z = self.machine() ^ self.s[0]
        self.register(0)
        return z


MUL = Snow3g.alpha((23, 245, 48, 239))
DIV = Snow3g.alpha((16, 39, 6, 64))


class Zuc:
    P = 2 ** 31 - 1
    D = [0x44D7, 0x26BC, 0x626B, 0x135E, 0x5789, 0x35E2, 0x7135, 0x09AF,
         0x4D78, 0x2F13, 0x6BC4, 0x1AF1, 0x5E26, 0x3C4D, 0x789A, 0x47AC]
    P1, P2, P3 = ([int(d, 16) for d in row] for row in ("9f0eff2a040c7539", "8d6570c4b1eaf392", "26a60daf33d509cd"))
    ROWS = (0xED, 0xDB, 0xB7, 0x7E, 0xE3, 0xD6, 0xBC, 0x79)     # of S1's matrix, for bit 0 up

    @classmethod
    def s0(cls, x):
        h, l = x >> 4, x & 15
        q = h ^ cls.P1[l]
        r = l ^ cls.P2[q]
        t = q ^ cls.P3[r]
        return rotated(t << 4 | r, 5, 8)

    @classmethod
    def s1(cls, x):
        y = power(x, 254, 0x8B)
        return sum((bin(row & y).count("1") & 1) << i for i, row in enumerate(cls.ROWS)) ^ 0x55

    def __init__(self, key, iv):
        self.s = [k << 23 | d << 8 | v for k, d, v in zip(key, self.D, iv)]
        self.r1 = self.r2 = 0
        for _ in range(32):
            self.register(self.f() >> 1)
        self.f()
        self.register(0)

    def x(self, high, low):
        return (self.s[high] >> 15) << 16 | self.s[low] & 0xFFFF

    def y(self, low, high):
        return (self.s[low] & 0xFFFF) << 16 | self.s[high] >> 15

    @staticmethod
    def boxes(w):
        a, b, c, d = w.to_bytes(4, "big")
        return word_of([S0[a], S1[b], S0[c], S1[d]])

    def f(self):
        x0, x1, x2 = self.x(15, 14), self.y(11, 9), self.y(7, 5)
        w = (x0 ^ self.r1) + self.r2 & MASK
        w1, w2 = self.r1 + x1 & MASK, self.r2 ^ x2
        u, v = (w1 & 0xFFFF) << 16 | w2 >> 16, (w2 & 0xFFFF) << 16 | w1 >> 16
        self.r1 = self.boxes(u ^ rotated(u, 2, 32) ^ rotated(u, 10, 32) ^ rotated(u, 18, 32) ^ rotated(u, 24, 32))
        self.r2 = self.boxes(v ^ rotated(v, 8, 32) ^ rotated(v, 14, 32) ^ rotated(v, 22, 32) ^ rotated(v, 30, 32))
        return w

    def register(self, u):
        s = self.s
        v = (2 ** 15 * s[15] + 2 ** 17 * s[13] + 2 ** 21 * s[10] + 2 ** 20 * s[4] + (1 + 2 ** 8) * s[0] + u) % self.P
        self.s = s[1:] + [v or self.P]

    def word(self):
        x3 = self.y(2, 0)
        z = self.f() ^ x3
        self.register(0)
        return z


S0 = [Zuc.s0(x) for x in range(256)]
S1 = [Zuc.s1(x) for x in range(256)]


def under(machine, octets):
    stream = b"".join(machine.word().to_bytes(4, "big") for _ in range((len(octets) + 3) // 4))
    return bytes(a ^ b for a, b in zip(octets, stream))


def key_words(key):
    return [word_of(key[i:i + 4]) for i in (12, 8, 4, 0)]


def nea1(key, count, bearer, direction, octets):
    b = bearer << 27 | direction << 26
    return under(Snow3g(key_words(key), [b, count, b, count]), octets)


def mul64(v, p):
    total = 0
    for i in range(64):
        if p >> i & 1:
            total ^= v
        v = (v << 1 ^ 0x1B if v >> 63 else v << 1) & (2 ** 64 - 1)
    return total


def nia1(key, count, bearer, direction, message):
    fresh = bearer << 27
    machine = Snow3g(key_words(key), [fresh ^ direction << 15, count ^ direction << 31, fresh, count])
    z = [machine.word() for _ in range(5)]
    p, q = z[0] << 32 | z[1], z[2] << 32 | z[3]
    value = 0
    for i in range(0, len(message), 8):
        value = mul64(value ^ word_of(message[i:i + 8].ljust(8, b"\0")), p)
    value = mul64(value ^ len(message) * 8, q)
    return (value >> 32 ^ z[4]).to_bytes(4, "big")


def nea3(key, count, bearer, direction, octets):
    half = count.to_bytes(4, "big") + bytes([bearer << 3 | direction << 2, 0, 0, 0])
    return under(Zuc(key, half + half), octets)


def nia3(key, count, bearer, direction, message):
    half = count.to_bytes(4, "big") + bytes([bearer << 3, 0, 0, 0])
    other = bytearray(half)
    other[0] ^= direction << 7
    other[6] ^= direction << 7
    machine = Zuc(key, half + other)
    bits = len(message) * 8
    words = (bits + 31) // 32 + 2
    stream = [machine.word() for _ in range(words)]

    def at(i):
        a, r = divmod(i, 32)
        following = stream[a + 1] if a + 1 < words else 0
        return (stream[a] << 32 | following) >> (32 - r) & MASK

    t = 0
    for i in range(bits):
        if message[i >> 3] >> (7 - (i & 7)) & 1:
            t ^= at(i)
    return (t ^ at(bits) ^ stream[-1]).to_bytes(4, "big")


KINDS = {"nea1": nea1, "nia1": nia1, "nea3": nea3, "nia3": nia3}


def answer(line):
    kind, name, key, count, bearer, direction, octets = line.split()
    octets = b"" if octets == "-" else bytes.fromhex(octets)
    result = KINDS[kind](bytes.fromhex(key), int(count, 16), int(bearer, 16), int(direction), octets)
    return f"{name} {result.hex()}"


def random_lines(seed, number):
    """Mostly up to 300 octets; a few at the limits of this library (65,535) and of libipsec-mb's ZUC (8,188)."""
    draw = random.Random(seed)
    for n in range(number):
        length = draw.randrange(301)
        if n % 500 == 7:
            length = draw.randrange(8185, 8196)
        if n % 2500 == 11:
            length = draw.randrange(65530, 65536)
        for kind in KINDS:
            octets = draw.randbytes(length).hex() or "-"
            yield (f"{kind} {kind}-{n} {draw.randbytes(16).hex()} {draw.randrange(2 ** 32):08x} "
                   f"{draw.randrange(32):02x} {draw.randrange(2)} {octets}")


def main(arguments):
    if arguments:
        for line in random_lines(int(arguments[0]), int(arguments[1])):
            print(line)
        return
    for line in sys.stdin:
        print(answer(line))


if __name__ == "__main__":
    main(sys.argv[1:])
