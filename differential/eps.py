#!/usr/bin/env python3
"""Request 6 read directly: the EPS context, over its hex lines (`enew` to `eshow`). Run as a program, it plays the
request's session and random round trips, and says how many agree; with the word `checks`, it prints what crate checks_eps
is to print; with the word `answers`, it answers the lines that it reads, the 5GS ones by model.py.

The algorithms are model.py's, and so is the COUNT rule of a last octet, which request 6 takes over from document 01.
The estimate by five bits, the octets and the refusals are written from the request and TS 24.301 alone.
"""
import random
import sys
import model
from model import CODES, BITS, COUNT, COUNTS, DIRECTION, LENT, LIMIT, OCTET, OCTETS, SLOT, Refusal, built, mask, refuse_if

UPLINK, DOWNLINK = 0, 1
BEARER = 0
SERVICE_REQUEST = 12


class Context(model.Context):
    """Two records, uplink and downlink: a record's place is its direction."""

    def __init__(self, integrity, ciphering, integrity_key, ciphering_key, size=0, next=(0, 0), bits=(0, 0)):
        super().__init__(integrity, ciphering, integrity_key, ciphering_key, size, next, bits)

    def copy(self):
        return Context(*(getattr(self, f) for f in self.FIELDS))

    def reselect(self, integrity, ciphering, integrity_key, ciphering_key):
        self.fault()
        refuse_if(13, not (built(integrity) and built(ciphering)))
        if self.integrity == 0 and integrity != 0:
            self.bits = [mask(self.size)] * 2
        self.integrity, self.ciphering = integrity, ciphering
        self.integrity_key, self.ciphering_key = integrity_key, ciphering_key

    def seal(self, header, direction, lent, inner):
        self.fault()
        refuse_if(3, not 1 <= header <= 4)
        refuse_if(4, len(inner) > LIMIT)
        refuse_if(5, lent < 6 + len(inner))
        count = self.to_send(direction)
        payload = self.cipher(count, BEARER, direction, inner) if header in (2, 4) else inner
        covered = bytes([count & 255]) + payload
        octets = bytes([header << 4 | 7]) + self.code(count, BEARER, direction, covered) + covered
        self.use(direction, count)
        return count, None, None, octets

    def short_code(self, count, head):
        return self.code(count, BEARER, UPLINK, head)[2:]

    def service_request(self, identifier, lent):
        self.fault()
        refuse_if(16, identifier > 7)
        refuse_if(5, lent < 4)
        count = self.to_send(UPLINK)
        head = bytes([0xC7, identifier << 5 | count & 31])
        octets = head + self.short_code(count, head)
        self.use(UPLINK, count)
        return count, None, None, octets

    def open(self, direction, lent, message):
        self.fault()
        refuse_if(1, not message)
        refuse_if(2, message[0] & 15 != 7)
        header = message[0] >> 4
        refuse_if(3, header not in (1, 2, 3, 4, SERVICE_REQUEST))
        if header == SERVICE_REQUEST:
            return self.open_service_request(direction, message)
        refuse_if(1, len(message) < 7)
        refuse_if(4, len(message) - 6 > LIMIT)
        refuse_if(5, lent < len(message) - 6)
        count, distance = self.verify(direction, BEARER, direction, message[1:5], message[5:])
        plain = self.cipher(count, BEARER, direction, message[6:]) if header in (2, 4) else message[6:]
        return count, header, None, plain, distance

    def open_service_request(self, direction, message):
        refuse_if(1, len(message) != 4)
        refuse_if(11, direction == DOWNLINK)
        next = self.next[UPLINK]
        refuse_if(6, next == COUNTS)
        distance = (message[1] - next) % 32
        count = next + distance
        refuse_if(6, count >= COUNTS and self.integrity != 0)
        count %= COUNTS
        refuse_if(7, self.integrity != 0 and self.short_code(count, message[:2]) != message[2:])
        self.use(UPLINK, count)
        return count, SERVICE_REQUEST, message[1] >> 5, b"", distance


def refused_context():
    return Context(255, 255, bytes(16), bytes(16))


def new(integrity, ciphering, integrity_key, ciphering_key, *next):
    refuse_if(13, not (built(integrity) and built(ciphering)))
    refuse_if(16, any(n > COUNTS for n in next))
    return Context(integrity, ciphering, integrity_key, ciphering_key, 0, next or (0, 0))


CALLS = {
    "enew": CODES, "erestore": CODES + [COUNT] * 2, "ereselect": CODES, "ewindow": [SLOT, OCTET],
    "eseal": [SLOT, OCTET, DIRECTION, LENT, OCTETS], "esr": [SLOT, OCTET, LENT], "eopen": [SLOT, DIRECTION, LENT, OCTETS],
    "eraw": CODES + [OCTET] + [COUNT, BITS] * 2, "eshow": [SLOT],
}
METHODS = {
    "ereselect": Context.reselect, "ewindow": Context.window, "eseal": Context.seal, "esr": Context.service_request,
    "eopen": Context.open,
}


class Session(model.Session):
    def __init__(self):
        self.slots = [refused_context() for _ in range(8)]

    def line(self, line):
        call = model.parsed(line, CALLS)
        if call is None:
            return "bad"
        name, (slot, *rest) = call
        if name == "eshow":
            return self.slots[slot].shown()
        if name == "eraw":
            integrity, ciphering, ik, ck, size, *records = rest
            self.slots[slot] = Context(integrity, ciphering, ik, ck, size, records[::2], records[1::2])
            return "ok"
        if rest and isinstance(rest[-1], bytes) and len(rest[-1]) > model.HOLDS:
            return "no 4"
        return self.call(name, slot, rest)

    def call(self, name, slot, rest):
        before = self.slots[slot].copy()
        try:
            if name in ("enew", "erestore"):
                self.slots[slot] = refused_context()
                self.slots[slot] = new(*rest)
                return "ok"
            answer = METHODS[name](self.slots[slot], *rest)
            return "ok" if answer is None else "ok " + model.answer_line(answer)
        except Refusal as refusal:
            assert name in ("enew", "erestore") or self.slots[slot].same(before)
            return f"no {refusal.number}"


class Both:
    """Lines of both contexts, each with slots of its own: no line has the form of both."""

    def __init__(self):
        self.first, self.eps = model.Session(), Session()

    def line(self, line):
        answer = self.first.line(line)
        return self.eps.line(line) if answer == "bad" else answer


KEYS = "000102030405060708090a0b0c0d0e0f 101112131415161718191a1b1c1d1e1f"

# the request's session
PAGE = f"""
enew 0 02 02 {KEYS} | ok
enew 1 02 02 {KEYS} | ok
ewindow 1 08 | ok
eseal 0 02 0 0010 0748aa | ok 00000000 0009 27154153a700eaeb9a
esr 0 05 0004 | ok 00000001 0004 c7a14b16
esr 0 05 0004 | ok 00000002 0004 c7a2b2d0
eopen 1 0 0000 c7a2b2d0 | ok 00000002 00000002 0000 0c 05 -
eopen 1 0 0010 27154153a700eaeb9a | ok 00000000 00000002 0003 02 0748aa
eopen 1 0 0000 c7a14b16 | no 7
eopen 1 1 0000 c7a14b16 | no 11
eopen 1 1 0000 c7a14b | no 1
eseal 0 01 1 0006 - | ok 00000000 0006 1752ca1c9000
eopen 1 1 0010 1752ca1c9000 | no 1
esr 0 08 0000 | no 16
"""


def page():
    session, wrong = Session(), []
    lines = [line.split(" | ") for line in PAGE.strip().split("\n")]
    for line, expected in lines:
        answer = session.line(line)
        if answer != expected:
            wrong.append((line, expected, answer))
    return len(lines), wrong


def round_trips(number, chance):
    """Messages of both kinds sealed, some lost, opened: each arrives as it was sealed, or is refused as out of reach."""
    wrong = []
    for _ in range(number):
        codes = chance.choice((1, 2, 3)), chance.choice((0, 1, 2, 3))
        keys = chance.randbytes(16), chance.randbytes(16)
        start = chance.choice((0, 5, 300, COUNTS - 40))
        ends = [Context(*codes, *keys, next=(start, start)) for _ in range(2)]
        ends[1].window(chance.choice((0, 8, 64)))
        for _ in range(chance.randrange(1, 30)):
            if ends[0].next[UPLINK] == COUNTS or ends[0].next[DOWNLINK] == COUNTS:
                break
            service, identifier, direction = chance.random() < 0.5, chance.randrange(8), chance.randrange(2)
            header, inner = chance.randrange(1, 5), chance.randbytes(chance.randrange(1, 40))
            answer = ends[0].service_request(identifier, 4) if service else ends[0].seal(header, direction, 64, inner)
            if chance.random() < 0.3:
                continue
            direction = UPLINK if service else direction
            next = ends[1].next[direction]
            reach = 32 if service else 256
            expected = (answer[0], SERVICE_REQUEST, identifier, b"", answer[0] - next) if service \
                else (answer[0], header, None, inner, answer[0] - next)
            try:
                opened = ends[1].open(direction, 64, answer[3])
            except Refusal:
                opened = None
            if (opened == expected) != (answer[0] < next + reach):
                wrong.append((codes, answer, opened))
    return number, wrong


def at_limit(n):
    """A message of n octets sealed and opened downlink, as crate checks_eps does."""
    keys = [bytes.fromhex(key) for key in KEYS.split()]
    inner, message = b"\x5a" * n, bytearray(b"\x27" + bytes(65542))

    def call(name, called, buffer, shown):
        try:
            number, octets = 0, called()[3]
        except Refusal as refusal:
            number, octets = refusal.number, b""
        buffer[:len(octets)] = octets
        print(f"{name}: {number}\n {bytes(buffer[:shown]).hex()}")

    call("seal", lambda: Context(2, 2, *keys).seal(2, DOWNLINK, 65543, inner), message, 10)
    received = bytes(message[:n + 6])
    call("open", lambda: Context(2, 2, *keys).open(DOWNLINK, 65543, received), bytearray(65543), 4)
    call("open", lambda: Context(2, 2, *keys).open(DOWNLINK, 65534, received), bytearray(65534), 4)


def checks():
    """What crate checks_eps prints: the page's answers, those of slot 0 first, and messages at the limit."""
    lines = [line.split(" | ") for line in PAGE.strip().split("\n")]
    made, calls = lines[:3], lines[3:]
    print("\n".join(answer for _, answer in made + [c for c in calls if c[0].split()[1] == "0"] + [c for c in calls if c[0].split()[1] == "1"]))
    at_limit(65535)
    at_limit(65536)


def main():
    if sys.argv[1:] == ["checks"]:
        return checks()
    if sys.argv[1:] == ["answers"]:
        return model.answer(Both())
    chance = random.Random(6)
    for name, (number, wrong) in (("page", page()), ("round trips", round_trips(2000, chance))):
        print(f"{name}: {number - len(wrong)} of {number} agree")
        for line in wrong[:5]:
            print("  ", *line)
        if wrong:
            sys.exit(1)


if __name__ == "__main__":
    main()
