#!/usr/bin/env python3
"""Document 01 read directly, over the hex lines: lines on standard input, answers on standard output.

Written from document 01, the request pages and the page on the hex lines alone. AES, CMAC and counter mode are OpenSSL's, by the Debian
package python3-cryptography; SNOW 3G and ZUC are streams.py. The numbers in comments are document 01's refusals.
"""
import re
import sys
from cryptography.hazmat.primitives import cmac
from cryptography.hazmat.primitives.ciphers import Cipher, algorithms, modes
import streams

LIMIT = 65535           # inner octets, and octets of a container value
COUNTS = 1 << 24        # as a next COUNT: exhausted
HOLDS = 65536           # octets of a line that the program holds

# message types; the last ones of the first two are the relay messages
UPLINK = bytes.fromhex("41 43 45 48 4C 4F 51 55 57 59 5C 5E 5F 66 67 69 6D")
DOWNLINK = bytes.fromhex("42 44 46 47 4D 4E 50 52 54 56 58 5A 5B 5D 65 68 6A 6B 6C")
EITHER = bytes.fromhex("64")

INITIAL = (0x4C, 0x45)      # SERVICE REQUEST, DEREGISTRATION REQUEST from the UE
CONTAINER = 0x71


class On(int):
    """The connection that a message was taken on, in front of an answer."""


class Refusal(Exception):
    """A refusal's number; for 8 also what a success would have answered and the number carried."""

    def __init__(self, number, answer=None):
        self.number, self.answer = number, answer


def refuse_if(number, test):
    if test:
        raise Refusal(number)


def mask(size):
    return (1 << size) - 1


def first_octets(count, bearer, direction):
    return count.to_bytes(4, "big") + bytes([bearer * 8 + direction * 4, 0, 0, 0])


def built(code):
    return code in (0, 1, 2, 3)


class Context:
    FIELDS = "integrity ciphering integrity_key ciphering_key size next bits".split()

    def __init__(self, integrity, ciphering, integrity_key, ciphering_key, size=0, next=(0,) * 4, bits=(0,) * 4):
        self.integrity, self.ciphering = integrity, ciphering
        self.integrity_key, self.ciphering_key = integrity_key, ciphering_key
        self.size, self.next, self.bits = size, list(next), list(bits)

    def copy(self):
        return Context(*(getattr(self, f) for f in self.FIELDS))

    def same(self, other):
        return all(getattr(self, f) == getattr(other, f) for f in self.FIELDS)

    def shown(self):
        records = " ".join(f"{n:08x} {b:016x}" for n, b in zip(self.next, self.bits))
        return (f"{self.integrity:02x} {self.ciphering:02x} {self.integrity_key.hex()} {self.ciphering_key.hex()} "
                f"{self.size:02x} {records}")

    def fault(self):
        refuse_if(13, not (built(self.integrity) and built(self.ciphering)))
        refuse_if(14, self.size > 64)
        refuse_if(16, any(n > COUNTS for n in self.next))

    # the algorithms
    def code(self, count, bearer, direction, octets):
        if self.integrity == 0:
            return bytes(4)
        if self.integrity in (1, 3):
            code = streams.nia1 if self.integrity == 1 else streams.nia3
            return code(self.integrity_key, count, bearer, direction, octets)
        made = cmac.CMAC(algorithms.AES(self.integrity_key))
        made.update(first_octets(count, bearer, direction) + octets)
        return made.finalize()[:4]

    def cipher(self, count, bearer, direction, octets):
        if self.ciphering == 0:
            return octets
        if self.ciphering in (1, 3):
            cipher = streams.nea1 if self.ciphering == 1 else streams.nea3
            return cipher(self.ciphering_key, count, bearer, direction, octets)
        start = first_octets(count, bearer, direction) + bytes(8)
        return Cipher(algorithms.AES(self.ciphering_key), modes.CTR(start)).encryptor().update(octets)

    # the COUNT rule
    def to_send(self, place):
        refuse_if(6, self.next[place] == COUNTS)
        return self.next[place]

    def forward(self, place, last):
        next = self.next[place]
        if next == COUNTS:
            return None
        count = next + (last - next) % 256
        if self.integrity == 0:
            return count % COUNTS
        return count if count < COUNTS else None

    def late(self, place, last):
        next = self.next[place]
        if self.integrity == 0 or next == 0:
            return None
        highest = next - 1
        below = (highest - last) % 256
        open_ = 1 <= below <= self.size and below <= highest and not self.bits[place] >> (below - 1) & 1
        return highest - below if open_ else None

    def use(self, place, count):
        next = self.next[place]
        if self.integrity == 0:
            self.next[place] = (count + 1) % COUNTS
            return
        moved = count + 1 - next
        former = 1 << (moved - 1) if next > 0 else 0
        self.bits[place] = (self.bits[place] << moved | former) & mask(self.size)
        self.next[place] = count + 1

    def use_late(self, place, count):
        self.bits[place] |= 1 << (self.next[place] - count - 2)

    def verify(self, place, bearer, direction, code, covered):
        """The COUNT of a received message, used, and its distance: below the highest used one, or above next."""
        count, next = self.late(place, covered[0]), self.next[place]
        if count is not None and self.code(count, bearer, direction, covered) == code:
            self.use_late(place, count)
            return count, next - 1 - count
        count = self.forward(place, covered[0])
        refuse_if(6, count is None)
        refuse_if(7, self.integrity != 0 and self.code(count, bearer, direction, covered) != code)
        self.use(place, count)
        return count, (count - next) % COUNTS

    # the calls; each answers (COUNT, header type or None, octet or None, octets written), those that receive also the distance, and
    # open also the octets written in the second output
    def reselect(self, integrity, ciphering, integrity_key, ciphering_key):
        self.fault()
        refuse_if(13, not (built(integrity) and built(ciphering)))
        if self.integrity == 0 and integrity != 0:
            self.bits = [mask(self.size)] * 4
        self.integrity, self.ciphering = integrity, ciphering
        self.integrity_key, self.ciphering_key = integrity_key, ciphering_key

    def window(self, size):
        self.fault()
        refuse_if(14, size > 64)
        self.bits = [(b & mask(self.size) | ~mask(self.size)) & mask(size) for b in self.bits]
        self.size = size

    def seal(self, opaque, header, direction, connection, lent, inner):
        self.fault()
        kind = None if opaque else look(inner)
        refuse_if(3, not 1 <= header <= 4)
        if not opaque:
            together(header, kind)
            right_way(kind, direction)
        refuse_if(4, len(inner) > LIMIT)
        refuse_if(5, lent < 7 + len(inner))
        place = place_of(direction, connection)
        count = self.to_send(place)
        payload = self.cipher(count, connection, direction, inner) if header in (2, 4) else inner
        covered = bytes([count & 255]) + payload
        octets = bytes([0x7E, header]) + self.code(count, connection, direction, covered) + covered
        self.use(place, count)
        return count, None, None, octets

    def initial(self, connection, lent, whole):
        self.fault()
        length = len(outgoing(whole, lambda octets: octets))
        refuse_if(4, length > LIMIT)
        refuse_if(5, lent < 7 + length)
        count = self.to_send(place_of(0, connection))
        return self.seal(True, 1, 0, connection, lent, outgoing(whole, lambda octets: self.cipher(count, connection, 0, octets)))

    def open(self, direction, connection, lent, second, message):
        self.fault()
        refuse_if(1, len(message) < 7)
        refuse_if(2, message[0] != 0x7E)
        header = message[1] & 15
        refuse_if(3, not 1 <= header <= 4)
        refuse_if(1, len(message) == 7)
        refuse_if(4, len(message) - 7 > LIMIT)
        refuse_if(5, lent < len(message) - 7 or header == 1 and direction == 0 and second < len(message) - 7)
        count, distance = self.verify(place_of(direction, connection), connection, direction, message[2:6], message[6:])
        plain = self.cipher(count, connection, direction, message[7:]) if header in (2, 4) else message[7:]
        answer = count, header, None, plain, distance
        try:
            kind = look(plain)
            together(header, kind)
            right_way(kind, direction)
            handed = inside(header, direction, plain, lambda octets: self.cipher(count, connection, direction, octets))
        except Refusal as content:
            raise Refusal(8, (answer + (b"",), content.number))
        return answer + (handed,)

    def across(self, direction, connection, lent, second, message):
        """As `open` on the connection that the message arrived on; where that refuses with 6 or 7, on the other. With the connection in front."""
        try:
            return self.open_on(direction, connection, lent, second, message)
        except Refusal as refusal:
            if self.integrity == 0 or refusal.number not in (6, 7):
                raise
            here = refusal
        try:
            return self.open_on(direction, 3 - connection, lent, second, message)
        except Refusal as there:
            if there.number == 8:
                raise
            raise Refusal(6 if here.number == there.number == 6 else 7)

    def open_on(self, direction, connection, lent, second, message):
        try:
            return On(connection), *self.open(direction, connection, lent, second, message)
        except Refusal as refusal:
            if refusal.number == 8:
                answer, carried = refusal.answer
                raise Refusal(8, ((On(connection), *answer), carried))
            raise

    def eps_seal(self, lent, inner):
        self.fault()
        refuse_if(12, inner[:2] not in EPS_REQUESTS)
        refuse_if(4, len(inner) > LIMIT)
        refuse_if(5, lent < 6 + len(inner))
        count = self.to_send(0)
        covered = bytes([count & 255]) + inner
        octets = b"\x17" + self.code(count, 1, 0, covered) + covered
        self.use(0, count)
        return count, None, None, octets

    def eps_open(self, lent, message):
        self.fault()
        refuse_if(1, len(message) < 6)
        refuse_if(2, message[0] != 0x17)
        refuse_if(4, len(message) - 6 > LIMIT)
        refuse_if(5, lent < len(message) - 6)
        count, distance = self.verify(0, 1, 0, message[1:5], message[5:])
        answer = count, None, None, message[6:], distance
        if message[6:8] not in EPS_REQUESTS:
            raise Refusal(8, (answer, 12))
        return answer

    def n1_to_s1(self):
        self.fault()
        count = self.to_send(1)
        self.use(1, count)
        return count, None, count & 255, b""

    def verify_n1_to_s1(self, octet):
        self.fault()
        count, next = self.forward(1, octet), self.next[1]
        refuse_if(6, count is None)
        self.use(1, count)
        return count, None, None, b"", (count - next) % COUNTS

    def s1_to_n1(self, ncc, ngksi, lent):
        self.fault()
        refuse_if(16, ncc > 7 or ngksi > 15)
        refuse_if(5, lent < 8)
        count = self.to_send(1)
        value = bytes([self.ciphering << 4 | self.integrity, ncc << 4 | ngksi, 0, 0])
        octets = self.code(0xFFFFFFFF, 1, 1, value) + value
        self.use(1, count)
        return count, None, None, octets

    def verify_s1_to_n1(self, value):
        self.fault()
        refuse_if(1, len(value) < 8)
        refuse_if(4, len(value) > LIMIT)
        refuse_if(15, (value[4] >> 4, value[4] & 15) != (self.ciphering, self.integrity))
        count = self.to_send(1)
        refuse_if(7, self.integrity != 0 and self.code(0xFFFFFFFF, 1, 1, value[4:]) != value[:4])
        self.use(1, count)
        return count, None, None, b""


EPS_REQUESTS = (b"\x07\x41", b"\x07\x48")


def place_of(direction, connection):
    return (connection - 1) * 2 + direction


def look(message):
    """The type of a 5GMM message, None for a 5GSM one."""
    if len(message) >= 3 and message[0] == 0x7E and message[1] & 15 == 0 and message[2] in UPLINK + DOWNLINK + EITHER:
        return message[2]
    refuse_if(9, not (len(message) >= 4 and message[0] == 0x2E))
    return None


def together(header, kind):
    refuse_if(10, (header == 3) != (kind == 0x5D) or (header == 4) != (kind == 0x5E))


def right_way(kind, direction):
    refuse_if(11, kind is not None and (kind in UPLINK and direction == 1 or kind in DOWNLINK and direction == 0))


# initial messages and their container (document 02, item 9)
def is_initial(message):
    return len(message) >= 3 and message[0] == 0x7E and message[1] & 15 == 0 and message[2] in INITIAL


def walk(message):
    """The length of the mandatory part and the optional parts (identifier, value); 18 where a length runs past the end."""
    left = iter(message)

    def take(n):
        octets = bytes(o for _, o in zip(range(n), left))
        refuse_if(18, len(octets) < n)
        return octets

    take(4)
    mandatory = 6 + len(take(int.from_bytes(take(2), "big")))
    parts = []
    for identifier in left:
        digits = 0 if identifier & 0x80 else 2 if identifier & 0xF0 == 0x70 else 1
        parts.append((identifier, take(int.from_bytes(take(digits), "big"))))
    return mandatory, parts


def container(message):
    """The value of the first part 71, or None."""
    return next((value for identifier, value in walk(message)[1] if identifier == CONTAINER), None)


def outgoing(whole, cipher):
    """The message that goes out for an initial message."""
    refuse_if(9, not is_initial(whole))
    mandatory, parts = walk(whole)
    refuse_if(18, any(identifier == CONTAINER for identifier, _ in parts))
    if not parts:
        return whole
    return whole[:mandatory] + bytes([CONTAINER]) + len(whole).to_bytes(4, "big")[2:] + cipher(whole)


def inside(header, direction, plain, decipher):
    """What is handed over beside a message that passed the look."""
    if header != 1 or direction != 0 or not is_initial(plain):
        return b""
    value = container(plain)
    if value is None:
        return b""
    message = decipher(value)
    refuse_if(18, not (is_initial(message) and message[2] == plain[2]))
    return message


def refused_context():
    return Context(255, 255, bytes(16), bytes(16))


def new(integrity, ciphering, integrity_key, ciphering_key, *next):
    refuse_if(13, not (built(integrity) and built(ciphering)))
    refuse_if(16, any(n > COUNTS for n in next))
    return Context(integrity, ciphering, integrity_key, ciphering_key, 0, next or (0,) * 4)


# The form of the lines: a word of each kind, and the words that follow each call's name.
NUMBER = lambda digits: ("[0-9a-f]{%d}" % digits, lambda w: int(w, 16))
SLOT, OCTET, COUNT, BITS, LENT = ("[0-7]", int), NUMBER(2), NUMBER(8), NUMBER(16), NUMBER(4)
KEY = ("[0-9a-f]{32}", bytes.fromhex)
DIRECTION, CONNECTION = ("[01]", int), ("[12]", int)
OCTETS = ("-|(?:[0-9a-f]{2})+", lambda w: b"" if w == "-" else bytes.fromhex(w))
CODES = [SLOT, OCTET, OCTET, KEY, KEY]
CALLS = {
    "new": CODES, "restore": CODES + [COUNT] * 4, "reselect": CODES, "window": [SLOT, OCTET],
    "seal": [SLOT, OCTET, DIRECTION, CONNECTION, LENT, OCTETS],
    "opaque": [SLOT, OCTET, DIRECTION, CONNECTION, LENT, OCTETS],
    "initial": [SLOT, CONNECTION, LENT, OCTETS],
    "open": [SLOT, DIRECTION, CONNECTION, LENT, OCTETS], "open2": [SLOT, DIRECTION, CONNECTION, LENT, LENT, OCTETS],
    "epsseal": [SLOT, LENT, OCTETS], "epsopen": [SLOT, LENT, OCTETS],
    "n1s1": [SLOT], "n1s1v": [SLOT, OCTET], "s1n1": [SLOT, OCTET, OCTET, LENT], "s1n1v": [SLOT, OCTETS],
    "raw": CODES + [OCTET] + [COUNT, BITS] * 4, "show": [SLOT],
}
CALLS["across"], CALLS["across2"] = CALLS["open"], CALLS["open2"]
# the calls on a context where it lies are the calls
IN_PLACE = {"sealin": "seal", "openin": "open", "open2in": "open2", "windowin": "window"}
CALLS.update((name, CALLS[call]) for name, call in IN_PLACE.items())
METHODS = {
    "seal": lambda c, *a: c.seal(False, *a), "opaque": lambda c, *a: c.seal(True, *a), "initial": Context.initial,
    "open": lambda c, d, k, lent, message: c.open(d, k, lent, lent, message), "open2": Context.open,
    "epsseal": Context.eps_seal, "epsopen": Context.eps_open, "n1s1": Context.n1_to_s1,
    "n1s1v": Context.verify_n1_to_s1, "s1n1": Context.s1_to_n1, "s1n1v": Context.verify_s1_to_n1,
    "reselect": Context.reselect, "window": Context.window,
    "across": lambda c, d, k, lent, message: c.across(d, k, lent, lent, message), "across2": Context.across,
}
METHODS.update((name, METHODS[call]) for name, call in IN_PLACE.items())


def parsed(line, calls=CALLS):
    """The call's name and the values of its words, or None."""
    words = line.split(" ")
    kinds = calls.get(words[0])
    if kinds is None or len(words) != 1 + len(kinds):
        return None
    if not all(re.fullmatch(pattern, w) for (pattern, _), w in zip(kinds, words[1:])):
        return None
    return words[0], [read(w) for (_, read), w in zip(kinds, words[1:])]


def answer_line(answer, carried=None):
    if isinstance(answer[0], On):
        return f"{answer[0]} " + answer_line(answer[1:], carried)
    count, header, octet, octets, *received = answer
    distance, second = received[:1], received[1:]
    words = [f"{n:08x}" for n in (count, *distance)] + [f"{len(octets):04x}"]
    words += [f"{n:02x}" for n in (header, octet) if n is not None]
    words += [str(carried)] if carried is not None else []
    words += [octets.hex() or "-"]
    return " ".join(words + [word for o in second for word in (f"{len(o):04x}", o.hex() or "-")])


class Session:
    def __init__(self):
        self.slots = [refused_context() for _ in range(8)]

    def line(self, line):
        call = parsed(line)
        if call is None:
            return "bad"
        name, (slot, *rest) = call
        if name == "show":
            return self.slots[slot].shown()
        if name == "raw":
            integrity, ciphering, ik, ck, size, *records = rest
            self.slots[slot] = Context(integrity, ciphering, ik, ck, size, records[::2], records[1::2])
            return "ok"
        if rest and isinstance(rest[-1], bytes) and len(rest[-1]) > HOLDS:
            return "no 4"
        return self.call(name, slot, rest)

    def call(self, name, slot, rest):
        before = self.slots[slot].copy()
        try:
            if name in ("new", "restore"):
                self.slots[slot] = refused_context()
                self.slots[slot] = new(*rest)
                return "ok"
            answer = METHODS[name](self.slots[slot], *rest)
            return "ok" if answer is None else "ok " + answer_line(answer)
        except Refusal as refusal:
            if refusal.number == 8:
                return "no 8 " + answer_line(*refusal.answer)
            assert name in ("new", "restore") or self.slots[slot].same(before)
            return f"no {refusal.number}"


def lines_of(stream):
    """The lines of a stream of octets; what follows the last LF is a line if there is something."""
    for line in stream:
        yield line[:-1] if line.endswith(b"\n") else line


def answer(session):
    """Prints the answer to each line of the standard input."""
    out = []
    for line in lines_of(sys.stdin.buffer):
        out.append(session.line(line.decode("latin-1")))
        if len(out) == 10000:
            print("\n".join(out))
            out = []
    if out:
        print("\n".join(out))


if __name__ == "__main__":
    answer(Session())
