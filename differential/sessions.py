#!/usr/bin/env python3
"""Random sessions of hex lines:  sessions.py SEED LINES [--rust]  prints the lines.

Every call, also on a context where it lies and across connections; messages lost, repeated, reordered, damaged, cut,
arriving on the other connection; lengths around each boundary; COUNTs near the end; null
integrity; codes that are not built; contexts put together by hand; initial messages of random parts, with containers
that are whole, of another message, of another COUNT, or cut; odd lines. With --rust few lines lie outside what
the Rust text can say (document 01, module 6), so that most slots stay comparable. The model runs along, so that the
lines meet contexts in states worth asking; no answer is printed.
"""
import random
import sys
import model
from model import CONTAINER, COUNTS, DOWNLINK, EITHER, INITIAL, UPLINK, Context, Session, place_of

LENGTHS = [0, 1, 2, 3, 4, 5, 6, 7, 8, 9, 12, 13, 15, 16, 17, 28, 29, 31, 32, 33, 61, 63, 64, 65, 200]
EDGES = [2036, 2037, 2038, 2040, 2041, 2044, 2045, 8191, 8192, 8193, 8200, 16377, 16378, 16384, 16385, 32768]
LIMITS = [65521, 65527, 65528, 65529, 65530, 65534, 65535, 65536, 65537, 65538, 65541, 65542, 65543]
OFFSETS = [0, 0, 0, 0, 1, 2, 3, -1, -2, -3, -5, -8, -9, -20, -63, -64, -65, -66, 255, 256]


def hexed(octets):
    return octets.hex() or "-"


class Maker:
    def __init__(self, seed, rust):
        self.random, self.rust, self.session = random.Random(seed), rust, Session()
        self.keys = [self.random.randbytes(16).hex() + " " + self.random.randbytes(16).hex() for _ in range(2)]
        self.sent = []          # (direction, connection, octets) of sealed messages that may still arrive

    def rarely(self, share):
        return self.random.random() < share

    def pick(self, *items):
        return self.random.choice(items)

    # words
    def codes(self):
        if self.rarely(0.004 if self.rust else 0.03):
            return 0, 2
        if self.rarely(0.02):
            return self.pick(0, 1, 2, 3, 4, 7, 8, 255), self.pick(0, 1, 2, 3, 4, 7, 8, 255)
        if not self.rust and self.rarely(0.5):
            return self.pick(0, 1, 2, 3), self.pick(0, 1, 2, 3)
        return self.pick((2, 2), (2, 2), (2, 2), (2, 2), (2, 0), (0, 0))

    def selection(self):
        integrity, ciphering = self.codes()
        if self.rust and integrity == 0 and ciphering == 2 and not self.rarely(0.1):
            integrity = 2
        return f"{integrity:02x} {ciphering:02x} {self.random.choice(self.keys)}"

    def count(self):
        near_end = COUNTS - self.random.randrange(300)
        return self.pick(0, 0, 0, 1, 5, 255, 256, 300, self.random.randrange(COUNTS), near_end,
                         COUNTS - self.random.randrange(4), COUNTS)

    def size(self):
        return self.pick(0, 1, 4, 8, 8, 32, 63, 64, 64, self.random.randrange(65))

    def lent(self, needed):
        room = self.pick(needed, needed + 1, needed + 5, 2 * needed + 16, 0x10)
        if self.rarely(0.005 if self.rust else 0.05):
            room = self.pick(needed - 1, needed - 7, 0, 1)
        elif room < needed:
            room = needed
        if self.rarely(0.002):
            room = 0xFFFF
        return min(max(room, 0), 0xFFFF)

    def octets(self):
        length = self.random.choice(LENGTHS)
        if self.rarely(0.01):
            length = self.random.choice(EDGES)
        elif self.rarely(0.001):
            length = self.random.choice(LIMITS)
        return self.random.randbytes(length)

    def inner(self, direction, header):
        kinds = (DOWNLINK if direction else UPLINK) + EITHER
        body = self.octets()
        x = self.random.random()
        if x < 0.70:
            kind = {3: 0x5D, 4: 0x5E}.get(header) if not self.rarely(0.2) else None
            message = bytes([0x7E, 0, kind or self.random.choice(kinds)]) + body
        elif x < 0.80:
            message = bytes([0x7E, self.pick(0, 0, 0x10, 0xF0, 1), self.random.randrange(0x3E, 0x72)]) + body
        elif x < 0.88:
            message = b"\x2e" + body
        elif x < 0.92:
            message = bytes([0x7E, 0, self.pick(0x5D, 0x5E)]) + body
        else:
            return body
        return self.edged(message)

    def part(self, identifier=None, value=None):
        """An optional part: its identifier says how its length is written."""
        if identifier is None:
            identifier = self.pick(0x40, 0x50, 0x25, 0x29, 0x28, 0x3C, 0x70, 0x7F, 0x6F, 0x80, 0xC0, self.random.randrange(256))
        if identifier >= 0x80:
            return bytes([identifier])
        if value is None:
            value = self.random.randbytes(self.pick(0, 1, 2, 2, 2, 4, 32, CONTAINER))
        digits = 2 if identifier >> 4 == 7 else 1
        value = value[: 256 ** digits - 1]
        return bytes([identifier]) + len(value).to_bytes(digits, "big") + value

    def mandatory(self, kind):
        identity = self.random.randbytes(7 if kind == 0x4C and not self.rarely(0.1) else self.pick(0, 1, 4, 11, 11, 13))
        second = self.pick(0, 0, 0, 0x10, 0xF0)
        return bytes([0x7E, second, kind, self.random.randrange(256)]) + len(identity).to_bytes(2, "big") + identity

    def whole(self):
        """An initial message as a host has it, sometimes none."""
        message = self.mandatory(self.pick(*INITIAL) if not self.rarely(0.03) else self.random.choice(UPLINK))
        parts = [self.part() for _ in range(self.pick(0, 1, 1, 2, 2, 3, 5))]
        if self.rarely(0.05):
            parts.insert(self.random.randrange(len(parts) + 1), self.part(CONTAINER))
        if self.rarely(0.001):
            parts.append(self.part(0x7E, self.random.randbytes(self.pick(*LIMITS) - self.random.randrange(40) & 0xFFFF)))
        message += b"".join(parts)
        return message if not self.rarely(0.05) else message[: self.random.randrange(len(message) + 1)]

    def contained(self, cipher):
        """An initial message as it goes out: with its container, or with something else in its place."""
        whole = self.whole()
        try:
            sent = model.outgoing(whole, cipher)
        except model.Refusal:
            return whole
        x = self.random.random()
        if x < 0.5:
            return sent
        mandatory, inner = whole[: model.walk(whole)[0]], self.whole()
        if x < 0.7:
            return mandatory + self.part() * self.random.randrange(3) + self.part(CONTAINER, cipher(inner)) + self.part() * self.random.randrange(3)
        if x < 0.8:
            return mandatory + self.part(CONTAINER, cipher(whole)) + self.part(CONTAINER, cipher(inner))
        if x < 0.9:
            return mandatory + self.part(CONTAINER, inner)
        return mandatory + self.part(CONTAINER, cipher(self.inner(0, 1)[:60]))

    def edged(self, message):
        if len(message) <= 2030 or self.rarely(0.2):
            return message
        return message[: self.random.choice(LIMITS if len(message) > 65500 else EDGES)]

    def eps(self):
        message = self.pick(b"\x07\x41", b"\x07\x48", b"\x07\x41", b"\x07\x42", b"\x07", b"\x06\x41") + self.octets()
        if self.rarely(0.05):
            message = message[:self.random.randrange(3)]
        return self.edged(message)

    def damaged(self, octets):
        octets = bytearray(octets)
        x = self.random.random()
        if x < 0.05 and octets:
            octets[self.random.randrange(len(octets))] ^= 1 << self.random.randrange(8)
        elif x < 0.08:
            octets = octets[: self.random.randrange(len(octets) + 1)]
        elif x < 0.10:
            octets = octets[: self.random.choice([5, 6, 7, 8])]
        elif x < 0.16 and len(octets) > 1:
            octets[1] |= self.random.randrange(16) << 4
        elif x < 0.18 and len(octets) > 1:
            octets[1] = self.random.randrange(256)
        return bytes(octets)

    # messages made for a context at a COUNT of our choice
    def near(self, context, place):
        offset = self.random.choice(OFFSETS) if not self.rarely(0.2) else self.random.randrange(-300, 300)
        return (context.next[place] + offset) % COUNTS

    def speaker(self, context, place):
        """A context with the same keys whose next COUNT is near."""
        other = context.copy()
        if not (model.built(other.integrity) and model.built(other.ciphering)):
            other.integrity = other.ciphering = 2
        other.size, other.bits = 0, [0] * 4
        other.next = [self.near(context, place)] * 4
        return other

    # lines
    def seal(self, slot, call):
        d, c = self.random.randrange(2), self.pick(1, 1, 1, 2)
        header = self.pick(1, 2, 2, 2, 2, 3, 4) if not self.rarely(0.05) else self.pick(0, 5, 15, 16, 18, 255)
        inner = self.inner(d, header)
        if header == 1 and d == 0 and self.rarely(0.3):
            context = self.session.slots[slot]
            count = min(context.next[place_of(d, c)], COUNTS - 1)
            inner = self.contained(lambda octets: self.speaker(context, 0).cipher(count, c, d, octets))
        return self.sent_by(slot, d, c, f"{call} {slot} {header:02x} {d} {c} {self.lent(7 + len(inner)):04x} {hexed(inner)}")

    def initial(self, slot):
        c, whole = self.pick(1, 1, 1, 2), self.whole()
        try:
            length = len(model.outgoing(whole, lambda octets: octets))
        except model.Refusal:
            length = len(whole)
        return self.sent_by(slot, 0, c, f"initial {slot} {c} {self.lent(7 + length):04x} {hexed(whole)}")

    def sent_by(self, slot, d, c, line):
        """The line; what it seals may arrive later."""
        after = Session()
        after.slots[slot] = self.session.slots[slot].copy()
        answer = after.line(line).split(" ")
        if answer[0] == "ok":
            self.sent = (self.sent + [(d, c, bytes.fromhex(answer[3]))])[-40:]
        return line

    def in_place(self, call):
        """The call's name, or now and then that of the same call on a context where it lies."""
        return call + "in" if not self.rust and self.rarely(0.2) else call

    def opening(self, call):
        return self.in_place(call) if self.rust or not self.rarely(0.25) else call.replace("open", "across")

    def open(self, slot):
        if self.sent and self.rarely(0.5):
            d, c, message = self.random.choice(self.sent[-6:] if self.rarely(0.7) else self.sent)
            if self.rarely(0.03):
                d, c = self.random.randrange(2), self.pick(1, 2)
            elif not self.rust and self.rarely(0.15):
                c = 3 - c               # after a handover
        else:
            d, c, message = self.spoken(slot)
        message = self.damaged(message)
        need = len(message) - 7
        if not self.rarely(0.3):
            return f"{self.opening('open')} {slot} {d} {c} {self.lent(need):04x} {hexed(message)}"
        second = self.pick(need, need + 1, need + 9) if self.rust and not self.rarely(0.05) else self.pick(0, need, need - 1, need + 1)
        return f"{self.opening('open2')} {slot} {d} {c} {self.lent(need):04x} {min(max(second, 0), 0xFFFF):04x} {hexed(message)}"

    def spoken(self, slot):
        """A message that a context with the same keys seals at a COUNT of our choice."""
        d, c = self.random.randrange(2), self.pick(1, 1, 1, 2)
        header, context = self.pick(1, 2, 2, 2, 3, 4), self.session.slots[slot]
        speaker = self.speaker(context, place_of(d, c))
        count = speaker.next[0]
        used = count if not self.rarely(0.05) else count + 1
        inner = self.contained(lambda octets: speaker.cipher(used, c, 0, octets)) if self.rarely(0.3) else self.inner(d, header)
        if model.is_initial(inner) and self.rarely(0.8):
            d, header = 0, 1
        payload = speaker.cipher(count, c, d, inner) if header in (2, 4) else inner
        covered = bytes([count & 255]) + payload
        return d, c, bytes([0x7E, header]) + speaker.code(count, c, d, covered) + covered

    def eps_seal(self, slot):
        inner = self.eps()
        return f"epsseal {slot} {self.lent(6 + len(inner)):04x} {hexed(inner)}"

    def eps_open(self, slot):
        speaker, inner = self.speaker(self.session.slots[slot], 0), self.eps()
        count = speaker.next[0]
        covered = bytes([count & 255]) + inner
        message = self.damaged(b"\x17" + speaker.code(count, 1, 0, covered) + covered)
        return f"epsopen {slot} {self.lent(len(message) - 6):04x} {hexed(message)}"

    def s1_to_n1(self, slot):
        ncc, ngksi = self.pick(0, 1, 3, 7, 7, 8, 255), self.pick(0, 1, 9, 15, 15, 16)
        return f"s1n1 {slot} {ncc:02x} {ngksi:02x} {self.lent(8):04x}"

    def verify_s1_to_n1(self, slot):
        speaker = self.speaker(self.session.slots[slot], 1)
        algorithms = speaker.ciphering << 4 | speaker.integrity
        more = self.octets() if self.rarely(0.3) else b""
        value = bytes([algorithms if not self.rarely(0.1) else self.random.randrange(256), self.random.randrange(128), 0, 0]) + more
        return f"s1n1v {slot} {hexed(self.damaged(speaker.code(0xFFFFFFFF, 1, 1, value) + value))}"

    def raw(self, slot):
        size = self.size()
        if self.rust and not self.rarely(0.05):
            bits = [model.mask(size)] * 4
            return f"raw {slot} {self.selection()} {size:02x} " + " ".join(f"{self.count():08x} {b:016x}" for b in bits)
        faults = 0.4 if self.rarely(0.1) else 0.02          # several faults at once, now and then
        if self.rarely(faults):
            size = self.pick(65, 66, 128, 255)
        records = []
        for _ in range(4):
            bits = self.pick(0, self.random.getrandbits(64), self.random.getrandbits(64) & model.mask(size), model.mask(64))
            count = self.count() if not self.rarely(faults) else self.pick(COUNTS + 1, COUNTS + 255, 0xFFFFFFFF, 1 << 31)
            records.append(f"{count:08x} {bits:016x}")
        return f"raw {slot} {self.selection()} {size:02x} " + " ".join(records)

    def odd(self, slot):
        """A line of the table with something wrong, or something that is no line of it at all."""
        line = self.line_of(slot)
        at = self.random.randrange(len(line) + 1)
        changes = [
            line[:at], line[at:], line[:at] + line[at + 1:], line[:at] + self.pick(*" -0g8A\t\r\0\x7f") + line[at:],
            line.upper(), line + " ", " " + line, line + "\r", line.replace(" ", "  ", 1), line + " 00", line + "0",
            line.replace(" ", "\t", 1), line.replace(f" {slot} ", f" {self.pick(8, 9, 'a', 'f', '', '00', '-')} ", 1),
            "", " ", "-", "hello", "# a comment", line.split(" ")[0], line.split(" ")[0][:-1] + line[len(line.split(" ")[0]):],
            self.random.randbytes(self.random.randrange(40)).replace(b"\n", b"").decode("latin-1"),
            " ".join(line.split(" ")[:-1]), line.replace(" 1 ", " 2 ", 1), line.replace(" 1 ", " 3 ", 1),
            "f" * self.random.randrange(700), "new " * self.random.randrange(300),
        ]
        if self.rarely(0.005):
            long = "7e00" * self.random.choice([30000, 32768, 32769, 40000])
            changes = [f"seal {slot} 02 1 1 0010 " + long + self.pick("", "0", "00", " ", "g", "\r"), "a" * 140000, long]
        return self.random.choice(changes)

    def line_of(self, slot):
        x = self.random.random()
        if x < 0.20: return self.seal(slot, self.in_place("seal"))
        if x < 0.26: return self.seal(slot, "opaque")
        if x < 0.30: return self.initial(slot)
        if x < 0.66: return self.open(slot)
        if x < 0.70: return self.eps_seal(slot)
        if x < 0.76: return self.eps_open(slot)
        if x < 0.79: return f"n1s1 {slot}"
        if x < 0.82: return f"n1s1v {slot} {self.pick(self.random.randrange(256), self.near(self.session.slots[slot], 1) & 255):02x}"
        if x < 0.84: return self.s1_to_n1(slot)
        if x < 0.87: return self.verify_s1_to_n1(slot)
        if x < 0.91: return f"{self.in_place('window')} {slot} {self.size() if not self.rarely(0.1) else self.pick(65, 66, 255):02x}"
        if x < 0.93: return f"show {slot}"
        if x < 0.95: return f"reselect {slot} {self.selection()}"
        if x < 0.96: return f"raw {slot}" if self.rarely(0.1) else self.raw(slot)
        if x < 0.97: return f"new {slot} {self.selection()}"
        counts = [self.count() if not self.rarely(0.01) else COUNTS + 1 + self.random.randrange(3) for _ in range(4)]
        return f"restore {slot} {self.selection()} " + " ".join(f"{n:08x}" for n in counts)

    def next_line(self):
        slot = self.pick(0, 0, 0, 1, 1, 1, 2, 3, 4, 5, 6, 7)
        line = self.odd(slot) if self.rarely(0.03) else self.line_of(slot)
        self.session.line(line)
        return line


def main():
    seed, lines = int(sys.argv[1]), int(sys.argv[2])
    maker, out = Maker(seed, "--rust" in sys.argv), sys.stdout.buffer
    for _ in range(lines):
        out.write(maker.next_line().encode("latin-1") + b"\n")


if __name__ == "__main__":
    main()
