#!/usr/bin/env python3
"""Random sessions of EPS hex lines:  eps_sessions.py SEED LINES  prints the lines.

As sessions.py, over the EPS calls: messages of types 1 to 4 and SERVICE REQUESTs, sealed by the slots or by a context with
the same keys at a COUNT near theirs; lost, repeated, reordered, damaged, cut; every refusal; contexts put together by hand;
odd lines. One line in twenty is a 5GS line, so that the slots of both meet.
"""
import sys
import eps
import model
from model import COUNTS
from sessions import EDGES, LIMITS, Maker, hexed

REACHES = [0, 0, 0, 0, 1, 2, 3, 15, 30, 31, 31, 32, 32, 33, 63, 255, 256, -1, -1, -2, -3, -8, -9, -63, -64, -65, -66]


class EpsMaker(Maker):
    def __init__(self, seed):
        super().__init__(seed, False)
        self.others, self.session = Maker(seed + 1, False), eps.Session()

    def near(self, context, place):
        offset = self.random.choice(REACHES) if not self.rarely(0.2) else self.random.randrange(-300, 300)
        return (context.next[place] + offset) % COUNTS

    def speaker(self, context, direction):
        other = context.copy()
        if not (model.built(other.integrity) and model.built(other.ciphering)):
            other.integrity = other.ciphering = 2
        other.size, other.bits = 0, [0, 0]
        other.next = [self.near(context, direction)] * 2
        return other

    def message(self):
        octets = self.octets()
        return octets if len(octets) <= 2030 or self.rarely(0.2) else octets[: self.random.choice(LIMITS if len(octets) > 65500 else EDGES)]

    def damaged(self, octets):
        octets, x = bytearray(octets), self.random.random()
        if x < 0.05 and octets:
            octets[self.random.randrange(len(octets))] ^= 1 << self.random.randrange(8)
        elif x < 0.08:
            octets = octets[: self.random.randrange(len(octets) + 1)]
        elif x < 0.11:
            octets = octets[: self.random.choice([0, 1, 3, 4, 5, 6, 7, 8])]
        elif x < 0.13:
            octets += self.random.randbytes(self.pick(1, 2, 3))
        elif x < 0.16 and octets:
            octets[0] = self.pick(0x07, 0x17, 0x27, 0x37, 0x47, 0x57, 0xC7, 0xC7, 0xD7, 0xE7, 0xF7, 0x7E, self.random.randrange(256))
        return bytes(octets)

    def seal(self, slot):
        d, inner = self.random.randrange(2), self.message()
        header = self.pick(1, 2, 2, 3, 4) if not self.rarely(0.05) else self.pick(0, 5, 12, 15, 16, 18, 255)
        return self.sent_by(slot, d, None, f"eseal {slot} {header:02x} {d} {self.lent(6 + len(inner)):04x} {hexed(inner)}")

    def request(self, slot):
        identifier = self.random.randrange(8) if not self.rarely(0.05) else self.pick(8, 9, 15, 32, 255)
        return self.sent_by(slot, 0, None, f"esr {slot} {identifier:02x} {self.lent(4):04x}")

    def sent_by(self, slot, d, c, line):
        after = eps.Session()
        after.slots[slot] = self.session.slots[slot].copy()
        answer = after.line(line).split(" ")
        if answer[0] == "ok":
            self.sent = (self.sent + [(d, bytes.fromhex(answer[3]))])[-40:]
        return line

    def spoken(self, slot):
        context, d = self.session.slots[slot], self.random.randrange(2)
        if self.rarely(0.4):
            return 0, self.speaker(context, 0).service_request(self.random.randrange(8), 4)[3]
        return d, self.speaker(context, d).seal(self.pick(1, 2, 2, 3, 4), d, 1 << 20, self.message()[: model.LIMIT])[3]

    def open(self, slot):
        if self.sent and self.rarely(0.5):
            d, message = self.random.choice(self.sent[-6:] if self.rarely(0.7) else self.sent)
        else:
            d, message = self.spoken(slot)
        if self.rarely(0.03):
            d = 1 - d
        message = self.damaged(message)
        need = 0 if message[:1] == b"\xc7" else len(message) - 6
        return f"eopen {slot} {d} {self.lent(need):04x} {hexed(message)}"

    def raw(self, slot):
        size, faults = self.size(), 0.4 if self.rarely(0.1) else 0.02
        if self.rarely(faults):
            size = self.pick(65, 66, 128, 255)
        records = []
        for _ in range(2):
            bits = self.pick(0, self.random.getrandbits(64), self.random.getrandbits(64) & model.mask(size), model.mask(64))
            count = self.count() if not self.rarely(faults) else self.pick(COUNTS + 1, COUNTS + 255, 0xFFFFFFFF, 1 << 31)
            records.append(f"{count:08x} {bits:016x}")
        return f"eraw {slot} {self.selection()} {size:02x} " + " ".join(records)

    def line_of(self, slot):
        x = self.random.random()
        if x < 0.22: return self.seal(slot)
        if x < 0.34: return self.request(slot)
        if x < 0.78: return self.open(slot)
        if x < 0.84: return f"ewindow {slot} {self.size() if not self.rarely(0.1) else self.pick(65, 66, 255):02x}"
        if x < 0.88: return f"eshow {slot}"
        if x < 0.92: return f"ereselect {slot} {self.selection()}"
        if x < 0.94: return self.raw(slot)
        if x < 0.97: return f"enew {slot} {self.selection()}"
        counts = [self.count() if not self.rarely(0.02) else COUNTS + 1 + self.random.randrange(3) for _ in range(2)]
        return f"erestore {slot} {self.selection()} " + " ".join(f"{n:08x}" for n in counts)

    def odd(self, slot):
        if self.rarely(0.01):
            return f"eopen {slot} 0 0010 " + "27" * self.pick(65535, 65536, 65537, 70000) + self.pick("", "0", " ", "g")
        return super().odd(slot)

    def next_line(self):
        return self.others.next_line() if self.rarely(0.05) else super().next_line()


def main():
    maker, out = EpsMaker(int(sys.argv[1])), sys.stdout.buffer
    for _ in range(int(sys.argv[2])):
        out.write(maker.next_line().encode("latin-1") + b"\n")


if __name__ == "__main__":
    main()
