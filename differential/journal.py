#!/usr/bin/env python3
"""The journal of document 02, item 10, read from the request page: every position of a journal is tested by itself.

  journal.py write < LINES       the records of hex lines on standard output; `no 4` and `left out N` on standard error
  journal.py read < JOURNAL      the lines that the model prints for the calls of a journal, and `skipped N`
  journal.py damage SEED < JOURNAL   a damaged copy
  journal.py items < JOURNAL     the stretches and calls themselves, one to a line
  journal.py check               the page's example, and random journals written, damaged and read
  journal.py run SEED NUMBER     so many random sessions to the programs journal_write and journal_read (crates/NAME/out), compared
  journal.py sample              the fixed samples: stdin and stdout of crates/journal_write and crates/journal_read
"""
import pathlib
import random
import subprocess
import sys
import model
from sessions import Maker

MARK = b"\x4e\x53"
MOST = 60000
NAMES = "new restore reselect window seal opaque open epsseal epsopen n1s1 n1s1v s1n1 s1n1v initial".split()
KINDS = {name: kind for kind, name in enumerate(NAMES, 1)}
LEAST = dict(zip(NAMES, (34, 50, 34, 1, 4, 4, 5, 2, 2, 0, 1, 4, 0, 3)))
LONGER = "seal opaque open epsseal epsopen s1n1v initial".split()


def allows(name, n):
    return n >= LEAST[name] if name in LONGER else n == LEAST[name]


def record(kind, octets):
    return MARK + bytes([kind]) + len(octets).to_bytes(2, "big") + octets


def place(direction, connection):
    return direction + 2 * (connection - 1)


def two(n):
    return n.to_bytes(2, "big")


# the bytes of a call, by the name of its line: what stands behind the slot
BYTES = {
    "new": lambda i, c, ik, ck: bytes([i, c]) + ik + ck,
    "restore": lambda i, c, ik, ck, *next: bytes([i, c]) + ik + ck + b"".join(n.to_bytes(4, "big") for n in next),
    "reselect": lambda i, c, ik, ck: bytes([i, c]) + ik + ck,
    "window": lambda size: bytes([size]),
    "seal": lambda t, d, c, room, inner: bytes([t, place(d, c)]) + two(room) + inner,
    "opaque": lambda t, d, c, room, inner: bytes([t, place(d, c)]) + two(room) + inner,
    "open": lambda d, c, room, message: bytes([place(d, c)]) + two(room) + two(room) + message,
    "open2": lambda d, c, room, second, message: bytes([place(d, c)]) + two(room) + two(second) + message,
    "epsseal": lambda room, inner: two(room) + inner,
    "epsopen": lambda room, message: two(room) + message,
    "n1s1": lambda: b"",
    "n1s1v": lambda octet: bytes([octet]),
    "s1n1": lambda ncc, ngksi, room: bytes([ncc, ngksi]) + two(room),
    "s1n1v": lambda value: value,
    "initial": lambda c, room, message: bytes([c - 1]) + two(room) + message,
}


def written(lines):
    """The journal of the lines, how many were refused with 4, and how many were left out."""
    out, refused, left = [], 0, 0
    for line in lines:
        call = model.parsed(line)
        if call is None or call[0] not in BYTES or call[1][0] != 0:
            left += 1
            continue
        name, (_, *values) = call
        octets = BYTES[name](*values)
        if len(octets) > MOST:
            refused += 1
        else:
            out.append(record(KINDS["open" if name == "open2" else name], octets))
    return b"".join(out), refused, left


def size_at(octets, p):
    """How many octets the record at p has, and None where none is well formed."""
    if len(octets) < p + 5 or octets[p:p + 2] != MARK or not 1 <= octets[p + 2] <= len(NAMES):
        return None
    n = octets[p + 3] * 256 + octets[p + 4]
    if n > MOST or not allows(NAMES[octets[p + 2] - 1], n) or p + 5 + n > len(octets):
        return None
    return 5 + n


def items(octets):
    """Calls as (name, bytes), stretches as numbers. `begins` is decided for every position before anything is read."""
    begins = [p for p in range(len(octets)) if octets[p] == 0x4E and size_at(octets, p) is not None] + [len(octets)]
    p, i, out = 0, 0, []
    while p < len(octets):
        while begins[i] < p:
            i += 1
        if begins[i] > p:
            out.append(begins[i] - p)
            p = begins[i]
        else:
            n = size_at(octets, p)
            out.append((NAMES[octets[p + 2] - 1], octets[p + 5:p + n]))
            p += n
    return out


def number(octets):
    return int.from_bytes(octets, "big")


def hexed(octets):
    return octets.hex() or "-"


def line_of(name, o):
    """The hex line of a call: of a place the two low bits, of a connection the low bit."""
    def where(octet):
        return f"{octet & 1} {(octet >> 1 & 1) + 1}"
    if name in ("new", "restore", "reselect"):
        next = "".join(f" {number(o[34 + 4 * i:38 + 4 * i]):08x}" for i in range(4)) if name == "restore" else ""
        return f"{name} 0 {o[0]:02x} {o[1]:02x} {o[2:18].hex()} {o[18:34].hex()}{next}"
    if name in ("window", "n1s1v"):
        return f"{name} 0 {o[0]:02x}"
    if name in ("seal", "opaque"):
        return f"{name} 0 {o[0]:02x} {where(o[1])} {number(o[2:4]):04x} {hexed(o[4:])}"
    if name == "open":
        if "open2" in model.CALLS:
            return f"open2 0 {where(o[0])} {number(o[1:3]):04x} {number(o[3:5]):04x} {hexed(o[5:])}"
        return f"open 0 {where(o[0])} {number(o[1:3]):04x} {hexed(o[5:])}"
    if name in ("epsseal", "epsopen"):
        return f"{name} 0 {number(o[:2]):04x} {hexed(o[2:])}"
    if name == "n1s1":
        return "n1s1 0"
    if name == "s1n1":
        return f"s1n1 0 {o[0]:02x} {o[1]:02x} {number(o[2:4]):04x}"
    if name == "s1n1v":
        return f"s1n1v 0 {hexed(o)}"
    return f"initial 0 {(o[0] & 1) + 1} {number(o[1:3]):04x} {hexed(o[3:])}"


def read(octets):
    """What journal_read prints, by the model."""
    session = model.Session()
    return [f"skipped {i}" if isinstance(i, int) else session.line(line_of(*i)) for i in items(octets)]


def damaged(octets, pick):
    """A copy with some damage of every sort that item 10 names."""
    out = bytearray(octets)
    for _ in range(pick.randrange(1, 6)):
        p = pick.randrange(len(out) + 1)
        marks = [i for i in range(len(out) - 4) if out[i:i + 2] == MARK]
        m = pick.choice(marks) if marks else None
        sort = pick.randrange(8)
        if sort == 0 and p < len(out):
            out[p] ^= 1 << pick.randrange(8)
        elif sort == 1:
            del out[p:p + pick.choice((1, 1, 2, 3, 5, 40))]
        elif sort == 2:
            out[p:p] = pick.randbytes(pick.choice((1, 1, 2, 4, 5, 60)))
        elif sort == 3:
            out[p:p] = MARK
        elif sort == 4 and m is not None:
            out[m + 3:m + 5] = two(pick.choice((0, 1, 5, 34, 200, 59999, 60000, 60001, 65535, pick.randrange(65536))))
        elif sort == 5 and m is not None:
            out[m + 2] = pick.choice((0, 0x0F, 0xFF, pick.randrange(256)))
        elif sort == 6:
            del out[len(out) - pick.randrange(6):]
        elif sort == 7:
            out[p:p] = record(pick.randrange(1, 15), pick.randbytes(pick.choice((0, 1, 2, 3, 4, 5, 34, 50, 100))))
    return bytes(out)


IK, CK = bytes(range(16)).hex(), bytes(range(16, 32)).hex()
LINES = [f"new 0 02 02 {IK} {CK}", "window 0 08", "n1s1 0", "opaque 0 01 0 1 0008 4e", "open 0 0 1 0001 7e0163ac3e1200aa", "n1s1v 0 05"]
RECORDS = [
    "4e53010022 0202" + IK + CK, "4e53040001 08", "4e530a0000", "4e53060005 010000084e",
    "4e5307000d 00000100017e0163ac3e1200aa", "4e530b0001 05",
]
LAST = "ok 00000005 00000004 0000 -"
SIXTH = "ok 00000005 00000005 0000 -"
SEALED = "ok 00000000 0008 7e0168a0340d004e"


def example():
    """The page's example with the calls of item 9; before it an open printed nothing of a second output."""
    whole = [bytes.fromhex(r) for r in RECORDS]
    journal = b"".join(whole)
    assert written(LINES) == (journal, 0, 0)
    content = "no 8 00000000 00000000 0001 01 9 aa" + (" 0000 -" if "open2" in model.CALLS else "")
    made = "ok 00000000 0000 00 -"
    assert read(journal) == ["ok", "ok", made, SEALED, "no 7", LAST], read(journal)

    def with_record(i, octets):
        return b"".join(whole[:i] + [octets] + whole[i + 1:])
    assert read(with_record(1, bytes.fromhex("4e530f0001 08"))) == ["ok", "skipped 6", made, SEALED, "no 7", LAST]
    assert read(with_record(3, bytes.fromhex("4e5306ffff 010000084e"))) == ["ok", "ok", made, "skipped 10", content, LAST]
    assert read(with_record(1, whole[1][:-1])) == ["ok", "no 14", "skipped 4", SEALED, "no 7", SIXTH]


def check():
    example()
    pick = random.Random(10)
    for _ in range(3000):
        calls = []
        for _ in range(pick.randrange(8)):
            name = pick.choice(NAMES)
            n = LEAST[name] + (pick.choice((0, 1, 7, 90)) if name in LONGER else 0)
            calls.append((name, pick.choice((pick.randbytes(n), (MARK * n)[:n], (record(0x0A, b"") * n)[:n]))))
        journal = b"".join(record(KINDS[name], octets) for name, octets in calls)
        assert items(journal) == calls
        for octets in (journal, damaged(journal, pick)):
            parts = items(octets)
            assert sum(i if isinstance(i, int) else 5 + len(i[1]) for i in parts) == len(octets)
            assert all(not isinstance(a, int) or a > 0 and not isinstance(b, int) for a, b in zip(parts, parts[1:] + [("", b"")]))
    for name in NAMES:
        for n in {max(LEAST[name] - 1, 0), LEAST[name], LEAST[name] + 1, 60000, 60001, 65535}:
            octets = record(KINDS[name], bytes(n))
            assert (items(octets) == [(name, bytes(n))]) == (n <= MOST and allows(name, n)), (name, n)


def session(seed, lines, share=0.9):
    """The lines of a random session, most of them on slot 0."""
    maker, pick = Maker(seed, False), random.Random(seed)
    for _ in range(lines):
        words = maker.next_line().split(" ")
        if len(words) > 1 and len(words[1]) == 1 and pick.random() < share:
            words[1] = "0"
        yield " ".join(words)


def errors(refused, left):
    return "no 4\n" * refused + (f"left out {left}\n" if left else "")


def told(answers):
    return "".join(answer + "\n" for answer in answers).encode()


def compared(seed, number):
    pick, root = random.Random(seed), pathlib.Path(__file__).parent.parent / "crates"

    def program(name, octets):
        done = subprocess.run([root / name / "out" / name], input=octets, capture_output=True, check=True)
        return done.stdout, done.stderr.decode()
    for k in range(number):
        lines = list(session(pick.randrange(1 << 30), pick.choice((5, 20, 60))))
        journal, *counts = written(lines)
        assert program("journal_write", "".join(line + "\n" for line in lines).encode("latin-1")) == (journal, errors(*counts)), k
        for octets in (journal, damaged(journal, pick)):
            assert program("journal_read", octets) == (told(read(octets)), ""), k
    print(f"no difference in {number} sessions, each written, read and read damaged")


def edges():
    """Lines at the limit of a record, and octets that a reader may take wrongly."""
    lines = LINES + [f"restore 0 02 02 {IK} {CK} 00fffffe 01000000 01000001 00000000", f"reselect 0 01 03 {CK} {IK}", "seal 0 02 1 2 0010 7e006416",
                     "s1n1 0 07 0f 0008", "s1n1 0 08 0f 0008", "s1n1v 0 -", "epsopen 0 0040 07", "show 0", "hello", "seal 1 02 1 1 0010 7e006416"]
    lines += [f"opaque 0 02 1 1 ffff {'5a' * octets}" for octets in (59996, 59997, 65537)]
    lines += [f"s1n1v 0 {'00' * octets}" for octets in (60000, 60001)]
    parts = []
    for name in NAMES:
        for n in (LEAST[name] - 1, LEAST[name], LEAST[name] + 1):
            parts.append(record(KINDS[name], bytes([0xFF]) * max(n, 0)))
    for kind in (0x00, 0x0F, 0xFF):
        parts.append(record(kind, bytes(4)))
    for n in (60000, 60001, 65535):
        parts.append(record(0x0D, bytes(n)))
    parts += [b"\x4e" + record(0x0A, b""), record(0x05, bytes(4) + record(0x0A, b""))[:-1], record(0x0A, b""), MARK, b"\x04\xff\xff", record(0x0A, b"") * 3]
    parts += [record(0x07, b"\xff" + bytes(4)), record(0x0E, b"\xfe" + bytes(2)), record(0x0B, b"\x05")[:-1], b"\x4e\x53\x0a\x00"]
    return lines, parts


def sample():
    lines, parts = edges()
    lines += [line for line in session(10, 300) if len(line) < 3000]
    journal, *counts = written(lines)
    octets = journal + damaged(journal, random.Random(10)) + b"".join(parts)
    crates = pathlib.Path(__file__).parent.parent / "crates"
    (crates / "journal_write/stdin").write_bytes("".join(line + "\n" for line in lines).encode("latin-1"))
    (crates / "journal_write/stdout").write_bytes(journal)
    (crates / "journal_read/stdin").write_bytes(octets)
    (crates / "journal_read/stdout").write_bytes(told(read(octets)))
    print(f"{len(lines)} lines, {len(journal)} octets of journal, {len(octets)} octets read; on standard error:\n{errors(*counts)}", end="")


def main():
    command, *words = sys.argv[1:]
    if command == "check":
        check()
    elif command == "run":
        compared(int(words[0]), int(words[1]))
    elif command == "sample":
        sample()
    elif command == "write":
        lines = [line.decode("latin-1") for line in model.lines_of(sys.stdin.buffer)]
        journal, refused, left = written(lines)
        sys.stdout.buffer.write(journal)
        sys.stderr.write(errors(refused, left))
    else:
        octets = sys.stdin.buffer.read()
        if command == "damage":
            sys.stdout.buffer.write(damaged(octets, random.Random(int(words[0]))))
        else:
            for line in read(octets) if command == "read" else items(octets):
                print(line)


if __name__ == "__main__":
    main()
