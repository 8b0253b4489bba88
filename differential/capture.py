#!/usr/bin/env python3
"""Sealed samples for a dissector.
  capture.py lines                       prints the hex lines
  capture.py pcap LINES ANSWERS NAME     writes what was sealed to NAME.5gs.pcap and NAME.eps.pcap, and beside them
                                         the header type, sequence number and inner message type that are to be seen
  capture.py check EXPECTED SEEN         compares them with what the dissector shows
"""
import struct
import sys
from model import DOWNLINK, EITHER, UPLINK

RELAY = range(0x69, 0x6E)
PAIRED = (0x5D, 0x5E)       # sealed under header types 3 and 4 alone
IK, CK = bytes(range(16)).hex(), bytes(range(16, 32)).hex()


def lines():
    for slot, codes in enumerate(("02 00", "02 02", "00 00")):
        yield f"restore {slot} {codes} {IK} {CK} 000000fa 000001fa 00000005 00ffff00"
        for d, kinds in ((0, UPLINK + EITHER), (1, DOWNLINK + EITHER)):
            for kind in kinds:
                for header in () if kind in PAIRED else (1, 2):
                    yield f"seal {slot} {header:02x} {d} {1 + kind % 2} 0100 7e00{kind:02x}" + "00" * 12
        yield f"seal {slot} 03 1 1 0100 7e005d020000f070f0"
        yield f"seal {slot} 04 0 1 0100 7e005e"
        for _ in range(4):
            yield f"seal {slot} 02 0 1 0100 2e0101c1ffff91"
        for kind in ("41", "48"):
            yield f"epsseal {slot} 0100 07{kind}" + "00" * 12


def expected(line, sealed, ciphering):
    """The header type, the sequence number and, where no octet is ciphered, the inner message's type."""
    words = line.split(" ")
    inner = words[-1]
    if words[0] == "epsseal":
        return "eps", 1, sealed[5], int(inner[2:4], 16)
    header = int(words[2], 16)
    clear = header in (1, 3) or ciphering == "00"
    kind = int(inner[6:8], 16) if inner.startswith("2e") else int(inner[4:6], 16)
    return "5gs", header, sealed[6], kind if clear else None


def write(path, link, packets):
    with open(path, "wb") as out:
        out.write(struct.pack("<IHHiIII", 0xA1B2C3D4, 2, 4, 0, 0, 65535, link))
        for at, packet in enumerate(packets):
            out.write(struct.pack("<IIII", at, 0, len(packet), len(packet)) + packet)


def check(expected_file, seen_file):
    wrong, total, inner = 0, 0, 0
    rows = zip(open(expected_file), open(seen_file), strict=True)
    for number, (row, seen) in enumerate(rows, 1):
        header, last, kind = row.split()
        headers, lasts, *kinds = seen.rstrip("\n").split("\t")
        shown = (headers.split(",")[0], lasts, *(str(int(k, 16)) for k in kinds if k))
        total, inner = total + 1, inner + (kind != "-")
        is_relay = kind != "-" and int(kind) in RELAY       # not in the dissector's table (tshark 4.0)
        if shown[:2] != (header, last) or kind != "-" and shown[2:] != (kind,) and not (is_relay and not shown[2:]):
            wrong += 1
            print(f"packet {number}: expected {row.strip()}, seen {seen.strip()}")
    print(f"{total} packets, {inner} with a clear inner message: {wrong} shown otherwise than expected")
    return wrong


def main():
    if sys.argv[1] == "lines":
        print("\n".join(lines()))
        return
    if sys.argv[1] == "check":
        sys.exit(check(*sys.argv[2:4]) != 0)
    codes, packets, rows = {}, {"5gs": [], "eps": []}, {"5gs": [], "eps": []}
    for line, answer in zip(open(sys.argv[2]), open(sys.argv[3])):
        words, answer = line.split(), answer.split()
        if answer[0] != "ok":
            sys.exit(f"not sealed: {line[:80]}: {answer}")
        if words[0] == "restore":
            codes[words[1]] = words[3]
            continue
        sealed = bytes.fromhex(answer[3])
        system, header, number, kind = expected(line.rstrip("\n"), sealed, codes[words[1]])
        packets[system].append(sealed)
        rows[system].append(f"{header} {number} {'-' if kind is None else kind}")
    for system, link in (("5gs", 147), ("eps", 148)):
        write(f"{sys.argv[4]}.{system}.pcap", link, packets[system])
        open(f"{sys.argv[4]}.{system}.expected", "w").write("\n".join(rows[system]) + "\n")


if __name__ == "__main__":
    main()
