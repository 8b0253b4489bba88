#!/usr/bin/env python3
"""Compares the answers of two programs to the same lines:  compare.py LINES ANSWERS ANSWERS [--rust]

The first answers are those of document 01 (the model or the program). With --rust the second are the Rust text's, and
the listed differences are told apart by rule and counted; after one that leaves the two with different contexts, the
slot is out of step, and its lines are not compared until it is made anew. Every other difference is printed.
"""
import collections
import sys
from model import CONTAINER, Refusal, is_initial, outgoing, walk


def slot_of(line):
    words = line.split(" ")
    return words[1] if len(words) > 1 else None


LIMIT = 65535
HOLDS = 65536           # octets of a line that the program holds
HEADER = {"seal": 7, "opaque": 7, "initial": 7, "open": 7, "open2": 7, "epsseal": 6, "epsopen": 6}
ROOM = {"seal": 5, "opaque": 5, "initial": 3, "open": 4, "open2": 4, "epsseal": 2, "epsopen": 2, "s1n1": 4}     # the word that says how much output is lent
OPENS = ("open", "open2")
LATER = {0x4C: (0x29, 0x28), 0x45: (0x3C,)}     # what the tables have after the container


def octets_of(word):
    return 0 if word == "-" else len(word) // 2


def message_of(words):
    return b"" if words[-1] == "-" else bytes.fromhex(words[-1])


def carried(words):
    """How many octets count against the limit: the inner octets, or a container's value."""
    if words[0] == "s1n1v":
        return octets_of(words[-1])
    if words[0] in OPENS + ("epsopen",):
        return octets_of(words[-1]) - HEADER[words[0]]
    if words[0] == "initial":
        try:
            return len(outgoing(message_of(words), lambda octets: octets))
        except Refusal:
            return 0
    return octets_of(words[-1]) if words[0] in HEADER else 0


def wanted(words):
    """How many octets of output the call would write."""
    if words[0] == "s1n1":
        return 8
    if words[0] in OPENS + ("epsopen",):
        return carried(words)
    return HEADER[words[0]] + carried(words)


def too_long(words):
    return carried(words) > LIMIT or octets_of(words[-1]) > HOLDS


def too_short(words):
    if words[0] not in ROOM:
        return False
    rooms = [words[ROOM[words[0]]]]
    if words[0] == "open2" and words[2] == "0" and message_of(words)[1] & 15 == 1:
        rooms.append(words[5])
    return any(int(room, 16) < wanted(words) for room in rooms)


def framed_otherwise(message):
    """How the Rust's decoder frames an initial message otherwise than the walk, if it does."""
    try:
        parts = [identifier for identifier, _ in walk(message)[1]]
    except Refusal:
        return "a length that runs past its message"
    if CONTAINER in parts and any(i in LATER[message[2]] for i in parts[: parts.index(CONTAINER)]):
        return "a container out of the table's order"
    return None


def count_of(answer):
    words = answer.split(" ")
    return words[2 if words[0] == "no" else 1]


def initial_difference(words, ours, rust):
    """Of those that item 9 lists."""
    if words[0] == "initial":
        if ours in ("no 9", "no 18") and rust == "no 6":
            return "order in sealing an initial message", False
        if ours == "no 9" and rust == "other":
            return "REGISTRATION REQUEST and CONTROL PLANE SERVICE REQUEST", False
        if ours == "no 18" and rust.startswith("ok"):
            name = framed_otherwise(message_of(words))
            return name and (name, True)
    if words[0] in OPENS and words[2] == "0" and ours[:4] in ("no 8", "ok 0") and rust[:4] in ("no 8", "ok 0"):
        message = message_of(words)
        if message[1] & 15 == 1 and is_initial(message[7:]) and count_of(ours) == count_of(rust):
            name = framed_otherwise(message[7:])
            return name and (name, False)
    return None


def listed(line, ours, rust):
    """The name of a listed difference, and whether the contexts now differ."""
    words = line.split(" ")
    selects = words[0] in ("new", "restore", "reselect", "raw")
    null_with_cipher = selects and words[2:4] == ["00", "02"]
    if rust == "cannot":
        return "a context put together by hand that the Rust cannot hold", True
    if null_with_cipher and rust == "no 13" and ours in ("ok", "no 16"):
        return "null integrity with a cipher", ours == "ok"
    if selects and {"01", "03"} & set(words[2:4]) and rust == "no 13" and ours in ("ok", "no 16"):
        return "codes 1 and 3, which the oracle has not", ours == "ok"
    if ours == "no 4" and rust != "bad" and too_long(words):
        return "limit of 65,535 octets", rust.startswith(("ok", "no 8"))
    if ours == "no 5" and rust != "bad" and too_short(words):
        return "lent output too short", rust.startswith(("ok", "no 8"))
    if words[0] == "s1n1" and ours == "no 16" and rust == "no 6":
        return "order in making S1-to-N1", False
    return initial_difference(words, ours, rust)


def without_distance(call, answer):
    """An answer without the distance, which the Rust does not tell."""
    words = answer.split(" ")
    at = {"ok": 2, "no": 3}.get(words[0])
    if call not in OPENS + ("epsopen", "n1s1v") or words[:2] != ["no", "8"] and words[0] != "ok":
        return answer
    return " ".join(words[:at] + words[at + 1:])


def same_shown(ours, rust):
    """A context as the Rust shows it has dots for the window bits."""
    pairs = list(zip(ours.split(" "), rust.split(" ")))
    return "..." in rust and len(ours) == len(rust) and all(a == b or set(b) == {"."} for a, b in pairs)


def main():
    rust = "--rust" in sys.argv
    files = [open(f, "rb") for f in sys.argv[1:4]]
    counted, shown, compared, skipped, wrong = collections.Counter(), {}, 0, 0, 0
    out_of_step, codes = set(), {}
    for number, (line, ours, other) in enumerate(zip(*files), 1):
        line, ours, other = (x.rstrip(b"\n").decode("latin-1") for x in (line, ours, other))
        slot, call = slot_of(line), line.split(" ")[0]
        if rust:
            ours = without_distance(call, ours)
        if rust and slot in out_of_step:
            if call in ("new", "restore", "raw") and ours == other != "bad" or call == "restore" and other == ours == "no 16":
                out_of_step.discard(slot)
            elif ours != "bad" or other != "bad":
                skipped += 1
                continue
        leaves_null = call == "reselect" and ours == "ok" and codes.get(slot) == "00" and line.split(" ")[2] != "00"
        if call in ("new", "restore", "reselect", "raw") and ours == "ok":
            codes[slot] = line.split(" ")[2]
        if rust and leaves_null and other == "ok":
            counted["listed: late COUNTs closed when null integrity is left"] += 1
            out_of_step.add(slot)
            continue
        if ours == other or rust and same_shown(ours, other):
            compared += 1
            counted[(call if ours != "bad" else "(a line without the form)") + ": " + " ".join(ours.split(" ")[: 2 if ours[:2] == "no" else 1])[:6]] += 1
            continue
        difference = listed(line, ours, other) if rust else None
        if difference is None:
            wrong += 1
            if wrong <= 20:
                print(f"DIFFERENCE at line {number}: {line[:200]}\n  first:  {ours[:200]}\n  second: {other[:200]}")
            if rust:
                out_of_step.add(slot)
            continue
        name, differ = difference
        counted["listed: " + name] += 1
        shown.setdefault(name, (line, ours, other))
        if differ:
            out_of_step.add(slot)
    left = [f.readline() for f in files]
    if any(left):
        print("DIFFERENCE: the files have not the same number of lines")
        wrong += 1
    print(f"{compared} lines with equal answers, {sum(n for k, n in counted.items() if k.startswith('listed'))} with a "
          f"listed difference, {skipped} on slots out of step, {wrong} differences on no list")
    for name, (line, ours, other) in shown.items():
        print(f"listed: {name}: {line[:140]}\n  first:  {ours[:100]}\n  second: {other[:100]}")
    if "--counts" in sys.argv:
        for name in sorted(counted):
            print(f"  {counted[name]:7} {name}")
    sys.exit(1 if wrong else 0)


if __name__ == "__main__":
    main()
