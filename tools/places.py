#!/usr/bin/env python3
"""Counts, in crates/*/src/*.rt, the candidates of the design pass's points (docs/DESIGN-PASS.md): places to look at, not faults.

Run at the top: python3 tools/places.py [COMMIT]. With a commit it reads that tree, and else the files as they stand."""
import glob
import re
import subprocess
import sys
from collections import Counter, defaultdict

NOTHING = re.compile(r"^(None|Nothing|Absent|Unknown|Bad|Wrong|Fails?|Failed|Refused?|Missed|Long|Short|Empty|Over|Out|Not?[A-Z]\w*)$")
NUMBERED = re.compile(r"refus|number|fault|look|kind|answer", re.I)
BY_HAND = re.compile(r"^(same_\w+|equals?|least|greatest|lesser|greater|smaller|larger|copy\w*|copied)$")
CONVERTS = re.compile(r"^(to_\w+|of_\w+|\w+_of|from_\w+)$")
CUT = re.compile(r"% (256|0x100)\)? as u8|[/*] (256|0x1(_?00)+)\b")
COUNTS = re.compile(r"^(n|len|length|size|used|filled|count|many|\w+_(len|length|size|count))$")


def sources(commit):
    if commit is None:
        return {p: open(p, encoding="utf-8").read() for p in sorted(glob.glob("crates/*/src/**/*.rt", recursive=True))}
    git = lambda *words: subprocess.run(["git", *words], check=True, capture_output=True, encoding="utf-8").stdout
    names = git("ls-tree", "-r", "--name-only", commit, "crates").splitlines()
    return {p: git("show", f"{commit}:{p}") for p in sorted(names) if re.fullmatch(r"crates/[^/]+/src/.*\.rt", p)}


def plain(text):
    """The text with no comments, and with no strings, characters or arrows that could upset the brackets."""
    text = re.sub(r'b?"(?:\\.|[^"\\])*"', '""', text, flags=re.S)
    text = re.sub(r"b?'(?:\\x..|\\.|[^\\'\n])'", "0", text)
    return re.sub(r"//[^\n]*", "", text).replace("->", "→").replace("=>", "⇒")


def close(text, at, opens="([{", closes=")]}"):
    """The place behind the bracket that closes the one at `at`."""
    depth = 0
    for i in range(at, len(text)):
        depth += (text[i] in opens) - (text[i] in closes)
        if depth == 0:
            return i + 1
    return len(text)


def split(text, mark, opens="([{<", closes=")]}>"):
    """The parts of a text at a mark that stands in no bracket."""
    parts, depth = [""], 0
    for c in text:
        depth += (c in opens) - (c in closes)
        parts = [*parts, ""] if c == mark and depth <= 0 else [*parts[:-1], parts[-1] + c]
    return [p for p in (" ".join(q.split()) for q in parts) if p]


class Fn:
    """A function: its name, parameters, answer, requires, body and the comment above it."""

    def __init__(self, crate, raw, text, found):
        self.name, self.full, self.body, self.requires = found[1], f"{crate}::{found[1]}", "", []
        above = re.search(rf"((?:^[ \t]*(?://|#\[)[^\n]*\n)*)^[ \t]*(?:pub(?:\([^)]*\))? )?fn {self.name}\b", raw, re.M)
        self.comment = above[1] if above else ""
        at = found.end()
        opening = text.index("(", close(text, at, "<", ">") if text[at] == "<" else at)
        end = close(text, opening)
        self.params = split(text[opening + 1:end - 1], ",")
        self.answer = None
        while True:
            stop = re.compile(r"[{;]").search(text, end)
            if stop is None:
                return
            words = text[end:stop.start()]
            if self.answer is None:
                self.answer = re.split(r"\b(?:where|requires|ensures|decreases|ghost)\b", words)[0].strip(" →\n")
            if stop[0] == ";":
                return
            end = close(text, stop.start())
            inner = text[stop.start() + 1:end - 1]
            clause = re.search(r"\b(requires|ensures|decreases|ghost)\*?(?:\s+\w+)?\s*$", words)
            if clause is None:
                self.body = inner
                return
            if clause[1] == "requires":
                self.requires += split(inner, "×", "([{", ")]}")


def items(text, word):
    """The enums or structs of a text: name and parts."""
    for found in re.finditer(rf"\b{word} (\w+)[^{{;(]*\{{", text):
        yield found[1], split(text[found.end():close(text, found.end() - 1) - 1], ",")


def normal(fn):
    """A body in which types, numbers and the function's own name say nothing."""
    body = re.sub(rf"\b{fn.name}\b", "F", fn.body)
    body = re.sub(r"\b(u8|u16|u32|u64|u128|usize|i32|i64|bool)\b|\b[A-Z]\w*\b", "T", body)
    return " ".join(re.findall(r"\w+|[^\w\s]", re.sub(r"\d[\w]*|\d+", "0", body)))


def shared_runs(fns):
    """Runs of three or more parameters that stand in three or more functions; a run inside a longer one of the same functions is left out."""
    runs = defaultdict(set)
    for fn in fns:
        for i in range(len(fn.params)):
            for j in range(i + 3, len(fn.params) + 1):
                runs[tuple(fn.params[i:j])].add(fn.full)
    runs = {r: n for r, n in runs.items() if len(n) >= 3}
    inside = lambda r, s: len(r) < len(s) and any(s[i:i + len(r)] == r for i in range(len(s)))
    return {r: n for r, n in runs.items() if not any(inside(r, s) and n <= m for s, m in runs.items())}


def chooses(fn):
    """Whether a match in the body only chooses a function: its arms are names, or calls with the same arguments."""
    for found in re.finditer(r"\bmatch [^{};]*\{", fn.body):
        inner = fn.body[found.end():close(fn.body, found.end() - 1) - 1]
        arms = [a.split("⇒", 1)[1].strip() for a in split(inner, ",") if "⇒" in a]
        calls = [re.fullmatch(r"(?:\w+(?:::<.*?>)?::)*([a-z]\w*)(\(.*\))?", a) for a in arms]
        if len(arms) > 1 and all(calls) and len({c[2] for c in calls}) == 1 and len({c[0] for c in calls} - {"true", "false"}) > 1:
            return True
    return False


def tested(fn):
    """The variables that a body tests, if by if, against two constants or more."""
    tests = Counter(re.findall(r"\bif (\w+) == (?:0x)?[\d_]+ \{", fn.body))
    return [name for name, n in tests.items() if n > 1]


def by_file(lines):
    """A line for each file, with how many there are in it."""
    return [f"{p[7:]} {n}" for p, n in Counter(lines).items()]


def tell(point, what, found, total=None):
    print(f"({point}) {what}: {len(found) if total is None else total}")
    for line in found:
        print(f"      {line}")


def main():
    raw = sources(sys.argv[1] if len(sys.argv) > 1 else None)
    texts = {p: plain(t) for p, t in raw.items()}
    crate = lambda p: p.split("/")[1]
    fns = [Fn(crate(p), raw[p], t, f) for p, t in texts.items() for f in re.finditer(r"\bfn (\w+)(?=[<(])", t)]
    enums = [(crate(p), n, v) for p, t in texts.items() for n, v in items(t, "enum")]
    structs = [(crate(p), n, v) for p, t in texts.items() for n, v in items(t, "struct")]
    head = lambda part: re.sub(r"^(?:#\[[^\]]*\]\s*)*(?:pub(?:\([^)]*\))?\s+)?", "", part)
    print(f"{len(raw)} files, {sum(t.count(chr(10)) for t in raw.values())} lines, {len(fns)} functions, {sum(bool(f.body) for f in fns)} with a body")

    named = [(c, n, [head(v) for v in vs]) for c, n, vs in enums]
    variants = lambda vs: ", ".join(re.match(r"[^ ({]*", v)[0] for v in vs)
    optional = lambda vs: any(NOTHING.match(v.split("(")[0]) for v in vs) and any(re.search(r"[({]", v) for v in vs)
    tell(1, "own enums", [f"{c}::{n} {{ {variants(vs)} }}" for c, n, vs in named])
    tell(1, "enums of the shape of Option or Result", [f"{c}::{n}" for c, n, vs in named if optional(vs)])
    tell(1, "functions that answer a number for a refusal or a kind", [f.full for f in fns if f.answer == "u8" and (NUMBERED.search(f.name) or NUMBERED.search(f.comment))])
    tell(1, "fields that are a bool beside others", [f"{c}::{n}.{head(v)}" for c, n, vs in structs if len(vs) > 1 for v in vs if re.search(r":\s*bool$", v)])

    twins = defaultdict(list)
    for f in fns:
        if len(normal(f).split()) >= 12:
            twins[normal(f)].append(f.full)
    twins = [" ".join(t) for t in twins.values() if len(t) > 1]
    tell(2, f"groups of functions with one body ({sum(len(t.split()) for t in twins)} functions)", twins)

    shapes = defaultdict(list)
    for c, n, vs in [*enums, *structs]:
        shapes[tuple(vs)].append(f"{c}::{n}")
    tell(2, "groups of types with the same variants or fields", [" ".join(t) for t in shapes.values() if len(t) > 1])

    whiles = [f"{f.full} {n}" for f in fns if (n := len(re.findall(r"\bwhile\b", f.body)))]
    tell(3, f"functions with while loops ({sum(int(w.split()[1]) for w in whiles)} loops)", whiles)
    ranges = [(f, m) for f in fns for m in re.finditer(r"\bfor (\w+) in [^{]*\.\.[^{]*\{", f.body)]
    indexes = lambda f, m: re.search(rf"\[[^\[\]]*\b{m[1]}\b[^\[\]]*\]", f.body[m.end():close(f.body, m.end() - 1)])
    tell(3, "for loops over a range whose body indexes by it", [f"{f.full} {m[1]}" for f, m in ranges if indexes(f, m)])

    only_match = lambda f: re.match(r"match\b", f.body.strip()) and close(f.body.strip(), f.body.strip().find("{")) == len(f.body.strip())
    tell(4, "equality, order, copies by hand", [f.full for f in fns if BY_HAND.match(f.name)])
    tell(4, "conversions that only match", [f.full for f in fns if CONVERTS.match(f.name) and only_match(f)])
    cuts = [p for p, t in texts.items() for line in t.splitlines() if CUT.search(line) and not re.search(r"requires|ensures", line)]
    tell(4, "lines that cut a number to octets, or join octets, by hand", by_file(cuts), len(cuts))

    clauses = defaultdict(set)
    for f in fns:
        for clause in f.requires:
            clauses[re.sub(r"^\((.*)\)$", r"\1", clause)].add(f.full)
    tell(5, "clauses in the requires of three functions or more", [f"{len(n)} {c}" for c, n in sorted(clauses.items(), key=lambda x: -len(x[1])) if len(n) >= 3])
    tell(5, "runs of three parameters or more in three functions or more", [f"{len(n)} {', '.join(r)}" for r, n in sorted(shared_runs(fns).items(), key=lambda x: -len(x[1]))])

    pairs = lambda f: [f"{a}, {b}" for a, b in zip(f.params, f.params[1:]) if re.search(r": &(?:'\w+ )?(?:mut )?\[", a) and re.search(r": usize$", b) and COUNTS.match(b.split(":")[0])]
    tell(6, "a slice and its length as two parameters", [f"{f.full} {p}" for f in fns for p in pairs(f)])
    counted = lambda vs: [head(v) for v in vs if COUNTS.match(head(v).split(":")[0]) and re.search(r": (usize|u8|u32)$", v)]
    arrays = [(c, n, vs) for c, n, vs in structs if any(re.search(r": \[", v) for v in vs)]
    tell(6, "an array beside its length in a struct", [f"{c}::{n} {', '.join(counted(vs))}" for c, n, vs in arrays if counted(vs)])

    tell(7, "function pointers", [f"{p[7:]}: {' '.join(line.split())}" for p, t in texts.items() for line in t.splitlines() if re.search(r"\bfn\(", line)])
    tell(7, "matches that only choose a function", [f.full for f in fns if chooses(f)])
    tell(7, "functions that test one variable, if by if, against two constants or more", [f"{f.full} {n}" for f in fns for n in tested(f)])


main()
