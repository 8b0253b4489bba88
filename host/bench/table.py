#!/usr/bin/env python3
"""Tables of what the bench printed, in Markdown: table.py TIMES LENGTHS COUNTS PAGE; standard input says when and where.
In the PAGE they take the place of what stands between `<!-- limits -->` and `<!-- /limits -->`, and likewise for figures."""
import sys

OURS = ["by value", "in place"]
CALLS = ["seal", "open"]
NAMES = {"a": "(a)", "a2": "(a2)", "b": "(b)", "c": "(c)", "copy": "a new Vec of the input alone"}
# at most so many times as long, for seal and open of 64 octets, seal and open of 8,192: the customer's limit, and what stands in for it
LIMITS = [("asked: 3 times (a)", "a", [3] * 4), ("asked: 3 times (a2)", "a2", [3] * 4), ("asked: 3 times (b)", "b", [3] * 4),
          ("asked: 3 times (c)", "c", [3] * 4),
          ("stands in: (a2)", "a2", [3, 3, 3, 3.3]), ("stands in: (b)", "b", [0.35] * 4)]


class Figures:
    """Of one file: the value for a code, call, number of octets and candidate."""

    def __init__(self, path, value=lambda v: v[0]):
        lines = [line.rstrip("\n").split("\t") for line in open(path)]
        self.cycle = next((float(line[5]) for line in lines if line[0] == "cycle"), None)
        self.all = {(int(code), call, int(n), who): value([float(x) for x in rest])
                    for kind, code, call, n, who, *rest in lines if kind != "cycle"}

    def get(self, *key):
        return self.all[key]

    def lengths(self, code):
        return sorted({key[2] for key in self.all if key[0] == code})

    def columns(self, code):
        return [(call, n) for n in self.lengths(code) for call in CALLS]

    def candidates(self, code):
        return list(dict.fromkeys(key[3] for key in self.all if key[0] == code))

    def others(self, code):
        return [c for c in self.candidates(code) if c not in OURS + ["copy"]]

    def ratio(self, code, call, n, ours, other):
        return self.get(code, call, n, ours) / self.get(code, call, n, other)


def name(candidate):
    return NAMES.get(candidate, candidate)


def table(head, rows):
    lines = [head, ["---"] * len(head)] + rows
    return "".join("| " + " | ".join(line) + " |\n" for line in lines) + "\n"


def heads(columns):
    return [f"{call}, {n:,}" for call, n in columns]


def values(figures, code):
    columns = figures.columns(code)
    rows = [[name(c)] + [f"{figures.get(code, *column, c):,.0f}" for column in columns] for c in figures.candidates(code)]
    return table([""] + heads(columns), rows)


def ratios(figures, code):
    columns = figures.columns(code)
    rows = [[f"{ours} : {name(other)}"] + [f"{figures.ratio(code, *column, ours, other):.2f}" for column in columns]
            for other in figures.others(code) for ours in OURS]
    return table([""] + heads(columns), rows)


def limits(figures):
    """The longer of the two kinds of call counts."""
    columns = figures.columns(2)
    rows = []
    for limit, other, most in LIMITS:
        found = [max(figures.ratio(2, *column, ours, other) for ours in OURS) for column in columns]
        verdicts = [f"{r:.2f}" if r <= m else f"**{r:.2f}, not {m}**" for r, m in zip(found, most)]
        rows.append([limit] + verdicts)
    return table([""] + heads(columns), rows)


def over_length(figures):
    columns = [(call, other) for other in ("a", "a2", "b") for call in CALLS]
    rows = [[f"{n:,}"] + [f"{figures.ratio(2, call, n, 'by value', other):.2f}" for call, other in columns] for n in figures.lengths(2)]
    return table(["octets"] + [f"{call} : {name(other)}" for call, other in columns], rows)


def per_octet(figures):
    spans = [(call, low, high) for call in CALLS for low, high in ((64, 8192), (8192, 65535))]
    rows = []
    for c in figures.others(2) + OURS:
        slopes = [(figures.get(2, call, high, c) - figures.get(2, call, low, c)) / (high - low) for call, low, high in spans]
        rows.append([name(c)] + [f"{slope:.2f}" for slope in slopes])
    return table([""] + [f"{call}, {low:,} to {high:,}" for call, low, high in spans], rows)


def per_block(figures):
    """Of the code by header type 1, of both by header type 2."""
    def cycles(call, c):
        return (figures.get(2, call, 8192, c) - figures.get(2, call, 64, c)) / (8192 - 64) * 16 / figures.cycle
    rows = []
    for c in figures.others(2) + OURS:
        code, both = cycles("seal plain", c), cycles("seal", c)
        rows.append([name(c), f"{code:.0f}", f"{both - code:.0f}", f"{both:.0f}"])
    return table(["", "code", "ciphering", "both"], rows)


def limits_block(conditions, times):
    head = "How many times as long as the original, by value or in place, whichever takes longer; what is not met is bold:"
    return f"{head}\n\n{limits(times)}{conditions}"


def figures_block(times, lengths, counts):
    return "".join([
        "ns of a whole call with codes 2 and 2:\n\n", values(times, 2),
        "How many times as long:\n\n", ratios(times, 2),
        "How many times as long over length, by value:\n\n", over_length(lengths),
        "ns for each octet more, between two lengths:\n\n", per_octet(lengths),
        f"Cycles (of {times.cycle:.3f} ns) for each 16 octets more of a seal, between 64 and 8,192:\n\n", per_block(times),
        "Instructions of a whole call, counted by callgrind:\n\n", values(counts, 2),
        "SNOW 3G, codes 1 and 1, the original over libipsec-mb: ns, and how many times as long:\n\n", values(times, 1), ratios(times, 1),
        "ZUC, codes 3 and 3, likewise:\n\n", values(times, 3), ratios(times, 3)])


def replace(page, block, text):
    start, end = f"<!-- {block} -->", f"<!-- /{block} -->"
    before, rest = page.split(start)
    _, after = rest.split(end)
    return f"{before}{start}\n\n{text.strip()}\n\n{end}{after}"


def main():
    times, lengths, counts, path = sys.argv[1:]
    times, lengths, counts = Figures(times), Figures(lengths), Figures(counts, lambda v: v[1] / v[0])
    blocks = {"limits": limits_block(sys.stdin.read(), times), "figures": figures_block(times, lengths, counts)}
    page = open(path).read()
    for block, text in blocks.items():
        page = replace(page, block, text)
        print(text)
    open(path, "w").write(page)


main()
