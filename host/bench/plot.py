#!/usr/bin/env python3
"""The plot of time over length: plot.py LENGTHS, SVG on standard output. Two panels, both axes logarithmic."""
import math
import sys
from xml.sax.saxutils import escape

# candidate: what its line is called, its colour and dashes
LINES = {
    "b": ("original (b): no AES instructions", "#8c564b", "2 3"),
    "by value": ("this library, by value", "#d62728", ""),
    "a2": ("original (a2): aes, ctr, cmac", "#1f77b4", ""),
    "a": ("original (a): aes, ctr, chained CMAC", "#1f77b4", "6 3"),
    "c": ("original (c): OpenSSL", "#2ca02c", "6 3 2 3"),
    "limit": ("three times original (a2)", "#9ecae1", ""),
}
WIDTH, HEIGHT, LEFT, TOP, PANEL, TALL, GAP = 1060, 560, 80, 40, 430, 370, 80
LOW, HIGH = 30, 3e6  # ns
LONGEST = 65535


def read(path):
    points = {}
    for line in open(path):
        kind, _, call, octets, candidate, ns = line.rstrip("\n").split("\t")
        if kind != "time":
            continue
        points.setdefault((call, candidate), []).append((int(octets), float(ns)))
        if candidate == "a2":
            points.setdefault((call, "limit"), []).append((int(octets), 3 * float(ns)))
    return points


def across(octets):
    return PANEL * math.log(octets) / math.log(LONGEST)


def down(ns):
    return TALL * (1 - math.log(ns / LOW) / math.log(HIGH / LOW))


def text(x, y, says, anchor="middle", size=13, more=""):
    return f'<text x="{x:.1f}" y="{y:.1f}" font-size="{size}" text-anchor="{anchor}" {more}>{escape(says)}</text>'


def line(x1, y1, x2, y2, colour="#ddd", more=""):
    return f'<line x1="{x1:.1f}" y1="{y1:.1f}" x2="{x2:.1f}" y2="{y2:.1f}" stroke="{colour}" {more}/>'


def duration(ns):
    return f"{ns} ns" if ns < 1000 else f"{ns // 1000} µs" if ns < 1000000 else f"{ns // 1000000} ms"


def grid():
    for i in range(2, 7):
        ns = 10 ** i
        yield line(0, down(ns), PANEL, down(ns))
        yield text(-8, down(ns) + 4, duration(ns), "end")
    for octets in (1, 8, 64, 512, 8192, LONGEST):
        yield line(across(octets), 0, across(octets), TALL)
        yield text(across(octets), TALL + 18, f"{octets:,}")
    yield f'<rect width="{PANEL}" height="{TALL}" fill="none" stroke="#333"/>'


def curve(points, colour, dashes):
    path = " ".join(f"{across(n):.1f},{down(ns):.1f}" for n, ns in points)
    return f'<polyline points="{path}" fill="none" stroke="{colour}" stroke-width="2" stroke-dasharray="{dashes}"/>'


def panel(points, call, title, x):
    yield f'<g transform="translate({x},{TOP})">'
    yield text(PANEL / 2, -12, title, size=15)
    yield from grid()
    for candidate, (_, colour, dashes) in LINES.items():
        yield curve(points[call, candidate], colour, dashes)
    yield text(PANEL / 2, TALL + 40, "octets of the inner message")
    yield "</g>"


def legend():
    for i, (name, colour, dashes) in enumerate(LINES.values()):
        x, y = LEFT + (i % 3) * 320, TOP + TALL + 70 + (i // 3) * 24
        yield line(x, y, x + 40, y, colour, f'stroke-width="2" stroke-dasharray="{dashes}"')
        yield text(x + 48, y + 4, name, "start")


def drawing(points):
    yield f'<svg xmlns="http://www.w3.org/2000/svg" viewBox="0 0 {WIDTH} {HEIGHT}" font-family="sans-serif">'
    yield f'<rect width="{WIDTH}" height="{HEIGHT}" fill="white"/>'
    yield text(22, TOP + TALL / 2, "time of a whole call", more=f'transform="rotate(-90 22 {TOP + TALL / 2})"')
    yield from panel(points, "seal", "Sealing, codes 2 and 2", LEFT)
    yield from panel(points, "open", "Opening, codes 2 and 2", LEFT + PANEL + GAP)
    yield from legend()
    yield text(LEFT, HEIGHT - 14, "Least of many batches in one process. 1 and 2 octets are no message: sealed opaque, and opened with refusal 8.", "start", 12)
    yield "</svg>"


print("\n".join(drawing(read(sys.argv[1]))))
