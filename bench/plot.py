#!/usr/bin/env python3
"""Draws what `bench --growth --lines FILE` measured: plot.py FILE OUT.svg

One panel for each number of the profile and each row of operations; the panels of a row share their scale.
"""

import math
import sys

PANELS = [("l", "l, chains", 34), ("w", "w, width", 16), ("s", "s, sum", 255), ("h", "h, tree height", 10)]
ROWS = [("µs", 1e6, ["count", "recover", "verify"]), ("ms", 1e3, ["root", "sign"])]
# Sign nearly covers root, hence the dashes.
STYLES = {
    "count": "#0072b2",
    "recover": "#e69f00",
    "verify": "#009e73",
    "root": "#d55e00",
    "sign": '#333" stroke-dasharray="2 4',
}
GATE = '#999" stroke-dasharray="4 3'
WIDTH, HEIGHT, LEFT, TOP, GAP = 200, 150, 60, 50, 60


def read(path):
    """The points of each parameter and operation, in the file's order, which rises."""
    points = {}
    with open(path, encoding="utf-8") as file:
        for line in file:
            kind, *rest = line.rstrip("\n").split("\t")
            if kind == "growth":
                parameter, value, operation, time = rest
                points.setdefault((parameter, operation), []).append((int(value), float(time)))
    return points


def ticks(high):
    """Round numbers from 0 up to the first that isn't below `high`."""
    power = 10 ** math.floor(math.log10(high))
    step = next(power * m for m in (0.2, 0.5, 1, 2) if high <= 5 * power * m)
    return [step * k for k in range(math.ceil(high / step) + 1)]


def text(x, y, words, anchor="middle"):
    return f'<text x="{x:.1f}" y="{y:.1f}" text-anchor="{anchor}" fill="#333">{words}</text>'


def panel(points, parameter, title, gate, unit, scale, operations, marks, x0, y0):
    shown = {name: points[parameter, name] for name in operations if (parameter, name) in points}
    values = sorted({value for line in shown.values() for value, _ in line})
    across = lambda value: x0 + WIDTH * (value - values[0]) / (values[-1] - values[0])
    up = lambda y: y0 + HEIGHT * (1 - y / marks[-1])
    yield f'<path d="M{across(gate):.1f} {y0}V{y0 + HEIGHT}" stroke="{GATE}"/>'
    for mark in marks:
        yield f'<path d="M{x0} {up(mark):.1f}h{WIDTH}" stroke="#ddd"/>'
        yield text(x0 - 6, up(mark) + 4, f"{mark:g} {unit}" if mark else "0", "end")
    for value in (values[0], values[-1]):
        yield text(across(value), y0 + HEIGHT + 16, value)
    yield text(x0 + WIDTH / 2, y0 + HEIGHT + 32, title)
    for name, line in shown.items():
        way = " ".join(f"{across(value):.1f},{up(scale * time):.1f}" for value, time in line)
        yield f'<polyline points="{way}" fill="none" stroke-width="2" stroke="{STYLES[name]}"/>'


def picture(points):
    width = LEFT + len(PANELS) * (WIDTH + GAP)
    height = TOP + len(ROWS) * (HEIGHT + 70)
    yield f'<svg xmlns="http://www.w3.org/2000/svg" viewBox="0 0 {width} {height}"'
    yield ' font-family="sans-serif" font-size="12">'
    yield f'<rect width="{width}" height="{height}" fill="#fff"/>'
    for k, (name, style) in enumerate([*STYLES.items(), ("gate profile", GATE)]):
        yield f'<path d="M{LEFT + 110 * k} 16h24" stroke-width="2" stroke="{style}"/>'
        yield text(LEFT + 110 * k + 30, 20, name, "start")
    for k, (unit, scale, operations) in enumerate(ROWS):
        times = [time for (_, name), line in points.items() if name in operations for _, time in line]
        for i, (parameter, title, gate) in enumerate(PANELS):
            x0, y0 = LEFT + i * (WIDTH + GAP), TOP + k * (HEIGHT + 70)
            yield from panel(points, parameter, title, gate, unit, scale, operations, ticks(scale * max(times)), x0, y0)
    yield "</svg>"


def main():
    source, target = sys.argv[1:]
    with open(target, "w", encoding="utf-8") as file:
        file.write("\n".join(picture(read(source))) + "\n")


main()
