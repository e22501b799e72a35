#!/usr/bin/env python3
"""Draws docs/growth.svg from growth.csv: how the time of one model and of one walk call grows with the number of variables.

Run it after `cargo run --release -- growth`. It needs nothing but Python."""

import csv
import math
import os
from xml.sax.saxutils import escape

HERE = os.path.dirname(os.path.abspath(__file__))
SOURCE = os.path.join(HERE, "growth.csv")
TARGET = os.path.join(HERE, os.pardir, "docs", "growth.svg")

COLOURS = ["#1b6ca8", "#c8553d", "#3a7d44", "#8e5ea2", "#b8860b", "#444444", "#17a2a2", "#d6618f"]
ACTS = [("model", "one model (of a list of 1,000)"), ("walk", "one walk call (deep checkpoint, budget 96)")]

# A panel's place and size, in pixels.
LEFT, TOP, WIDTH, HEIGHT, GAP = 80, 56, 400, 400, 90
LEGEND = 190


def read_points():
    with open(SOURCE, newline="") as file:
        return list(csv.DictReader(file))


def limits(values):
    """Powers of ten around the values."""
    return 10 ** math.floor(math.log10(min(values))), 10 ** math.ceil(math.log10(max(values)))


def time_text(nanoseconds):
    for unit, size in (("ms", 1e6), ("us", 1e3)):
        if nanoseconds >= size:
            return f"{nanoseconds / size:g} {unit}"
    return f"{nanoseconds:g} ns"


def text(x, y, words, anchor="middle", size=13, extra=""):
    return f'<text x="{x:.1f}" y="{y:.1f}" font-size="{size}" text-anchor="{anchor}" {extra}>{escape(words)}</text>'


def line(x1, y1, x2, y2, colour, width=1.0, dash=""):
    dashed = f' stroke-dasharray="{dash}"' if dash else ""
    return (
        f'<line x1="{x1:.1f}" y1="{y1:.1f}" x2="{x2:.1f}" y2="{y2:.1f}" '
        f'stroke="{colour}" stroke-width="{width}"{dashed}/>'
    )


class Panel:
    """One plot with logarithmic axes."""

    def __init__(self, left, points, title):
        self.left = left
        self.points = points
        self.title = title
        self.sizes = sorted({int(p["n"]) for p in points})
        self.low, self.high = limits([float(p[k]) for p in points for k in ("proved_ns", "plain_ns")])

    def x(self, n):
        first, last = math.log(self.sizes[0] * 0.93), math.log(self.sizes[-1] * 1.07)
        return self.left + WIDTH * (math.log(n) - first) / (last - first)

    def y(self, nanoseconds):
        low, high = math.log(self.low), math.log(self.high)
        return TOP + HEIGHT * (high - math.log(nanoseconds)) / (high - low)

    def axes(self):
        parts = [
            f'<rect x="{self.left}" y="{TOP}" width="{WIDTH}" height="{HEIGHT}" fill="none" stroke="#222"/>',
            text(self.left + WIDTH / 2, TOP - 14, self.title, size=15),
            text(self.left + WIDTH / 2, TOP + HEIGHT + 44, "number of variables n (logarithmic)"),
        ]
        for n in self.sizes:
            parts.append(line(self.x(n), TOP, self.x(n), TOP + HEIGHT, "#ddd"))
            parts.append(text(self.x(n), TOP + HEIGHT + 20, str(n)))
        decade = self.low
        while decade <= self.high * 1.01:
            parts.append(line(self.left, self.y(decade), self.left + WIDTH, self.y(decade), "#ddd"))
            parts.append(text(self.left - 8, self.y(decade) + 4, time_text(decade), anchor="end"))
            decade *= 10
        return parts

    def curve(self, family, key, colour, dash):
        places = [(self.x(int(p["n"])), self.y(float(p[key]))) for p in self.points if p["family"] == family]
        joined = " ".join(f"{x:.1f},{y:.1f}" for x, y in places)
        dashed = f' stroke-dasharray="{dash}"' if dash else ""
        parts = [f'<polyline points="{joined}" fill="none" stroke="{colour}" stroke-width="2"{dashed}/>']
        if not dash:
            parts += [f'<circle cx="{x:.1f}" cy="{y:.1f}" r="3" fill="{colour}"/>' for x, y in places]
        return parts

    def draw(self, families):
        parts = self.axes()
        for family, colour in zip(families, COLOURS):
            parts += self.curve(family, "plain_ns", colour, "5 4")
            parts += self.curve(family, "proved_ns", colour, "")
        return parts


def legend(left, families):
    parts = []
    y = TOP + 10
    for family, colour in zip(families, COLOURS):
        parts.append(line(left, y, left + 26, y, colour, 2))
        parts.append(text(left + 34, y + 4, family, anchor="start"))
        y += 24
    y += 16
    for words, dash in (("proved", ""), ("plain reference", "5 4")):
        parts.append(line(left, y, left + 26, y, "#222", 2, dash))
        parts.append(text(left + 34, y + 4, words, anchor="start"))
        y += 24
    return parts


def main():
    points = read_points()
    families = list(dict.fromkeys(p["family"] for p in points))
    width = LEFT + 2 * WIDTH + GAP + 24 + LEGEND
    height = TOP + HEIGHT + 64
    parts = [
        f'<svg xmlns="http://www.w3.org/2000/svg" width="{width}" height="{height}" viewBox="0 0 {width} {height}" '
        'font-family="sans-serif" fill="#222">',
        f'<rect width="{width}" height="{height}" fill="white"/>',
        text(20, TOP + HEIGHT / 2, "time (logarithmic)", extra=f'transform="rotate(-90 20 {TOP + HEIGHT / 2})"'),
    ]
    for index, (act, title) in enumerate(ACTS):
        mine = [p for p in points if p["act"] == act]
        parts += Panel(LEFT + index * (WIDTH + GAP), mine, title).draw(families)
    parts += legend(LEFT + 2 * WIDTH + GAP + 24, families)
    parts.append("</svg>")
    with open(TARGET, "w") as file:
        file.write("\n".join(parts) + "\n")


if __name__ == "__main__":
    main()
