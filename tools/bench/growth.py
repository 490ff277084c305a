#!/usr/bin/env python3
"""Prints how choose's time grows, and draws it; tools/bench/growth runs it.

    growth < LINES | python3 tools/bench/growth.py PLOT.svg

A line is what growth.c prints. The law is t = start + step * work, where work is the number of words of 64 inputs that are
computed: 2^n / 64 * (evaluated + (2^m - 1) * fanout + 2^m * compared + noting), of gates that are evaluated, those of them in
the targets' fanout and outputs that are compared. start, step and noting are fitted, with equal weight on each row's relative
error. The law does not speak of candidates, nor of a job with no output to compare, which is settled before any block, nor of
one of at most six inputs, which has no block.
"""

import math
import sys
from dataclasses import dataclass

WIDTH, HEIGHT, LEFT, RIGHT, TOP, BOTTOM = 720, 440, 70, 170, 40, 60
COLOURS = {"inputs": "#1b6ca8", "targets": "#c1440e", "gates": "#2e7d32", "fanout": "#7b3fa0", "candidates": "#8a6d00"}


@dataclass
class Row:
    series: str
    inputs: int
    targets: int
    gates: int
    candidates: int
    evaluated: int
    fanout: int
    compared: int
    us: float

    def words(self):
        return 2**self.inputs / 64

    def blocks(self):
        """Whether blocks of inputs are evaluated."""
        return self.compared > 0 and self.inputs > 6

    def gate_words(self):
        vectors = 2**self.targets
        return self.words() * (self.evaluated + (vectors - 1) * self.fanout + vectors * self.compared)


@dataclass
class Law:
    start: float  # microseconds
    step: float  # microseconds a word
    noting: float  # words for each 64 inputs

    def work(self, row):
        return row.gate_words() + row.words() * self.noting

    def us(self, work):
        return self.start + self.step * work


# ---- the law


def solved(matrix, right):
    """The solution of a small system of linear equations, by elimination."""
    rows = [list(row) + [x] for row, x in zip(matrix, right)]
    for i, pivot in enumerate(rows):
        for k, row in enumerate(rows):
            if k != i:
                factor = row[i] / pivot[i]
                rows[k] = [x - factor * y for x, y in zip(row, pivot)]
    return [row[-1] / row[i] for i, row in enumerate(rows)]


def fitted(rows):
    terms = [[1 / row.us, row.gate_words() / row.us, row.words() / row.us] for row in rows]
    matrix = [[sum(t[i] * t[k] for t in terms) for k in range(3)] for i in range(3)]
    start, step, word = solved(matrix, [sum(t[i] for t in terms) for i in range(3)])
    return Law(start, step, word / step)


# ---- the table


def print_table(rows, law):
    print(f"{'varied':<11} inputs targets gates candidates  evaluated fanout compared  microseconds  law / measured")
    for row in rows:
        share = f"{law.us(law.work(row)) / row.us:.2f}" if row.blocks() else "-"
        given = f"{row.inputs:6} {row.targets:7} {row.gates:5} {row.candidates:10}"
        left = f"{row.evaluated:10} {row.fanout:6} {row.compared:8}"
        print(f"{row.series:<11} {given} {left} {row.us:13.1f} {share:>15}")
    print(f"law: {law_text(law)}")


def law_text(law):
    words = f"2^n / 64 * (evaluated + (2^m - 1) * fanout + 2^m * compared + {law.noting:.0f})"
    return f"{law.start:.1f} us + {1000 * law.step:.2f} ns * {words}"


# ---- the plot


class Scale:
    """A logarithmic axis from a power of ten to a power of ten."""

    def __init__(self, values, first, last):
        self.low = math.floor(math.log10(min(values)))
        self.high = math.ceil(math.log10(max(values)))
        self.first, self.last = first, last

    def at(self, x):
        share = (math.log10(x) - self.low) / (self.high - self.low)
        return round(self.first + share * (self.last - self.first), 1)

    def powers(self):
        return range(self.low, self.high + 1)


def text(x, y, words, more=""):
    return f'<text x="{x}" y="{y}" {more}>{words}</text>'


def power(k):
    return f'10<tspan dy="-5" font-size="9">{k}</tspan>'


def grid(across, up):
    for k in across.powers():
        x = across.at(10**k)
        yield f'<path d="M{x} {TOP}V{HEIGHT - BOTTOM}" stroke="#ddd"/>'
        yield text(x, HEIGHT - BOTTOM + 18, power(k), 'text-anchor="middle"')
    for k in up.powers():
        y = up.at(10**k)
        yield f'<path d="M{LEFT} {y}H{WIDTH - RIGHT}" stroke="#ddd"/>'
        yield text(LEFT - 8, y + 4, power(k), 'text-anchor="end"')


def curve(across, up, law):
    ends = 10.0**across.low, 10.0**across.high
    works = [ends[0] * (ends[1] / ends[0]) ** (i / 40) for i in range(41)]
    points = [(across.at(w), up.at(law.us(w))) for w in works if 10.0**up.low <= law.us(w) <= 10.0**up.high]
    path = "L".join(f"{x} {y}" for x, y in points)
    return f'<path d="M{path}" fill="none" stroke="#333" stroke-dasharray="5 3"/>'


def plot(rows, law):
    across = Scale([law.work(row) for row in rows], LEFT, WIDTH - RIGHT)
    up = Scale([row.us for row in rows], HEIGHT - BOTTOM, TOP)
    middle = (LEFT + WIDTH - RIGHT) / 2
    yield f'<svg xmlns="http://www.w3.org/2000/svg" viewBox="0 0 {WIDTH} {HEIGHT}" font-family="sans-serif" font-size="12">'
    yield f'<rect width="{WIDTH}" height="{HEIGHT}" fill="#fff"/>'
    title = "choose: time against work, one size varied in each series"
    yield text(middle, 22, title, 'text-anchor="middle" font-size="14"')
    yield from grid(across, up)
    yield curve(across, up, law)
    for row in rows:
        x, y = across.at(law.work(row)), up.at(row.us)
        yield f'<circle cx="{x}" cy="{y}" r="4" fill="{COLOURS[row.series]}" fill-opacity="0.7"/>'
    words = f"words of 64 inputs: 2ⁿ / 64 · (evaluated + (2ᵐ − 1) · fanout + 2ᵐ · compared + {law.noting:.0f})"
    yield text(middle, HEIGHT - 16, words, 'text-anchor="middle"')
    yield text(20, (TOP + HEIGHT - BOTTOM) / 2, "microseconds a call", TURNED)
    for i, (name, colour) in enumerate(COLOURS.items()):
        y = TOP + 20 + 22 * i
        yield f'<circle cx="{WIDTH - RIGHT + 24}" cy="{y - 4}" r="4" fill="{colour}"/>'
        yield text(WIDTH - RIGHT + 36, y, name + " varied")
    y = TOP + 20 + 22 * len(COLOURS)
    yield f'<path d="M{WIDTH - RIGHT + 14} {y - 4}h20" stroke="#333" stroke-dasharray="5 3"/>'
    yield text(WIDTH - RIGHT + 36, y, f"{law.start:.0f} µs + {1000 * law.step:.2f} ns")
    yield text(WIDTH - RIGHT + 36, y + 16, "a word")
    yield "</svg>"


TURNED = f'text-anchor="middle" transform="rotate(-90 20 {(TOP + HEIGHT - BOTTOM) / 2})"'


def read_row(line):
    name, *sizes, us = line.split()
    return Row(name.split("_")[0], *map(int, sizes), float(us))


def main():
    rows = [read_row(line) for line in sys.stdin]
    rows.sort(key=lambda row: list(COLOURS).index(row.series))
    law = fitted([row for row in rows if row.series != "candidates" and row.blocks()])
    print_table(rows, law)
    with open(sys.argv[1], "w", encoding="utf-8") as file:
        file.write("\n".join(plot(rows, law)) + "\n")


if __name__ == "__main__":
    main()
