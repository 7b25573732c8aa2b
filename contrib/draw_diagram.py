#!/usr/bin/env python3
"""Draws one or two feerate diagrams as an SVG.

    printf 'add 1 100 200\\nadd 2 900 100\\ndiagram main\\n' | txgraph replay | python3 contrib/draw_diagram.py > diagram.svg

The input is what txgraph wrote: each reply of `diagram`, its `point SIZE FEE` lines and `end`, is a diagram, and other lines are passed
over. Where there are two, as of `diagram main` and `diagram top` beside a staging, both are drawn over one another. Behind its last
point a diagram is flat: a dashed line goes on to the end of the longer one."""
import argparse, sys
from xml.sax.saxutils import escape

WIDTH, HEIGHT = 760, 420
LEFT, RIGHT, TOP, BOTTOM = 92, 36, 52, 60
COLOURS = ["#5b6770", "#c2410c"]
MOST_DOTS = 60  # of a diagram with more corners the line alone is drawn
UNITS = ["", "thousand ", "million ", "billion ", "trillion ", "quadrillion "]
FONT = "font-family='Helvetica, Arial, sans-serif'"


class Unreadable(Exception):
    """The input has no diagram, or more than two."""


def read(lines):
    """The diagrams in some lines: of each its points, a size and a fee."""
    diagrams, points = [], []
    for line in lines:
        words = line.split()
        if words[:1] == ["point"]:
            try:
                size, fee = map(int, words[1:])
            except ValueError:
                raise Unreadable(f"no point: {line.strip()}")
            points.append((size, fee))
        elif words == ["end"] and points:
            diagrams.append(points)
            points = []
    if not 1 <= len(diagrams) <= 2:
        raise Unreadable(f"there are {len(diagrams)} replies of `diagram`, and one or two can be drawn")
    return diagrams


def step_for(span, most):
    """A step of 1, 2 or 5 times a power of ten, of which at most so many go into a span."""
    power = 1
    while True:
        for step in (power, 2 * power, 5 * power):
            if span <= step * most:
                return step
        power *= 10


def ticks(low, high, most):
    """Round numbers from the last one at or below `low` to the first one at or above `high`."""
    step = step_for(max(high - low, 1), most)
    first, last = low // step, -(-high // step)
    return [step * i for i in range(first, max(last, first + 1) + 1)]


def unit_of(marks):
    """What the numbers at some marks are told in, and its word: 1, or where they are long a power of 1,000 that divides each of them."""
    power = 0
    while max(map(abs, marks)) >= 10**6 and power + 1 < len(UNITS) and 1000 ** (power + 1) <= marks[1] - marks[0]:
        power += 1
    return 1000**power, UNITS[power]


def svg(diagrams, labels, title):
    """The picture of one or two diagrams."""
    sizes, fees = [size for d in diagrams for size, _ in d], [fee for d in diagrams for _, fee in d]
    across, upward = ticks(0, max(sizes), 8), ticks(min(fees), max(fees), 6)
    most_size, least_fee, most_fee = across[-1], upward[0], upward[-1]
    (size_unit, size_word), (fee_unit, fee_word) = unit_of(across), unit_of(upward)

    def x(size):
        return round(LEFT + (WIDTH - LEFT - RIGHT) * size / most_size, 1)

    def y(fee):
        return round(HEIGHT - BOTTOM - (HEIGHT - TOP - BOTTOM) * (fee - least_fee) / (most_fee - least_fee), 1)

    def text(at, to, words, anchor="middle", size=12, more=""):
        return f"<text x='{at}' y='{to}' {FONT} font-size='{size}' fill='#24292f' text-anchor='{anchor}'{more}>{escape(words)}</text>"

    out = [f"<svg xmlns='http://www.w3.org/2000/svg' width='{WIDTH}' height='{HEIGHT}' viewBox='0 0 {WIDTH} {HEIGHT}'>"]
    out.append(f"<title>{escape(title)}</title>")
    out.append(f"<rect width='{WIDTH}' height='{HEIGHT}' fill='#ffffff'/>")
    out.append(text(LEFT, 26, title, "start", 15))
    for fee in upward:
        colour = "#57606a" if fee == 0 else "#d8dee4"
        out.append(f"<line x1='{LEFT}' y1='{y(fee)}' x2='{WIDTH - RIGHT}' y2='{y(fee)}' stroke='{colour}'/>")
        out.append(text(LEFT - 10, y(fee) + 4, f"{fee // fee_unit:,}", "end"))
    for size in across:
        colour = "#57606a" if size == 0 else "#eef1f4"
        out.append(f"<line x1='{x(size)}' y1='{TOP}' x2='{x(size)}' y2='{HEIGHT - BOTTOM}' stroke='{colour}'/>")
        out.append(text(x(size), HEIGHT - BOTTOM + 20, f"{size // size_unit:,}"))
    out.append(text((LEFT + WIDTH - RIGHT) / 2, HEIGHT - 14, f"size of the best transactions, {size_word}virtual bytes"))
    middle = (TOP + HEIGHT - BOTTOM) / 2
    out.append(text(20, middle, f"fee that they pay, {fee_word}satoshis", more=f" transform='rotate(-90 20 {middle})'"))
    for points, colour in zip(diagrams, COLOURS):
        path = " ".join(f"{x(size)},{y(fee)}" for size, fee in points)
        size, fee = points[-1]
        if size < max(sizes):
            flat = f"x1='{x(size)}' y1='{y(fee)}' x2='{x(max(sizes))}' y2='{y(fee)}'"
            out.append(f"<line {flat} stroke='{colour}' stroke-width='2' stroke-dasharray='6 5'/>")
        out.append(f"<polyline points='{path}' fill='none' stroke='{colour}' stroke-width='2.5' stroke-linejoin='round'/>")
        shown = points if len(points) <= MOST_DOTS else []
        out += [f"<circle cx='{x(size)}' cy='{y(fee)}' r='4' fill='{colour}'/>" for size, fee in shown]
    for i, (label, colour) in enumerate(zip(labels, COLOURS)):
        to = 20 + 20 * i
        out.append(f"<line x1='{WIDTH - RIGHT - 196}' y1='{to - 4}' x2='{WIDTH - RIGHT - 168}' y2='{to - 4}' stroke='{colour}' stroke-width='3'/>")
        out.append(text(WIDTH - RIGHT - 160, to, label, "start", 13))
    return "\n".join(out + ["</svg>", ""])


def main():
    parser = argparse.ArgumentParser(description=__doc__, formatter_class=argparse.RawDescriptionHelpFormatter)
    parser.add_argument("files", nargs="*", metavar="file", help="replies of txgraph; without one, standard input is read")
    parser.add_argument("--labels", nargs=2, default=["before", "after"], metavar="LABEL", help="words for the first and the second diagram")
    parser.add_argument("--title", default="Feerate diagram", help="words above the picture")
    words = parser.parse_args()
    try:
        lines = []
        for path in words.files or ["-"]:
            with sys.stdin if path == "-" else open(path, encoding="utf-8") as source:
                lines += source.readlines()
        diagrams = read(lines)
        print(svg(diagrams, words.labels if len(diagrams) == 2 else [], words.title), end="")
    except (Unreadable, OSError, UnicodeDecodeError) as error:
        print(f"draw_diagram.py: {error}", file=sys.stderr)
        return 1
    return 0


if __name__ == "__main__":
    sys.exit(main())
