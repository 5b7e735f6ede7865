#!/usr/bin/env python3
"""Draws the time and the memory of calls over the number of classes, as README.md shows them.

plot.py                      draws bench/times.svg from bench/times.csv
plot.py --measure [PROGRAM]  measures bin/owl, if no program is named, writes bench/times.csv, and draws

The documents are those of trials (tools/make_trial.py). The time of a call is that of the processor, and the
least of five, of two from 50,000 classes on, or of fewer that take three seconds together; that of the OWL API, where
it is installed, of one call in a JVM of its own (OwlApiBench.java). serdi, where it is installed, is called as the
program is. The memory is that of the call whose time is told, or of one call more where it is little (measuring.py).
"""

import collections
import csv
import math
import os
import sys
import tempfile
from xml.sax.saxutils import escape, quoteattr

from measuring import TOP, best, call_api, machine, owl_api, program_at, serdi, taken, write_document

SIZES = (1000, 2000, 5000, 10000, 20000, 50000, 100000, 200000)
TRIAL = 20000  # the largest that there is
OFTEN = 20000  # the largest that is measured five times

# What is drawn, with its colour; a line of another program has that of the program's, and dashes.
LINES = {
    "fss to fss": "#0072b2",
    "fss to ttl": "#d55e00",
    "ttl to fss": "#7a3db8",
    "ttl to ttl": "#d23ca8",
    "fss to omn": "#009e73",
    "omn to fss": "#b8860b",
    "check --profile dl": "#444444",
    "trial": "#cc0033",
}
OTHERS = {
    "OWL API: fss to fss": ("fss to fss", "7 4"),
    "OWL API: check dl": ("check --profile dl", "7 4"),
    "serdi: ttl to ttl": ("ttl to ttl", "2 3"),
}


# Measuring


def calls(program, classes, with_serdi):
    """Each line, with its program, its words and where the output stands. What is read is written before."""
    yield "fss to fss", program, ["translate", "--to", "fss", "m.ofn"], "output"
    yield "fss to ttl", program, ["translate", "--to", "ttl", "m.ofn"], "m.ttl"
    yield "ttl to fss", program, ["translate", "--to", "fss", "m.ttl"], "output"
    yield "ttl to ttl", program, ["translate", "--to", "ttl", "m.ttl"], "output"
    if with_serdi:
        yield "serdi: ttl to ttl", "serdi", ["-i", "turtle", "-o", "turtle", "m.ttl"], "output"
    yield "fss to omn", program, ["translate", "--to", "omn", "m.ofn"], "m.omn"
    yield "omn to fss", program, ["translate", "--to", "fss", "m.omn"], "output"
    yield "check --profile dl", program, ["check", "--profile", "dl", "m.ofn"], "output"
    if classes <= TRIAL:
        yield "trial", program, ["trial", str(classes)], "output"


def jobs():
    """Each line of the OWL API, with its job."""
    yield "OWL API: fss to fss", ("write", "m.ofn", "api.ofn")
    yield "OWL API: check dl", ("check", "dl", "m.ofn")


def measured(program, api, with_serdi):
    """A line, a number of classes, seconds, and kilobytes."""
    for classes in SIZES:
        write_document("m.ofn", classes)
        for name, called, words, output in calls(program, classes, with_serdi):
            done = best(called, words, output, runs=5 if classes <= OFTEN else 2)
            if done:
                yield name, classes, f"{done.seconds:.4f}", done.kilobytes
        for name, job in jobs() if api else ():
            done = call_api(api, [job], "output")
            if done:
                yield name, classes, f"{done.seconds:.2f}", done.kilobytes


def measure(program, path):
    """Writes what is measured, behind a line on what measures."""
    rows = [("line", "classes", "seconds", "kilobytes")]
    with tempfile.TemporaryDirectory() as room:
        os.chdir(room)
        api, version, begun = owl_api(), serdi(), taken()
        for row in measured(program, api, version):
            print(*row, flush=True)
            rows.append(row)
        told = machine(api, begun) + (f"; serdi {version}" if version else "")
        os.chdir("/")
    with open(path, "w", encoding="utf-8", newline="") as file:
        file.write(f"# {told}\n")
        csv.writer(file, lineterminator="\n").writerows(rows)


# Drawing

LEFT, RIGHT = 78, 606
WIDTH, HEIGHT = 800, 908
GAP = 17  # between the names of two lines

Panel = collections.namedtuple("Panel", "title column unit factor top bottom")
PANELS = (
    Panel("Time of the processor over the number of classes, both logarithmic", "seconds", "s", 1, 40, 400),
    Panel("Memory, the most that is held at once, both logarithmic", "kilobytes", "MB", 1 / 1000, 484, 844),
)


def read(path):
    """The rows, and what measured them."""
    with open(path, encoding="utf-8", newline="") as file:
        told = file.readline().removeprefix("# ").rstrip()
        return list(csv.DictReader(file)), told


def points_of(rows, panel):
    """The points of each line."""
    points = {}
    for row in rows:
        points.setdefault(row["line"], []).append((int(row["classes"]), float(row[panel.column]) * panel.factor))
    return points


def element(name, text="", **attributes):
    words = "".join(f" {key.replace('_', '-')}={quoteattr(str(value))}" for key, value in attributes.items())
    return f"<{name}{words}>{escape(text)}</{name}>" if text else f"<{name}{words}/>"


def steps(least, most):
    """1, 2 and 5 times the powers of ten around both."""
    found = [digit * 10.0**power for power in range(-4, 6) for digit in (1, 2, 5)]
    first = max(it for it in found if it <= least)
    last = min(it for it in found if it >= most)
    return [it for it in found if first <= it <= last]


class Scale:
    """Places along one axis, which is logarithmic."""

    def __init__(self, least, most, begin, end):
        self.least, self.factor, self.begin = math.log(least), (end - begin) / (math.log(most) - math.log(least)), begin

    def __call__(self, value):
        return round(self.begin + (math.log(value) - self.least) * self.factor, 1)


def grid(panel, across, up, marks):
    for classes in SIZES:
        yield element("path", d=f"M{across(classes)},{panel.top}V{panel.bottom}", stroke="#e4e4e4")
        yield element("text", f"{classes:,}", x=across(classes), y=panel.bottom + 18, text_anchor="middle")
    for mark in marks:
        is_power = math.isclose(math.log10(mark), round(math.log10(mark)), abs_tol=1e-9)
        yield element("path", d=f"M{LEFT},{up(mark)}H{RIGHT}", stroke="#c4c4c4" if is_power else "#e9e9e9")
        if is_power:
            yield element("text", f"{mark:,g} {panel.unit}", x=LEFT - 8, y=up(mark) + 4, text_anchor="end")


def spread(places, top, bottom):
    """Heights for names, in the order of the lines' ends, with a gap between each two, all within the edges."""
    order = sorted(places, key=places.get)
    heights = []
    for name in order:
        heights.append(max(places[name], heights[-1] + GAP if heights else top))
    limit = bottom
    for at in reversed(range(len(heights))):
        heights[at] = min(heights[at], limit)
        limit = heights[at] - GAP
    return dict(zip(order, heights))


def lines(points, across, up, heights):
    """Each line, its points, and its name behind the last of them: of those that end at the edge in a column."""
    for name, each in points.items():
        of, dashes = OTHERS.get(name, (name, None))
        colour, dashed = LINES[of], {"stroke_dasharray": dashes} if dashes else {}
        places = [(across(classes), up(value)) for classes, value in each]
        yield element("polyline", points=" ".join(f"{x},{y}" for x, y in places), stroke=colour, stroke_width=2, **dashed)
        dots = "".join(f"M{x},{y}h0" for x, y in places)
        yield element("path", d=dots, stroke=colour, stroke_width=5, stroke_linecap="round")
        x, y = places[-1]
        if name not in heights:
            yield element("text", name, x=x + 8, y=y + 4, fill=colour, stroke="#ffffff", stroke_width=3, paint_order="stroke")
            continue
        height = heights[name]
        yield element("polyline", points=f"{x + 5},{y} {x + 20},{height} {x + 26},{height}", stroke=colour, stroke_width=0.8)
        yield element("text", name, x=x + 30, y=height + 4, fill=colour)


def drawn(panel, points):
    values = [it for each in points.values() for _, it in each]
    marks = steps(min(values), max(values))
    across, up = Scale(SIZES[0], SIZES[-1], LEFT, RIGHT), Scale(marks[0], marks[-1], panel.bottom, panel.top)
    ends = {name: up(it[-1][1]) for name, it in points.items() if it[-1][0] == SIZES[-1]}
    yield element("text", panel.title, x=LEFT, y=panel.top - 16, font_size=14)
    yield from grid(panel, across, up, marks)
    yield '<g fill="none">'
    yield from lines(points, across, up, spread(ends, panel.top, panel.bottom))
    yield "</g>"
    yield element("text", "classes, each with an axiom and a restriction", x=(LEFT + RIGHT) / 2, y=panel.bottom + 36, text_anchor="middle")


def drawing(rows, told):
    yield f'<svg xmlns="http://www.w3.org/2000/svg" viewBox="0 0 {WIDTH} {HEIGHT}" width="{WIDTH}" height="{HEIGHT}" font-family="sans-serif" font-size="13" fill="#222222">'
    yield element("title", "Time of the processor and memory over the number of classes")
    yield element("rect", width=WIDTH, height=HEIGHT, fill="#ffffff")
    for panel in PANELS:
        yield from drawn(panel, points_of(rows, panel))
    yield element("text", told, x=12, y=HEIGHT - 8, font_size=10, fill="#666666")
    yield "</svg>"


def main():
    way, *rest = sys.argv[1:] or [None]
    if way not in (None, "--measure") or len(rest) > 1:
        raise SystemExit(__doc__)
    path = f"{TOP}/bench/times.csv"
    if way:
        measure(program_at(rest[0] if rest else None), path)
    with open(f"{TOP}/bench/times.svg", "w", encoding="utf-8") as file:
        file.write("\n".join(drawing(*read(path))) + "\n")


if __name__ == "__main__":
    sys.exit(main())
