#!/usr/bin/env python3
"""Draws what run.py measured as SVG pictures: CPU and memory of tracerun beside the peer's, the storms, and how the
cost of each kind of script grows.

usage: draw.py FOLDER      reads results.json there, and writes cpu.svg, memory.svg, storms.svg and growth.svg
"""
import argparse
import json
import math
import os
from xml.sax.saxutils import escape

from tables import growth, kinds_of, largest_rows, ratio, sizes_of

WHO = {"program": ("tracerun", "#2563a8"), "peer": ("peer", "#d9822b")}
INK, PALE, GRID = "#24292f", "#6e7781", "#d8dee4"
FONT = "system-ui, -apple-system, 'Segoe UI', Helvetica, Arial, sans-serif"


class Picture:
    """The parts of an SVG picture, on white."""

    def __init__(self, width, height, title):
        self.width, self.height = width, height
        self.parts = []
        self.rectangle(0, 0, width, height, "white")
        self.text(20, 30, title, size=17, weight=600)

    def rectangle(self, x, y, width, height, color):
        self.parts.append(f'<rect x="{x:.1f}" y="{y:.1f}" width="{width:.1f}" height="{height:.1f}" fill="{color}"/>')

    def line(self, x, y, to_x, to_y, color=GRID, dashes=""):
        dashes = f' stroke-dasharray="{dashes}"' if dashes else ""
        self.parts.append(f'<path d="M{x:.1f} {y:.1f}L{to_x:.1f} {to_y:.1f}" stroke="{color}" fill="none"{dashes}/>')

    def curve(self, points, color):
        path = "L".join(f"{x:.1f} {y:.1f}" for x, y in points)
        self.parts.append(f'<path d="M{path}" stroke="{color}" stroke-width="2" fill="none"/>')
        self.parts += [f'<circle cx="{x:.1f}" cy="{y:.1f}" r="3" fill="{color}"/>' for x, y in points]

    def text(self, x, y, text, size=12, color=INK, anchor="start", weight=400):
        self.parts.append(
            f'<text x="{x:.1f}" y="{y:.1f}" font-size="{size}" fill="{color}" text-anchor="{anchor}" '
            f'font-weight="{weight}">{escape(text)}</text>'
        )

    def legend(self, x, y):
        for name, color in WHO.values():
            self.rectangle(x, y - 9, 12, 10, color)
            self.text(x + 17, y, name)
            x += 90

    def write(self, path):
        with open(path, "w", encoding="utf-8") as file:
            file.write(
                f'<svg xmlns="http://www.w3.org/2000/svg" viewBox="0 0 {self.width} {self.height}" '
                f'width="{self.width}" height="{self.height}" font-family="{FONT}">\n'
            )
            file.write("\n".join(self.parts) + "\n</svg>\n")


def round_step(most, steps):
    """A step of 1, 2 or 5 times a power of ten, of which about so many reach the most."""
    rough = most / steps
    power = 10 ** math.floor(math.log10(rough))
    return next(power * it for it in (1, 2, 5, 10) if power * it >= rough)


def bars(rows, title, what, unit, scale):
    """For each kind two bars, and how tracerun's is to the peer's."""
    left, top, step, width = 240, 66, 34, 890
    picture = Picture(width, top + step * len(rows) + 40, title)
    picture.legend(20, 52)
    room = width - left - 120
    most = max(row[who][what] * scale for row in rows for who in WHO)
    mark = round_step(most, 6)
    bottom = top + step * len(rows)
    for number in range(int(most / mark) + 1):
        x = left + room * number * mark / most
        picture.line(x, top - 6, x, bottom)
        picture.text(x, bottom + 16, f"{number * mark:g}", 11, PALE, "middle")
    picture.text(width - 20, bottom + 16, unit, 11, PALE, "end")
    for place, row in enumerate(rows):
        y = top + step * place
        picture.text(left - 10, y + 16, f"{row['kind']}, {row['mib']:g} MiB", anchor="end")
        for shift, (who, (_, color)) in enumerate(WHO.items()):
            length = room * row[who][what] * scale / most
            picture.rectangle(left, y + 2 + 11 * shift, max(length, 1), 10, color)
        end = left + room * max(row[who][what] for who in WHO) * scale / most
        picture.text(end + 8, y + 16, f"{ratio(row, what):.2f} ×", 11, PALE)
    return picture


class Logarithmic:
    """Places on a logarithmic axis."""

    def __init__(self, least, most, start, end):
        self.least, self.most, self.start, self.end = math.log(least), math.log(most), start, end

    def __call__(self, value):
        part = (math.log(value) - self.least) / (self.most - self.least)
        return self.start + (self.end - self.start) * part

    def marks(self):
        """The powers of ten on the axis; where they are fewer than two, also twice and five times them."""
        powers = range(math.floor(self.least / math.log(10)), math.ceil(self.most / math.log(10)) + 1)
        tens = self.of_axis(10.0**power for power in powers)
        return tens if len(tens) > 1 else self.of_axis(10.0**power * it for power in powers for it in (1, 2, 5))

    def of_axis(self, values):
        return [value for value in values if self.least <= math.log(value) <= self.most]


def storms(rows):
    width, height, left, right, top, bottom = 620, 400, 70, 590, 80, 350
    picture = Picture(width, height, f"Storms of {rows[0]['rounds']} rounds: the middle time by the clock")
    picture.legend(20, 52)
    times = [row[who]["middle_clock"] * 1e3 for row in rows for who in WHO]
    across = Logarithmic(rows[0]["workers"], max(rows[-1]["workers"], 2), left + 20, right - 20)
    mark = round_step(max(times), 5)
    most = mark * math.ceil(max(times) / mark)

    def up(value):
        return bottom - (bottom - top) * value / most

    for number in range(round(most / mark) + 1):
        picture.line(left, up(number * mark), right, up(number * mark))
        picture.text(left - 8, up(number * mark) + 4, f"{number * mark:g}", 11, PALE, "end")
    picture.text(left - 8, top - 12, "ms", 11, PALE, "end")
    for row in rows:
        picture.text(across(row["workers"]), bottom + 18, str(row["workers"]), 11, PALE, "middle")
        slower = max(row[who]["middle_clock"] for who in WHO) * 1e3
        picture.text(across(row["workers"]), up(slower) - 9, f"{ratio(row, 'middle_clock'):.2f} ×", 11, PALE, "middle")
    picture.text((left + right) / 2, bottom + 38, "workers", 11, PALE, "middle")
    for who, (_, color) in WHO.items():
        picture.curve([(across(row["workers"]), up(row[who]["middle_clock"] * 1e3)) for row in rows], color)
    return picture


def panel(picture, rows, x, y, width, height):
    """How the CPU seconds of a kind grow with its size, both by powers of ten. The dashes grow as the size does."""
    picture.text(x, y + 12, rows[0]["kind"], 12, weight=600)
    for_whom = (f"{name} {growth(rows, who, 'cpu'):.2f}" for who, (name, _) in WHO.items())
    picture.text(x, y + 27, "growth: " + ", ".join(for_whom), 10, PALE)
    top, bottom, left = y + 38, y + height - 20, x + 34
    costs = [row[who]["cpu"] for row in rows for who in WHO]
    straight = rows[0]["program"]["cpu"] * rows[-1]["mib"] / rows[0]["mib"]
    across = Logarithmic(rows[0]["mib"], rows[-1]["mib"], left + 6, x + width - 8)
    up = Logarithmic(min(costs) / 1.3, max(*costs, straight) * 1.3, bottom, top)
    picture.line(left, top, left, bottom)
    picture.line(left, bottom, x + width, bottom)
    for mark in up.marks():
        picture.line(left, up(mark), x + width, up(mark))
        picture.text(left - 4, up(mark) + 4, f"{mark:g}", 10, PALE, "end")
    for row in rows:
        picture.text(across(row["mib"]), bottom + 14, f"{row['mib']:g}", 10, PALE, "middle")
    first, last = rows[0], rows[-1]
    picture.line(across(first["mib"]), up(first["program"]["cpu"]), across(last["mib"]), up(straight), PALE, "3 3")
    for who, (_, color) in WHO.items():
        picture.curve([(across(row["mib"]), up(row[who]["cpu"])) for row in rows], color)


def growths(rows):
    kinds = [kind for kind in kinds_of(rows) if len(sizes_of(rows, kind)) > 1]
    columns, width, height, top = 4, 215, 170, 70
    lines = math.ceil(len(kinds) / columns)
    picture = Picture(40 + columns * (width + 20), top + lines * (height + 12) + 10,
                      "CPU seconds by the script's size in MiB; the dashes grow as the size does")
    picture.legend(20, 52)
    for place, kind in enumerate(kinds):
        x, y = 20 + place % columns * (width + 20), top + place // columns * (height + 12)
        panel(picture, sizes_of(rows, kind), x, y, width, height)
    return picture


def draw_all(results, folder):
    rows = results["replay"]
    if rows:
        largest = largest_rows(rows)
        title = "CPU seconds of each kind of script"
        bars(largest, title, "cpu", "seconds", 1).write(os.path.join(folder, "cpu.svg"))
        title = "Peak memory of each kind of script"
        bars(largest, title, "peak", "MB", 1e-6).write(os.path.join(folder, "memory.svg"))
    if any(len(sizes_of(rows, kind)) > 1 for kind in kinds_of(rows)):
        growths(rows).write(os.path.join(folder, "growth.svg"))
    if results.get("storm"):
        storms(results["storm"]).write(os.path.join(folder, "storms.svg"))


def main():
    told = __doc__.partition("\nusage:")[0]
    parser = argparse.ArgumentParser(description=told, formatter_class=argparse.RawDescriptionHelpFormatter)
    parser.add_argument("folder", metavar="FOLDER")
    folder = parser.parse_args().folder
    with open(os.path.join(folder, "results.json")) as file:
        draw_all(json.load(file), folder)


if __name__ == "__main__":
    main()
