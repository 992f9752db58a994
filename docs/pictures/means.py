#!/usr/bin/env python3
"""Draws the table of means of README.md, area against delay, as docs/pictures/means.svg.

  python3 docs/pictures/means.py [PAGE [PICTURE]]

The table has the columns: commands, ABC's delay and area, lwmap's delay and area, and, if it is there, the area of lwarea, whose delay is that
of lwmap. Both scales are logarithmic.
"""
import math
import os
import re
import sys

ROOT = os.path.dirname(os.path.dirname(os.path.dirname(os.path.realpath(__file__))))
WIDTH, HEIGHT, LEFT, RIGHT, TOP, BOTTOM = 760, 430, 70, 30, 64, 74
NOTE = "Geometric means of 49 circuits, library mcnc, lwmap 0.2.0, ABC 1.01, December 2026; logarithmic scales"
DELAYS, AREAS = (0.6, 1.05), (0.8, 2.0)
STYLE = """text { font-family: sans-serif; font-size: 13px; fill: #1f2328 } .grid { stroke: #d0d7de } .pair { stroke: #8c959f; stroke-dasharray: 4 3 }
.abc { fill: #ffffff; stroke: #57606a; stroke-width: 2 } .lwmap { fill: #b84a0a } .note { font-size: 11px } .title { font-size: 16px; font-weight: bold }
.back { fill: #ffffff }
@media (prefers-color-scheme: dark) { text { fill: #e6edf3 } .back { fill: #0d1117 } .grid { stroke: #30363d } .abc { fill: #0d1117; stroke: #9da7b3 } .lwmap { fill: #f0883e } }"""
AREA_STYLE = ".lwarea { fill: #0969da } @media (prefers-color-scheme: dark) { .lwarea { fill: #58a6ff } }"
FIGURE = re.compile(r"\d\.\d\d")


def rows_of(page):
    """Name and four or five figures of each row of the table."""
    with open(page, encoding="utf-8") as text:
        cells = [[cell.strip() for cell in line.split("|")[1:-1]] for line in text if line.startswith("|")]
    return [(row[0].replace("`", ""), *(float(cell) for cell in row[1:6] if FIGURE.fullmatch(cell))) for row in cells
            if len(row) >= 5 and all(FIGURE.fullmatch(cell) for cell in row[1:5])]


def place(value, bounds, start, end):
    return start + (end - start) * math.log(value / bounds[0]) / math.log(bounds[1] / bounds[0])


def x_of(delay):
    return place(delay, DELAYS, LEFT, WIDTH - RIGHT)


def y_of(area):
    return place(area, AREAS, HEIGHT - BOTTOM, TOP)


def text(x, y, words, kind="", anchor="middle"):
    return f'<text x="{x:.1f}" y="{y:.1f}" text-anchor="{anchor}"{kind and f" class={kind!r}".replace(chr(39), chr(34))}>{words}</text>'


def grid():
    for delay in (0.6, 0.7, 0.8, 0.9, 1.0):
        yield f'<line class="grid" x1="{x_of(delay):.1f}" y1="{TOP}" x2="{x_of(delay):.1f}" y2="{HEIGHT - BOTTOM}"/>'
        yield text(x_of(delay), HEIGHT - BOTTOM + 18, f"{delay:g}")
    for area in (0.8, 1.0, 1.2, 1.4, 1.6, 1.8, 2.0):
        yield f'<line class="grid" x1="{LEFT}" y1="{y_of(area):.1f}" x2="{WIDTH - RIGHT}" y2="{y_of(area):.1f}"/>'
        yield text(LEFT - 8, y_of(area) + 4, f"{area:g}", anchor="end")


def points(rows):
    for name, *figures in rows:
        (ax, ay), (bx, by) = ((x_of(d), y_of(a)) for d, a in (figures[:2], figures[2:4]))
        for area in figures[4:]:
            cy = y_of(area)
            yield f'<line class="pair" x1="{bx:.1f}" y1="{by:.1f}" x2="{bx:.1f}" y2="{cy:.1f}"/><circle class="lwarea" cx="{bx:.1f}" cy="{cy:.1f}" r="6"/>'
        yield f'<line class="pair" x1="{ax:.1f}" y1="{ay:.1f}" x2="{bx:.1f}" y2="{by:.1f}"/>'
        yield f'<circle class="abc" cx="{ax:.1f}" cy="{ay:.1f}" r="6"/><circle class="lwmap" cx="{bx:.1f}" cy="{by:.1f}" r="6"/>'
        yield text(ax, ay + 22, name)


def picture(rows):
    third = any(len(row) > 5 for row in rows)
    style, who = (STYLE + AREA_STYLE, "ABC, lwmap and lwarea") if third else (STYLE, "ABC and lwmap")
    parts = [text(LEFT, 24, "Delay and area relative to ABC's strash; map", "title", "start"),
             f'<circle class="abc" cx="{LEFT + 6}" cy="42" r="6"/>', text(LEFT + 18, 46, "ABC's map", anchor="start"),
             f'<circle class="lwmap" cx="{LEFT + 116}" cy="42" r="6"/>', text(LEFT + 128, 46, "lwmap, after the same commands of ABC", anchor="start"),
             text((LEFT + WIDTH - RIGHT) / 2, HEIGHT - 26, "delay"), text(LEFT, HEIGHT - 6, NOTE, "note", "start"), text(20, TOP - 8, "area", anchor="start"), *grid(), *points(rows)]
    if third:
        parts.append(f'<circle class="lwarea" cx="{LEFT + 418}" cy="42" r="6"/>' + text(LEFT + 430, 46, "lwarea, with lwmap's delay", anchor="start"))
    return (f'<svg xmlns="http://www.w3.org/2000/svg" viewBox="0 0 {WIDTH} {HEIGHT}" width="{WIDTH}" height="{HEIGHT}" role="img">'
            f'<title>Delay and area of {who}, geometric means</title><style>{style}</style>'
            f'<rect class="back" width="{WIDTH}" height="{HEIGHT}"/>' + "\n".join(parts) + "</svg>\n")


def main(words):
    page = words[0] if words else os.path.join(ROOT, "README.md")
    drawn = words[1] if len(words) > 1 else os.path.join(ROOT, "docs", "pictures", "means.svg")
    rows = rows_of(page)
    if not rows:
        sys.exit(f"means: {page} has no table of means")
    with open(drawn, "w", encoding="utf-8") as out:
        out.write(picture(rows))


if __name__ == "__main__":
    main(sys.argv[1:])
