"""What the pictures of bench/, examples/ and lwflow's report are drawn with: shapes of SVG, in colours that read on light and on dark
grounds."""
import math
import os
from xml.sax.saxutils import escape

from . import script
from .program import ROOT

STYLE = """<style>
  text { font: 13px sans-serif; fill: #24292f; }
  .ground { fill: #ffffff; }
  .title { font-size: 15px; font-weight: bold; }
  .small { font-size: 11px; fill: #57606a; }
  .rule { stroke: #d0d7de; stroke-width: 1; }
  .axis { stroke: #57606a; stroke-width: 1.5; }
  .link { stroke: #57606a; stroke-width: 1.3; fill: none; }
  .box { fill: #f6f8fa; stroke: #57606a; stroke-width: 1.2; }
  .chosen { stroke: #b54708; stroke-width: 2.6; }
  .shade { fill: #fdead7; stroke: none; }
  .a { fill: #0969da; stroke: #0969da; } .b { fill: #b54708; stroke: #b54708; } .c { fill: #116329; stroke: #116329; }
  .hollow { fill: none; stroke-width: 1.6; }
  @media (prefers-color-scheme: dark) {
    text { fill: #e6edf3; }
    .ground { fill: #0d1117; }
    .small { fill: #9198a1; }
    .rule { stroke: #30363d; }
    .axis, .link { stroke: #9198a1; }
    .box { fill: #161b22; stroke: #9198a1; }
    .chosen { stroke: #f0883e; }
    .shade { fill: #3b2614; }
    .a { fill: #58a6ff; stroke: #58a6ff; } .b { fill: #f0883e; stroke: #f0883e; } .c { fill: #56d364; stroke: #56d364; }
    .hollow { fill: none; }
  }
</style>
"""

# What the pictures of a netlist have beside these.
MORE = """<style>
  .ring { fill: none; stroke: #24292f; stroke-width: 2; }
  .plain { stroke: none; }
  .wire { stroke: #57606a; stroke-width: 1.1; fill: none; }
  .late { stroke: #b54708; stroke-width: 2.6; fill: none; }
  .register { fill: none; stroke: #0969da; stroke-width: 1.4; }
  @media (prefers-color-scheme: dark) {
    .ring { stroke: #e6edf3; }
    .wire { stroke: #9198a1; }
    .late { stroke: #f0883e; }
    .register { stroke: #58a6ff; }
  }
</style>
"""


def number(value):
    return f"{value:.1f}".rstrip("0").rstrip(".")


def steps(least, most):
    """Round numbers between two, eight or nine at most."""
    step = next(part * 10.0 ** power for power in range(-6, 20) for part in (1, 2, 5) if most - least <= 8 * part * 10.0 ** power)
    return [turn * step for turn in range(math.ceil(least / step), math.floor(most / step) + 1)]


def text(x, y, said, kind="", anchor="start"):
    return f'<text x="{number(x)}" y="{number(y)}" class="{kind}" text-anchor="{anchor}">{escape(said)}</text>\n'


def line(x1, y1, x2, y2, kind):
    return f'<line x1="{number(x1)}" y1="{number(y1)}" x2="{number(x2)}" y2="{number(y2)}" class="{kind}"/>\n'


def box(x, y, width, height, kind):
    return f'<rect x="{number(x)}" y="{number(y)}" width="{number(width)}" height="{number(height)}" rx="4" class="{kind}"/>\n'


def sign(shape, x, y, kind):
    """A circle, a square or a triangle, so that colours are not all that tells them apart."""
    if shape == 0:
        return f'<circle cx="{number(x)}" cy="{number(y)}" r="4" class="{kind}"/>\n'
    if shape == 1:
        return f'<rect x="{number(x - 3.6)}" y="{number(y - 3.6)}" width="7.2" height="7.2" class="{kind}"/>\n'
    points = f"{number(x)},{number(y - 4.6)} {number(x - 4.4)},{number(y + 3.6)} {number(x + 4.4)},{number(y + 3.6)}"
    return f'<polygon points="{points}" class="{kind}"/>\n'


def ring(x, y):
    """What marks a sign as the chosen one."""
    return f'<circle cx="{number(x)}" cy="{number(y)}" r="8" class="ring"/>\n'


def curve(points, kind):
    """A line through points that leaves and reaches each of them level."""
    x, y = points[0]
    parts = [f"M{number(x)} {number(y)}"]
    for to_x, to_y in points[1:]:
        middle = number((x + to_x) / 2)
        parts.append(f"C{middle} {number(y)} {middle} {number(to_y)} {number(to_x)} {number(to_y)}" if y != to_y else f"H{number(to_x)}")
        x, y = to_x, to_y
    return f'<path d="{" ".join(parts)}" class="{kind}"/>\n'


def group(name, parts):
    """Shapes that belong together, and what they are."""
    return f"<g>\n<title>{escape(name)}</title>\n{''.join(parts)}</g>\n"


def bar(start, length, kind):
    """A bar in a row of a table, as wide as its cell; start and length are parts of it."""
    return (f'<svg class="bar" width="100%" height="12" aria-hidden="true"><rect x="{number(100 * start)}%" y="1" '
            f'width="{number(max(100 * length, 0.7))}%" height="10" class="{kind}"/></svg>')


def inline(width, height, name, parts, kind=""):
    """A picture within a page, which has the style."""
    size = f'viewBox="0 0 {number(width)} {number(height)}" width="{number(width)}" height="{number(height)}"'
    return f'<svg {size} class="{kind}" role="img">\n<title>{escape(name)}</title>\n{"".join(parts)}</svg>\n'


def picture(width, height, name, parts, more=""):
    size = f'width="{width}" height="{height}"'
    head = f'<svg xmlns="http://www.w3.org/2000/svg" viewBox="0 0 {width} {height}" {size} role="img">\n'
    return f'{head}<title>{escape(name)}</title>\n{STYLE}{more}<rect {size} class="ground"/>\n{"".join(parts)}</svg>\n'


def whole(width, height, name, parts):
    """A picture of a netlist as a file of its own."""
    return picture(number(width), number(height), name, parts, MORE)


def run(name, draw):
    """Runs a script that draws docs/pictures/NAME.svg, or the file that it is given."""
    def main(words):
        if len(words) > 1:
            raise script.Fault(f"usage: python3 bench/{name}.py [OUT]")
        out = words[0] if words else os.path.join(ROOT, "docs", "pictures", name + ".svg")
        with open(out, "w", encoding="utf-8") as file:
            file.write(draw())

    script.run(name, main, written="the picture")
