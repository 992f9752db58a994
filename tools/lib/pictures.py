"""The pictures of lwflow's report, each from the data of report.json: the tries, and how the arrivals spread."""
from . import svg

ABC, OURS = (1, "b hollow"), (0, "a")
LETTER = 6.7  # the width of a letter in a label, at most


def figure(value):
    """A number without zeros at its end."""
    return f"{value:.6f}".rstrip("0").rstrip(".") if value is not None else "-"


def shown(name):
    """A name without control signs, which no page may hold."""
    return "".join(sign if sign.isprintable() else f"\\x{ord(sign):02x}" for sign in name)


def judged(one):
    """The delay and the area that decide: the sized ones where there are some."""
    return (one["sized_delay"], one["sized_area"]) if "sized_delay" in one else (one["delay"], one["area"])


def is_ours(one):
    return one["by"].startswith(("lwmap", "lwarea"))


def read_by(one):
    """What reads a root, in a few words; else the name of its net."""
    readers = one["read_by"] or [one["net"]]
    return readers[0] + (f" and {len(readers) - 1} more" if len(readers) > 1 else "")


class Scale:
    """Values on an axis from one place to another, with some room at both ends."""

    def __init__(self, values, first, last):
        room = (max(values) - min(values)) * 0.09 or max(values) * 0.05 or 1
        self.least, self.most, self.first, self.last = max(0, min(values) - room), max(values) + room, first, last

    def __call__(self, value):
        return self.first + (self.last - self.first) * (value - self.least) / (self.most - self.least)

    def marks(self):
        return svg.steps(self.least, self.most)


def tries(found, width, title=None):
    """Area against delay, a sign for each netlist that was found."""
    top, height = (92 if title else 44), (400 if title else 352)
    points = [judged(one) for one in found["netlists"]]
    x, y = Scale([delay for delay, _ in points], 62, width - 16), Scale([area for _, area in points], height - 46, top)
    parts = ([svg.text(16, 26, title, "title")] if title else []) + legend(62, top - 26)
    for mark in y.marks():
        parts += [svg.line(62, y(mark), width - 16, y(mark), "rule"), svg.text(56, y(mark) + 4, f"{mark:.10g}", "small", "end")]
    for mark in x.marks()[::1 if width > 500 else 2]:
        parts += [svg.line(x(mark), height - 46, x(mark), height - 41, "axis"), svg.text(x(mark), height - 26, f"{mark:.10g}", "small", "middle")]
    parts += [svg.line(62, height - 46, width - 16, height - 46, "axis"), svg.text(width - 16, height - 8, "delay" + unit(found), "small", "end"),
              svg.text(16, top - 22, "area", "small")]
    for one, (delay, area) in sorted(zip(found["netlists"], points), key=lambda pair: is_ours(pair[0])):
        shape, kind = OURS if is_ours(one) else ABC
        parts.append(svg.sign(shape, x(delay), y(area), kind))
    kept = judged(found["kept"])
    parts.append(svg.ring(x(kept[0]), y(kept[1])))
    parts += labels(named(found), [(x(delay), y(area)) for delay, area in points], x, y, (60, top - 14, width - 4, height - 48))
    draw = svg.whole if title else svg.inline
    return draw(width, height, of_tries(found), parts)


def unit(found):
    return ", ps" if found["library"]["loads"] else ""


def legend(x, y):
    return [svg.sign(*OURS[:1], x + 4, y, OURS[1]), svg.text(x + 14, y + 4, "lwmap"), svg.sign(ABC[0], x + 84, y, ABC[1]), svg.text(x + 94, y + 4, "ABC's map"),
            svg.ring(x + 190, y), svg.text(x + 204, y + 4, "kept")]


def named(found):
    """The places that get a name, each with its names."""
    names = {}
    for said, key in (("kept", "kept"), ("best of ABC", "abc"), ("best of ours", "lwmap"), ("ABC, as given", "abc_as_given")):
        if found[key]:
            names.setdefault(judged(found[key]), []).append(said)
    return names


def labels(names, points, x, y, frame):
    """The names beside their signs, in one line or in several, each label at the side where it covers the fewest."""
    placed, parts = [], []
    for (delay, area), said in names.items():
        if LETTER * len(", ".join(said)) < (frame[2] - frame[0]) / 2:
            said = [", ".join(said)]
        px, py, long, more = x(delay), y(area), LETTER * max(map(len, said)), 15 * (len(said) - 1)
        sides = [(px + 12, py + 4, "start", px + 12), (px - 12, py + 4, "end", px - 12 - long), (px, py - 12 - more, "middle", px - long / 2),
                 (px, py + 22, "middle", px - long / 2), (px + 10, py - 12 - more, "start", px + 10), (px - 10, py + 20, "end", px - 10 - long),
                 (px - 8, py - 12 - more, "end", px - 8 - long), (px + 8, py + 20, "start", px + 8)]

        def box(side):
            return (side[3] - 2, side[1] - 12, side[3] + long + 2, side[1] + more + 4)

        def cost(side):
            it = box(side)
            outside = it[0] < frame[0] or it[1] < frame[1] or it[2] > frame[2] or it[3] > frame[3]
            return (1000 * outside + sum(100 for other in placed if meet(it, other)) +
                    sum(1 for (ox, oy) in points if meet(it, (ox - 5, oy - 5, ox + 5, oy + 5))))

        best = min(sides, key=cost)
        placed.append(box(best))
        parts += [svg.text(best[0], best[1] + 15 * turn, one, "", best[2]) for turn, one in enumerate(said)]
    return parts


def meet(one, other):
    return one[0] < other[2] and other[0] < one[2] and one[1] < other[3] and other[1] < one[3]


def of_tries(found):
    """What the picture of the tries shows, in words."""
    said = [f"{', '.join(names)}: delay {figure(delay)}, area {figure(area)}" for (delay, area), names in named(found).items()]
    return f"Area against delay of {len(found['netlists'])} netlists. " + "; ".join(said)


def spread(found, width):
    """How many outputs arrive when."""
    at = [one["arrival"] for one in found["arrivals"]]
    least, most, count = min(at), max(at), 12
    step = (most - least) / count or 1
    bins = [0] * count
    for value in at:
        bins[min(count - 1, int((value - least) / step))] += 1
    left, room, base = 8, (width - 24) / count, 118
    parts = [svg.line(left, base, width - 8, base, "axis")]
    for place, number in enumerate(bins):
        x, high = left + 4 + room * place, 88 * number / max(bins)
        if number:
            parts += [svg.box(x + 2, base - high, room - 4, high, "a plain"), svg.text(x + room / 2, base - high - 5, str(number), "small", "middle")]
    for place in range(0, count + 1, 3):
        parts.append(svg.text(left + 4 + room * place, base + 16, figure(round(least + step * place, 3)), "small",
                              "start" if place == 0 else "end" if place == count else "middle"))
    said = f"Arrivals of {len(at)} outputs and inputs of registers, from {figure(least)} to {figure(most)}"
    return svg.inline(width, 144, said, parts)
