#!/usr/bin/env python3
"""Joins reports of lwflow into one table and one page with a picture.

  reports.py FOLDER REPORT..
  reports.py --fault STATUS ERRORS REPORT
  reports.py --again FOLDER

The first writes FOLDER/table.csv and FOLDER/index.html; a REPORT is a report.json, and its folder's name is the name of the run. The second
writes a REPORT that says that a run ended with STATUS, with the last line of the file ERRORS. The third removes such reports below FOLDER,
so that a sweep tries these runs again.

Example: python3 tools/reports.py . */report.json
"""
import csv
import glob
import json
import math
import os
import sys

from lib import page, pictures, script, svg
from lib.pictures import figure, judged
from lib.script import Fault

COLUMNS = ["run", "design", "library", "effort", "loads", "status", "kept_by", "delay", "area", "gates", "lwmap_delay", "lwmap_area", "abc_delay",
           "abc_area", "abc_as_given_delay", "abc_as_given_area", "steps", "shown", "processor_seconds", "fault"]


def name_of(path):
    return os.path.basename(os.path.dirname(os.path.abspath(path))).removesuffix(".lwflow")


def read(path):
    try:
        with open(path, encoding="utf-8") as file:
            found = json.load(file)
        return found if "fault" in found else {**found, "kept": found["kept"], "netlists": found["netlists"]}
    except (ValueError, TypeError, KeyError):
        raise Fault(f"{path} is no report of lwflow") from None


def row(path, found):
    """A run as a row of the table, by column."""
    if "fault" in found:
        return {"run": name_of(path), "status": found["status"], "fault": found["fault"]}
    cells = {"run": name_of(path), "design": found["design"]["top"], "library": found["library"]["file"], "effort": found["effort"],
             "loads": "yes" if found["library"]["loads"] else "no", "status": found["status"], "kept_by": page.name_of(found["kept"]),
             "gates": sum(one["count"] for one in found["cells"]), "steps": len(found["steps"]),
             "shown": sum(step["verdict"] == "equal" for step in found["steps"]), "processor_seconds": found["processor_seconds"]}
    for key, start in (("kept", ""), ("lwmap", "lwmap_"), ("abc", "abc_"), ("abc_as_given", "abc_as_given_")):
        if found[key]:
            cells[start + "delay"], cells[start + "area"] = map(figure, judged(found[key]))
    return cells


# The page


def ratio(one, other, which=0):
    """The delay (0) or the area (1) of a netlist, as a ratio to that of another one; None where there is none."""
    if not one or not other or not judged(other)[which] or not judged(one)[which]:
        return None
    return judged(one)[which] / judged(other)[which]


def mean(values):
    values = [value for value in values if value]
    return f"{math.exp(sum(map(math.log, values)) / len(values)):.3f}" if values else "-"


def means(reports):
    """The geometric means by library and effort."""
    groups = {}
    for _, found in reports:
        groups.setdefault((found["library"]["file"], found["effort"]), []).append(found)
    rows = []
    for (library, effort), several in groups.items():
        figures = [mean(ratio(found["kept"], found[to], which) for found in several) for to in ("abc", "abc_as_given") for which in (0, 1)]
        rows.append([folds(library), page.text(effort), str(len(several)), *figures])
    heads = ["@library", "effort", "#runs", "#delay to ABC's best", "#area", "#delay to ABC as given", "#area"]
    return "<h2>Means of the kept netlists</h2><p>Geometric means; below 1 is earlier or smaller than ABC's.</p>" + page.table(heads, rows)


def picture(reports, width):
    """For each run the best netlists of lwmap and of ABC, their delays as ratios to ABC's map of the design as given."""
    shown = [(name, ratio(found["lwmap"], found["abc_as_given"]), ratio(found["abc"], found["abc_as_given"])) for name, found in reports]
    values = [value for _, *pair in shown for value in pair if value] + [1]
    left, room, top = min(260, width * 2 // 5), 18, 46
    letters = int((left - 12) / 6.2)
    x = pictures.Scale([math.log(value) for value in values], left, width - 16)
    x.least = min(math.log(value) for value in values) - 0.03
    high = top + room * len(shown)
    parts = [svg.sign(*pictures.OURS[:1], 20, 12, pictures.OURS[1]), svg.text(30, 16, "lwmap"), svg.sign(pictures.ABC[0], 96, 12, pictures.ABC[1]),
             svg.text(106, 16, "ABC's map")]
    for mark in [mark for mark in marks(values) if x.least <= math.log(mark) <= x.most]:
        parts += [svg.line(x(math.log(mark)), top - 8, x(math.log(mark)), high, "axis" if mark == 1 else "rule"),
                  svg.text(x(math.log(mark)), high + 16, f"{mark:g}", "small", "middle")]
    for place, (name, ours, theirs) in enumerate(shown):
        y = top + room * (place + 0.4)
        name = pictures.shown(name)
        parts.append(svg.text(left - 10, y + 4, name if len(name) <= letters else name[:letters - 2] + "..", "small", "end"))
        if ours and theirs:
            parts.append(svg.line(x(math.log(ours)), y, x(math.log(theirs)), y, "link"))
        parts += [svg.sign(shape, x(math.log(value)), y, kind) for value, (shape, kind) in ((theirs, pictures.ABC), (ours, pictures.OURS)) if value]
    said = f"Delay of the best netlists of lwmap and of ABC in {len(shown)} runs, as ratios to ABC's map of the design as given"
    return svg.inline(width, high + 26, said, parts, "big-page" if width > 500 else "small-page")


def marks(values):
    """Round ratios for an axis."""
    least, most = min(values), max(values)
    step = next(step for step in (0.02, 0.05, 0.1, 0.2, 0.5, 1, 2, 5, 10, 10.0 ** 9) if (most - least) / step <= 6)
    return [step * turn for turn in range(max(1, int(least / step)), int(most / step) + 2)]


def folds(name):
    """A name that a line may end in, after its dots and strokes."""
    return page.text(name).replace(".", ".<wbr>").replace("/", "/<wbr>")


def table(rows):
    """Every run, with a link to its report."""
    cells = []
    for one in rows:
        name = f'<a href="{page.text(one["run"])}/report.html">{folds(one["run"])}</a>'
        if "fault" in one:
            cells.append([folds(one["run"]), f'<span class="not">no netlist</span>: {page.text(one["fault"])}'])
            continue
        verdict = "" if one["steps"] == one["shown"] else f' <span class="not">{one["shown"]} of {one["steps"]} steps shown</span>'
        cells.append([name, page.text(one["kept_by"]) + verdict, *(page.text(one.get(key, "-")) for key in
                      ("delay", "area", "abc_delay", "abc_area", "processor_seconds"))])
    heads = ["@run", "kept", "#delay", "#area", "#ABC's delay", "#ABC's area", "#seconds"]
    return "<h2>Every run</h2>" + page.table(heads, cells, "Seconds are of processor time")


def whole(reports, rows):
    good = [(name_of(path), found) for path, found in reports if "fault" not in found]
    right = sum(one["steps"] == one["shown"] for one in rows if "fault" not in one)
    faults = len(rows) - len(good)
    parts = [page.head("lwflow: a sweep"), "<h1>A sweep of lwflow</h1>", f'<div class="answer{"" if right == len(rows) else " bad"}"><p><b>{len(rows)} runs</b>: {right} with every '
             f"step shown, {len(good) - right} with a step that was not, {faults} without a netlist.</p></div>"]
    if good:
        parts += [means(good), "<h2>Delay, as a ratio to ABC's map of the design as given</h2><p>Left is earlier.</p><figure>", picture(good, 860), picture(good, 344), "</figure>"]
    return "".join(parts) + table(rows) + "</body>\n</html>\n"


# What is written


def put(path, text):
    with open(path + ".new", "w", encoding="utf-8", newline="") as out:
        out.write(text)
    os.replace(path + ".new", path)


def join(folder, paths):
    reports = [(path, read(path)) for path in paths]
    rows = [row(path, found) for path, found in reports]
    put(os.path.join(folder, "index.html"), whole(reports, rows))
    with open(os.path.join(folder, "table.csv.new"), "w", encoding="utf-8", newline="") as out:
        writer = csv.DictWriter(out, COLUMNS)
        writer.writeheader()
        writer.writerows(rows)
    os.replace(os.path.join(folder, "table.csv.new"), os.path.join(folder, "table.csv"))
    faults = sum("fault" in one for one in rows)
    print(f"{folder}/index.html and table.csv: {len(rows)} runs, {faults} without a netlist")


def fault(status, errors, report):
    """A report of a run without a netlist."""
    why = ""
    if os.path.exists(errors):
        with open(errors, encoding="utf-8", errors="replace") as file:
            why = next((line.strip() for line in reversed(file.read().splitlines()) if line.strip()), "")
    late = {"124": "over its time", "137": "killed"}
    put(report, json.dumps({"status": int(status), "fault": why.removeprefix("lwflow: ") or late.get(status, f"ended with status {status}")}) + "\n")


def again(folder):
    """Removes the reports of faults, and says how many."""
    gone = 0
    for path in glob.glob(os.path.join(glob.escape(folder), "*", "report.json")):
        if "fault" in read(path):
            os.remove(path)
            gone += 1
    print(f"{gone} runs will be tried again")


def main(words):
    if len(words) == 4 and words[0] == "--fault" and words[1].isdigit():
        fault(*words[1:])
    elif len(words) == 2 and words[0] == "--again":
        again(words[1])
    elif len(words) >= 2 and not words[0].startswith("-"):
        join(words[0], words[1:])
    else:
        sys.exit("reports: usage: python3 tools/reports.py FOLDER REPORT.. | --fault STATUS ERRORS REPORT | --again FOLDER")


if __name__ == "__main__":
    script.run("reports", main, written="the table")
