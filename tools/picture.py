#!/usr/bin/env python3
"""Writes one of the pictures of a report as SVG on standard output, or the whole report as a page.

  picture.py tries|netlist|page REPORT

REPORT is a report.json of lwflow. 'tries' is area against delay of every netlist, 'netlist' the drawing of the kept one, if it has at
most 64 gates. 'page' is report.html as lwflow writes it.

Example: python3 tools/picture.py tries uart.lwflow/report.json >tries.svg
"""
import json
import sys

from lib import page, pictures, schematic, script
from lib.script import Fault


def drawing(found):
    if not found["netlist"]:
        raise Fault(f"the netlist is too large for a drawing: {found['kept']['gates']} gates")
    return schematic.draw(found, f"{found['design']['top']}: the netlist that was kept")


KINDS = {"tries": lambda found: pictures.tries(found, 720, f"{found['design']['top']}: area against delay of each try"), "netlist": drawing, "page": page.page}


def main(words):
    if len(words) != 2 or words[0] not in KINDS:
        sys.exit("picture: usage: python3 tools/picture.py tries|netlist|page REPORT")
    try:
        with open(words[1], encoding="utf-8") as file:
            found = json.load(file)
        found["netlists"], found["path"], found["netlist"]
    except (ValueError, TypeError, KeyError):
        raise Fault(f"{words[1]} is no report of lwflow") from None
    sys.stdout.write(KINDS[words[0]](found))


if __name__ == "__main__":
    script.run("picture", main)
