#!/usr/bin/env python3
"""Puts the tables that bench/all.sh or bench/quality.py printed into bench/RESULTS.md.

  results.py PRINTED..

Each table of the page is exchanged for the printed one whose first row has all cells of its own, in this order, or, if there are several, for
that of them with the same heading too. A printed table that the page lacks goes to the end of the section with its heading, if that has no table; else it is told,
as is a table of the page that was not printed. What the page says in words is not changed: read it against the new tables.
"""
import os

from lib import script
from lib.script import Fault

PAGE = os.path.join(os.path.dirname(os.path.realpath(__file__)), "RESULTS.md")


class Table:
    """A table: its heading, and where its lines begin and end in a list of lines."""

    def __init__(self, heading, lines, first, last):
        self.heading, self.rows, self.first, self.last = heading, lines[first:last], first, last

    def head(self):
        return self.rows[0]


def tables(lines):
    """The tables of a page, in order."""
    found, heading, first = [], "", None
    for place, line in enumerate(lines + [""]):
        if line.startswith("|"):
            first = place if first is None else first
        elif first is not None:
            found.append(Table(heading, lines, first, place))
            first = None
        if line.startswith("#"):
            heading = line.strip("# ")
    return found


def lines_of(path):
    with open(path, encoding="utf-8") as file:
        return file.read().split("\n")


def has_all(found, wanted):
    """Whether the cells of a row are among those of another one, in order."""
    cells = iter(found.split("|"))
    return all(cell in cells for cell in wanted.strip("|").split("|"))


def fitting(table, printed):
    """The printed table that a table of the page is exchanged for, or None. It may have further columns."""
    same = [one for one in printed if has_all(one.head(), table.head())]
    named = [one for one in same if one.heading == table.heading]
    return (named or (same if len(same) == 1 else [None]))[0]


def added(lines, table):
    """Whether a table was put at the end of the section of its heading, which had none."""
    named = [place for place, line in enumerate(lines) if line.startswith("#") and line.strip("# ") == table.heading]
    if not named:
        return False
    end = next((place for place in range(named[0] + 1, len(lines)) if lines[place].startswith("#")), len(lines))
    if any(line.startswith("|") for line in lines[named[0]:end]):
        return False
    while not lines[end - 1]:
        end -= 1
    lines[end:end] = ["", *table.rows]
    return True


def main(words):
    if not words:
        raise Fault("usage: python3 bench/results.py PRINTED..")
    printed = [table for path in words for table in tables(lines_of(path))]
    lines, taken = lines_of(PAGE), []
    for table in reversed(tables(lines)):
        found = fitting(table, printed)
        if found:
            taken.append(found)
            lines[table.first:table.last] = found.rows
        else:
            print(f"not printed: {table.heading}: {table.head()[:60]}")
    further = [table for table in printed if table not in taken]
    for table in further:
        if not added(lines, table):
            print(f"not on the page: {table.heading}: {table.head()[:60]}")
    with open(PAGE, "w", encoding="utf-8") as out:
        out.write("\n".join(lines))
    print(f"{len(taken)} tables renewed")


if __name__ == "__main__":
    script.run("results", main)
