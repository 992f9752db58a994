#!/usr/bin/env python3
"""What has to be read to know what the clauses of `run` say.

    closure.py          for each clause: files, definitions and lines that it rests on, and
                        how many lines remain where the formats are taken as known;
                        fails where a number is above its limit
    closure.py NAME     the files of that clause, with their definitions, in order of lines

A clause rests on the definition that it names, and on every definition of a specs/ folder
that one of these uses. The standard library and what the checker makes of sources
(`specs/declared`) are left out. A definition counts with its lines, without comments before it.
"""
import re
import sys
from collections import defaultdict, deque
from pathlib import Path

CRATES = Path(__file__).resolve().parent.parent / "crates"

# clause: its definition, and the most files, lines, and lines beside the formats
CLAUSES = {
    "mapping": ("lw_top.specs.Mappings.IsMappingText", 48, 1650, 600),
    "no_cover": ("lw_top.specs.Mappings.LacksOutput", 45, 1450, 500),
    "checked": ("lw_top.specs.Mappings.IsCheckedMapping", 60, 2200, 600),
    "tables": ("lw_top.specs.Tabled.AreTables", 40, 1100, 400),
    "trading": ("lw_top.specs.Traded.IsTrade", 62, 2000, 680),
    "complete": ("lw_top.specs.Answers.IsAnswer", 125, 4000, 2550),
}

# The definitions that say the formats of texts, of words and of names in texts.
FORMATS = {
    "command_of", "map_words", "mapped_text", "ReadsLibrary", "ReadsModel", "ReadsMapped",
    "SaysLibrary", "SaysModel",
    "IsTablesRead", "IsClosed", "IsNamed", "Fits", "StartsFit", "IsReadableLatch",
}

START = re.compile(r"(?:(?:pub|abbrev|unfoldable|record|data|mutual|inductive)(?:\s+|$))+([\w\-]*)")
TOKEN = re.compile(r"[\w\-]+(?:\.[\w\-]+)*")


class Module:
    """A file of definitions: its imports, and the lines of each definition."""

    def __init__(self, path):
        self.lines = path.read_text().split("\n")
        self.imports, self.aliases, self.blocks, self.place = {}, {}, [], {}
        for line in self.lines:
            self.read_use(line)
        starts = [i for i, l in enumerate(self.lines) if l and not l[0].isspace() and START.match(l)]
        for first, after in zip(starts, starts[1:] + [len(self.lines)]):
            self.read_block(first, after)

    def read_use(self, line):
        if m := re.match(r"(?:pub )?use (Rattle\.[\w.]+)\.\{(.*)\}", line):
            for name in m.group(2).split(","):
                given, _, own = name.strip().partition(" as ")
                self.imports[(own or given).strip()] = (m.group(1), given.strip())
        elif m := re.match(r"(?:pub )?use (Rattle\.[\w.]+) as ([\w\-]+)", line):
            self.aliases[m.group(2)] = m.group(1)

    def read_block(self, first, after):
        while after > first and (not self.lines[after - 1].strip() or self.lines[after - 1].startswith("--")):
            after -= 1
        block = len(self.blocks)
        self.blocks.append((first, after))
        head = self.lines[first].split("--")[0]
        if name := START.match(head).group(1):
            self.place.setdefault(name, block)
        if " record " not in f" {head} ":  # constructors, and the definitions of a mutual block
            for line in self.lines[first + 1:after]:
                if m := re.match(r"\s+(?:pub )?(?:data |record |abbrev )?([\w\-]+)(?: [({].*)? :", line):
                    self.place.setdefault(m.group(1), block)

    def names_used(self, block):
        first, after = self.blocks[block]
        text = " ".join(line.split("--")[0] for line in self.lines[first:after])
        bound = set()
        for names in re.findall(r"[({]([\w\-' ]+) :", text) + re.findall(r"λ ([\w\-' ]+)\.", text):
            bound.update(names.split())
        for line in self.lines[first:after]:
            if " record " in f" {self.lines[first]} " and (m := re.match(r"\s+pub ([\w\-]+) :", line)):
                bound.add(m.group(1))
        for token in set(TOKEN.findall(text)):
            head, _, tail = token.partition(".")
            if tail and head in self.aliases:
                yield self.aliases[head], tail
            elif head in self.imports:
                yield self.imports[head]
            elif head in self.place and head not in bound:
                yield None, head


def modules():
    """All modules of definitions by name."""
    found = {}
    for path in CRATES.glob("*/specs/**/*.antt"):
        crate, rest = str(path.relative_to(CRATES)).split("/specs/")
        found[f"Rattle.{crate}.specs.{rest[:-5].replace('/', '.')}"] = Module(path)
    return found


def closure(mods, root, known=frozenset()):
    """The blocks, by module, that a definition rests on."""
    mod, _, name = root.rpartition(".")
    queue, seen, blocks = deque([("Rattle." + mod, name)]), set(), defaultdict(set)
    while queue:
        mod, name = queue.popleft()
        if (mod, name) in seen or name in known:
            continue
        seen.add((mod, name))
        if mod not in mods and mod.rpartition(".")[0] in mods:  # a constructor, or a name in a type's own module
            mod, name = mod.rpartition(".")[0], mod.rpartition(".")[2]
        if mod not in mods:
            continue
        module = mods[mod]
        if name not in module.place:
            if name in module.imports:
                queue.append(module.imports[name])
            continue
        block = module.place[name]
        if block not in blocks[mod]:
            blocks[mod].add(block)
            queue.extend((other or mod, used) for other, used in module.names_used(block))
    return blocks


def size(mods, blocks):
    files = [mod for mod in blocks if blocks[mod]]
    lines = sum(b - a for mod in files for a, b in (mods[mod].blocks[k] for k in blocks[mod]))
    return len(files), sum(len(blocks[mod]) for mod in files), lines


def show(mods, root):
    blocks = closure(mods, root)
    rows = []
    for mod, chosen in blocks.items():
        names = [n for n, k in mods[mod].place.items() if k in chosen]
        rows.append((sum(b - a for a, b in (mods[mod].blocks[k] for k in chosen)), mod.removeprefix("Rattle."), names))
    for lines, mod, names in sorted(rows, reverse=True):
        print(f"{lines:5} {mod}: {' '.join(names)}")


def main():
    mods = modules()
    if len(sys.argv) > 1:
        show(mods, CLAUSES[sys.argv[1]][0])
        return
    failed = False
    print("clause       files  definitions  lines  beside the formats")
    for clause, (root, most_files, most_lines, most_beside) in CLAUSES.items():
        files, definitions, lines = size(mods, closure(mods, root))
        beside = size(mods, closure(mods, root, FORMATS))[2]
        print(f"{clause:12} {files:5} {definitions:12} {lines:6} {beside:6}")
        if not files:
            sys.exit(f"closure: {root} is not there")
        for what, number, most in (("files", files, most_files), ("lines", lines, most_lines), ("lines beside the formats", beside, most_beside)):
            if number > most:
                print(f"closure: {clause} rests on {number} {what}, more than {most}")
                failed = True
    sys.exit(failed)


if __name__ == "__main__":
    main()
