#!/usr/bin/env python3
"""Looks for what a `use` line of a definition, a proof or a source asks for and its crate does not have:

  python3 tests/imports.py

That is a module without a file or without its line in Lib.antt, or a name that the file does not give out. Modules that the
checker makes itself begin with a small letter, as `declared`, and are left out. It reads the files alone and takes some seconds,
where the gate meets such a line when it comes to the crate. The last line is 'N passed, M failed', by names and modules.
"""
import glob
import os
import re
import sys

ROOT = os.path.join(os.path.dirname(os.path.abspath(__file__)), "..", "crates")
ASKS = re.compile(r"(?m)^\s*(?:pub |ghost )?use Rattle\.(lw_\w+)\.(specs|proofs)\.([A-Z]\w*(?:\.\w+)*)(?:\.\{([^}]*)\}| as )")
WORD = r"[^\s(){}:,]+"
SAID = re.compile(rf"^(\s*)(?:\w+ )*?pub (?:(?:abbrev|unfoldable|record|data|ruleset|pattern) )*({WORD})")


def read(path):
    with open(path, encoding="utf-8") as it:
        return it.read()


def given_out(path):
    """The names that a file gives out: what is `pub`, what it passes on, and what stands inside of either."""
    names, inside = set(), None
    for line in read(path).split("\n"):
        depth = len(line) - len(line.lstrip())
        if inside is not None and line.strip() and depth <= inside:
            inside = None
        found = SAID.match(line)
        if found:
            names.add(found[2])
            inside = depth if inside is None else inside
        elif inside is not None:
            names.update(re.findall(rf"^\s*({WORD}) :", line))
        if line.startswith("pub use "):
            names.update(it.split(" as ")[-1].strip() for it in re.findall(r"\{([^}]*)\}", line) for it in it.split(","))
            names.update(re.findall(r"\.([^.{}\s]+)$", line.strip()))
    return names


class Modules:
    def __init__(self):
        self.names, self.listed = {}, {}

    def of(self, folder, module):
        """The file of a module and, if it stands in that, the type that is a module of its own; or None."""
        if folder not in self.listed:
            lib = os.path.join(folder, "Lib.antt")
            self.listed[folder] = set(re.findall(r"(?m)^(?:pub )?mod (\w+)", read(lib))) if os.path.isfile(lib) else set()
        parts = module.split(".")
        for count in range(len(parts), 0, -1):
            path = os.path.join(folder, *parts[:count]) + ".antt"
            if os.path.isfile(path):
                if path not in self.names:
                    self.names[path] = given_out(path)
                known = parts[0] in self.listed[folder] and set(parts[count:]) <= self.names[path]
                return path if known else None
        return None


def main():
    modules, passed, lacking = Modules(), 0, []
    paths = [path for form in ("specs/**/*.antt", "proofs/**/*.antt", "src/**/*.rt") for path in glob.glob(f"{ROOT}/*/{form}", recursive=True)]
    for path in sorted(paths):
        for crate, part, module, names in ASKS.findall(read(path)):
            where = f"{os.path.relpath(path, ROOT)}: {crate}.{part}"
            file = modules.of(os.path.join(ROOT, crate, part), module)
            if file is None:
                lacking.append(f"{where} has no module {module}")
                continue
            passed += not names
            for name in (it.split(" as ")[0].strip() for it in names.split(",") if it.strip()):
                if name in modules.names[file]:
                    passed += 1
                else:
                    lacking.append(f"{where}.{module} has no {name}")
    for line in lacking:
        print(line)
    print(f"{passed} passed, {len(lacking)} failed")
    return 1 if lacking or not passed else 0


sys.exit(main())
