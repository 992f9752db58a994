#!/usr/bin/env python3
"""Runs the commands of the user pages and compares what they print with the pages.

  pages.py [-v] [PAGE..]

PAGE is README.md, docs/TUTORIAL.md, docs/HOWTO.md and docs/COMMANDS.md without arguments. A block is a run of indented lines. One
that begins with a command is run by the shell, in a folder with the repository's files and with what earlier blocks of the page left.
Its status has to be 0, unless the next block is what it printed. Each block after it, up to the next heading, has to occur in what the
section's commands printed or in a file of that folder. Blocks with placeholders such as LIB are not run, nor blocks with one of our programs that
release/program.sh does not find; nothing of a page is run for which a tool is not installed. -v names what is skipped. The last line is
'N passed, N failed, N skipped', and the status is 0 if none failed.
"""
import itertools
import os
import re
import resource
import shutil
import subprocess
import sys
import tempfile
from functools import lru_cache

ROOT = os.path.dirname(os.path.dirname(os.path.realpath(__file__)))
PAGES = ["README.md", "docs/TUTORIAL.md", "docs/HOWTO.md", "docs/COMMANDS.md"]
COMMAND = re.compile(r"(\./lw\w+|sh|python3|sed|printf|cat|grep|awk|yosys|berkeley-abc|iverilog|sudo) ")
PLACEHOLDER = re.compile(r"\b(LIB|MAPPED|TOP|NAME|FOLDER)\b|\b(x|circuit)\.blif|\bsudo\b")
TOOLS = ["yosys", "berkeley-abc", "iverilog"]
LIBERTY = "/usr/share/qflow/tech/osu035/osu035_stdcells.lib"
SECONDS = 900


def blocks_of(page):
    """The blocks of a page without their indent, each with its heading."""
    section, block = "", []
    with open(os.path.join(ROOT, page), encoding="utf-8") as text:
        for line in text.read().split("\n") + [""]:
            if line.startswith("    "):
                block.append(line)
                continue
            if block:
                indent = min(len(one) - len(one.lstrip()) for one in block)
                yield section, "\n".join(one[indent:] for one in block)
                block = []
            if line.startswith("#"):
                section = line.lstrip("# ")


def lacks(page):
    """The tools that a page names in its blocks and that are not installed."""
    text = "\n".join(block for _, block in blocks_of(page))
    missing = [tool for tool in TOOLS if re.search(rf"\b{tool}\b|\./lwflow", text) and not shutil.which(tool)]
    return missing + ([LIBERTY] if LIBERTY in text and not os.path.exists(LIBERTY) else [])


@lru_cache(None)
def is_there(program):
    return subprocess.run(["sh", os.path.join(ROOT, "release", "program.sh"), program], stdout=subprocess.DEVNULL, stderr=subprocess.DEVNULL,
                          check=False).returncode == 0


def can_run(block):
    """Whether a block of commands has no placeholders, and our programs that it calls are there."""
    return not PLACEHOLDER.search(block) and all(is_there(name) for name in re.findall(r"\./(lwmap|lwarea|lwequal)\b", block))


def bounded():
    """Bounds the processor time of each process, so that a busy machine changes no result."""
    resource.setrlimit(resource.RLIMIT_CPU, (SECONDS, SECONDS))


def run(commands, folder):
    """The status of commands, and what they print on both streams."""
    try:
        done = subprocess.run(["sh", "-c", commands], cwd=folder, stdout=subprocess.PIPE, stderr=subprocess.STDOUT,
                              stdin=subprocess.DEVNULL, timeout=30 * SECONDS, text=True, errors="replace", check=False, preexec_fn=bounded)
    except subprocess.TimeoutExpired:
        return 1, f"over {30 * SECONDS} s by the clock"
    return done.returncode, done.stdout


def occurs(block, printed, folder):
    """Whether a block is part of what was printed, or of a file that is no link."""
    def indented(text):
        return "\n".join(line.strip() for line in text.split("\n"))
    texts = list(printed)
    for name in os.listdir(folder):
        path = os.path.join(folder, name)
        if os.path.isfile(path) and not os.path.islink(path):
            with open(path, encoding="utf-8", errors="replace") as file:
                texts.append(file.read())
    return any(indented(block) in indented(text) for text in texts)


class Trial:
    """A page's blocks, tried one after another in a folder."""
    def __init__(self, page, folder, loud):
        self.page, self.folder, self.loud = page, folder, loud
        self.counts = [0, 0, 0]

    def count(self, good, section, block, printed):
        self.counts[0 if good else 1] += 1
        if not good:
            print(f"failed: {self.page}: {section}:\n{block}\nprinted:\n{printed}")

    def skip(self, what):
        self.counts[2] += 1
        if self.loud:
            print(f"skipped: {self.page}: {what}")

    def section(self, name, blocks):
        """The blocks of a section; those after a command that is skipped are skipped."""
        printed = []
        for place, block in enumerate(blocks):
            if COMMAND.match(block) and not can_run(block):
                return self.skip(name)
            if COMMAND.match(block):
                status, said = run(block, self.folder)
                printed.append(said)
                wanted = blocks[place + 1:place + 2]
                self.count(status == 0 or wanted and occurs(wanted[0], [said], self.folder), name, block, said)
            elif printed:
                self.count(occurs(block, printed, self.folder), name, block, printed[-1])
        return None

    def take(self):
        missing = lacks(self.page)
        if missing:
            return self.skip("needs " + ", ".join(missing))
        for name, blocks in itertools.groupby(blocks_of(self.page), lambda one: one[0]):
            self.section(name, [block for _, block in blocks])
        return None


def main(words):
    totals = [0, 0, 0]
    for page in [word for word in words if word != "-v"] or PAGES:
        with tempfile.TemporaryDirectory() as folder:
            for name in os.listdir(ROOT):
                if name != ".git":
                    os.symlink(os.path.join(ROOT, name), os.path.join(folder, name))
            trial = Trial(page, folder, "-v" in words)
            trial.take()
            totals = [a + b for a, b in zip(totals, trial.counts)]
    print("{} passed, {} failed, {} skipped".format(*totals))
    return totals[1] > 0


if __name__ == "__main__":
    sys.exit(main(sys.argv[1:]))
