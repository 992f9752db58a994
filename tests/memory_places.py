#!/usr/bin/env python3
"""Finds the places where the sources answer want of memory though no growth was refused:

  python3 tests/memory_places.py

An answer hands on a refusal if it stands behind a call that failed for want of memory: in the `else` of `let Ok(..) =`, under
`is_err`, or in an arm of a `match`. All others are printed. Each has to be in the table below MARK in docs/DECISIONS.md: in the
first cell of a line a file, the functions in it, and behind a function how many places it has, if not one. A line of that table
without its place is a failure too. The last line is 'N passed, M failed', by functions.
"""
import collections
import glob
import os
import re
import sys

ROOT = os.path.join(os.path.dirname(os.path.abspath(__file__)), "..")
MARK = "## Status 8 without a refusal of the system"
KEPT = re.compile(r'//[^\n]*|b?"(?:\\.|[^"\\])*"|b?\'(?:\\.|[^\'\\\n])\'', re.S)
FROM = re.compile(r"impl From<AllocError> for \w+ \{.*?fn from\([^)]*\) -> \w+ \{\s*\w+::(\w+)\s*\}", re.S)
CALL = re.compile(r"(pub )?fn (\w+)[^{;]*?\) -> Result<([^{]*?)>\s*(?:where|requires|ensures|\{|;)", re.S)
# what fails for another reason than memory, in the standard library
CONVERSIONS = {"try_from", "try_into", "ok_or"}


def bare(text):
    """The text without comments and without what stands in quotes, each line at its place."""
    return KEPT.sub(lambda it: ("" if it[0].startswith("//") else '""') + "\n" * it[0].count("\n"), text)


def closing(text, at):
    """Where the brace that opens at a place closes."""
    depth = 0
    for it in re.compile(r"[{}]").finditer(text, at):
        depth += 1 if it[0] == "{" else -1
        if depth == 0:
            return it.end()
    return len(text)


def bodies(text):
    """The functions' bodies: where each begins and ends, and the function's name."""
    for head in re.finditer(r"\bfn (\w+)", text):
        at = head.end()
        while (opened := re.compile(r"[{;]").search(text, at)) and opened[0] == "{":
            end = closing(text, opened.start())
            # (a clause has its word, and maybe a name, before its brace)
            if not re.search(r"\b(requires|ensures|decreases)\s*\w*\s*$", text[at:opened.start()]):
                yield opened.start(), end, head[1]
                break
            at = end


def opened_before(text, start, at):
    """The places of the braces that are open at a place, the innermost first."""
    stack = []
    for it in re.compile(r"[{}]").finditer(text, start, at):
        if it[0] == "{":
            stack.append(it.start())
        else:
            stack.pop()
    return stack[::-1]


def header(text, at):
    """What stands before an opening brace, from the begin of its statement or arm."""
    return re.split(r"[;{}]", text[:at])[-1].strip()


def outermost(call):
    """The name of the call that is made last, with its type if that is named, and whether it is that of a method."""
    depth = 0
    call = call.strip()
    for at in range(len(call) - 1, -1, -1):
        depth += {")": 1, "(": -1}.get(call[at], 0)
        if depth == 0 and call[at] == "(":
            found = re.search(r"(\.?)(\w+)(?:::<[^<>]*>)?$", call[:at])
            return (found[2], found[1] == ".") if found else ("", False)
    return "", False


class Sources:
    def __init__(self):
        self.texts, self.calls, self.uses = {}, collections.defaultdict(list), {}
        for path in sorted(glob.glob(os.path.join(ROOT, "crates", "*", "src", "**", "*.rt"), recursive=True)):
            with open(path, encoding="utf-8") as it:
                self.texts[os.path.relpath(path, os.path.join(ROOT, "crates"))] = bare(it.read())
        with open(os.path.join(ROOT, "crates.txt"), encoding="utf-8") as it:
            for line in it:
                crate, _, uses = line.split("#")[0].partition(":")
                self.uses[crate.strip()] = set(uses.split())
        for path, text in self.texts.items():
            for public, name, result in CALL.findall(text):
                self.calls[name].append((path, bool(public), result.rpartition(",")[2].strip()))
        # the names of the case of an error that means want of memory
        self.cases = "|".join(sorted({"Memory"}.union(*map(FROM.findall, self.texts.values()))))

    def wants_memory(self, path, call):
        """Whether a call fails for want of memory alone. A name is sought in the file, in the crate, and in those that it uses."""
        name, is_method = outermost(call)
        if not name or name in CONVERSIONS:
            return False
        crate, known = path.split("/")[0], self.calls[name]
        for near in ([error for at, _, error in known if at == path], [error for at, _, error in known if at.split("/")[0] == crate],
                     [error for at, public, error in known if public and at.split("/")[0] in self.uses[crate]]):
            if near:
                return set(near) == {"AllocError"} or is_method and "AllocError" in near
        # (of the standard library, or of its collections)
        return True

    def hands_on(self, path, start, at):
        """Whether the answer at a place of a function's body hands on the refusal of a call."""
        text = self.texts[path]
        blocks = opened_before(text, start, at)
        head = header(text, blocks[0])
        for form in (r"let Ok\(.*\)\s*=\s*(.*)\belse$", r"if (.*)\.is_err\(\)$"):
            if found := re.match(form, head, re.S):
                return self.wants_memory(path, found[1])
        if found := re.search(r"([\w:()]+)\s*=>\s*(?:return\s+)?[\w:(]*$", text[blocks[0] + 1:at]):
            pattern, asked = found[1], head
        elif found := re.search(r"([\w:()]+)\s*=>$", head):
            pattern, asked = found[1], header(text, blocks[1])
        else:
            return False
        if re.search(rf"::({self.cases})\b", pattern):
            return True
        found = re.search(r"match (.*)$", asked, re.S)
        return pattern == "Err(_)" and bool(found) and self.wants_memory(path, found[1])

    def answers(self, text):
        """Where a text has the answer as a value."""
        for it in re.finditer(r"\bAllocError\b(?!\s*>)", text):
            if re.search(r"(\(|=|=>|\breturn|[;{}]|\|)$", text[:it.start()].rstrip()) and not header(text, it.start()).startswith("use"):
                yield it.start()
        for it in re.finditer(rf"\b[A-Z]\w*::({self.cases})\b", text):
            if not re.match(r"\s*\)*\s*(=>|\||=[^=])", text[it.end():]):
                yield it.start()

    def places(self):
        for path, text in self.texts.items():
            spans = list(bodies(text))
            for at in sorted(self.answers(text)):
                start, _, name = max((span for span in spans if span[0] < at < span[1]), default=(0, 0, "from"))
                if name != "from" and not self.hands_on(path, start, at):
                    yield path, text.count("\n", 0, at) + 1, name


def told():
    """What the page's table has: how many places each function of each file has."""
    with open(os.path.join(ROOT, "docs", "DECISIONS.md"), encoding="utf-8") as it:
        part = it.read().partition(MARK)[2].partition("\n## ")[0]
    counts, path = {}, ""
    for line in part.split("\n"):
        for word, number in re.findall(r"`([^`]+)`(?: \((\d+)\))?", line.split("|")[1] if line.startswith("|") else ""):
            if word.endswith(".rt"):
                path = word.removeprefix("crates/")
            else:
                counts[path, word] = int(number or 1)
    return counts


def main():
    found, wanted = collections.Counter(), told()
    for path, line, name in Sources().places():
        print(f"crates/{path}:{line}: {name}")
        found[path, name] += 1
    failed = 0
    for path, name in sorted(found.keys() | wanted.keys()):
        if found[path, name] != wanted.get((path, name), 0):
            failed += 1
            print(f"{name} in crates/{path}: {found[path, name]} places, {wanted.get((path, name), 0)} in docs/DECISIONS.md")
    print(f"{len(found.keys() | wanted.keys()) - failed} passed, {failed} failed")
    return 1 if failed or not found else 0


if __name__ == "__main__":
    sys.exit(main())
