"""The runs of a sweep, from the lists of its configuration."""
import os
import re
from collections import namedtuple

Run = namedtuple("Run", "files words")


def stem(path):
    """A file's name without its folder and ending, as a part of a run's name."""
    return os.path.splitext(os.path.basename(path))[0].replace(".", "_")


def named(several, what):
    """Designs or libraries by name: a list of files, or names with a file or words. No two may have one name."""
    if not several:
        raise ValueError(f"the configuration names no {what}")
    pairs = list(several.items()) if isinstance(several, dict) else [
        next(iter(one.items())) if isinstance(one, dict) else (stem(one), one) for one in several]
    found = {}
    for name, words in pairs:
        if name in found:
            raise ValueError(f"two {what} have the name {name}; NAME: FILE gives one of them another name")
        if not re.fullmatch(r"[A-Za-z0-9_+][A-Za-z0-9_+-]*", name):
            raise ValueError(f"{name} is no name for {what}: letters, digits, _, + and - are")
        found[name] = [words] if isinstance(words, str) else [str(word) for word in words]
    return found


def plan(config):
    """The runs by name, DESIGN.LIBRARY.EFFORT."""
    runs = {}
    more = config.get("words", "")
    more = more.split() if isinstance(more, str) else [str(word) for word in more]
    for design, words in named(config.get("designs"), "designs").items():
        for library, files in named(config.get("libraries"), "libraries").items():
            for effort in config.get("efforts", ["normal"]):
                read = [word for word in words + files if os.path.exists(word)]
                runs[f"{design}.{library}.{effort}"] = Run(read, ["-l", files[0], "--effort", effort, *more, *words])
    return runs
