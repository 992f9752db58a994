"""The programs that release/program.sh finds."""
import os
import subprocess
from functools import lru_cache

from .script import Fault

ROOT = os.path.dirname(os.path.dirname(os.path.dirname(os.path.realpath(__file__))))


@lru_cache(None)
def path(name="lwmap"):
    """The path of a program; a Fault says why there is none."""
    found = subprocess.run(["sh", ROOT + "/release/program.sh", name], stdout=subprocess.PIPE, stderr=subprocess.PIPE)
    if found.returncode:
        raise Fault(os.fsdecode(found.stderr).strip().removeprefix(name + ": "))
    return os.fsdecode(found.stdout).rstrip("\n")


def has(name):
    """Whether the program is there."""
    try:
        return bool(path(name))
    except Fault:
        return False
