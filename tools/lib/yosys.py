"""Yosys: its passes over files of Verilog, and what its errors mean."""
import os
import re

from . import runs
from .script import Fault

TOOL = "yosys"
FINE = "simplemap; dffunmap; opt_clean; write_json"


def call(passes, room, log, limit):
    """Runs passes in the folder that the script was called from; a Fault says why they ended."""
    path = os.path.join(room, log)
    ended = runs.run([TOOL, "-q", "-l", path, "-p", passes], path + ".said", limit=limit)
    if ended.late:
        raise Fault(f"Yosys took over {limit:.0f} s; --limit SECONDS gives it more")
    text = read(path)
    if ended.status:
        raise Fault(reason(text))
    return text


def read(path):
    try:
        with open(path, encoding="utf-8", errors="replace") as file:
            return file.read()
    except OSError:
        return ""


def reason(log):
    """Why Yosys ended: its error, with the cause that stands before it."""
    drivers = re.findall(r"Warning: multiple conflicting drivers for (\S+?):", log)
    if drivers:
        nets = ", ".join(net.replace("\\", "") for net in dict.fromkeys(drivers))
        return f"several drivers of one net ({nets}); each net has to be assigned in one place"
    loops = re.findall(r"Warning: found logic loop in module (\S+?):\n((?:    .*\n)*)", log)
    if loops:
        nets = re.findall(r"\\(\S+)", loops[0][1]) or re.findall(r"^    (\w\S*)$", loops[0][1], re.M)
        return f"a loop of logic without a register, through {', '.join(nets[:4]) or loops[0][0]}"
    errors = re.findall(r"^(?:\S+:\d+: )?ERROR: .*|^.*ERROR: .*", log, re.M)
    return "Yosys: " + (errors[-1].replace("ERROR: ", "").replace("\\", "") if errors else "it failed without an error")


def warnings(log):
    """The warnings of a log, each once."""
    return list(dict.fromkeys(re.findall(r"^(?:\S+:\d+: )?Warning: (.*)", log, re.M)))


def quoted(path):
    return '"' + path + '"'


def reading(options):
    """The passes that read the files of Verilog and take the top."""
    words = "".join(f" -D {define}" for define in options.defines) + "".join(f" -I {folder}" for folder in options.includes)
    if any(len(word.split()) != 1 for word in options.includes + options.defines):
        raise Fault("-D and -I take no words with blanks in them, since Yosys takes none")
    passes = [f"read_verilog{' -sv' if file.endswith(('.sv', '.svh')) else ''}{words} {quoted(file)}" for file in options.files]
    top = f"-top {options.top}" if options.top else "-auto-top"
    values = "".join(f" -chparam {name} {value}" for name, value in options.parameters)
    return "; ".join(passes + [f"hierarchy -check {top}{values}"])


def top_of(rtlil):
    """The top module of a file of RTLIL, and those beside it."""
    names = re.findall(r"^((?:attribute .*\n)*)module (\S+)$", read(rtlil), re.M)
    tops = [name for attributes, name in names if "attribute \\top 1" in attributes]
    return (tops or [name for _, name in names])[0].lstrip("\\")
