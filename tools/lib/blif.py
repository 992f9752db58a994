"""Texts of BLIF: logical lines, ports, and a network without its latches."""
from collections import namedtuple

from .script import Fault

Ports = namedtuple("Ports", "model inputs outputs starts latches rest")


def lines(path):
    """Logical lines as lists of words: comments cut, continued lines joined."""
    words = []
    with open(path, encoding="latin-1") as file:
        for raw in file:
            raw = raw.split("#")[0].rstrip()
            if raw.endswith("\\"):
                words += raw[:-1].split()
                continue
            words += raw.split()
            if words:
                yield words
            words = []
    if words:
        yield words


def ports_of(path):
    """The words of the model's line, the inputs, the outputs, the lines of arrivals, the latches, and all further lines."""
    found = Ports([], [], [], [], [], [])
    for words in lines(path):
        if words[0] == ".inputs":
            found.inputs.extend(words[1:])
        elif words[0] == ".outputs":
            found.outputs.extend(words[1:])
        elif words[0] == ".latch":
            found.latches.append(words)
        elif words[0] == ".model":
            found.model[:] = words
        elif words[0] in (".input_arrival", ".default_input_arrival"):
            found.starts.append(words)
        elif words[0] != ".end":
            found.rest.append(words)
    return found


def ends_of(path):
    """The inputs and the outputs that stand before the first node; None if it has latches or several models."""
    inputs, outputs, models = [], [], 0
    for words in lines(path):
        if words[0] == ".inputs":
            inputs += words[1:]
        elif words[0] == ".outputs":
            outputs += words[1:]
        elif words[0] == ".model":
            models += 1
        else:
            break
    return (inputs, outputs) if models == 1 and words[0] in (".names", ".end") else None


def text(lists):
    """The file of some lists of words."""
    return "".join(" ".join(words) + "\n" for words in lists) + ".end\n"


def roots_of(latch):
    """What a latch reads: its input, and its control where it names one."""
    return [latch[1]] + [net for net in latch[4:5] if net != "NIL"]


def cut(path):
    """The network without its latches: their outputs become inputs, what they read outputs."""
    whole = ports_of(path)
    roots = dict.fromkeys(whole.outputs + [net for latch in whole.latches for net in roots_of(latch)])
    ports = [whole.model, [".inputs"] + whole.inputs + [latch[2] for latch in whole.latches], [".outputs"] + list(roots)]
    return text(ports + whole.rest)


def numbered(path):
    """The network without its latches, as 'cut' has it, but with its inputs as i0, i1, .. and its outputs as o0, o1, .. in order."""
    whole = ports_of(path)
    inputs, outputs = whole.inputs + [latch[2] for latch in whole.latches], whole.outputs + [latch[1] for latch in whole.latches]
    lines = [[".model", "numbered"], [".inputs"] + [f"i{k}" for k in range(len(inputs))], [".outputs"] + [f"o{k}" for k in range(len(outputs))]]
    for k, net in enumerate(inputs):
        lines += [[".names", f"i{k}", "@" + net], ["1", "1"]]
    for k, net in enumerate(outputs):
        lines += [[".names", "@" + net, f"o{k}"], ["1", "1"]]
    return text(lines + [[".names"] + ["@" + net for net in words[1:]] if words[0] == ".names" else words for words in whole.rest])


def restore(path, cut_path):
    """The nodes of the network at cut_path between the ports and latches of the one at path."""
    whole, rest = ports_of(path), ports_of(cut_path).rest
    return text([whole.model, [".inputs"] + whole.inputs, [".outputs"] + whole.outputs] + whole.starts + whole.latches + rest)


def first_word(path, words):
    """The first logical line that begins with one of some words, or None."""
    return next((line for line in lines(path) if line[0] in words), None)


def need_model(path):
    """The words of the .model of a file; a Fault says that there is none."""
    line = first_word(path, (".model",))
    if not line:
        raise Fault(f"{path}: there is no .model in it")
    return line
