"""The library of a flow: genlib, or Liberty by way of tools/liberty.sh."""
import os
import shutil
import subprocess

from . import abc, blif, genlib, liberty, nowires, program, runs
from .script import Fault


class Library:
    """A library in the room: lib.genlib for lwmap, padded.genlib for ABC, lib.scl for sizing where Liberty was given."""

    def __init__(self, given, room, limit):
        self.given, self.room, self.file, self.notes = given, room, "lib.genlib", []
        self.sizes = None
        text = read(given)
        if given.endswith((".lib", ".liberty")) or not text.lstrip().startswith(("GATE", "LATCH", "#")) and liberty.is_liberty(text):
            self.convert(limit)
            self.sizes = liberty.functions(text)
        else:
            shutil.copyfile(given, self.path(self.file))
        try:
            self.cells = genlib.read_genlib(self.path(self.file))
        except Fault as fault:
            raise Fault(str(fault).replace(self.path(self.file), given, 1)) from None
        self.look()
        with open(self.path("padded.genlib"), "w", encoding="latin-1") as out:
            out.write(genlib.padded(self.cells))

    def path(self, file):
        return os.path.join(self.room, file)

    def convert(self, limit):
        """Liberty as genlib, and as ABC keeps it."""
        runs.need("berkeley-abc")
        script = os.path.join(program.ROOT, "tools", "liberty.sh")
        with open(self.path(self.file), "wb") as out:
            done = subprocess.run(["sh", script, self.given], stdout=out, stderr=subprocess.PIPE, env={**os.environ, "LIMIT": str(int(limit))})
        said = [line.removeprefix("liberty: ") for line in os.fsdecode(done.stderr).splitlines()]
        if done.returncode:
            raise Fault(f"{self.given}: {'; '.join(said)}")
        self.notes += [f"library: {line}" for line in said]
        shutil.copyfile(self.given, self.path("given.lib"))
        abc.call("read_lib -w given.lib; write_scl lib.scl", self.room, "scl.log", limit)
        if not os.path.exists(self.path("lib.scl")):
            self.notes.append("library: ABC does not keep it for sizing, so the delays of its cells judge")

    def look(self):
        """Refuses what would be read as something else, and what lwmap does not take."""
        name = genlib.tilde(self.cells)
        if name:
            raise Fault(f"{self.given}: in the function of cell {name} a ~ stands before a bracket or a name. It is no sign of "
                        "genlib and would be taken for a part of a name; a complement is written ! there")
        with open(self.path("none.blif"), "w", encoding="latin-1") as out:
            out.write(".model none\n.inputs\n.outputs\n.end\n")
        ended = runs.run([program.path(), "map", self.file, "none.blif"], self.path("library.log"), cwd=self.room)
        if ended.status:
            raise Fault(runs.tail(ended.log).removeprefix("lwmap: ").replace(self.file, self.given, 1))

    def has_loads(self):
        return self.sizes is not None and os.path.exists(self.path("lib.scl"))

    def constant(self, value):
        """The name of a cell that is a constant, or None."""
        return next((cell.name for cell in self.cells.values() if not cell.pins and genlib.truth(cell.funs[0], []) == value), None)

    def sized_cells(self):
        """All cells that a sized netlist may have."""
        return {**(self.sizes or {}), **{name: cell for name, cell in self.cells.items() if name not in (self.sizes or {})}}


def read(path):
    with open(path, encoding="latin-1") as file:
        return file.read()


def size(work, netlist):
    """Has ABC buffer and size a netlist under its loads. The netlist gets delay in picoseconds, area and file; or None where
    ABC came to no end."""
    stem = "size." + netlist.file
    try:
        work.write(stem + ".cut", blif.cut(work.path(netlist.file)))
        work.write(stem + ".flat", nowires.plain(work.library.cells, work.path(stem + ".cut"))[0])
    except Fault as fault:
        work.lost.append(f"sizing of {netlist.said()}: {fault}")
        return None
    if not blif.first_word(work.path(stem + ".flat"), (".gate",)):
        netlist.sized = (0.0, 0.0, stem + ".flat")
        return netlist
    buffers = any(len(cell.pins) == 1 and genlib.truth(cell.funs[0], cell.pins) == 2 for cell in work.library.sizes.values())
    found = abc.sized(stem + ".flat", "lib.scl", stem + ".sized", work.room, stem + ".log", work.search, buffers)
    if found is None:
        work.lost.append(f"sizing of {netlist.said()}: ABC came to no end, or failed")
        return None
    netlist.sized = (*found, stem + ".sized")
    return netlist
