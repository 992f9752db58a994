"""Netlists of lwarea of the design as given, with all networks that ABC made of it as further choices.

Nobody has to trust these networks: lwarea proves nets equal before it takes one for another, and its theorem speaks of the design as
given. So such a netlist needs no comparison with what ABC made.
"""
from . import abc, program, runs, search
from .search import Maker, Netlist

AREA_FLOW = "strash; &get -n; &fraig -x; &put; scorr; dc2; strash; &get -n; &dch -f; &nf; &put; unmap; sop"
WIDTH = 6
TURN = 2  # the effort of lwarea in a turn


def plain_steps(work):
    """Networks that no front end leaves: nodes of two inputs, ABC's netlist of these, and with the greatest effort an area flow's."""
    script = "read_genlib padded.genlib; read_blif cut.blif; strash; write_blif strash.blif; map; unmap; sop; write_blif map.blif"
    if work.effort.turns:
        script += f"; read_blif cut.blif; {AREA_FLOW}; write_blif nf.blif"
    ended = abc.call(script, work.room, "steps.log", work.search)
    if not abc.whole(work.path("map.blif")):
        work.lose("further networks", ended, work.search)


def steps(work):
    """The files of all networks that ABC made, in the order of its commands."""
    if not work.size:
        return []
    plain_steps(work)
    files = ["strash.blif", "map.blif", "s1.blif", "round1.blif", "dch+map.blif"]
    files += [f"{part}{k}.blif" for k in range(2, work.effort.rounds + 1) for part in ("s", "round")] + ["nf.blif"]
    return [file for file in files if abc.whole(work.path(file))]


class Join:
    """The design with further networks, which are its choices."""

    def __init__(self, work):
        self.work, self.files = work, steps(work)
        self.given = work.restored(work.base.file)

    def netlist(self, effort, time):
        """lwarea's netlist by a deadline, or None."""
        work, said = self.work, f"with {len(self.files)} network{'s' * (len(self.files) != 1)}"
        by, file = f"lwarea -e {effort} -t {time}", f"lwarea.{effort}.{time.replace('%', 'p')}.blif"
        command, options = [program.path("lwarea"), "-w", str(WIDTH)], ["-e", str(effort), "-t", time]
        ended = runs.run([*command, *options, work.library.file, self.given, *self.files], work.path(file + ".log"), cwd=work.room,
                         limit=work.search, out=work.path(file))
        if ended.status or ended.late:
            work.lose(f"{by}, {said}", ended, work.search)
            return None
        certified = [*command, "-c", *options] if time == "each" else None
        checked = [program.path("lwarea"), "-k", "-w", str(WIDTH)]
        return Netlist(file, work.base, by, said, search.figures(work, file), Maker("lwarea", WIDTH, certified, checked, tuple(self.files)))

    def grow(self):
        """The last netlist, restructured by ABC, is one network more, until that gains nothing."""
        last = self.netlist(TURN, "max") if self.work.effort.turns else None
        for turn in range(1, self.work.effort.turns + 1):
            network, theirs = search.again(self.work, last, turn) if last else (None, None)
            if network is None:
                return
            search.keep_theirs(self.work, [theirs])
            self.files.append(network.file)
            found = self.netlist(TURN, "max")
            if not found or (found.delay, found.area) >= (last.delay, last.area):
                return
            last = found

    def kept(self, words):
        """The netlists for some deadlines and each effort."""
        pairs = [(effort, word) for word in words for effort in self.work.effort.area]
        return self.work.keep(self.work.each(lambda pair: self.netlist(*pair), pairs))
