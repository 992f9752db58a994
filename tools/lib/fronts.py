"""Front ends and mappers of ABC by name, as scripts that come after its read_blif. Those whose names end in map ask for a
library that ABC has read."""

ROUND = "if -g -K 6; strash; dch"
QUICK = "if -g -K 6; strash; dch -f -C 100"
BACK = "map; unmap; sop"
FRONTS = {
    "given": "",
    "strash": "strash",
    "if4": "strash; if -K 4; sop",
    "if5": "strash; if -K 5; sop",
    "if6": "strash; if -K 6; mfs2; sop",
    "dch+if6": "strash; dch; if -K 6; mfs2; sop",
    "if-g": "strash; if -g -K 6",
    "if-g+if6": "strash; if -g -K 6; strash; if -K 6; mfs2; sop",
    "dch+map": f"strash; dch; {BACK}",
    "if-g+dch+map": f"strash; {ROUND}; {BACK}",
}
MAPPERS = {
    "map": "strash; map",
    "dch;map": "strash; dch; map",
    "&nf": "strash; &get -n; &nf; &put",
    "if-g;map": "strash; if -g -K 6; strash; map",
    "if-g;dch;map": f"strash; {ROUND}; map",
}


def rounds(count):
    """The script of so many rounds of restructuring, without what maps."""
    return "strash; " + "; ".join([ROUND] * count)
