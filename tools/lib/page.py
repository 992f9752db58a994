"""The report of a run of lwflow as one page of HTML, from the data of report.json. It needs no script and no network, and reads in light
and dark, on paper and at 400 pixels."""
from html import escape

from . import fronts, pictures, schematic, svg
from .pictures import figure, is_ours, judged, shown, unit

LATEST = 24  # outputs in the table of arrivals
STYLE = """
:root { color-scheme: light dark; --ink: #24292f; --soft: #57606a; --rule: #d0d7de; --ground: #ffffff; --panel: #f6f8fa; --link: #0550ae;
  --good: #116329; --bad: #b42318; --late: #b54708; }
* { box-sizing: border-box; }
body { margin: 0 auto; padding: 1.2rem 1rem 3rem; max-width: 62rem; color: var(--ink); background: var(--ground);
  font: 16px/1.5 system-ui, "Liberation Sans", "DejaVu Sans", sans-serif; overflow-wrap: anywhere; }
h1 { font-size: 1.7rem; line-height: 1.2; margin: 0 0 .2rem; }
h2 { font-size: 1.2rem; margin: 2.2rem 0 .5rem; padding-bottom: .2rem; border-bottom: 1px solid var(--rule); }
p { margin: .5rem 0; max-width: 46rem; }
a { color: var(--link); }
.soft { color: var(--soft); font-size: .92rem; }
.answer { padding: .7rem .9rem; background: var(--panel); border-left: 5px solid var(--good); }
.answer.bad { border-left-color: var(--bad); }
.answer p { margin: .25rem 0; }
.shown { color: var(--good); font-weight: bold; white-space: nowrap; }
.not { color: var(--bad); font-weight: bold; }
table { border-collapse: collapse; width: 100%; font-size: .92rem; margin: .4rem 0; }
caption { text-align: left; color: var(--soft); padding-bottom: .2rem; }
th, td { padding: .18rem .5rem .18rem 0; text-align: left; vertical-align: top; border-bottom: 1px solid var(--rule); }
th { font-weight: 600; overflow-wrap: normal; }
.n { text-align: right; font-variant-numeric: tabular-nums; white-space: nowrap; overflow-wrap: normal; padding-left: .4rem; }
th.n { white-space: normal; }
.name { min-width: 8.5rem; }
.wide-cell { width: 34%; min-width: 4rem; padding-left: .4rem; }
.kept td { background: var(--panel); font-weight: bold; }
.bar { display: block; margin-top: .42rem; }
.scroll { overflow-x: auto; }
svg { max-width: none; }
figure { margin: .6rem 0; }
ul { padding-left: 1.3rem; max-width: 46rem; }
code { font-family: "Liberation Mono", "DejaVu Sans Mono", monospace; font-size: .92em; }
.small-page { display: none; }
@media (max-width: 759px) { .big-page { display: none; } .small-page { display: block; } body { padding: 1rem .7rem 2rem; }
  th, td { padding-right: .25rem; } .n { padding-left: .2rem; } table { font-size: .86rem; } .wide-cell { width: 18%; min-width: 2rem; }
  .name { min-width: 5.6rem; } }
@media screen and (prefers-color-scheme: dark) { :root { --ink: #e6edf3; --soft: #9198a1; --rule: #30363d; --ground: #0d1117; --panel: #161b22;
  --link: #79c0ff; --good: #56d364; --bad: #ff7b72; --late: #f0883e; } }
@media print { @page { margin: 14mm; } body { font-size: 10.5pt; padding: 0; max-width: none; } .big-page { display: block !important; }
  .small-page { display: none !important; } .scroll { overflow: visible; } .scroll svg, .big-page { max-width: 100%; height: auto; }
  h2, h2 + p, caption { break-after: avoid; } tr, figure, .answer { break-inside: avoid; } a { color: inherit; } }
"""
HEAD = """<!DOCTYPE html>
<html lang="en">
<head>
<meta charset="utf-8">
<meta name="viewport" content="width=device-width, initial-scale=1">
<meta http-equiv="Content-Security-Policy" content="default-src 'none'; style-src 'unsafe-inline'; img-src data:">
<title>{title}</title>
<link rel="icon" href="data:,">
<style>{style}</style>
{pictures}</head>
<body>
"""


def text(said):
    return escape(shown(str(said)))


def name_of(one):
    """Who made a netlist, and after which commands."""
    return f"{one['by']}, {one['front']}"


def head(title):
    return HEAD.format(title=text(title), style=STYLE, pictures=svg.STYLE + svg.MORE)


def table(heads, rows, caption="", kept=None):
    """A table. A head that begins with # is of numbers, with @ of names, and an empty one is of bars; cells are HTML, and the last
    one of a short row takes the rest of it."""
    kinds = [{"#": "n", "@": "name", "": "wide-cell"}.get(head[:1], "") for head in heads]
    parts = ['<div class="scroll"><table>', f"<caption>{text(caption)}</caption>" if caption else "", "<thead><tr>"]
    parts += [f'<th scope="col" class="{kind}">{text(head.lstrip("#@"))}</th>' if head else '<td class="wide-cell"></td>'
              for head, kind in zip(heads, kinds)]
    parts.append("</tr></thead><tbody>\n")
    for place, row in enumerate(rows):
        ends = f' colspan="{len(kinds) - len(row) + 1}"' if len(row) < len(kinds) else ""
        cells_ = [f'<td class="{kind}"{ends if k == len(row) - 1 else ""}>{cell}</td>' for k, (cell, kind) in enumerate(zip(row, kinds))]
        parts.append(f'<tr{" class=kept" if place == kept else ""}>{"".join(cells_)}</tr>\n')
    return "".join(parts) + "</tbody></table></div>\n"


# What won, and by how much


def compared(one, other, name):
    """How a netlist stands to another one, in a sentence's part."""
    (delay, area), (others, space) = judged(one), judged(other)
    if delay == others:
        early = f"as early as {name}"
    else:
        percent = abs(100 * (others - delay) / others) if others else 0
        early = f"{percent:.1f}% {'earlier' if delay < others else 'later'} than {name} ({figure(others)}{unit_of(other)})"
    return f"{early}, at {area / space:.2f} of its area ({figure(space)})" if space else early


def unit_of(one):
    return " ps" if "sized_delay" in one else ""


def answer(found):
    """The kept netlist, how it stands to ABC's, and whether it was shown right."""
    kept, status = found["kept"], found["status"]
    delay, area = judged(kept)
    parts = [f'<div class="answer{"" if status == 0 else " bad"}">']
    gates = sum(one["count"] for one in found["cells"])
    parts.append(f"<p><b>Kept: {text(name_of(kept))}.</b> Delay <b>{figure(delay)}{unit_of(kept)}</b>, area <b>{figure(area)}</b>, {gates} gates.</p>")
    said = []
    if is_ours(kept):
        said += [compared(kept, found[key], name) for key, name in (("abc", "ABC's best netlist of this search"),) if found[key]]
    elif found["lwmap"]:
        said.append(compared(kept, found["lwmap"], "the best netlist of lwmap and lwarea"))
    if found["abc_as_given"] and name_of(found["abc_as_given"]) != name_of(kept):
        said.append(compared(kept, found["abc_as_given"], "ABC's map on the design as given"))
    parts += [f"<p>It is {text(one)}.</p>" for one in said]
    return "".join(parts) + verdict(found) + "</div>\n"


def verdict(found):
    """Whether the netlist was shown right, in a sentence."""
    count = len(found["steps"])
    good = sum(step["verdict"] == "equal" for step in found["steps"])
    kind, head_, rest, link = {
        0: ("shown", "Shown right:", f"all {good} steps from the design to mapped.v", "why it can be trusted"),
        3: ("not", "Not decided:", f"{count - good} of {count} steps", "which ones"),
        4: ("not", "DIFFERENT:", "a step changed the design, and no netlist was written", "which one"),
    }[found["status"]]
    return f'<p><span class="{kind}">{head_}</span> {rest} (<a href="#trust">{link}</a>).</p>'


def rows_of_netlists(netlists, loads):
    """The figures of netlists, the judging ones first."""
    rows = []
    for one in netlists:
        figures = ([one["sized_delay"], one["sized_area"]] if loads else []) + [one["delay"], one["area"], one["gates"]]
        rows.append([text(name_of(one)), *map(figure, map(float, figures))])
    return rows


def heads_of(loads):
    return ["@netlist"] + (["#sized delay, ps", "#sized area"] if loads else []) + ["#delay", "#area", "#gates"]


def commands(found):
    """What the names of the commands before the mappers mean, of those that occur."""
    meaning = [("as given", "the design without any command of ABC"), ("if4", fronts.FRONTS["if4"]), ("dch+map", f"{fronts.FRONTS['dch+map']}"),
               ("round", fronts.ROUND), ("loop", "a netlist of this search as a network again"),
               ("networks", "the design as given, with all networks that ABC made as further choices")]
    names = " ".join(one["front"] for one in found["netlists"])
    said = [f"<b>{text(name)}</b> is {f'<code>{text(what)}</code>' if ';' in what else text(what)}" for name, what in meaning if name in names]
    return f'<p class="soft">After the comma stands what ABC did before the mapper: {"; ".join(said)}.</p>'


def both(draw, found):
    """A picture for wide pages and paper, and one for narrow pages."""
    return "".join(draw(found, width).replace("<svg", f'<svg class="{kind}"', 1) for width, kind in ((720, "big-page"), (344, "small-page")))


def tries(found):
    loads = found["library"]["loads"]
    kept = next((k for k, one in enumerate(found["netlists"]) if name_of(one) == name_of(found["kept"])), None)
    judge = ("ABC buffered and sized each netlist; its delay under loads decides, then its area." if loads else
             "The smaller delay decides, then the smaller area.")
    parts = [f'<h2 id="tries">Every try</h2><p>A filled circle is a netlist of lwmap or lwarea, a square one of ABC\'s map after the same commands. {judge} '
             "Left and low is better.</p><figure>",
             both(pictures.tries, found), "</figure>",
             table(heads_of(loads), rows_of_netlists(found["netlists"], loads), "Best first; the kept one is marked", kept), commands(found)]
    return "".join(parts)


# The kept netlist


def path(found):
    steps = found["path"]
    if not steps:
        return '<h2 id="path">Critical path</h2><p>No output needs a gate.</p>'
    most, rows = steps[-1]["arrival"] or 1, []
    for place, step in enumerate(steps):
        pin = f" <span class=soft>{text(step['pin'])}</span>" if step["pin"] is not None else ""
        rows.append([str(place + 1), text(step["cell"]) + pin, text(step["net"]), f"+{figure(step['delay'])}", figure(step["arrival"]),
                     svg.bar((step["arrival"] - step["delay"]) / most, step["delay"] / most, "b plain")])
    first = steps[0]
    start = "It begins at a constant"
    if first["from"] is not None:
        start = f"It begins at {text(first['from'])}, which arrives at {figure(first['arrival'] - first['delay'])}"
    ends = next((pictures.read_by(one) for one in found["arrivals"] if one["arrival"] == steps[-1]["arrival"]), "")
    start += f", and ends at {text(ends)}. "
    loads = "These are the delays of the cells without loads, in the netlist before sizing. " if found["library"]["loads"] else ""
    return (f'<h2 id="path">Critical path, gate by gate</h2><p>{start}{loads}Each row is a gate, with the pin on the path. Nothing arrives '
            f"later than {figure(most)}.</p>" + table(["# ", "cell, pin", "net", "#delay", "#arrival", ""], rows))


def arrivals(found):
    latest, rows = found["arrivals"], []
    if not latest:
        return ""
    most = latest[0]["arrival"] or 1
    for one in latest[:LATEST]:
        rows.append([text(pictures.read_by(one)), "register" if one["register"] else "output", figure(one["arrival"]),
                     svg.bar(0, one["arrival"] / most, "a plain")])
    rest = len(latest) - LATEST
    more = f" The other {rest} arrive by {figure(latest[LATEST]['arrival'])}; report.json has all." if rest > 0 else ""
    parts = [f'<h2 id="arrivals">Arrivals of outputs</h2><p>When each output, and each input of a register, has its value.{more}</p>']
    if rest > 0 and latest[-1]["arrival"] < most:
        parts += ["<figure>", both(pictures.spread, found), "</figure>"]
    return "".join(parts) + table(["name", "kind", "#arrival", ""], rows, f"The latest {min(LATEST, len(latest))} of {len(latest)}")


def cells(found):
    total = sum(one["area"] for one in found["cells"]) or 1
    rows = [[text(one["cell"]), str(one["count"]), figure(one["area"]), f"{100 * one['area'] / total:.1f}%",
             svg.bar(0, one["area"] / total, "c plain")] for one in found["cells"]]
    sized = " They are those of the sized netlist, mapped.v." if found["library"]["loads"] else ""
    return f'<h2 id="cells">Cells</h2><p>{sum(one["count"] for one in found["cells"])} gates of {len(rows)} kinds.{sized}</p>' + table(
        ["cell", "#count", "#area", "#part", ""], rows)


def drawing(found):
    if not found["netlist"] or not found["netlist"]["gates"]:
        return ""
    return ('<h2 id="netlist">Netlist</h2><p>Signals run from left to right. The marked line is the critical path.</p>'
            f'<figure><div class="scroll" tabindex="0" role="region" aria-label="drawing of the netlist">{schematic.draw(found)}</div></figure>')


# Why it can be trusted

REASONS = [
    ("theorem", "lwmap is written in Rattle, a Rust with contracts. A proof checker has verified once and for all that every netlist of lwmap "
                "computes its network and that none in its search space is earlier."),
    ("theorem of lwarea", "lwarea is written in the same language. Every netlist of it computes its network, and each output arrives by its "
                          "deadline. Networks that ABC made are further choices, of which lwarea believes nothing that it has not proved."),
    ("lwmap check", "This netlist carries a certificate. lwmap check, which is proved too, has verified the netlist with it."),
    ("lwarea -k", "This netlist carries a certificate. lwarea -k, which is proved too, has verified the netlist with it."),
    ("by lwequal", "lwequal looked for an assignment of the inputs under which the two networks differ. That there is none where it says so is "
                   "proved, too."),
    ("by cec", "ABC's checker cec looked for an assignment of the inputs under which the two networks differ, and found that there is none."),
    ("registers by name", "Both sides have the same registers, with clocks, resets and initial values. All logic between them was compared, so "
                          "both behave alike forever, from every state."),
    ("simulation", "Icarus Verilog ran the Verilog and mapped.v side by side on random inputs. This is a test and no proof, but the only comparison that "
                   "does not rest on how Yosys reads Verilog."),
]
WORDS = {"equal": ("shown", "shown"), "undecided": ("not", "not decided"), "different": ("not", "DIFFERENT")}


def listed(several):
    """Things in a row, the last one after an 'and'."""
    return " and ".join([", ".join(several[:-1])] * (len(several) > 1) + several[-1:])


def trust(found):
    steps = found["steps"]
    rows = []
    for step in steps:
        kind, word = WORDS[step["verdict"]]
        rows.append([f'<span class="{kind}">{word}</span>', text(step["what"]) + (f' ({text(step["why"])})' if step["why"] else "")])
    said = " ".join(step["what"] for step in steps)
    reasons = [f"<li><b>{text(word)}</b>: {text(why)}</li>" for word, why in REASONS if word in said]
    trusted = ["ABC's cec"] * ("by cec" in said) + ["Yosys where it reads and writes Verilog"] * (found["design"]["kind"] == "Verilog")
    trusted += ["the proof checker of Rattle"] * ("theorem" in said or "by lwequal" in said)
    return ('<h2 id="trust">Why it can be trusted</h2><p>Each step from the design to mapped.v was compared by itself. If every step is '
            "shown, mapped.v does what the design says.</p>" + table(["result", "step"], rows) +
            f"<ul>{''.join(reasons)}</ul><p>What you trust beside that: {text(listed(trusted))}.</p>")


def facts(found):
    design, library = found["design"], found["library"]
    loads = "judged under loads" if library["loads"] else "delays without loads"
    names = (("mapped.v", "mapped.blif", "cells.v") if found["status"] != 4 else ()) + ("report.json", "log.txt")
    files = ", ".join(f'<a href="{name}">{name}</a>' for name in names)
    rows = [["design", text(f"{', '.join(design['files'])}: {design['kind']}, {design['nodes']} nodes, {design['registers']} registers")],
            ["library", text(f"{library['file']}: {library['cells']} cells, {loads}")],
            ["search", text(f"effort {found['effort']}, {len(found['netlists'])} netlists, {found['processor_seconds']:.1f} s of processor time")],
            ["files", files]]
    return "<table><tbody>" + "".join(f'<tr><th scope="row">{name}</th><td>{said}</td></tr>' for name, said in rows) + "</tbody></table>\n"


def notes(found):
    said = found["notes"] + [f"left out: {one}" for one in found["left_out"]]
    return '<h2 id="notes">Notes</h2><ul>' + "".join(f"<li>{text(one)}</li>" for one in said) + "</ul>" if said else ""


def page(found):
    """The whole page."""
    title = f"{found['design']['top']} with {found['library']['file'].rsplit('/', 1)[-1]}"
    sections = (answer, facts, tries, trust, path, arrivals, cells, drawing, notes)
    parts = [head("lwflow: " + title), f"<h1>{text(title)}</h1>\n", *(section(found) for section in sections),
             f'<p class="soft">Written by {text(found["version"])}.</p>\n</body>\n</html>\n']
    return "".join(parts)
