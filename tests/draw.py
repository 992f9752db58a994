"""Networks, libraries, vectors and damaged netlists that tests/compare.py draws at random."""
import re

FUNCTIONS = ["!a", "a", "CONST0", "CONST1", "!(a*b)", "!(a+b)", "a*b", "a+b", "!(a*b*c)", "!(a+b+c)", "!(a*b*c*d)", "a*(b+c)",
             "!(a*b+c)", "!((a+b)*c)", "a*!b+!a*b", "!(a*!b+!a*b)", "a*b+a*c+b*c", "!(a*b+c*d)", "a*b+!a*c", "(a b)'+c d'",
             "a*b*c*d*e", "!(a*!b)", "!a*b", "a' (b+c')", "!(a*b*c+d)"]
DELAYS = ["0", "0.5", "1", "1.5", "2", "2.25", "3", "0.000001"]


def library(draw):
    text = ""
    functions = draw.sample(FUNCTIONS, draw.randint(1, 9))
    if draw.random() < 0.7:
        # (with these there is a cover wherever there is a constant for it)
        enough = ["!a", draw.choice(["!(a*b)", "!(a+b)"]), draw.choice(["CONST0", "CONST1"])]
        draw.shuffle(enough)
        functions = list(dict.fromkeys(functions + enough))
    for number, function in enumerate(functions):
        text += f"GATE c{number} {draw.randint(0, 9)} O={function};\n"
        pins = sorted(set(function) & set("abcde"))
        if pins and draw.random() < 0.5 and not function.startswith("CONST"):
            text += "".join(f"PIN {pin} UNKNOWN 1 999 {draw.choice(DELAYS)} 0 {draw.choice(DELAYS)} 0\n" for pin in pins)
        elif not function.startswith("CONST"):
            text += f"PIN * INV 1 999 {draw.choice(DELAYS)} 0 {draw.choice(DELAYS)} 0\n"
    if draw.random() < 0.05:
        text = "".join(line + "\n" for line in damaged(draw, text.splitlines()))
    return text


def with_slow_cells(draw, text):
    """The library, and for each cell cN a cell sN of the same function, each pin of which is slower."""
    more = []
    for line in text.splitlines(True):
        words = line.split(" ")
        if words[0] == "GATE":
            words[1] = "s" + words[1][1:]
        elif len(words) == 9:
            longer = draw.choice([1, 1, 500000, 3000000])
            for place in (5, 7):
                time = round(float(words[place]) * 1000000) + longer
                words[place] = f"{time // 1000000}.{time % 1000000:06d}"
        more.append(" ".join(words))
    return text + "".join(more)


def node(draw, name, signals):
    fanins = [draw.choice(signals) for _ in range(draw.randint(0, 5))] if signals else []
    lines = [" ".join([".names"] + fanins + [name])]
    on = draw.choice("01")
    for _ in range(draw.randint(0, 5)):
        lines.append(("".join(draw.choice("01--") for _ in fanins) + " " if fanins else "") + on)
    return lines


def latch(draw, name, signals):
    control = draw.choice(signals + ["NIL"])
    rest = draw.choice([[], ["2"], ["re", control], ["fe", control, "0"], ["ah", control, "3"]])
    return [" ".join([".latch", draw.choice(signals), name] + rest)]


def arrivals(draw, signals):
    own = [f".input_arrival {draw.choice(signals + ['none'])}" for _ in range(draw.choice([0, 0, 1, 2, 4]))]
    default = [".default_input_arrival" for _ in range(draw.choice([0, 0, 0, 1, 2]))]
    return [[f"{words} {draw.choice(DELAYS)} {draw.choice(DELAYS)}"] for words in own + default]


def damaged(draw, lines):
    """The lines with one of them left out, doubled, moved, or with a word left out, doubled or exchanged for another."""
    lines = list(lines)
    place = draw.randrange(len(lines))
    words = lines[place].split(" ")
    at = draw.randrange(len(words))
    other = draw.choice(draw.choice(lines).split(" ") + ["i0", "x", "q0\\ ", "-1", "NIL", ".clock", "1"])
    instead = draw.choice([[], [words[at]] * 2, [other]])
    changed = " ".join(words[:at] + instead + words[at + 1:])
    lines[place:place + 1] = draw.choice([[], [lines[place]] * 2, [changed], [changed], [changed]])
    if draw.random() < 0.2 and lines:
        lines.insert(draw.randrange(len(lines)), lines.pop(draw.randrange(len(lines))))
    return lines


def network(draw):
    inputs = [f"i{k}" for k in range(draw.randint(0, 5))]
    given = [draw.choice([f"q{k}", f"n{k + 1}"]) for k in range(draw.choice([0, 0, 1, 2, 3]))]
    signals = inputs + given
    outputs = []
    parts = []
    for k in range(draw.randint(0, 7)):
        name = draw.choice([f"m{k}", f"f{k}"])
        parts.append(node(draw, name, signals))
        signals.append(name)
        if draw.random() < 0.5:
            outputs.append(name)
    outputs += [name for name in inputs + given if draw.random() < 0.1]
    parts += [latch(draw, name, signals) for name in given] + arrivals(draw, signals)
    parts += [[" ".join([".inputs"] + inputs)], [" ".join([".outputs"] + outputs)]]
    if draw.random() < 0.5:
        draw.shuffle(parts)
    else:
        parts = parts[-2:] + parts[:-2]
    lines = [".model m"] + [line for part in parts for line in part] + [".end"]
    if draw.random() < 0.2:
        lines = damaged(draw, lines)
    return "".join(line + "\n" for line in lines)


def options(draw):
    """The further rules bring so many matches that they are tried at small widths alone."""
    if draw.random() < 0.4:
        return ["-w", draw.choice("23"), "-i"]
    return draw.choice([[], ["-w", str(draw.randint(2, 8))]])


def vectors(draw, width):
    """Up to three blocks of vectors, some of them in words or with a comment, and at times one that is none."""
    lines = []
    for _ in range(draw.choice([0, 1, 2, 7, 63, 64, 65, 140])):
        line = "".join(draw.choice("01") for _ in range(width))
        cut = draw.randint(0, width)
        if draw.random() < 0.1:
            line = line[:cut] + draw.choice([" ", "\t", "\\\n"]) + line[cut:] + draw.choice(["", " # 1", " ", "\r"])
        lines.append(line)
    if draw.random() < 0.1:
        lines.insert(draw.randint(0, len(lines)), draw.choice(["0" * (width + 1), "1" * max(width - 1, 0), "2" * width, "-"]))
    return "".join(line + "\n" for line in lines)


# Damages of a mapped text with its certificate. Each takes its lines as lists of words, and changes them in place where it can.

def some(draw, lines, *first):
    """A line that begins so, or None."""
    found = [line for line in lines if line[:len(first)] == list(first)]
    return draw.choice(found) if found else None


def label_moved(draw, lines):
    line = some(draw, lines, "#@", "label")
    if line:
        whole, _, part = line[3].partition(".")
        time = int(whole) * 1000000 + int((part + "000000")[:6]) + draw.choice([-1, -1, -1, 1, 1, 1, -500000, 500000])
        line[3] = f"{max(time, 0) // 1000000}.{max(time, 0) % 1000000:06d}"


def label_removed(draw, lines):
    line = some(draw, lines, "#@", "label")
    if line:
        lines.remove(line)


def labels_all_lowered(draw, lines):
    for line in lines:
        if line[:2] == ["#@", "label"] and draw.random() < 0.9:
            line[3] = "0"


def class_changed(draw, lines):
    one, other = some(draw, lines, "#@", "net"), some(draw, lines, "#@", "net")
    if one:
        changed = draw.choice(["exchange", "flip", "other", "away"])
        if changed == "exchange":
            one[3], other[3] = other[3], one[3]
        elif changed == "away":
            lines.remove(one)
        else:
            one[3] = str(int(one[3]) ^ 1 if changed == "flip" else draw.choice([0, 2, int(one[3]) + 2, 1000]))


def class_added(draw, lines):
    lines.insert(-1, draw.choice([["#@", "label", str(draw.randint(0, 99)), "0"], ["#@", "net", "none", "7777"]]))


def pins_exchanged(draw, lines):
    line = some(draw, lines, ".gate")
    if line and len(line) > 4:
        one, other = draw.sample(range(2, len(line) - 1), 2)
        (a, x), (b, y) = line[one].split("="), line[other].split("=")
        line[one], line[other] = f"{a}={y}", f"{b}={x}"


def pin_moved(draw, lines):
    line, other = some(draw, lines, ".gate"), some(draw, lines, ".gate")
    if line and len(line) > 3:
        at = draw.randrange(2, len(line) - 1)
        line[at] = line[at].split("=")[0] + "=" + other[-1].split("=")[1]


def gate_removed(draw, lines):
    line = some(draw, lines, ".gate")
    if line:
        lines.remove(line)


def gate_doubled(draw, lines):
    """A gate stands twice, under two names and with one class, and another reads the second."""
    line = some(draw, lines, ".gate")
    if not line:
        return
    name = line[-1].split("=")[1]
    known = some(draw, lines, "#@", "net", name)
    lines.insert(lines.index(line) + draw.randint(0, 1), line[:-1] + [line[-1].split("=")[0] + "=again"])
    if known and draw.random() < 0.9:
        lines.insert(-1, ["#@", "net", "again", known[3]])
    for other in lines:
        if other[0] == ".gate" and other[-1].split("=")[1] not in ("again", name) and draw.random() < 0.5:
            other[2:-1] = [word.split("=")[0] + "=again" if word.split("=")[1] == name else word for word in other[2:-1]]


def cell_slowed(draw, lines):
    line = some(draw, lines, ".gate")
    if line:
        line[1] = "s" + line[1][1:]


def latch_changed(draw, lines):
    line, other = some(draw, lines, ".latch"), some(draw, lines, ".latch")
    if line and draw.random() < 0.3:
        one, two = lines.index(line), lines.index(other)
        lines[one], lines[two] = lines[two], lines[one]
    elif line:
        at = draw.randrange(1, len(line))
        line[at] = draw.choice(["re", "fe", "0", "i0", "q0", line[1]])


def ports_changed(draw, lines):
    line = some(draw, lines, draw.choice([".inputs", ".outputs"]))
    if line and len(line) > 2 and draw.random() < 0.7:
        one, other = draw.sample(range(1, len(line)), 2)
        line[one], line[other] = line[other], line[one]
    elif line and len(line) > 1:
        line.pop()


def arrival_changed(draw, lines):
    lines.insert(3, [".default_input_arrival", draw.choice(DELAYS), draw.choice(DELAYS)])


def gates_in_another_order(draw, lines):
    gates = [line for line in lines if line[0] == ".gate"]
    draw.shuffle(gates)
    lines[:] = [gates.pop() if line[0] == ".gate" else line for line in lines]


def any_line(draw, lines):
    lines[:] = [line.split(" ") for line in damaged(draw, [" ".join(line) for line in lines])]


DAMAGES = [label_moved, label_moved, label_removed, labels_all_lowered, class_changed, class_changed, class_added, pins_exchanged,
           pin_moved, gate_removed, gate_doubled, cell_slowed, cell_slowed, latch_changed, ports_changed, arrival_changed,
           gates_in_another_order, any_line, any_line]


def damaged_netlist(draw, text):
    lines = [line.split(" ") for line in text.splitlines()]
    # (the others take lines that are whole)
    for damage in sorted(draw.sample(DAMAGES, draw.choice([1, 1, 1, 2])), key=lambda one: one is any_line):
        damage(draw, lines)
    text = "".join(" ".join(line) + "\n" for line in lines)
    return text[:draw.randrange(len(text))] if draw.random() < 0.05 and text else text


# Damages of a text in Verilog. Each takes its tokens, what separates them among these, and changes them in place.

VERILOG = ["module ", "endmodule ", "input ", "output ", "wire ", "assign ", "(", ")", ",", ";", ".", "=", "/* */", "(* *)", "// \n", "/*",
           "(*", "\\", "\\a ", "a ", "i0 ", "x ", "u1 ", "c0 ", ".a(i0)", ", .a(i0)", "(.O(x))", "assign x = i0;\n", "wire x;\n", "\r", "\f",
           "0", "$", "#", "[0]", "1'b0", "\x7f", "\"", "*", "/"]


def names_made_plain(draw, tokens):
    """Names without their backslash, where they are plain and no keyword."""
    for at, token in enumerate(tokens):
        if re.fullmatch(r"\\[a-z_]\w* ", token) and draw.random() < 0.9:
            tokens[at] = token[1:]


def comments_put_in(draw, tokens):
    for _ in range(draw.randint(1, 5)):
        tokens.insert(draw.randrange(len(tokens)), draw.choice(["/* a\n*/", "(* a *)", "// a\n", " \t\r\n\f"]))


def token_changed(draw, tokens):
    at = draw.randrange(len(tokens))
    other = draw.choice([draw.choice(tokens), draw.choice(VERILOG)])
    tokens[at:at + 1] = draw.choice([[], [tokens[at]] * 2, [other], [other, tokens[at]]])


def statement_changed(draw, tokens):
    """A statement left out, doubled or moved."""
    ends = [0] + [at + 1 for at, token in enumerate(tokens) if token == ";"]
    if len(ends) > 1:
        at = draw.randrange(len(ends) - 1)
        part = tokens[ends[at]:ends[at + 1]]
        tokens[ends[at]:ends[at + 1]] = draw.choice([[], part * 2])
        if draw.random() < 0.5:
            place = draw.choice(ends)
            tokens[place:place] = part


def damaged_verilog(draw, text):
    tokens = re.findall(r"\\\S+ |\w+ ?|\s|[^\w\s]", text)
    for damage in draw.sample([names_made_plain, comments_put_in, token_changed, token_changed, statement_changed], draw.choice([1, 1, 2, 3])):
        damage(draw, tokens)
    text = "".join(tokens)
    return text[:draw.randrange(len(text))] if draw.random() < 0.05 and text else text
