#!/usr/bin/env python3
"""Looks at pages in a real browser, Debian's chromium without a window:

  look.py [-s FOLDER] PAGE..

Each PAGE is read as a text first: it may hold no script and no address of the network, and each picture has a text. Then it is laid out
400 and 1000 pixels wide, in light and in dark, and printed. Nothing may stick out of the page, but in a part that scrolls by itself; each
text has a contrast of 4.5 to its ground (3 where it is large) and each shape one of 3, as WCAG 2 AA counts; each sign has a glyph; and the
paper has every number of the tables. With -s the layouts go to FOLDER as pictures, for the eye.

What is wrong is printed. The last line is 'N looked at, N wrong'; the status is 0 if nothing is.
"""
import html
import json
import os
import re
import shutil
import subprocess
import sys
import tempfile

WIDTHS, HIGH = (400, 1000), 6000
SCHEMES = {"light": 1, "dark": 0}
SCRIPT = """
function rgb(said) { const m = said.match(/[\\d.]+/g); return m ? m.map(Number) : null; }
function light(c) { const f = v => { v /= 255; return v <= 0.03928 ? v / 12.92 : Math.pow((v + 0.055) / 1.055, 2.4); };
  return 0.2126 * f(c[0]) + 0.7152 * f(c[1]) + 0.0722 * f(c[2]); }
function contrast(a, b) { const x = light(a), y = light(b); return (Math.max(x, y) + 0.05) / (Math.min(x, y) + 0.05); }
function solid(said) { const c = rgb(said || ""); return c && (c.length < 4 || c[3] === 1) && said !== "none" ? c : null; }
function ground(e) {
  const box = e.parentNode && e.parentNode.querySelector && e.closest("g") && e.closest("g").querySelector("rect.box");
  if (box && box !== e) return solid(getComputedStyle(box).fill);
  for (let at = e.tagName === "rect" || e.ownerSVGElement ? (e.ownerSVGElement || e).parentNode : e; at && at.nodeType === 1; at = at.parentNode) {
    const c = solid(getComputedStyle(at).backgroundColor); if (c) return c; }
  return rgb(matchMedia("(prefers-color-scheme: dark)").matches ? "0,0,0" : "255,255,255");
}
function seen(e) { const r = e.getBoundingClientRect(); return r.width > 0 && r.height > 0; }
function pixels(sign, font) {
  const c = document.createElement("canvas"); c.width = c.height = 40; const g = c.getContext("2d", { willReadFrequently: true });
  g.font = font; g.fillText(sign, 8, 28); return g.getImageData(0, 0, 40, 40).data.join();
}
function look() {
  const wrong = [], wide = innerWidth, signs = new Set();
  if (document.scrollingElement.scrollWidth > wide) wrong.push("the page is " + document.scrollingElement.scrollWidth + " wide, wider than " + wide);
  let texts = 0, shapes = 0;
  for (const e of document.body.querySelectorAll("*")) {
    if (!seen(e)) continue;
    const r = e.getBoundingClientRect(), style = getComputedStyle(e);
    if (r.right > wide + 1 && !e.closest(".scroll")) wrong.push(e.tagName + " '" + e.textContent.slice(0, 40) + "' ends at " + r.right);
    if (/^(path|line|rect|circle|polygon)$/.test(e.tagName) && !/rule|ground|box/.test(e.getAttribute("class") || "")) {
      shapes++;
      const c = solid(style.stroke) || solid(style.fill), b = ground(e.ownerSVGElement);
      if (!c || contrast(c, b) < 3) wrong.push("shape " + e.getAttribute("class") + ": contrast " + (c ? contrast(c, b).toFixed(2) : "unknown"));
    }
    const own = [...e.childNodes].filter(n => n.nodeType === 3 && n.textContent.trim()).map(n => n.textContent).join("");
    if (!own || e.tagName === "title" || e.tagName === "STYLE") continue;
    texts++;
    for (const sign of own) if (sign.trim()) signs.add(sign);
    const size = parseFloat(style.fontSize), large = size >= 24 || size >= 18.66 && parseInt(style.fontWeight) >= 700;
    const c = solid(e.ownerSVGElement ? style.fill : style.color), b = ground(e);
    if (!c || contrast(c, b) < (large ? 3 : 4.5)) wrong.push("text '" + own.slice(0, 40) + "': contrast " + (c ? contrast(c, b).toFixed(2) : "unknown"));
    if (size < 10.9) wrong.push("text '" + own.slice(0, 40) + "' is " + size + " pixels high");
  }
  const font = "20px " + getComputedStyle(document.body).fontFamily, none = pixels("\\u{10FFFE}", font);
  for (const sign of signs) if (pixels(sign, font) === none) wrong.push("no glyph for '" + sign + "', U+" + sign.codePointAt(0).toString(16));
  return { wrong: wrong, texts: texts, shapes: shapes, wide: wide, dark: matchMedia("(prefers-color-scheme: dark)").matches, high: document.scrollingElement.scrollHeight };
}
parent.layouts = parent.layouts || []; parent.layouts[frameElement.dataset.place] = look();
parent.document.getElementById("found").textContent = JSON.stringify(parent.layouts);
"""


def chromium(words):
    home = tempfile.mkdtemp()
    try:
        return subprocess.run(["chromium", "--headless", "--no-sandbox", "--disable-gpu", "--hide-scrollbars", f"--user-data-dir={home}", *words],
                              stdout=subprocess.PIPE, stderr=subprocess.DEVNULL, timeout=600, check=False).stdout.decode("utf-8", "replace")
    finally:
        shutil.rmtree(home, ignore_errors=True)


def as_text(page):
    """What is wrong with the text of a page."""
    wrong = [f"it holds {found}" for found in re.findall(r"<script|https?:|javascript:|\son\w+=|<iframe|@import|url\(", page)]
    if "default-src 'none'" not in page:
        wrong.append("its policy lets something be loaded")
    for picture in re.findall(r"<svg[^>]*>.{0,40}", page, re.S):
        if 'aria-hidden="true"' not in picture and not re.search(r'role="img">\s*<title>\S', picture):
            wrong.append(f"a picture has no text: {picture[:60]}")
    wrong += [f"a head of a column has no scope: {head}" for head in re.findall(r"<th>|<th class[^>]*>", page)]
    levels = [int(level) for level in re.findall(r"<h(\d)", page)]
    if levels[:1] != [1] or levels.count(1) != 1 or any(b > a + 1 for a, b in zip(levels, levels[1:])):
        wrong.append(f"the headings are {levels}")
    return wrong


def wrapped(pages):
    """A page of frames: each page at each width, with the script that looks at it."""
    frames = []
    for page in pages:
        page = re.sub(r'<meta http-equiv="Content-Security-Policy"[^>]*>', "", page).replace("</body>", f"<script>{SCRIPT}</script></body>")
        for width in WIDTHS:
            frames.append(f'<iframe data-place="{len(frames)}" srcdoc="{html.escape(page)}" style="width:{width}px;height:{HIGH}px;border:0"></iframe>')
    return f'<!DOCTYPE html><meta charset="utf-8"><body style="margin:0"><pre id="found"></pre>{"".join(frames)}</body>'


def laid_out(pages, room, scheme):
    """What the browser found, by page and width."""
    path = os.path.join(room, f"frames.{scheme}.html")
    with open(path, "w", encoding="utf-8") as out:
        out.write(wrapped(pages))
    dom = chromium([f"--blink-settings=preferredColorScheme={SCHEMES[scheme]}", "--virtual-time-budget=10000", "--dump-dom", f"file://{path}"])
    found = re.search(r'<pre id="found">(.*?)</pre>', dom, re.S)
    return json.loads(html.unescape(found[1])) if found and found[1] else []


def on_paper(path, page, room):
    """What is wrong on paper: every number of the tables has to be there, and every font in the file."""
    made = os.path.join(room, "page.pdf")
    chromium([f"--print-to-pdf={made}", "--no-pdf-header-footer", f"file://{os.path.abspath(path)}"])
    if not os.path.exists(made):
        return ["it was not printed"]
    if not shutil.which("pdftotext"):
        print("skipped: pdftotext is not on this machine (poppler-utils), so the printed page was not looked at")
        return []
    paper = subprocess.run(["pdftotext", "-layout", made, "-"], stdout=subprocess.PIPE, check=False).stdout.decode("utf-8", "replace")
    numbers = set(re.findall(r'<td class="n">([^<]+)</td>', page))
    return [f"{number} is not on paper" for number in sorted(numbers) if html.unescape(number) not in paper]


def save(path, page, folder, room):
    """The layouts as pictures."""
    name = os.path.basename(os.path.dirname(os.path.abspath(path))) or "page"
    for scheme, number in SCHEMES.items():
        for width in WIDTHS:
            frame = os.path.join(room, "frame.html")
            with open(frame, "w", encoding="utf-8") as out:
                out.write(f'<body style="margin:0"><iframe srcdoc="{html.escape(page)}" style="width:{width}px;height:3000px;border:0"></iframe>')
            chromium([f"--blink-settings=preferredColorScheme={number}", f"--window-size={max(500, width)},3000",
                      f"--screenshot={os.path.join(folder, f'{name}.{width}.{scheme}.png')}", f"file://{frame}"])


def main(words):
    folder = words[1] if words[:1] == ["-s"] else None
    paths = words[2:] if folder else words
    pages = []
    for path in paths:
        with open(path, encoding="utf-8") as file:
            pages.append(file.read())
    wrong = [f"{path}: {one}" for path, page in zip(paths, pages) for one in as_text(page)]
    looked = 0
    with tempfile.TemporaryDirectory() as room:
        for scheme in SCHEMES:
            found = laid_out(pages, room, scheme)
            for place, path in enumerate(path for path in paths for _ in WIDTHS):
                one = found[place] if place < len(found) else None
                width = WIDTHS[place % len(WIDTHS)]
                if not one or one["wide"] != width or one["dark"] != (scheme == "dark") or one["texts"] < 20 or one["shapes"] < 5:
                    wrong.append(f"{path}: was not laid out {width} wide in {scheme}")
                    continue
                looked += one["texts"] + one["shapes"]
                wrong += [f"{path}, {width} wide, {scheme}: {said}" for said in one["wrong"][:8]]
        for path, page in zip(paths, pages):
            wrong += [f"{path}: {said}" for said in on_paper(path, page, room)[:8]]
            if folder:
                save(path, page, folder, room)
    print("".join(line + "\n" for line in wrong) + f"{looked} looked at, {len(wrong)} wrong")
    return len(wrong) > 0 or looked == 0


if __name__ == "__main__":
    sys.exit(main(sys.argv[1:]))
