#!/usr/bin/env python3
"""Makes docs/kernels.svg: how long the kernels take beside plain Rust, by the figures of run.sh.

usage: bench/picture.py [--to FILE] FIGURES    (docs/kernels.svg, from what run.sh --json wrote)

Drawn are the lines at 1,048,576 rows beside plain Rust. Those whose names differ only in the type
of the numbers, in its `nulls` or in `aligned` are marks of one row.
"""
import argparse
import html
import json
import math
import pathlib
import re

ROOT = pathlib.Path(__file__).resolve().parent.parent
ROWS = 1_048_576
# What the names of one row's lines differ in.
FORMS = re.compile(r"(?<! of) (?:[iu]\d+(?:, nulls)?|bool)\b|, aligned\b")
# Groups of rows, and which names they have. The first that fits counts.
FAMILIES = (
    ("Comparisons", r"(tot_\w+|equal|less|from_bools)(, constant)?"),
    ("Bitmaps", r"and|or|xor|not|merge_eq|merge_ne|set_bits|num_intersections_with"),
    ("Sums, extremes, counts", r"(sum|min|max|reduce_\w+|count_ones|\w+_zeros)(, .*)?"),
    ("Arithmetic", r"(add|sub|mul|abs|neg|floor_div|trunc_div|mod)(_scalar)?(, .*)?"),
    ("Strings", r".* (views|texts|sized) \d.*"),
    ("Lists, structs, dictionaries", r".* (lists|structs|dictionary) .*"),
    ("Distinct values", r"distinct\b.*"),
    ("Others", r".*"),
)
# Ratios on the axis. What is beyond it stands at its end.
STEPS = (0.02, 0.05, 0.1, 0.2, 0.5, 1, 2, 5)
# of the picture, in its units
MARGIN, NAMES, PLOT, SPANS, ROW, GAP, TOP, BOTTOM = 20, 320, 420, 112, 18, 14, 140, 62
LEFT, RIGHT = MARGIN + NAMES, MARGIN + NAMES + PLOT
WIDTH = RIGHT + SPANS + MARGIN
FONT = "ui-monospace, SFMono-Regular, Menlo, Consolas, 'DejaVu Sans Mono', monospace"
STYLE = """.ground { fill: #ffffff } text { fill: #1f2328 } .dim { fill: #59636e }
.grid { stroke: #d8dee4 } .one { stroke: #59636e; stroke-width: 1.5 }
.span { stroke: #c5ccd4; stroke-width: 4; stroke-linecap: round }
.held { fill: #0969da; stroke: #ffffff } .over { fill: #bc4c00; stroke: #ffffff }
.free { fill: #ffffff; stroke: #59636e }
@media (prefers-color-scheme: dark) {
.ground { fill: #0d1117 } text { fill: #e6edf3 } .dim { fill: #8b949e }
.grid { stroke: #262c36 } .one { stroke: #8b949e } .span { stroke: #3d444d }
.held { fill: #4493f8; stroke: #0d1117 } .over { fill: #f0883e; stroke: #0d1117 }
.free { fill: #0d1117; stroke: #8b949e }
}"""


def refuse(why):
    """Ends the program with a message."""
    raise SystemExit(f"picture.py: {why}")


def figures(file):
    """Returns what a file of figures says of its run, and its lines."""
    try:
        lines = file.read_text(encoding="utf-8").splitlines()
        objects = [json.loads(line) for line in lines if line.strip()]
    except (OSError, ValueError) as error:
        refuse(f"{file} has no figures: {error}")
    runs = [it for it in objects if isinstance(it, dict) and "processor" in it]
    if len(runs) != 1:
        refuse(f"{file} has to name its processor once, and does so {len(runs)} times")
    return runs[0], [it for it in objects if isinstance(it, dict) and "kernel" in it]


def is_drawn(line):
    """Returns whether a line is drawn."""
    ratio = line.get("ratio")
    is_ratio = isinstance(ratio, (int, float)) and math.isfinite(ratio) and ratio > 0
    return is_ratio and line.get("rows") == ROWS and line.get("beside") == "plain Rust"


def families(lines):
    """Returns the families that have rows: for each its name, and the lines of each row."""
    found = {title: {} for title, _ in FAMILIES}
    for line in filter(is_drawn, lines):
        name = FORMS.sub("", str(line["kernel"]))
        title = next(title for title, names in FAMILIES if re.fullmatch(names, name, re.S))
        found[title].setdefault(name, []).append(line)
    return {title: rows for title, rows in found.items() if rows}


def at(ratio):
    """Returns where a ratio stands from left to right."""
    least, most = STEPS[0], STEPS[-1]
    part = math.log(min(max(ratio, least), most) / least) / math.log(most / least)
    return round(LEFT + PLOT * part, 1)


def text(x, y, words, rest=""):
    """Returns a text as SVG."""
    return f'<text x="{x}" y="{y}" {rest}>{html.escape(words)}</text>'


def mark(x, y, held, title=""):
    """Returns a mark: of a line that holds what is asked, that does not, or of which nothing is."""
    told = f"<title>{html.escape(title)}</title>" if title else ""
    if held is False:
        return f'<path class="over" d="M{x} {y - 6}l6 6-6 6-6-6z">{told}</path>'
    kind = "held" if held else "free"
    return f'<circle class="{kind}" cx="{x}" cy="{y}" r="{4.5 if held else 3.5}">{told}</circle>'


def beyond(y, least, most):
    """Makes an arrow where a ratio is beyond the axis."""
    if least < STEPS[0]:
        yield f'<path class="one" fill="none" d="M{LEFT - 7} {y - 3}l-3 3 3 3"/>'
    if most > STEPS[-1]:
        yield f'<path class="one" fill="none" d="M{RIGHT + 7} {y - 3}l3 3-3 3"/>'


def figure(ratio):
    """Returns a ratio in words."""
    return f"{ratio:.2f}" if ratio >= 0.1 else f"{ratio:.3f}"


def row(y, name, lines):
    """Makes a row: its name, a mark for each line, and from which ratio to which they are."""
    ratios = sorted(line["ratio"] for line in lines)
    least, most = ratios[0], ratios[-1]
    yield text(LEFT - 14, y + 4, name, 'text-anchor="end"')
    yield f'<line class="grid" x1="{LEFT}" x2="{RIGHT}" y1="{y}" y2="{y}" stroke-dasharray="1 5"/>'
    yield f'<line class="span" x1="{at(least)}" x2="{at(most)}" y1="{y}" y2="{y}"/>'
    for line in lines:
        title = f"{line['kernel']}: {figure(line['ratio'])}"
        yield mark(at(line["ratio"]), y, line.get("held"), title)
    yield from beyond(y, least, most)
    span = figure(least) if len(lines) == 1 else f"{figure(least)} – {figure(most)}"
    yield text(RIGHT + 14, y + 4, span, 'class="dim"')


def axis(top, bottom):
    """Makes the lines of the axis, with their ratios above and below."""
    for step in STEPS:
        x, kind = at(step), "one" if step == 1 else "grid"
        yield f'<line class="{kind}" x1="{x}" x2="{x}" y1="{top}" y2="{bottom}"/>'
        for y in (top - 6, bottom + 16):
            rest = 'text-anchor="middle"' + (' font-weight="bold"' if step == 1 else ' class="dim"')
            yield text(x, y, "1.0" if step == 1 else f"{step:g}", rest)


def legend(y):
    """Makes what the marks mean."""
    meanings = (
        (True, "as fast as is asked"),
        (False, "slower than is asked"),
        (None, "nothing is asked"),
    )
    x = MARGIN + 4
    for held, meaning in meanings:
        yield mark(x, y, held)
        yield text(x + 12, y + 4, meaning)
        x += 7.3 * len(meaning) + 40


def machine(run):
    """Returns on what the figures were made."""
    rounds = run.get("rounds", "?")
    words = f"{run['processor']}, {run.get('level', '?')}, {str(run.get('date', '?'))[:10]}"
    if run.get("quick"):
        return f"{words}. Rough figures of a quick run"
    return f"{words}, the best of {rounds} round{'' if rounds == 1 else 's'}"


def head():
    """Makes the title, and what the picture shows."""
    yield text(MARGIN, 34, "Kernels beside plain Rust", 'font-size="18" font-weight="bold"')
    told = f"The time of a kernel divided by that of plain Rust, at {ROWS:,} rows. Left of 1.0 the"
    yield text(MARGIN, 58, f"{told} kernel is faster.")
    told = "A mark is a type of numbers, without or with nulls, or a bitmap at differing places."
    yield text(MARGIN, 76, told)
    yield from legend(96)


def body(found):
    """Returns the rows of all families, and where they end."""
    y, parts = TOP, []
    for title, rows in found.items():
        y += GAP
        parts.append(text(LEFT - 14, y + 4, title, 'text-anchor="end" font-weight="bold"'))
        for name, lines in rows.items():
            y += ROW
            parts += row(y, name, lines)
        y += ROW
    return parts, y


def picture(run, found):
    """Returns the picture."""
    rows, end = body(found)
    height = end + BOTTOM
    foot = text(MARGIN, height - 18, machine(run), 'class="dim"')
    parts = "\n".join([*head(), *axis(TOP, end), *rows, foot])
    box = f'viewBox="0 0 {WIDTH} {height}" width="{WIDTH}" height="{height}"'
    return f"""<svg xmlns="http://www.w3.org/2000/svg" {box}
  role="img" aria-label="The times of the kernels beside those of plain Rust"
  font-family="{FONT}" font-size="12">
<style>
{STYLE}
</style>
<rect class="ground" width="{WIDTH}" height="{height}" rx="8"/>
{parts}
</svg>
"""


def main():
    parser = argparse.ArgumentParser(
        description="Draws how long the kernels take beside plain Rust."
    )
    target = ROOT / "docs/kernels.svg"
    parser.add_argument("--to", type=pathlib.Path, default=target, metavar="FILE")
    parser.add_argument("figures", type=pathlib.Path, help="what run.sh --json wrote")
    words = parser.parse_args()
    run, lines = figures(words.figures)
    found = families(lines)
    if not found:
        refuse(f"{words.figures} has no line at {ROWS:,} rows beside plain Rust")
    words.to.write_text(picture(run, found), encoding="utf-8")


if __name__ == "__main__":
    main()
