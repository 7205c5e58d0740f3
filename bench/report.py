#!/usr/bin/env python3
"""bench/report.py MACHINE FIGURES BENCHMARKS.md PLOT.svg

Writes the table and the plot of what bench/run measured, and says which calls miss what is to be reached: at most 1.3 times plain C, flat per row
from the smallest graph to the largest, and no call but two slower than the crate. Status 1 where one does.
"""

import math
import sys

MOST_RATIO = 1.3
MOST_GROWTH = 1.2  # per row, from the smallest graph to the largest; of times, beyond what plain C grows
EXCEPTIONS = ("compress_property", "gate_init_to_constraint")  # may be slower than the crate where plain C is too: EXCEPTED says why

INTRODUCTION = """# Benchmarks

Written by `bench/run`, which measures every call on a whole graph by the library (`target/staticlib`) and by the same job in plain C, checks included (`bench/plain`),
compiled with -O2 for x86-64 in the same run. Before that it gives both the same graphs and compares every word that is lent and everything that is told: all were equal.

The graphs (`bench/graphs.c`) have a leaf in 16 rows, half of them inputs and half latches; gates over mostly near fanins, among them exclusive ors and if-then-elses; and
a root in 64 rows in each list. Rows are those of the graph that is read, or, where a call adds rows, those lent for the result: `merge` and `unroll` work on two graphs of
half as many, `unroll_to` adds three frames to a quarter; of `aig_move`, `compress_property` and `gate_init_to_constraint` a sixteenth of the rows is free. `cnf` has the shortcuts on, and a buffer of 2 + 16·gates words.

`unroll`, `unroll_to`, `gate_init_to_constraint` and `cnf` have to know their need before they write. The C counts it only where the most that they can need does not fit; here it fits.
"""

MEANING = {
    "instructions": """Instructions per row of one call: those of a run with the call once more, less those of a run without (`bench/work`).
Memory is set by the C library, 16 bytes an instruction, on both sides alike.""",
    "nanoseconds": """Nanoseconds per row of one call, the least of nine runs, each on memory that was just written.
Large graphs do not fit into the caches, so times grow on both sides: a call is flat here where it grows no more than the C does.""",
}

CRATE = """The crate runs over stand-ins for its two dependencies ([DIFFERENCES.md](DIFFERENCES.md)), with the standard hash maps; and it checks nothing,
so `check` has no counterpart. A graph that it changes has no room yet to grow into."""

EXCEPTED = """Two calls cannot be as fast as the crate on small graphs: `compress_property` and `gate_init_to_constraint` touch a list or two, and so does the crate,
but document 01 wants every row checked first, and there even plain C with that check takes longer than the crate."""


def read(path):
    """{unit: {call: {side: {rows: amount per row}}}}, calls in the order in which they were measured."""
    figures = {}
    with open(path) as lines:
        for line in lines:
            unit, call, rows, side, amount = line.split()
            by_rows = figures.setdefault(unit, {}).setdefault(call, {}).setdefault(side, {})
            by_rows[int(rows)] = int(amount) / int(rows)
    return figures


def ratios(sides, other):
    return {rows: sides["library"][rows] / amount for rows, amount in sides.get(other, {}).items()}


def growth(by_rows):
    return by_rows[max(by_rows)] / by_rows[min(by_rows)]


def steepness(unit, sides):
    own = growth(sides["library"])
    return own / growth(sides["plain"]) if unit == "nanoseconds" else own


def size_name(rows):
    power = rows.bit_length() - 1
    return f"2^{power}" if rows == 1 << power else f"{rows:,}"


def table(unit, calls):
    sizes = sorted(next(iter(calls.values()))["library"])
    crate = any("crate" in sides for sides in calls.values())
    heads = [f"{size_name(rows)} rows: library, C" for rows in sizes]
    heads = [part for head in heads for part in (head, "ratio")] + ["growth per row" + (" / of C" if unit == "nanoseconds" else "")]
    heads += [f"crate / library at {size_name(rows)}" for rows in sizes] if crate else []
    lines = ["| call | " + " | ".join(heads) + " |", "|---" * (len(heads) + 1) + "|"]
    for call, sides in calls.items():
        ratio = ratios(sides, "plain")
        cells = [call]
        for rows in sizes:
            cells += [f"{sides['library'][rows]:.2f}, {sides['plain'][rows]:.2f}", f"{ratio[rows]:.2f}"]
        cells.append(f"{steepness(unit, sides):.2f}")
        if crate:
            cells += [f"{1 / r:.2f}" for _, r in sorted(ratios(sides, "crate").items())] or ["-"] * len(sizes)
        lines.append("| " + " | ".join(cells) + " |")
    return "\n".join(lines)


def verdict(unit, calls):
    """Whether all is reached, and a line that says so."""
    over, steep, slow, excepted = [], [], [], []
    for call, sides in calls.items():
        worst = max(ratios(sides, "plain").values())
        if worst > MOST_RATIO:
            over.append(f"{call} {worst:.2f}")
        if steepness(unit, sides) > MOST_GROWTH:
            steep.append(f"{call} {steepness(unit, sides):.2f}")
        slower = [rows for rows, ratio in ratios(sides, "crate").items() if ratio > 1]
        if slower:
            excused = call in EXCEPTIONS and all(sides["plain"][rows] > sides["crate"][rows] for rows in slower)
            (excepted if excused else slow).append(call)
    crate = ", ".join(slow) or "none" if any("crate" in sides for sides in calls.values()) else "not measured"
    if excepted:
        crate += f"; as named exceptions: {', '.join(excepted)}"
    line = (
        f"verdict by {unit}, {len(calls)} calls: over {MOST_RATIO} times plain C: {', '.join(over) or 'none'}; "
        f"not flat: {', '.join(steep) or 'none'}; slower than the crate: {crate}"
    )
    return not (over or steep or slow), line


def document(machine, figures, plot):
    parts = [INTRODUCTION]
    kind = "native" if machine == "x86_64" else "the programs are for x86-64 and run under qemu-user, where times mean little: instructions are counted"
    parts.append(f"Machine: {machine}; {kind}.\n")
    for unit, calls in figures.items():
        parts.append(f"## {unit.capitalize()}\n\n{MEANING[unit]}\n\n{table(unit, calls)}\n")
        if any("crate" in sides for sides in calls.values()):
            parts.append(CRATE + "\n")
    if machine != "x86_64":
        parts.append("The crate was not measured: it would run natively and the library would not.\n")
    parts.append(EXCEPTED + "\n")
    parts.append(f"![Work per row against rows]({plot})\n")
    parts += [f"The {verdict(unit, calls)[1]}.\n" for unit, calls in figures.items()]
    return "\n".join(parts)


WIDE, HIGH, LEFT, TOP, COLUMNS = 220, 150, 46, 34, 4


def panel(call, sides, x, y):
    """One call: work per row against rows, from 0 up."""
    most = max(amount for by_rows in sides.values() for amount in by_rows.values()) * 1.15
    sizes = sorted(sides["library"])
    logs = [math.log2(rows) for rows in sizes]
    span = logs[-1] - logs[0] or 1
    width, height = WIDE - LEFT - 16, HIGH - TOP - 26

    def place(rows, amount):
        return x + LEFT + (math.log2(rows) - logs[0]) / span * width, y + TOP + height * (1 - amount / most)

    lines = [f'<text class="name" x="{x + LEFT}" y="{y + TOP - 10}">{call}</text>']
    for part in (0, 0.5, 1):
        level = y + TOP + height * (1 - part)
        lines.append(f'<line class="grid" x1="{x + LEFT}" y1="{level:.1f}" x2="{x + LEFT + width}" y2="{level:.1f}"/>')
        lines.append(f'<text class="axis" text-anchor="end" x="{x + LEFT - 5}" y="{level + 3:.1f}">{part * most:.3g}</text>')
    for rows in sizes:
        lines.append(f'<text class="axis" text-anchor="middle" x="{place(rows, 0)[0]:.1f}" y="{y + TOP + height + 14}">{size_name(rows)}</text>')
    for side, by_rows in sides.items():
        points = [place(rows, by_rows[rows]) for rows in sizes]
        lines.append(f'<polyline class="{side}" points="' + " ".join(f"{a:.1f},{b:.1f}" for a, b in points) + '"/>')
        lines += [f'<circle class="{side}" cx="{a:.1f}" cy="{b:.1f}" r="2.5"/>' for a, b in points]
    return "\n".join(lines)


def plot(unit, calls):
    count = len(calls)
    height = 40 + HIGH * math.ceil(count / COLUMNS)
    sides = list(dict.fromkeys(side for by_side in calls.values() for side in by_side))
    names = {"library": "library", "plain": "plain C", "crate": "crate"}
    lines = [
        f'<svg xmlns="http://www.w3.org/2000/svg" width="{WIDE * COLUMNS}" height="{height}" font-family="sans-serif">',
        "<style>.name{font-size:12px;font-weight:bold}.axis{font-size:9px;fill:#555}.grid{stroke:#ddd}polyline{fill:none;stroke-width:1.6}"
        "polyline.library{stroke:#1f5fa8}circle.library,text.library{fill:#1f5fa8}polyline.plain{stroke:#d07000}circle.plain,text.plain{fill:#d07000}"
        "polyline.crate{stroke:#4a8a3a}circle.crate,text.crate{fill:#4a8a3a}</style>",
        f'<rect width="{WIDE * COLUMNS}" height="{height}" fill="white"/>',
        f'<text x="{LEFT}" y="22" font-size="14">{unit.capitalize()} per row against rows</text>',
    ]
    lines += [f'<text class="{side}" x="{330 + 90 * i}" y="22" font-size="13">{names[side]}</text>' for i, side in enumerate(sides)]
    for i, (call, by_side) in enumerate(calls.items()):
        lines.append(panel(call, by_side, WIDE * (i % COLUMNS), 30 + HIGH * (i // COLUMNS)))
    return "\n".join(lines + ["</svg>", ""])


def main():
    machine, path, document_path, plot_path = sys.argv[1:]
    figures = read(path)
    # the first unit that was measured: instructions where they are counted
    unit = next(iter(figures))
    with open(plot_path, "w") as out:
        out.write(plot(unit, figures[unit]))
    with open(document_path, "w") as out:
        out.write(document(machine, figures, plot_path.rsplit("/", 1)[-1]))
    reached = True
    for unit, calls in figures.items():
        good, line = verdict(unit, calls)
        reached = reached and good
        print(line)
    return 0 if reached else 1


if __name__ == "__main__":
    sys.exit(main())
