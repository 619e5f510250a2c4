#!/usr/bin/env python3
"""Tables and plot of measured ratios: report.py RESULTS.csv PLOT.svg PAGE.. writes the plot and sets the tables into the pages.

A ratio is that of the archive to the plain C, which the targets are about, or to the quick C where that is said.
A page has the lines <!-- measured: NAME --> and <!-- end -->, with NAME as summary, tables or missed; what stands between them is replaced.
A ratio is told as its median over the runs, and in brackets the least and the greatest of a run."""
import csv
import math
import re
import statistics
import sys


def read(path):
    """For each thing measured (what, which, rows, bytes) the lines of all runs, in the order of the file."""
    found = {}
    with open(path, newline="") as file:
        for line in csv.DictReader(file):
            key = (line["what"], line["which"], int(line["rows"]), int(line["bytes"]))
            found.setdefault(key, []).append(line)
    return found


def middle(lines, column="ratio"):
    return statistics.median(float(line[column]) for line in lines)


def ends(lines, column="ratio"):
    ratios = [float(line[column]) for line in lines]
    return min(ratios), max(ratios)


def has_quick(lines):
    """Whether the quick C was timed too."""
    return all(line.get("to_quick") for line in lines)


def spread(lines, column="ratio"):
    if column == "to_quick" and not has_quick(lines):
        return "-"
    return "%.2f (%.2f to %.2f)" % (middle(lines, column), *ends(lines, column))


# ---- tables


def table(title, head, rows):
    """A table's lines, with a title where it has one."""
    yield from [title, ""] if title else []
    yield "| " + " | ".join(head) + " |"
    yield "|" + "---|" * len(head)
    for row in rows:
        yield "| " + " | ".join(row) + " |"
    yield ""


def chosen(found, what, which=None):
    return [(key, lines) for key, lines in found.items() if key[0] == what and which in (None, key[1])]


def number(n):
    return "{:,}".format(n)


def load_tables(found):
    yield from table("Load by sort of image", ["Image", "Bytes", "Ratio"],
                     [[key[1], number(key[3]), spread(lines)] for key, lines in chosen(found, "load")])
    rows = []
    first = {}
    for key, lines in chosen(found, "load by size"):
        length = key[3] / first.setdefault(key[1], key[3])
        rows.append([key[1], number(key[3]), spread(lines), "%.1f" % length,
                     "%.1f" % middle(lines, "archive"), "%.1f" % middle(lines, "plain")])
    yield from table("Load by image size; length and times as multiples of those at a sixteenth of the relations and clauses",
                     ["Image", "Bytes", "Ratio", "Length", "Archive", "Plain C"], rows)


def text_tables(found):
    """Parse and print, where they were measured."""
    for what in ("parse", "print"):
        rows = [[key[1], number(key[3]), spread(lines)] for key, lines in chosen(found, what)]
        grown = [[key[1], number(key[3]), spread(lines), *multiples(lines)] for key, lines in chosen(found, what + " by size")]
        if rows:
            yield from table("%s by sort of text" % what.capitalize(), ["Text", "Bytes", "Ratio"], rows)
        if grown:
            yield from table("%s by length of text; times as multiples of those at a sixteenth" % what.capitalize(),
                             ["Text", "Bytes", "Ratio", "Archive", "Plain C"], grown)


def run_table(found):
    yield from table("Run of a whole plan", ["Plan", "Bytes", "Rows at the end", "Ratio", "To quick C"],
                     [[key[1], number(key[3]), str(key[2]), spread(lines), spread(lines, "to_quick")]
                      for key, lines in chosen(found, "run")])


def traced_table(found):
    """What a trace adds to a run, where it was measured."""
    rows = [[key[1], number(key[3]), str(key[2]), spread(lines)] for key, lines in chosen(found, "traced run")]
    if rows:
        yield from table("A traced run of a whole plan over the plain one, both of the archive", ["Plan", "Bytes", "Rows at the end", "Ratio"], rows)


def woken_table(found):
    """What a woken call takes in nanoseconds, where it was measured."""
    rows = [[key[1], *("{:,.0f}".format(middle(lines, side)) for side in ("archive", "plain", "quick")),
             spread(lines), spread(lines, "to_quick")] for key, lines in chosen(found, "woken call")]
    if rows:
        yield from table("A woken call of the plan of records, in nanoseconds, its share of supplies and run calls counted in",
                         ["Counted", "Archive", "Plain C", "Quick C", "Ratio", "To quick C"], rows)


def grid_table(found, what, title, column="ratio"):
    """Ratios by rows in use, with a column for each image size; none where the quick C is asked for and was not timed."""
    keys = [key for key, lines in chosen(found, what) if column == "ratio" or has_quick(lines)]
    sizes = sorted({key[3] for key in keys})
    if keys:
        yield from table(title, ["Rows"] + [number(size) + " bytes" for size in sizes],
                         [[str(rows)] + [spread(found[what, "calls", rows, size], column) for size in sizes]
                          for rows in sorted({key[2] for key in keys})])


def multiples(lines):
    """How many times as long each side takes as at the first size: archive, plain C and, where it was timed, quick C."""
    sides = ("archive", "plain", "quick") if has_quick(lines) else ("archive", "plain")
    return ["%.1f" % middle(lines, side) for side in sides]


def report_table(found):
    """A report by rows in use, all but two of them below it."""
    yield from table("A report with all rows but two below it, each below the one before; times as multiples of those at 128 rows: "
                     "archive, plain C, quick C", ["Rows", "Ratio", "To quick C", "Times"],
                     [[str(key[2]), spread(lines), spread(lines, "to_quick"), ", ".join(multiples(lines))]
                      for key, lines in chosen(found, "report")])


def growth_table(found):
    """How a step and a call grow with the rows, on the shortest and the longest image."""
    keys = [key for key, _ in chosen(found, "step")]
    sizes = sorted({key[3] for key in keys})
    columns = [(what, size) for what in ("step", "call without a step") for size in (sizes[0], sizes[-1])]
    yield from table("Times as multiples of those at 16 rows: archive, plain C, and of a step quick C",
                     ["Rows"] + ["%s, %s bytes" % (what, number(size)) for what, size in columns],
                     [[str(rows)] + [", ".join(multiples(found[what, "calls", rows, size])) for what, size in columns]
                      for rows in sorted({key[2] for key in keys})])


GROWTH = 1.3  # most that a call less a load may take in the longest image, in times of the shortest


def grown(found):
    """For each number of rows the lines of the longest image of a call less a load; none where it was not measured."""
    keys = [key for key, _ in chosen(found, "call less a load")]
    longest = max((key[3] for key in keys), default=0)
    return [(key[2], found[key]) for key in keys if key[3] == longest]


def grown_table(found):
    """How a call less a load grows with the image."""
    sizes = sorted({key[3] for key, _ in chosen(found, "call less a load")})
    if sizes:
        yield from table("A call without a step less a load: its time with %s bytes over that with %s" % (number(sizes[-1]), number(sizes[0])),
                         ["Rows", "Archive", "Plain C"],
                         [[str(rows), spread(lines, "archive"), spread(lines, "plain")] for rows, lines in grown(found)])


def tables(found):
    yield "Of %d runs: the median, in brackets the least and the greatest." % max(map(len, found.values()))
    yield ""
    yield from load_tables(found)
    yield from text_tables(found)
    yield from run_table(found)
    yield from traced_table(found)
    yield from woken_table(found)
    yield from grid_table(found, "step", "A step, by rows in use and image size")
    yield from grid_table(found, "step", "A step to that of the quick C, by rows in use and image size", "to_quick")
    yield from grid_table(found, "call without a step", "A call without a step, by rows in use and image size")
    yield from grid_table(found, "supply", "A supply, by rows in use and image size")
    yield from growth_table(found)
    yield from grown_table(found)
    yield from report_table(found)


TARGETS = {"load": 1.2, "run": 1.6, "traced run": 1.2, "step": 2.0, "report": 2.0, "call without a step": 2.0, "supply": 2.0,
           "parse": 2.0, "print": 2.0}
WILD = ("wild goal", 1.5)  # the images of a load that have a target of their own


def target_of(what, which):
    """The target of a thing measured, by its name."""
    return WILD[1] if what == "load" and which.startswith(WILD[0]) else TARGETS[what]


def targets(found):
    """The things that have a target and were measured."""
    return [what for what in TARGETS if chosen(found, what)]


def target_text(what):
    return "%.1f" % TARGETS[what] + (", %s %.1f" % WILD if what == "load" else "")


def quick_range(cases):
    """The least and the greatest median of the archive to the quick C."""
    ratios = [middle(lines, "to_quick") for _, lines in cases if has_quick(lines)]
    return "%.2f to %.2f" % (min(ratios), max(ratios)) if ratios else "-"


def summary(found):
    """For each thing measured the least and the greatest median, the case of the greatest, and how many miss the target."""
    rows = []
    for what in targets(found):
        measured = chosen(found, what)
        cases = sorted((middle(lines), key) for key, lines in measured)
        ratio, (_, which, used, size) = cases[-1]
        case = "%s, %s bytes" % ("%d rows" % used if used and not what.endswith("run") else which, number(size))
        missed = sum(ratio > target_of(what, key[1]) for ratio, key in cases)
        rows.append([what, target_text(what), "%.2f" % cases[0][0], "%.2f (%s)" % (ratio, case),
                     "%d of %d" % (missed, len(cases)), quick_range(measured)])
    yield from table("", ["What", "Target", "Least ratio", "Greatest ratio", "Over the target", "To quick C"], rows)


def over(found, what):
    """The cases over a target: plans and images by name, the others by image size, with the fewest and the most rows."""
    told = []
    cases = [(key, lines, middle(lines) > target_of(what, key[1])) for key, lines in chosen(found, what)]
    if what in ("load", "run", "traced run", "parse", "print"):
        return ["%s %.2f" % (key[1], middle(lines)) for key, lines, missed in cases if missed]
    for size in sorted({key[3] for key, _, _ in cases}):
        here = [(key[2], missed) for key, _, missed in cases if key[3] == size]
        rows = [used for used, missed in here if missed]
        if rows:
            told.append("%s bytes at %d of %d (%d to %d rows)" % (number(size), len(rows), len(here), min(rows), max(rows)))
    return told


def missed(found):
    """What is over its target."""
    rows = [[what, target_text(what), "; ".join(over(found, what)) or "none"] for what in targets(found)]
    if grown(found):
        far = ["%.2f (%d rows)" % (middle(lines, "archive"), used) for used, lines in grown(found) if middle(lines, "archive") > GROWTH]
        rows.append(["call less a load, longest image over shortest", "%.1f" % GROWTH, "; ".join(far) or "none"])
    yield from table("", ["What", "Target", "Over it"], rows)


def set_into(page, blocks):
    """Sets what was measured between the marks of a page, by their names."""
    with open(page) as file:
        words = file.read()
    for name, lines in blocks.items():
        inside = "<!-- measured: %s -->\n\n" % name + "\n".join(lines) + "\n<!-- end -->"
        words = re.sub("<!-- measured: %s -->.*?<!-- end -->" % name, lambda _: inside, words, flags=re.S)
    with open(page, "w") as file:
        file.write(words)


# ---- plot

WIDE, HIGH, TOP, LOW, HIGHEST = 230, 210, 82, 0.5, 128

STYLE = """
  text { font: 12px sans-serif; fill: #1f2328 } .name { font-weight: bold; font-size: 13px }
  .quick { stroke-dasharray: 3 3 }
  .page { fill: #ffffff } .grid { stroke: #d1d9e0 } .axis { stroke: #59636e; fill: none } .goal { stroke: #59636e; stroke-dasharray: 5 4 }
  .s0 { stroke: #0072b2; fill: #0072b2 } .s1 { stroke: #c65102; fill: #c65102 }
  .s2 { stroke: #00785a; fill: #00785a } .s3 { stroke: #a0468c; fill: #a0468c } polyline { fill: none !important; stroke-width: 2 }
  @media (prefers-color-scheme: dark) {
    text { fill: #e6edf3 } .page { fill: #0d1117 } .grid { stroke: #30363d } .axis, .goal { stroke: #9198a1 }
    .s0 { stroke: #56b4e9; fill: #56b4e9 } .s1 { stroke: #ff9e4a; fill: #ff9e4a }
    .s2 { stroke: #2fc79a; fill: #2fc79a } .s3 { stroke: #e08fd0; fill: #e08fd0 } }"""


def log(low, high):
    """Where a number stands between two others, by its logarithm."""
    return lambda x: math.log(x / low) / math.log(high / low)


def text(x, y, words, more=""):
    return '<text x="%.1f" y="%.1f"%s>%s</text>' % (x, y, more and " " + more, words)


def stroke(kind, x, y, to_x, to_y):
    return '<line class="%s" x1="%.1f" y1="%.1f" x2="%.1f" y2="%.1f"/>' % (kind, x, y, to_x, to_y)


def height(ratio):
    if not LOW <= ratio <= HIGHEST:
        sys.exit("report.py: the plot has no place for a ratio of %.2f" % ratio)
    return TOP + HIGH * (1 - log(LOW, HIGHEST)(ratio))


def axes(left, name, along, place, ticks, goal):
    """The frame of one plot: ratios upward, what it is measured by along, and the ratio that is aimed at."""
    yield text(left, 20, name, 'class="name"')
    for ratio in (LOW * 2 ** k for k in range(round(math.log2(HIGHEST / LOW)) + 1)):
        yield stroke("grid", left, height(ratio), left + WIDE, height(ratio))
        yield text(left - 7, height(ratio) + 4, "%g" % ratio, 'text-anchor="end"')
    for tick in ticks:
        x = left + WIDE * place(tick)
        yield stroke("axis", x, TOP + HIGH, x, TOP + HIGH + 5)
        yield text(x, TOP + HIGH + 19, number(tick), 'text-anchor="middle"')
    yield text(left + WIDE / 2, TOP + HIGH + 40, along, 'text-anchor="middle"')
    yield '<path class="axis" d="M%.1f %.1fV%.1fH%.1f"/>' % (left, TOP, TOP + HIGH, left + WIDE)
    yield stroke("goal", left, height(goal), left + WIDE, height(goal))
    yield text(left + WIDE - 2, height(goal) + (-5 if goal == 2 else 14), "target %.1f" % goal, 'text-anchor="end"')


def curve(left, kind, place, points, column="ratio"):
    """The median for each place."""
    yield '<polyline class="%s" points="%s"/>' % (
        kind, " ".join("%.1f,%.1f" % (left + WIDE * place(at), height(middle(lines, column))) for at, lines in points))


def series(left, index, name, place, points):
    """One line: its name above the plot, and for each place the median with the range of the runs; dashed, that to the quick C."""
    kind, x, y = "s%d" % index, left + index % 2 * 112, 42 + index // 2 * 20
    yield '<polyline class="%s" points="%d,%d %d,%d"/>' % (kind, x, y - 4, x + 18, y - 4)
    yield text(x + 24, y, name)
    yield from curve(left, kind, place, points)
    for at, lines in points:
        x = left + WIDE * place(at)
        least, most = ends(lines)
        yield stroke(kind, x, height(least), x, height(most))
        yield '<circle class="%s" cx="%.1f" cy="%.1f" r="2.5"/>' % (kind, x, height(middle(lines)))
    if all(has_quick(lines) for _, lines in points):
        yield from curve(left, kind + " quick", place, points, "to_quick")


def by_rows(found, left, what, name):
    place = lambda rows: rows / 512
    yield from axes(left, name, "process rows in use", place, (0, 128, 256, 384, 512), TARGETS[what])
    for index, size in enumerate(sorted({key[3] for key, _ in chosen(found, what)})):
        points = [(key[2], lines) for key, lines in chosen(found, what) if key[3] == size]
        yield from series(left, index, number(size) + " bytes", place, points)


def by_size(found, left):
    place = log(512, 32768)
    yield from axes(left, "Load", "image size in bytes", place, (512, 2048, 8192, 32768), TARGETS["load"])
    names = {"any relation": "any relation", "equalities": "equalities", "wild goal behind clauses": "refused at its goal"}
    for index, (which, name) in enumerate(names.items()):
        points = [(key[3], lines) for key, lines in chosen(found, "load by size", which)]
        yield from series(left, index, name, place, points)


def plot(found):
    yield '<svg xmlns="http://www.w3.org/2000/svg" viewBox="0 0 905 345" role="img">'
    yield "<title>Time of the archive over that of plain C</title><style>%s\n</style>" % STYLE
    yield '<rect class="page" width="905" height="345"/>'
    yield text(0, 0, "archive / plain C", 'transform="translate(16 %d) rotate(-90)" text-anchor="middle"' % (TOP + HIGH / 2))
    yield from by_rows(found, 55, "step", "A step (dashed: to quick C)")
    yield from by_rows(found, 350, "call without a step", "Call without a step, by image size")
    yield from by_size(found, 645)
    yield "</svg>"


def main(results, picture, *pages):
    found = read(results)
    print("\n".join([*tables(found), *summary(found)]))
    with open(picture, "w") as file:
        file.write("\n".join(plot(found)) + "\n")
    for page in pages:
        set_into(page, {"summary": summary(found), "tables": tables(found), "missed": missed(found)})


if __name__ == "__main__":
    main(*sys.argv[1:])
