"""Prints the tables of a run of the benchmark, and writes them with a plot: report.py ROOM DOCS

ROOM holds what bench/run measured: table.tsv, refused.tsv, forms.tsv, ladder.tsv, stack.tsv, nightly.tsv and code.txt; the pairs of after-first.tsv and
after-first-refused.tsv, and those of before-first where it was given an archive to compare with, which CTEXT_BEFORE_NAME may name.
"""
import datetime
import os
import platform
import re
import subprocess
import sys
from collections import defaultdict
from pathlib import Path

import plot

ROOM, DOCS = Path(sys.argv[1]), Path(sys.argv[2])
FUNCTIONS = ["check", "read", "write", "run", "next", "next_run", "next_runs", "archive_check", "archive_read", "r5_read", "r5_write", "libX11 read",
             "libX11 write"]
ARCHIVED = ["notes", "designations", "fields"]  # what the archive reader is to be faster on
DIRECTED = ["notes", "designations", "directions"]  # what direction and depth in the record are to cost little on
PLOTTED = ["notes", "ascii", "kanji", "designations", "directions", "segments"]


def rows(name):
    return [line.split("\t") for line in (ROOM / name).read_text().splitlines()]


def corpus_name(path):
    own = Path(path).parent == ROOM / "corpora"
    return Path(path).stem + ("" if own else " (beside)")


class Measured:
    """The figures of one corpus: of each function its time a string, and its ratios to others. Of resource files, the units are octets of the forms."""

    def __init__(self, path, strings, octets, units):
        self.name = corpus_name(path)
        self.kind = Path(path).stem
        self.strings, self.octets, self.units = int(strings), int(octets), int(units)
        self.functions = {}

    def ratio(self, function, to):
        return self.functions.get(function, {}).get(to) or None


def measured(name, bases):
    corpora = {}
    for path, function, strings, octets, units, time, *ratios in rows(name):
        corpus = corpora.setdefault(path, Measured(path, strings, octets, units))
        corpus.functions[function] = dict(zip(["time", *bases], [float(time), *map(float, ratios)]))
    return list(corpora.values())


def number(x, digits=2):
    return "" if x is None else f"{x:,.{digits}f}"


def table(head, lines):
    """A table in Markdown whose columns are as wide as what they hold; all but the first are set to the right."""
    widths = [max(len(line[i]) for line in [head, *lines]) for i in range(len(head))]
    shown = lambda line: "| " + " | ".join(c.ljust(w) if i == 0 else c.rjust(w) for i, (c, w) in enumerate(zip(line, widths))) + " |"
    rule = "|" + "|".join("-" * (w + 2) if i == 0 else "-" * (w + 1) + ":" for i, w in enumerate(widths)) + "|"
    return "\n".join([shown(head), rule, *map(shown, lines)])


def ratios(corpora, base):
    present = [f for f in FUNCTIONS if any(c.ratio(f, base) for c in corpora)]
    head = ["Corpus", "Strings", "Octets", "Units", f"{base}, ns a string", *present]
    lines = []
    for c in corpora:
        time = c.functions[base]["time"]
        sizes = [f"{c.strings:,}", f"{c.octets:,}", f"{c.units:,}" if c.units else ""]
        lines.append([c.name, *sizes, number(time, 0), *(number(c.ratio(f, base)) for f in present)])
    return table(head, lines)


def form_ratios(forms):
    head = ["Corpus", "Strings", "Octets", "Octets of the forms", "plain write, ns an octet", "write", "plain read, ns an octet", "read"]
    lines = []
    for c in forms:
        line = [c.name, f"{c.strings:,}", f"{c.octets:,}", f"{c.units:,}"]
        for function in ["write", "read"]:
            line.append(number(c.functions[f"plain_{function}"]["time"] * c.strings / c.octets))
            line.append(number(c.ratio(f"resource_{function}", "the plain loop")))
        lines.append(line)
    return table(head, lines)


# ---- the figures that are asked for

TARGETS = [
    ("check", "base", 1.5, ["notes", "designations", "ascii"]),
    ("check", "base", 2.0, ["kanji", "kanji-1000"]),
    ("check", "base", 3.0, ["tabs", "newlines", "latin", "katakana"]),
    ("read", "check", 3.0, ["notes", "designations"]),
    ("read", "check", 3.0, None),
    ("read", "read before", 1.15, DIRECTED),
    ("write", "base", 4.5, ["notes"]),
    ("next_runs", "check", 3.0, ["notes", "alternating", "kanji-ascii"]),
    ("archive_check", "check", 0.9, ARCHIVED),
    ("archive_check", "check", 1.1, None),
    ("archive_read", "read", 0.9, ARCHIVED),
    ("archive_read", "read", 1.1, None),
    ("archive_check", "check before", 0.9, ARCHIVED),
    ("archive_check", "check before", 1.1, None),
    ("archive_read", "read before", 0.9, ARCHIVED),
    ("archive_read", "read before", 1.1, None),
    ("r5_read", "read", 1.1, ["notes"]),
    ("r5_read", "read", 1.1, None),
    ("r5_write", "write", 0.5, ["notes"]),
    ("resource_write", "the plain loop", 2.0, None),
    ("resource_read", "the plain loop", 2.0, None),
]


def targets(corpora, base):
    lines = []
    for function, to, most, kinds in TARGETS:
        to = base if to == "base" else to
        found = [(c.ratio(function, to), c.name) for c in corpora if kinds is None or c.kind in kinds]
        found = [(r, name) for r, name in found if r]
        if not found:
            continue
        worst, name = max(found)
        what = ", ".join(kinds) if kinds else "every corpus"
        lines.append([f"`{function}` to {to}: {what}", number(most), number(worst), name, "yes" if worst <= most else "NO"])
    return table(["Ratio of", "At most", "Largest", "On", "Met"], lines)


# ---- functions two and two: the archive reader beside the first reader, and the landing before


def pairs(strings=""):
    """For each corpus and pair the ratios that the programs measured, one or two, the lower first."""
    found = defaultdict(lambda: defaultdict(list))
    for name in [f"after-first{strings}.tsv", f"before-first{strings}.tsv"]:
        for path, *ratios in rows(name) if (ROOM / name).exists() else []:
            of_corpus = found[corpus_name(path)]
            for pair, ratio in zip(ratios[::2], ratios[1::2]):
                of_corpus[pair] = sorted([*of_corpus[pair], float(ratio)])
    return found


def add_pairs(corpora, found):
    """The larger ratio of each pair, among the ratios of its corpus. Of functions that the table compares too, it takes that ratio's place."""
    for c in corpora:
        for pair, ratios in found[c.name].items():
            c.functions.setdefault(own(pair), {})[pair.split(" to ")[1]] = max(ratios)


def measured_among(found, wanted):
    return [pair for pair in wanted if any(pair in of_corpus for of_corpus in found.values())]


def own(pair):
    return pair.split(" to ")[0]


def to_before(found):
    return measured_among(found, [f"{f} to {f} before" for f in FUNCTIONS])


def span(values):
    return " to ".join(dict.fromkeys(map(number, values)))


def pairs_table(found, shown, head):
    return table(["Corpus", *head], [[corpus, *(span(of_corpus[pair]) for pair in shown)] for corpus, of_corpus in found.items()])


def archive_reader(found):
    shown = measured_among(found, [f"archive_{f} to {f}{before}" for before in ["", " before"] for f in ["check", "read"]])
    if not shown:
        return []
    return [
        "## The archive reader",
        "Each figure is the ratio of the archive reader's time to the first reader's: under 1 it is faster. Both are in one program, where each function "
        "begins at a multiple of 64 octets, and in each repetition one runs directly after the other; a ratio is the median of those within a repetition. "
        "Before anything is measured, both have given the same answers, and the same units. The last corpora are those of refused strings."
        + (" `before` is the landing before: see Beside the landing before, also for where two figures stand." if to_before(found) else ""),
        pairs_table(found, shown, shown),
    ]


def x11r5(found):
    shown = measured_among(found, ["r5_read to read", "r5_write to write"])
    if not shown:
        return []
    found = {corpus: of_corpus for corpus, of_corpus in found.items() if any(pair in of_corpus for pair in shown)}
    return [
        "## X11R5",
        "Each figure is the ratio of the time of `ctext_r5_read`, on the string with a 00 behind it, to that of `ctext_read`, and of `ctext_r5_write` to "
        "`ctext_write`, on the same units. They are taken as those of the archive reader. Corpora with direction marks or extended segments are left out, "
        "and of the writer those whose strings would be over 65,535 octets.",
        pairs_table(found, shown, shown),
    ]


def beside_before(found):
    name, shown = os.environ.get("CTEXT_BEFORE_NAME"), to_before(found)
    if not shown:
        return []
    return [
        "## Beside the landing before",
        f"Each figure is the ratio of a function's time to that with the archive named by `CTEXT_BEFORE`{f' ({name})' if name else ''}: under 1 it has become "
        "faster. Both archives are in one program, and in each repetition a function runs with one directly after the other; a ratio is the median of "
        "those within a repetition, which is steadier than the ratio of the medians or of the least times. Where code stands moves tight loops: each "
        "function of both begins at a multiple of 64 octets, and there are two programs, each archive being linked first in one. Where their ratios "
        "differ, both stand. Each archive is called by its own header, with records of its own, and writes the units that it has read. Nothing stands where "
        "an archive lacks the function, or where the archives answer differently.",
        pairs_table(found, shown, map(own, shown)),
    ]


# ---- refused strings


def refused_strings(refused, found):
    shown, compared = [f for f in ["check", "next", "archive_check"] if any(f in c.functions for c in refused)], to_before(found)
    lines = []
    for c in refused:
        sizes = [f"{c.strings:,}", f"{c.octets:,}", f"{c.units:,}" if c.units else "", number(c.functions["yardstick"]["time"], 0)]
        lines.append([c.name, *sizes, *(number(c.ratio(f, "yardstick")) for f in shown), *(span(found[c.name][pair]) for pair in compared)])
    return [
        "## Refused strings",
        "refused has notes with one element put in that is refused with 2 to 7, each number as often as the others, and what followed it is still there. "
        "Each of the others is one string that is refused at its very end: intermediates is one designation of that length (5), endless-name segments that "
        "are all name, the last without an 02 (7), cut-segment the same with the last octet missing (2), late plain text and an unused octet (3).\n\n"
        "The figures are as above. The units are those before the refusal, which `next` goes through. Before anything is measured, `check`, `read`, `next`, "
        "the archive reader and the yardstick have given the same number and place for each string."
        + (" The last columns are ratios to the landing before, taken as below; the numbers must be the same there, not the places." if compared else ""),
        table(["Corpus", "Strings", "Octets", "Units", "yardstick, ns a string", *shown, *(f"{own(pair)}, to before" for pair in compared)], lines),
    ]


# ---- straight lines


def ladders():
    """For each function and kind of string: the sizes and the times. Sizes are octets, for the writer units; the list of one name has a unit for each octet."""
    found = defaultdict(list)
    for path, function, octets, units, time in rows("ladder.tsv"):
        kind = Path(path).stem.removeprefix("ladder-")
        found[function, kind].append((int(units if function in ["write", "r5_write"] else octets), float(time)))
    return found


def straightness(found):
    head = ["Function and strings", "Sizes", "ns for each octet or unit", "Largest deviation from the line"]
    lines = []
    for (function, kind), points in found.items():
        slope, start = plot.line(points)
        off = max(abs(t - (start + slope * n)) / (start + slope * n) for n, t in points)
        lines.append([f"{function}, {kind}", f"{points[0][0]:,} to {points[-1][0]:,}", number(slope), f"{100 * off:.1f} %"])
    return table(head, lines)


# ---- the archive


class Code:
    """A function of the archive: the octets of its frame, what it calls, and how often packed minimum and packed addition stand in it."""

    def __init__(self):
        self.frame, self.calls, self.minimum, self.addition = 8, set(), 0, 0

    def instruction(self, words):
        self.frame += 8 if words[0] == "push" else 0
        own = re.fullmatch(r"\$0x([0-9a-f]+),%rsp", words[-1])
        self.frame += int(own[1], 16) if own and words[0] == "sub" else 0
        self.minimum += bool(re.fullmatch(r"v?pminu[bwd]", words[0]))
        self.addition += bool(re.fullmatch(r"v?padd(us|s)?[bwd]", words[0]))


def functions_of_archive():
    found, code = defaultdict(Code), None
    for text in (ROOM / "code.txt").read_text().splitlines():
        begun = re.match(r"[0-9a-f]+ <(.*)>:", text)
        if begun:
            code = found[begun[1]]
        elif "R_X86_64_PLT32" in text or "R_X86_64_PC32" in text:
            called = re.sub(r"[-+]0x[0-9a-f]+$", "", text.split()[-1]).removeprefix(".text.")
            code.calls.add(called)
        elif re.match(r" +[0-9a-f]+:\t", text):
            code.instruction(text.split("\t", 1)[1].split())
    return dict(found)


def deepest(found, name, above=()):
    """The octets of the frames on the deepest path of calls from a function; none where a function calls itself."""
    if name in above:
        return None
    below = [deepest(found, c, (*above, name)) for c in found[name].calls if c in found]
    return None if None in below else found[name].frame + max(below, default=0)


def stack(found):
    head = ["Function", "Measured, at most", "By the frames of its code"]
    return table(head, [[f"`{name}`", f"{int(n):,}", f"{deepest(found, name) or 0:,}"] for name, n in rows("stack.tsv")])


def packed(found):
    some = sorted((name, c) for name, c in found.items() if c.minimum or c.addition)
    where = "; ".join(f"`{name}` {c.minimum} and {c.addition}" for name, c in some)
    total = sum(c.minimum for _, c in some), sum(c.addition for _, c in some)
    return f"Packed minimum: {total[0]}; packed addition: {total[1]}{f' ({where})' if where else ''}."


# ---- the page


def said(*words):
    return subprocess.run(words, capture_output=True, text=True, check=False).stdout.strip()


def machine():
    cpuinfo = Path("/proc/cpuinfo").read_text() if os.path.exists("/proc/cpuinfo") else ""
    model = re.search(r"model name\s*: (.*)", cpuinfo)
    return f"{model[1] if model else platform.processor()}, {os.cpu_count()} processors, {platform.system()} {platform.machine()}"


def resource_files(forms):
    return [
        "## Resource files",
        "`ctext_resource_write` on the strings of a corpus and `ctext_resource_read` on their forms, each as a ratio to a plain loop in C with the "
        "same answers (`bench/plain_form.c`), which goes through the octets twice: to check and count, and to store. An octet is one of the "
        "strings, not of the forms. plain-notes, plain and latin hold nothing that is escaped; backslashes, newlines and zeros are of one octet, "
        "escapes of these three in random order, half of these and as many letters.",
        form_ratios(forms),
    ]


def nightly_job():
    """Nothing where the command was not measured."""
    parts = []
    for command, notes, octets, median, most, runs, printed in rows("nightly.tsv"):
        parts += [
            "## The nightly job",
            f"An archive of {int(notes):,} notes in frames, the corpus notes ten times over, {int(octets):,} octets with the lengths:",
            f"```sh\n{command}\n```",
            f"It takes {1000 * float(median):.0f} ms, from the command's start to its end: the median of {runs} runs, of which the longest took "
            f"{1000 * float(most):.0f} ms. The file was in memory." + (f" The last line that it prints is `{printed}`." if printed else ""),
        ]
    return parts


def head():
    load = " ".join(f"{x:.1f}" for x in os.getloadavg())
    return [
        "# Benchmark",
        "Written by `bench/run`, which measures anew; `bench/run` itself says what it needs.",
        f"- Date: {datetime.datetime.now(datetime.timezone.utc):%Y-%m-%d %H:%M} UTC, commit {said('git', '-C', str(DOCS), 'rev-parse', '--short', 'HEAD')}\n"
        f"- Machine: {machine()}; load at the end {load}\n"
        f"- C compiler: {said('gcc', '--version').splitlines()[0]}, -O3 -march=x86-64-v2; functions in C, and the archive as a whole, begin at "
        "multiples of 64 octets",
    ]


def times(corpora, base):
    parts = [
        "## Times",
        "Each figure is a ratio: the processor time of a function on all strings of a corpus, to that of the yardstick on the same strings in the "
        "same run (the median over the repetitions of the ratio in each). `check`, `read` (into a list) and `write` (checking the units, planning "
        "and writing) are the proved library's, with one list and one work room used again; `run` is the last run asked for by its number, `next` all "
        "units one by one, `next_run` all runs one after the other, `next_runs` all runs by a list of 64 words; `archive_check` and `archive_read` are "
        "`check` and `read` by the archive reader; `r5_read` and `r5_write` are X11R5's, with a 00 behind the string. The yardstick is "
        "`bench/yardstick.c`, which answers the number and the place of a refusal alone. sets has designations of all eighteen kinds in random order, "
        "each with one character of its set; sets-alone has nothing but such designations. directed-segments has extended segments with a text within "
        "directions, and some without text there and between them. libX11's functions convert to and from UTF-8; where nothing stands, libX11 does "
        "not convert the corpus, or is not installed.",
        ratios(corpora, "yardstick"),
    ]
    if base == "limit_table":
        parts += ["The same by `limit_table`, another validator in C, that stood beside the repository in this run:", ratios(corpora, base)]
    return parts


def straight_lines():
    found = ladders()
    if not found:
        return []
    (DOCS / "benchmark.svg").write_text(plot.svg({key: points for key, points in found.items() if key[1] in PLOTTED}))
    return [
        "## Straight lines",
        "Strings of each kind, of lengths in sixteen equal steps. The line is that of least squares; a deviation is a part of the line's value. "
        "A work room of many units, 72 octets each, is larger than a processor's nearer caches, and a unit costs more from there on: where little "
        "is computed for a unit (ascii, kanji) the writer's line has two slopes, one for each side.\n\n"
        "alternating (`41 E9`), kanji-ascii, trailing (designations alone), marks and names (segments that are all name) are hostile to one function or "
        "another; intermediates and endless-name, refused at their last octet, are hostile to all that look for the place. `next at the end` is one "
        "further call of a reader at its end; `write of one name` is a list whose units all name one part of 256 octets, and its name is read for each. "
        "`resource_read` reads the forms of strings of these sizes.",
        "![Time against size](benchmark.svg)",
        straightness(found),
    ]


def code_of_archive():
    code = functions_of_archive()
    return [
        "## Stack",
        "Octets of stack: what each function, with the call from C, changed of a stack that was filled before, on the corpora and on strings and "
        "lists made wrong; and the sum of the frames on the deepest path of calls in the archive, which holds for every input, since no function "
        "calls itself. Nothing is allocated.",
        stack(code),
        "## Vector instructions in the archive",
        "The plan of the writer is meant to take sixteen values at once. No proof notices where the compiler stops doing so; these counts do.",
        packed(code),
    ]


def asked_for(corpora, base, found):
    return [
        "## What is asked for",
        *(["The archive reader's bar is `check` and `read`; where these have become faster themselves, it is `check before` and `read before`, those of the "
           "landing before. `read` to `read before` is what `direction` and `depth` cost in the record of a unit, where the landing before has a record "
           "without them (3.1)."] if to_before(found) else []),
        targets(corpora, base),
    ]


def page(corpora, refused, forms):
    base = "limit_table" if all("limit_table" in c.functions for c in corpora) else "yardstick"
    found, found_refused = pairs(), pairs("-refused")
    add_pairs(corpora, found)
    add_pairs(refused, found_refused)
    parts = [
        *head(),
        *times(corpora, base),
        *(refused_strings(refused, found_refused) if refused else []),
        *archive_reader(found | found_refused),
        *x11r5(found),
        *nightly_job(),
        *(resource_files(forms) if forms else []),
        *asked_for(corpora + refused + forms, base, found),
        *beside_before(found),
        *straight_lines(),
        *code_of_archive(),
    ]
    return "\n\n".join(parts) + "\n"


def main():
    corpora = measured("table.tsv", ["yardstick", "limit_table", "check"])
    text = page(corpora, measured("refused.tsv", ["yardstick"]), measured("forms.tsv", ["the plain loop"]))
    (DOCS / "BENCHMARK.md").write_text(text)
    print(text)


main()
