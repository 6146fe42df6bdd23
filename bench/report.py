#!/usr/bin/env python3
"""Turns the measurements of bench/run into tables and plots.

    report.py text RESULTS                the tables, as plain text
    report.py nights NIGHTS               those of the nights
    report.py markdown RESULTS [NIGHTS]   the same, as Markdown
    report.py plots RESULTS DIR           DIR/works.svg and DIR/growth.svg
"""
import math
import sys
from html import escape
from pathlib import Path

PEERS = ["re2", "pcre2", "tre"]
TITLE = {"ours": "Dimmhalt", "re2": "RE2", "pcre2": "PCRE2 JIT", "tre": "TRE", "verdict": "Dimmhalt verdict", "re2-yes-no": "RE2 yes or no"}
COLOUR = {"ours": "#1b6ca8", "re2": "#d1495b", "pcre2": "#66a182", "tre": "#edae49"}
RISES = 1.3  # a byte of a longer text may cost so many times what it cost in the cheapest shorter one: the rest is noise


class Results:
    def __init__(self, path):
        self.run, self.about, self.lines = {}, {}, []
        for line in open(path, encoding="utf-8"):
            f = line.rstrip("\n").split("\t")
            if f[0] == "about-run":
                self.run[f[1]] = f[2]
            elif f[0] == "about":
                self.about[f[1]] = {"name": f[2], "says": f[3], "flag": f[4] if len(f) > 4 else ""}
            elif f[0] in ("work", "verdict", "text", "pattern", "night"):
                ns, least, most = (None if x == "-" else float(x) for x in f[5:8])
                size = {"marks" if f[0] == "night" else "pattern": int(f[2]), "text": int(f[3])}
                self.lines.append({"kind": f[0], "work": f[1], **size, "engine": f[4], "ns": ns, "least": least, "most": most, "wrong": f[9]})
        # the longest of the growing texts is measured with the works, before the others
        self.lines.sort(key=lambda x: x["text"] if x["kind"] == "text" else 0)

    def of(self, kind, **want):
        return [x for x in self.lines if x["kind"] == kind and all(x[k] == v for k, v in want.items())]

    def one(self, kind, **want):
        found = self.of(kind, **want)
        return found[0] if found else {"ns": None, "wrong": "not measured", "text": 1, "pattern": 1}

    def values(self, kind, key, **want):
        out = []
        for x in self.of(kind, **want):
            if x[key] not in out:
                out.append(x[key])
        return out


def number(x):
    return f"{x:,.0f}" if x >= 100 else f"{x:.1f}" if x >= 10 else f"{x:.2f}"


def cost(x, per=None):
    return x["wrong"] if x["ns"] is None else number(x["ns"] / (per or 1))


def spread(x, per=1):
    return x["wrong"] if x["ns"] is None else f"{number(x['ns'] / per)} ({number(x['least'] / per)} to {number(x['most'] / per)})"


def ratio(peer, ours):
    if peer["ns"] is None:
        return peer["wrong"]
    return "-" if ours["ns"] is None else f"{peer['ns'] / ours['ns']:.2f}"


def work_tables(r):
    head = ["work", "bytes"]
    times, each, ratios = [], [], []
    for w in r.values("work", "work"):
        got = {e: r.one("work", work=w, engine=e) for e in ["ours"] + PEERS}
        start = [f"{w} {r.about[w]['name']}", f"{got['ours']['text']:,}"]
        times.append(start + [spread(got[e]) for e in got])
        each.append(start + [cost(got[e], got[e]["text"]) for e in got])
        ratios.append(start + [ratio(got[p], got["ours"]) for p in PEERS])
    means = []
    for p in PEERS:
        pairs = [(r.one("work", work=w, engine=p)["ns"], r.one("work", work=w, engine="ours")["ns"]) for w in r.values("work", "work")]
        logs = [math.log(a / b) for a, b in pairs if a and b]
        means.append(f"{math.exp(sum(logs) / len(logs)):.2f}" if logs else "-")
    ratios.append(["geometric mean", ""] + means)
    engines = [TITLE[e] for e in ["ours"] + PEERS]
    yield "Time of a call, ns: median (least to most)", head + engines, times, []
    yield "The same for a byte of the text, ns: median", head + engines, each, []
    yield "Ratio: the peer's time divided by ours; above 1 we are faster", head + engines[1:], ratios, []


def verdict_table(r):
    rows = []
    for w in r.values("verdict", "work"):
        ours, peer = (r.one("verdict", work=w, engine=e) for e in ("verdict", "re2-yes-no"))
        tree = r.one("work", work=w, engine="ours")
        rows.append([f"{w} {r.about[w]['name']}", f"{peer['text']:,}", spread(ours), cost(ours, ours["text"]), spread(peer), ratio(peer, ours), ratio(tree, ours)])
    head = ["work", "bytes", "Dimmhalt verdict, ns", "ns/byte", "RE2 yes or no, ns", "ratio to RE2", "ratio to the whole tree"]
    yield "The scheduler's call (none, one or more trees) beside RE2's yes or no without captures, and beside our own call for the whole tree", head, rows, []


def growth_tables(r):
    for w in r.values("text", "work"):
        rows, ours = [], []
        for n in r.values("text", "text", work=w):
            got = {e: r.one("text", work=w, text=n, engine=e) for e in ["ours"] + PEERS}
            rows.append([f"{n:,}"] + [cost(got[e], n) for e in got])
            if got["ours"]["ns"] is not None:
                ours.append(got["ours"]["ns"] / n)
        notes = []
        if len(ours) > 1:
            times = ours[-1] / min(ours[:-1])
            flat = "flat" if times <= RISES else "IT RISES"
            notes = [f"Ours: a byte of the longest text costs {times:.2f} times what it costs in the cheapest shorter one: {flat}."]
        title = f"Growth with the text, work {w} {r.about[w]['name']}: ns for a byte of the text"
        yield title, ["text bytes"] + [TITLE[e] for e in ["ours"] + PEERS], rows, notes
    for w, per in (("long", "text"), ("short", "pattern")):
        rows, n = [], 0
        for p in r.values("pattern", "pattern", work=w):
            got = {e: r.one("pattern", work=w, pattern=p, engine=e) for e in ["ours"] + PEERS}
            n = got["ours"]["text"]
            rows.append([f"{p:,}", f"{p // 8}"] + [cost(got[e], got[e][per]) for e in got])
        title = f"Growth with the pattern, text of {n:,} bytes: ns for a byte of the {per}"
        notes = ["The pattern is one group of classes with `*`; a turn reads as many letters as there are positions."]
        yield title, ["pattern bytes", "positions"] + [TITLE[e] for e in ["ours"] + PEERS], rows, notes


def night_table(r):
    reports, rows = int(r.run["reports"]), []
    for sheet in r.of("night", engine="sheet"):
        calls = r.one("night", work=sheet["work"], text=sheet["text"], engine="calls")
        each = sheet["text"] / reports
        rows.append([r.about[sheet["work"]]["name"], f"{each:,.0f}", f"{sheet['marks']}", spread(sheet, 1e6), spread(calls, 1e6), ratio(sheet, calls)])
    head = ["night", "bytes of a report", "marks", "the sheet, ms", "the calls, ms", "ratio"]
    yield f"{reports:,} reports, ms: median (least to most); ratio: the sheet's time divided by that of the calls, below 1 the sheet is faster", head, rows, []


def tables(r):
    yield from work_tables(r)
    yield from verdict_table(r)
    yield from growth_tables(r)


CALLS = [
    "Ours: pattern and text in, tree and flag out; nothing is kept between calls.",
    "RE2: compile, then a match of the whole text with all captures. PCRE2: compile, JIT-compile, then the same. TRE: regcomp, then regexec with all captures.",
    "The peers read bytes and their dot reads every byte. None of them says whether another tree exists, and a capture keeps only the last turn of a repetition.",
]

NIGHT = [
    "The sheet: one call for the whole night. The calls: one for the first tree of each report, on the same bytes, with the same lent cells and with room for every tree.",
    "What the sheet adds up and prints, turns, bytes and longest turns of every mark, is in its time; the calls count nothing.",
]


def about_run(r, before=""):
    for k in ("date", "machine", "peers", "ours", "kit", "way"):
        if k in r.run:
            print(f"{before}{k}: {r.run[k]}")
    print()


def text(r):
    print("Dimmhalt beside RE2, PCRE2 with JIT and TRE\n")
    about_run(r)
    for line in CALLS:
        print(line)
    print("\nThe works:")
    for w, a in r.about.items():
        print(f"  {w} {a['name']}: {a['says'].replace('`', '')} (another tree: {'yes' if a['flag'] == '1' else 'no'})")
    text_tables(tables(r))


def nights(r):
    print("A night: the sheet beside a call for each report\n")
    about_run(r)
    for line in NIGHT:
        print(line)
    print("\nThe nights:")
    for a in r.about.values():
        print(f"  {a['name']}: {a['says'].replace('`', '')}")
    text_tables(night_table(r))


def text_tables(given):
    for title, head, rows, notes in given:
        wide = [max(len(x[i]) for x in [head] + rows) for i in range(len(head))]
        print(f"\n{title}\n")
        for x in [head] + rows:
            print("  " + "  ".join(c.ljust(wide[i]) if i == 0 else c.rjust(wide[i]) for i, c in enumerate(x)).rstrip())
        for n in notes:
            print(f"  {n.replace('`', '')}")


def markdown(r, n):
    print("# Performance\n")
    print("Measured by `bench/run`, which says with `--help` what it needs; this page is what `bench/run --markdown` prints of it.\n")
    about_run(r, "- ")
    for line in CALLS:
        print(line)
    print("\n| work | pattern and text | another tree |\n|---|---|---|")
    for w, a in r.about.items():
        says = a["says"].replace("|", "\\|")
        print(f"| {w} {a['name']} | {says} | {'yes' if a['flag'] == '1' else 'no'} |")
    markdown_tables(tables(r))
    print("\n![Time of a call for each work](../bench/works.svg)\n\n![Growth with the text and with the pattern](../bench/growth.svg)\n")
    if n:
        markdown_nights(r, n)
    print(Path(__file__).with_name("notes.md").read_text(encoding="utf-8"), end="")


def markdown_nights(r, n):
    print("## A night\n")
    print("Measured by `bench/run --nights`, in a run of its own.\n")
    about_run(n, "- ")
    if any(n.run.get(k) != r.run.get(k) for k in ("machine", "ours")):
        print("That is not what the tables above were measured on: times of theirs and of this one do not compare.")
    for line in NIGHT:
        print(line)
    print("\n| night | pattern and reports |\n|---|---|")
    for a in n.about.values():
        says = a["says"].replace("|", "\\|")
        print(f"| {a['name']} | {says} |")
    markdown_tables(night_table(n))
    print()


def markdown_tables(given):
    for title, head, rows, notes in given:
        print(f"\n**{title}**\n\n| " + " | ".join(head) + " |\n|---|" + "---:|" * (len(head) - 1))
        for x in rows:
            print("| " + " | ".join(x) + " |")
        for n in notes:
            print(f"\n{n}")


# ---- plots


class Svg:
    def __init__(self, wide, high):
        self.parts = [
            f'<svg xmlns="http://www.w3.org/2000/svg" viewBox="0 0 {wide} {high}" font-family="sans-serif" font-size="12">',
            f'<rect width="{wide}" height="{high}" fill="#ffffff"/>',
        ]

    def text(self, x, y, s, anchor="start", size=12, colour="#222222"):
        self.parts.append(f'<text x="{x:.1f}" y="{y:.1f}" text-anchor="{anchor}" font-size="{size}" fill="{colour}">{escape(s)}</text>')

    def line(self, x, y, u, v, colour="#dddddd", width=1.0):
        self.parts.append(f'<line x1="{x:.1f}" y1="{y:.1f}" x2="{u:.1f}" y2="{v:.1f}" stroke="{colour}" stroke-width="{width}"/>')

    def box(self, x, y, w, h, colour):
        self.parts.append(f'<rect x="{x:.1f}" y="{y:.1f}" width="{w:.1f}" height="{h:.1f}" fill="{colour}"/>')

    def path(self, points, colour, width):
        self.parts.append(f'<polyline points="{" ".join(f"{x:.1f},{y:.1f}" for x, y in points)}" fill="none" stroke="{colour}" stroke-width="{width}"/>')
        for x, y in points:
            self.parts.append(f'<circle cx="{x:.1f}" cy="{y:.1f}" r="{width + 1:.1f}" fill="{colour}"/>')

    def write(self, path):
        with open(path, "w", encoding="utf-8") as f:
            f.write("\n".join(self.parts + ["</svg>"]) + "\n")


def legend(svg, x, y, engines):
    for e in engines:
        svg.box(x, y - 10, 12, 12, COLOUR[e])
        svg.text(x + 17, y, TITLE[e])
        x += 34 + 7 * len(TITLE[e])


def decades(values):
    """The powers of ten around the values."""
    return math.floor(math.log10(min(values))), math.ceil(math.log10(max(values)) + 1e-9)


def heading(svg, r, title):
    svg.text(20, 26, title, size=16)
    svg.text(20, 44, f"{r.run.get('date', '')}, {r.run.get('machine', '')}", size=11, colour="#666666")
    svg.text(20, 59, f"ours: {r.run.get('ours', '')}", size=11, colour="#666666")


def bars(r, path):
    """Time of a call for each work and engine, on a scale of powers of ten."""
    works = r.values("work", "work")
    engines = [e for e in ["ours"] + PEERS if any(x["ns"] for x in r.of("work", engine=e))]
    low, high = decades([x["ns"] for x in r.of("work") if x["ns"]])
    left, top, bottom, step = 80, 100, 400, 130
    svg = Svg(left + step * len(works) + 30, 450)
    heading(svg, r, "Time of a call, ns; less is better")
    legend(svg, left, 84, engines)
    y = lambda ns: bottom - (math.log10(ns) - low) / (high - low) * (bottom - top)
    for d in range(low, high + 1):
        svg.line(left, y(10**d), left + step * len(works), y(10**d))
        svg.text(left - 8, y(10**d) + 4, f"{10**d:,}", "end")
    for i, w in enumerate(works):
        wide = (step - 34) / max(1, len(engines))
        for k, e in enumerate(engines):
            x = left + i * step + 17 + k * wide
            got = r.one("work", work=w, engine=e)
            if got["ns"] is None:
                svg.text(x + wide / 2, bottom - 4, "failed", "middle", 9, COLOUR[e])
            else:
                svg.box(x, y(got["ns"]), wide - 2, bottom - y(got["ns"]), COLOUR[e])
                svg.text(x + wide / 2 - 1, y(got["ns"]) - 3, number(got["ns"] / 1000) + "k" if got["ns"] >= 1000 else number(got["ns"]), "middle", 8)
        svg.text(left + i * step + step / 2, bottom + 18, f"{w} {r.about[w]['name']}", "middle")
        svg.text(left + i * step + step / 2, bottom + 33, f"{r.one('work', work=w)['text']:,} bytes", "middle", 10, "#666666")
    svg.write(path)


def lines(r, path):
    """What a byte costs as the text and the pattern grow; both scales in powers."""
    # kind, work, what grows, by what the time is divided, title
    panels = [("text", w, "text", "text", f"work {w} {r.about[w]['name']}: ns for a byte of the text") for w in r.values("text", "work")]
    panels.append(("pattern", "long", "pattern", "text", "text of 4,096 bytes: ns for a byte of the text"))
    panels.append(("pattern", "short", "pattern", "pattern", "text of 64 bytes: ns for a byte of the pattern"))
    engines = [e for e in ["ours"] + PEERS if any(x["ns"] for x in r.of("text", engine=e))]
    svg = Svg(940, 780)
    heading(svg, r, "Growth; less is better")
    legend(svg, 60, 84, engines)
    for i, (kind, work, along, per, title) in enumerate(panels):
        left, top = 70 + i % 2 * 450, 130 + i // 2 * 330
        wide, tall = 370, 230
        series = {e: [(x[along], x["ns"] / x[per]) for x in r.of(kind, work=work, engine=e) if x["ns"]] for e in engines}
        every = [p for s in series.values() for p in s]
        if not every:
            continue
        low, high = decades([v for _, v in every])
        ends = [math.log2(v) for v, _ in every]
        x = lambda v: left + (math.log2(v) - min(ends)) / max(1e-9, max(ends) - min(ends)) * wide
        y = lambda v: top + tall - (math.log10(v) - low) / max(1, high - low) * tall
        svg.text(left, top - 12, title, size=13)
        for d in range(low, high + 1):
            svg.line(left, y(10.0**d), left + wide, y(10.0**d))
            svg.text(left - 8, y(10.0**d) + 4, f"{10.0**d:g}", "end")
        for v in sorted({v for v, _ in every}):
            svg.text(x(v), top + tall + 16, str(v), "middle", 10)
        svg.text(left + wide / 2, top + tall + 34, f"bytes of the {along}", "middle", 11, "#666666")
        for e in reversed(engines):
            svg.path([(x(a), y(b)) for a, b in series[e]], COLOUR[e], 2.5 if e == "ours" else 1.3)
    svg.write(path)


def main(words):
    if len(words) == 2 and words[0] == "text":
        text(Results(words[1]))
    elif len(words) == 2 and words[0] == "nights":
        nights(Results(words[1]))
    elif len(words) in (2, 3) and words[0] == "markdown":
        markdown(Results(words[1]), Results(words[2]) if len(words) == 3 else None)
    elif len(words) == 3 and words[0] == "plots":
        r = Results(words[1])
        bars(r, f"{words[2]}/works.svg")
        lines(r, f"{words[2]}/growth.svg")
    else:
        sys.exit(__doc__)


if __name__ == "__main__":
    main(sys.argv[1:])
