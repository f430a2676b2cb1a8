#!/usr/bin/env python3
"""Draws a report as a picture: draw.py REPORT [FIRST LAST] > PICTURE.svg

A row for each caller, and each event at its place, from left to right. A submission and its verdict are joined by a
line, which shows how long an access waited. The stall of every requester is shaded, and its drained window darker; where
there is none, the stall that a lane begins with single requesters. A run of many equal events of one caller is folded.
With FIRST and LAST only these places are drawn: some 300 are as many as one can read.
"""
import sys

sys.dont_write_bytecode = True
from itertools import accumulate, groupby
from xml.sax.saxutils import escape

from reports import Report, stalls_one, windows

ROW, LEFT, TOP, WIDTH, LEGEND = 46, 78, 86, 1120, 60
# A run of more than MANY equal events is drawn as wide as FOLDED.
MANY, FOLDED = 100, 30
COLOURS = {"allowed": "#1a7f37", "denied": "#c62828", "held": "#9a9a9a", "write": "#1f4fa8", "read": "#5b8def",
           "submitted": "#444444", "queued": "#c77700", "busy": "#7b1fa2"}
STALL, DRAINED = "#fff1d6", "#ffd9a0"
STYLE = "text{font-family:'DejaVu Sans',Helvetica,Arial,sans-serif;font-size:12px;fill:#222}" \
        ".small{font-size:10px;fill:#444}.title{font-size:15px;font-weight:bold}"


def folds(events):
    """The runs of more than MANY equal events of one caller that end with no verdict, as pairs of places."""
    found = []
    for _, run in groupby(events, lambda it: (it.caller, it.kind, it.words, it.reply)):
        run = list(run)
        if len(run) > MANY:
            found.append((run[0].place, run[-1].place + 1))
    return found


class Picture:
    """The drawing of the places from first to last, and where they lie."""

    def __init__(self, report, first, last, title):
        self.report, self.first, self.last, self.title = report, first, last, title
        self.events = report.events[first:last + 1]
        self.folds = folds(self.events)
        widths = [1.0] * len(self.events)
        for start, end in self.folds:
            widths[start - first:end - first] = [FOLDED / (end - start)] * (end - start)
        self.step = WIDTH / max(sum(widths), 1)
        self.lefts = [LEFT + self.step * it for it in accumulate(widths, initial=0.0)]
        self.size = max(2.2, min(5.0, self.step * 0.46))
        self.callers = range(len(report.ends))
        self.windows = windows(report)
        self.stalls_all = bool(self.windows[1])
        if not self.stalls_all:
            self.windows = windows(report, stalls_one)
        self.bottom = TOP + ROW * len(self.callers)
        self.parts = []

    def x(self, place):
        """The middle of a place; places that aren't drawn lie at the edge."""
        if place < self.first:
            return LEFT
        if place > self.last:
            return LEFT + WIDTH
        return (self.lefts[place - self.first] + self.lefts[place - self.first + 1]) / 2

    def y(self, caller):
        return TOP + ROW * caller + ROW / 2

    def add(self, text):
        self.parts.append(text)

    def line(self, x1, y1, x2, y2, colour, width, more=""):
        self.add(f'<line x1="{x1:.1f}" y1="{y1:.1f}" x2="{x2:.1f}" y2="{y2:.1f}" stroke="{colour}" '
                 f'stroke-width="{width}"{more}/>')

    def text(self, x, y, words, kind="", anchor="start"):
        kind = f' class="{kind}"' if kind else ""
        self.add(f'<text x="{x:.1f}" y="{y:.1f}" text-anchor="{anchor}"{kind}>{escape(words)}</text>')

    def mark(self, kind, x, y):
        """One event's mark. Forms differ as well as colours."""
        size, colour = self.size, COLOURS[kind]
        if kind == "allowed":
            self.add(f'<circle cx="{x:.1f}" cy="{y:.1f}" r="{size:.1f}" fill="{colour}"/>')
        elif kind == "denied":
            s = size * 1.25
            self.add(f'<path d="M{x:.1f} {y - s:.1f}L{x + s:.1f} {y:.1f}L{x:.1f} {y + s:.1f}L{x - s:.1f} {y:.1f}Z" '
                     f'fill="{colour}"/>')
        elif kind in ("submitted", "queued"):
            self.add(f'<circle cx="{x:.1f}" cy="{y:.1f}" r="{size * 0.72:.1f}" fill="#fff" stroke="{colour}" '
                     f'stroke-width="1.2"/>')
        elif kind == "held":
            self.line(x, y - 4, x, y + 4, colour, f"{min(1.4, self.step * 0.5):.1f}")
        elif kind == "busy":
            s = size * 0.9
            self.add(f'<path d="M{x - s:.1f} {y - s:.1f}L{x + s:.1f} {y + s:.1f}M{x - s:.1f} {y + s:.1f}'
                     f'L{x + s:.1f} {y - s:.1f}" stroke="{colour}" stroke-width="1.6"/>')
        else:
            tall = 13 if kind == "write" else 8
            tall = tall if y < self.bottom else tall // 2
            wide = max(1.6, min(3.2, self.step * 0.6))
            self.add(f'<rect x="{x - wide / 2:.1f}" y="{y - tall:.1f}" width="{wide:.1f}" height="{2 * tall}" '
                     f'fill="{colour}"/>')

    def shades(self):
        """The stalls and their drained windows."""
        drained, stalls = self.windows
        for spans, colour, name in ((stalls, STALL, "stall"), (drained, DRAINED, "drained")):
            for start, end in spans:
                if end < self.first or start > self.last:
                    continue
                left, right = self.x(start), self.x(end)
                self.add(f'<rect x="{left:.1f}" y="{TOP - 4}" width="{max(right - left, 1):.1f}" '
                         f'height="{self.bottom - TOP + 8}" fill="{colour}"/>')
                place = start if name == "stall" else end
                words = f"stall, place {start}" if name == "stall" else f"drained {start}, release {end}"
                self.line(self.x(place), TOP - 12, self.x(place), self.bottom + 4, "#b36b00", "0.8")
                at_left = name == "stall" and self.x(place) > LEFT + 100 or self.x(place) > LEFT + WIDTH - 160
                self.text(self.x(place), TOP - 17 - 14 * (name == "drained"), words, "small", "end" if at_left else "start")

    def rows(self):
        for caller in self.callers:
            y = self.y(caller)
            self.line(LEFT, y, LEFT + WIDTH, y, "#dddddd", "1")
            self.text(LEFT - 10, y + 4, f"lane {caller}" if caller else "boot", "", "end")

    def waits(self):
        """A line from each submission that was opened to its verdict."""
        opened = {}
        for event in self.report.events:
            if event.kind == "t" and event.reply[0] in ("passed", "queued"):
                opened[event.place] = event
            elif event.is_verdict():
                start = opened.pop(int(event.words[1]))
                self.wait(start, event.place)
        for start in opened.values():
            self.wait(start, len(self.report.events))

    def wait(self, start, end):
        if end >= self.first and start.place <= self.last:
            y, queued = self.y(start.caller), start.reply[0] == "queued"
            self.line(self.x(start.place), y, self.x(end), y, COLOURS["queued" if queued else "submitted"],
                      "2.2" if queued else "1.2")

    def marks(self):
        for event in self.events:
            # Where places are narrow, the line from a submission to its verdict has to do.
            if event.kind == "t" and event.reply[0] == "passed" and self.step < 5:
                continue
            if any(start <= event.place < end for start, end in self.folds):
                continue
            if event.kind == "t":
                kind = {"passed": "submitted", "queued": "queued"}.get(event.reply[0], "busy")
            else:
                kind = {"w": "write", "r": "read"}.get(event.kind) or event.reply[0]
            self.mark(kind, self.x(event.place), self.y(event.caller))

    def fold_marks(self):
        """What a folded run stands for."""
        for start, end in self.folds:
            event, left, right = self.report.events[start], self.lefts[start - self.first], self.lefts[end - self.first]
            y, words = self.y(event.caller), "reads" if event.kind == "r" else "held"
            self.add(f'<rect x="{left:.1f}" y="{y - 8:.1f}" width="{right - left:.1f}" height="16" fill="#eef3fc" '
                     f'stroke="{COLOURS["read"]}" stroke-dasharray="3 3"/>')
            self.text((left + right) / 2, y + 4, f"{end - start} {words}", "small", "middle")

    def offsets(self):
        """What the lanes write, where there is room for it, and no more than once."""
        free = LEFT
        for event in self.events:
            if event.kind == "w" and event.caller:
                x, y = self.x(event.place), self.y(event.caller) - 15
                if x >= free:
                    self.add(f'<text x="0" y="0" class="small" transform="translate({x:.1f} {y:.1f}) rotate(-50)">'
                             f'{escape(event.words[1])} = {escape(event.words[2])}</text>')
                    free = x + 24

    def axis(self):
        y = self.bottom + 14
        self.line(LEFT, y, LEFT + WIDTH, y, "#444444", "1")
        apart = next(it for it in (1, 2, 5, 10, 20, 50, 100, 200, 500, 1000, 2000, 5000, 10000, 20000, 50000, 100000)
                     if it * self.step >= 44)
        free = LEFT - 1
        for place in range(-(-self.first // apart) * apart, self.last + 1, apart):
            x = self.x(place)
            if x >= free and not any(start <= place < end for start, end in self.folds):
                self.line(x, y, x, y + 5, "#444444", "1")
                self.text(x, y + 17, str(place), "small", "middle")
                free = x + 40
        self.text(LEFT - 24, y + 17, "place", "small", "end")

    def legend(self):
        """What each mark stands for."""
        names = [("submitted", "submitted, in flight"), ("queued", "queued while stalled"), ("held", "held"),
                 ("allowed", "allowed"), ("denied", "denied"), ("busy", "busy or refused"), ("write", "register write"),
                 ("read", "register read")]
        self.size, self.step = 5.0, 12
        x, y = LEFT, self.bottom + 52
        for kind, words in names:
            self.mark(kind, x, y - 4)
            self.text(x + 10, y, words, "small")
            x += 30 + 5.7 * len(words)
        all_names, some_names = ("everybody stalled", "drained: no verdict"), ("some stalled", "no verdict on them")
        names = all_names if self.stalls_all else some_names
        for colour, words in zip((STALL, DRAINED), names):
            self.add(f'<rect x="{x - 6:.1f}" y="{y - 10}" width="12" height="12" fill="{colour}"/>')
            self.text(x + 10, y, words, "small")
            x += 30 + 5.7 * len(words)

    def svg(self):
        self.shades()
        self.rows()
        self.waits()
        self.marks()
        self.fold_marks()
        self.offsets()
        self.axis()
        self.legend()
        high, wide = self.bottom + LEGEND + 12, LEFT + WIDTH + 24
        head = f'<svg xmlns="http://www.w3.org/2000/svg" viewBox="0 0 {wide} {high}" width="{wide}" height="{high}">'
        title = f'<text x="{LEFT}" y="24" class="title">{escape(self.title)}</text>'
        return "\n".join([head, f"<title>{escape(self.title)}</title>", f"<style>{STYLE}</style>",
                          f'<rect width="{wide}" height="{high}" fill="#ffffff"/>', title, *self.parts, "</svg>", ""])


def drawn(words):
    """The picture for a report's path and, if given, the first and the last place."""
    with open(words[0]) as file:
        report = Report(file.read())
    last = len(report.events) - 1
    first, last = (int(words[1]), min(int(words[2]), last)) if len(words) == 3 else (0, last)
    name, _, seed = words[0].rpartition("/")[2].rpartition(".")[0].partition(".")
    name = name.replace("_", " ") + (", narrow" if words[0].endswith(".narrow") else "") + (f", seed {seed}" if seed else "")
    return Picture(report, first, last, f"{name}: places {first} to {last} of {len(report.events)}").svg()


if __name__ == "__main__":
    if len(sys.argv) not in (2, 4):
        sys.exit(__doc__)
    sys.stdout.write(drawn(sys.argv[1:]))
