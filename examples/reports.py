"""Reads scripts and reports, as docs/FORMATS.md describes them, for the scripts beside this file."""
import re

EVENT = re.compile(r"(\d+) (\d+) ([wrtja]) (.*) = (.*)")


class Event:
    """One line of a report: its place, its caller, its kind w, r, t, j or a, its words, and its reply's words."""

    def __init__(self, line):
        found = EVENT.fullmatch(line)
        if not found:
            raise ValueError(f"no event: {line}")
        self.place, self.caller, self.kind = int(found[1]), int(found[2]), found[3]
        self.words, self.reply = found[4].split(), found[5].split()

    def is_verdict(self):
        return self.kind == "j" and self.reply[0] in ("allowed", "denied")


class Report:
    """A whole report: its events in order, and how each section ended."""

    def __init__(self, text):
        lines = text.split("\n")
        if lines[-2:] != ["end", ""]:
            raise ValueError("the report has no end")
        count = int(re.fullmatch(r"events (\d+)", lines[0])[1])
        self.events = [Event(line) for line in lines[1:count + 1]]
        if [event.place for event in self.events] != list(range(count)):
            raise ValueError("the places are not 0, 1, 2 and so on")
        self.accesses = self.aimed()
        rest = lines[count + 1:-2]
        self.ends = [line.split()[2] for line in rest if line.startswith("section ")]
        self.units = [line for line in rest if line.startswith("unit ")]
        if len(self.ends) + len(self.units) != len(rest):
            raise ValueError("a line after the events is neither a section nor a unit")

    def aimed(self):
        """The words of each submission by its place, with the address where a wide one has `@`: its caller's aim."""
        aims, accesses = {}, {}
        for event in self.events:
            if event.kind == "a":
                aims[event.caller] = event.words[0]
            elif event.kind == "t":
                accesses[event.place] = [aims.get(event.caller, "0x0") if it == "@" else it for it in event.words]
        return accesses

    def requester(self, event):
        """The unit and the requester of a submission, or of the submission that a judgement names."""
        words = self.events[int(event.words[1])].words if event.kind == "j" else event.words
        return words[0], int(words[1])


def stalls_all(event):
    """A write of MDSTALL that stalls every requester."""
    return event.words[:2] == ["0", "0x30"] and int(event.words[2], 16) == 1


def stalls_one(event):
    """A write of RRIDSCP by a lane that stalls one requester."""
    return event.words[:2] == ["0", "0x38"] and int(event.words[2], 16) >> 30 == 1 and event.caller > 0


def windows(report, begins=stalls_all):
    """The drained windows of unit 0, as pairs of places: the read of MDSTALL that showed bit 0 clear after a write that
    begins a stall, and the write of MDSTALL that ended it (or the number of events). And the stalls, likewise. The stalls
    are those of every known requester, or such as begin otherwise."""
    drained, stalls, stalled, clear = [], [], None, None
    for event in report.events:
        is_mdstall = event.words[:2] == ["0", "0x30"]
        if event.kind == "r" and is_mdstall and stalled is not None and clear is None and int(event.reply[0], 16) & 1 == 0:
            clear = event.place
        elif event.kind == "w" and (is_mdstall or begins(event)):
            if stalled is not None and is_mdstall:
                stalls.append((stalled, event.place))
                drained += [(clear, event.place)] * (clear is not None)
                stalled, clear = None, None
            if stalled is None and begins(event):
                stalled = event.place
    if stalled is not None:
        stalls.append((stalled, len(report.events)))
        drained += [(clear, len(report.events))] * (clear is not None)
    return drained, stalls


def sections(text):
    """The number of requesters of each unit, and the commands of each section, as lists of words."""
    known, found = [], []
    for line in text.split("\n"):
        words = line.split()
        if not words or words[0].startswith("#") or words[0] in ("iopmp", "end"):
            continue
        if words[0] == "unit":
            known.append(int(words[words.index("rrids") + 1], 0))
        elif words[0] in ("boot", "lane"):
            found.append([])
        else:
            found[-1].append(words)
    return known, found
