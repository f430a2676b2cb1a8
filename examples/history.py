#!/usr/bin/env python3
"""Judges a report of a script with lanes, of which there are many: history.py SCRIPT REPORT

The boot section's events come first, and each section's events are those of its commands in their order, with nothing
missing and nothing else. No verdict on a known requester stands between a read that shows every requester's stall
drained and the write that ends it, and on either side of such an update equal accesses get equal verdicts. One line
tells where the verdicts stand, and whether the lanes overlap with the update: they do where other lanes have verdicts
before and after it and events while it stalls. The status is 1 where something is wrong.
"""
import sys

sys.dont_write_bytecode = True
from reports import Report, sections, windows


def number(word):
    return int(word, 0)


class Section:
    """The events of one caller, taken one by one by the commands of its section."""

    def __init__(self, events, commands):
        self.events, self.commands, self.at, self.tickets = events, commands, 0, {}

    def take(self, kind, *words):
        """The next event, which must have this kind and these words, numbers by value."""
        if self.at == len(self.events):
            raise ValueError(f"an event {kind} {' '.join(words)} is missing")
        event = self.events[self.at]
        same = [a == b or b.isalnum() and a.isalnum() and a[0].isdigit() and b[0].isdigit() and number(a) == number(b)
                for a, b in zip(event.words, words)]
        if event.kind != kind or len(event.words) != len(words) or not all(same):
            raise ValueError(f"at place {event.place} stands another event than {kind} {' '.join(words)}")
        self.at += 1
        return event

    def judge(self, name, most):
        """Judges the ticket of this name until the reply isn't held, at most so often."""
        place = self.tickets.get(name)
        for _ in range(most if place is not None else 0):
            if self.take("j", place[0], str(place[1])).reply[0] != "held":
                del self.tickets[name]
                return

    def submit(self, unit, access):
        """One event, or an aim and a submission where the access doesn't fit one."""
        requester, kind, address, length = access
        if number(length) > 64 or number(address) + number(length) > 1 << 40:
            if self.take("a", address).reply != ["aimed"]:
                raise ValueError("an aim isn't answered by aimed")
            address = "@"
        event = self.take("t", unit, requester, kind, address, length)
        return (unit, event.place) if event.reply[0] in ("passed", "queued") else None

    def through(self, words):
        """An access through units: each unit's submission and judgements, with the requester that it is given."""
        *units, requester, kind, address, length, _, most = words
        for unit in units:
            ticket = self.submit(unit, (requester, kind, address, length))
            if ticket is None:
                return
            for _ in range(number(most)):
                reply = self.take("j", unit, str(ticket[1])).reply
                if reply[0] != "held":
                    break
            if reply[0] != "allowed":
                return
            requester = reply[1]

    def play(self, words):
        """Plays one command, and answers whether the section goes on."""
        kind, words = words[0], words[1:]
        if kind == "w" or kind == "r":
            self.take(kind, *words)
        elif kind == "t":
            ticket = self.submit(words[0], words[1:5])
            if ticket is not None:
                self.tickets[words[6]] = ticket
        elif kind == "j" or kind == "settle":
            self.judge(words[0], number(words[2]) if kind == "settle" else 1)
        elif kind == "until":
            hits = lambda reply: number(reply[0]) & number(words[2]) == number(words[3])
            return any(hits(self.take("r", *words[:2]).reply) for _ in range(number(words[5])))
        elif kind == "through":
            self.through(words)
        return True

    def end(self):
        """Plays all commands, and answers how the section ends."""
        done = all(self.play(words) for words in self.commands)
        if self.at < len(self.events):
            raise ValueError(f"at place {self.events[self.at].place} stands an event that no command has")
        return "done" if done else "stopped"


def whole(report, commands):
    """Fails where a section's events aren't those of its commands."""
    callers = [event.caller for event in report.events]
    if callers != [0] * callers.count(0) + [it for it in callers if it]:
        raise ValueError("an event of the boot section stands behind one of a lane")
    if len(report.ends) != len(commands) or max(callers, default=0) >= len(commands):
        raise ValueError("the report has other sections than the script")
    for caller, ended in enumerate(report.ends):
        mine = [event for event in report.events if event.caller == caller]
        if Section(mine, commands[caller]).end() != ended:
            raise ValueError(f"section {caller} has not ended as {ended}")


def told(report, known):
    """Fails where a verdict stands in a drained window, and tells where the verdicts stand."""
    drained, stalls = windows(report)
    verdicts = [it for it in report.events if it.is_verdict()]
    verdicts = [it for it in verdicts if report.requester(it)[1] < known[int(report.requester(it)[0])]]
    for start, end in drained:
        for event in verdicts:
            if start < event.place < end:
                raise ValueError(f"at place {event.place} stands a verdict, inside the drained window from {start} to {end}")
    if len(drained) != 1:
        return "no one update"
    (start, end), (stalled, _) = drained[0], stalls[0]
    before, after = {}, {}
    for event in verdicts:
        access = " ".join(report.accesses[int(event.words[1])])
        side = before if event.place < start else after
        if event.caller and side.setdefault(access, event.reply) != event.reply:
            raise ValueError(f"at place {event.place} the same access gets another verdict than before")
    count = lambda holds: sum(holds(it.place) for it in verdicts if it.caller > 1)
    sides = count(lambda at: at < start), count(lambda at: at > end)
    inside = sum(stalled < it.place < end for it in report.events if it.caller > 1)
    line = f"{sides[0]} verdicts of other lanes up to the drained read, {sides[1]} after the release"
    way = "overlap" if all(sides) and inside else "touch" if all(sides) else "stand one after another"
    return f"{line}; {inside} of their events in the stall: the lanes {way}"


def in_order(events):
    """The event lines with their places counted anew."""
    return [f"{place} {line.split(' ', 1)[1]}" for place, line in enumerate(events)]


def judge(script, text):
    """What is wrong with the report of a script, or an empty text, and then the line that tells of its verdicts."""
    known, commands = sections(script)
    try:
        report = Report(text)
        whole(report, commands)
        return "", told(report, known)
    except (ValueError, TypeError, IndexError, KeyError) as error:
        return str(error) or "no report", ""


def main(words):
    with open(words[0]) as script, open(words[1]) as report:
        wrong, line = judge(script.read(), report.read())
    print(f"{words[1]}: {wrong or line}")
    return 1 if wrong else 0


if __name__ == "__main__":
    if len(sys.argv) != 3:
        sys.exit(__doc__)
    sys.exit(main(sys.argv[1:]))
