"""Audits reports by the program, as check.py asks: reports of examples are legal, and reports with one byte changed are not."""
import random

import history

HEADING = b"== report\n"


def audited(program, script, report):
    """What `audit` answers: its status, and the number of the report's first bad line, 0 where there is none."""
    status, said = program(["audit"], script + HEADING + report)
    first = int(said.split()[1]) - script.count(b"\n") - 1 if said.startswith(b"no ") else 0
    return status, first if said in (b"yes\n", b"no %d\n" % (first + script.count(b"\n") + 1)) else -1


def legal(checks, program, name, script, report):
    """A report that has to be legal."""
    checks.check(audited(program, script, report) == (0, 0), f"the report of {name} is audited with another answer than yes")


def may_go_on(report, at):
    """Whether lines after the changed one may be right: the count may be smaller, and another caller may come."""
    start = report.rfind(b"\n", 0, at) + 1
    words = report[start:at + 1].split(b" ")
    return start == 0 or len(words) == 2


def changed(checks, program, name, script, report, count):
    """So many reports with one byte changed. The first bad line is that of the byte or an earlier one. Where it is the
    count's or a caller's, it may be a later one; and another answer than `no` is right only for a legal report."""
    draw = random.Random(name)
    for _ in range(count):
        at = draw.randrange(len(report))
        byte = draw.choice([it for it in b"0123456789abcdefx -\n" if it != report[at]])
        other = report[:at] + bytes([byte]) + report[at + 1:]
        status, first = audited(program, script, other)
        line = report.count(b"\n", 0, at) + 1
        why = f"the report of {name} with byte {at} changed to {byte}: status {status}, first bad line {first}, not {line}"
        if status == 0:
            checks.check(first == 0 and not history.judge(script.decode(), other.decode())[0], why)
        else:
            checks.check(status == 8 and first > 0 and (first <= line or may_go_on(report, at)), why)
