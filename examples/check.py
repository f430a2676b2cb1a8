"""Runs the program on every example and compares what it writes: check.sh. The program is $IOPMP, or else ./iopmp.

In examples/, policies/, updates/ and cookbook/ the same rules hold, by the ends of the names, so a new example needs no
change here. Each input has its partner, and each partner its input:

  NAME.script  NAME.report  `run` prints exactly the report
  NAME.script  NAME.sample  lanes beside each other: history.py judges the sample and a report of now, and refuses a
                            sample that was spoilt
  NAME.toml    NAME.script  `compile` prints exactly the script, which may have a report too
  NAME.update  NAME.plan    `plan` prints exactly the plan; `narrow` prints NAME.narrow where that is there
  NAME.live    NAME.report or NAME.sample, as for scripts, for `live`
  NAME.faults  NAME.report  `faults` prints exactly the report and the lines of later violations
  NAME.audit   NAME.answer  `audit` prints exactly the answer, with status 0
  NAME.sh      NAME.out     `sh NAME.sh` in its folder, with the program in $IOPMP, prints exactly the output, status 0

In faults/ each NAME.how has the program's words in its first line and the status in its second; the input NAME.in, or
none, gets exactly NAME.out. docs/FAULTS.md names each in backquotes, and has the line of each.

Each report and each sample, and the report of now beside a sample, is audited and has to be legal. audits.py changes one
byte of the reports in CHANGED, and the program has to name a line that isn't behind it.

Then quotes.py compares what the pages quote, and each picture in PICTURES is drawn again. The last line counts; the
status is 0 where nothing failed.

With --overlap 20 the examples with lanes run 20 times each on two processors, and it prints how often they overlap.
With --write each partner that differs is written anew, to be read before it is committed, and so is each picture.
"""
import os
import subprocess
import sys
from pathlib import Path

sys.dont_write_bytecode = True
import audits
import draw
import history
import quotes

TOP = Path(__file__).resolve().parent.parent
PROGRAM = os.path.abspath(os.environ.get("IOPMP") or TOP / "iopmp")
FOLDERS = ["examples", "examples/policies", "examples/updates", "examples/cookbook"]
# The end of an input's name: the program's command, and the ends of the partners that it may have.
INPUTS = {
    ".script": ("run", (".report", ".sample")),
    ".toml": ("compile", (".script",)),
    ".update": ("plan", (".plan",)),
    ".live": ("live", (".report", ".sample")),
    ".faults": ("faults", (".report",)),
    ".audit": ("audit", (".answer",)),
    ".sh": (None, (".out",)),
}
# Inputs whose reports are changed in one byte and audited, and how often.
CHANGED = {"examples/update_under_traffic.script": 60, "examples/aimed_between.script": 20, "examples/first_access.script": 20}
# A picture, and the words that draw.py draws it by.
PICTURES = {
    "docs/live_update.svg": ["examples/seeds/page_opens.193.report"],
    "docs/one_of_three_live.svg": ["examples/seeds/one_of_three.107.report", "15", "95"],
    "docs/one_of_three_narrow.svg": ["examples/seeds/one_of_three.107.narrow", "15", "95"],
}
LIMIT = 300


class Checks:
    """What was checked so far."""

    def __init__(self, writes):
        self.writes, self.passed, self.failed = writes, 0, 0

    def check(self, holds, why):
        if holds:
            self.passed += 1
        else:
            self.failed += 1
            print(f"check: {why}", flush=True)
        return holds

    def same(self, name, got, path):
        """Compares bytes with a file's, and shows the first line that differs."""
        wanted = path.read_bytes() if path.is_file() else b""
        if self.writes and got != wanted:
            path.write_bytes(got)
            print(f"check: wrote {path}")
            return
        lines = zip(got.split(b"\n") + [b"(the end)"], wanted.split(b"\n") + [b"(the end)"])
        at, pair = next(((n, it) for n, it in enumerate(lines, 1) if it[0] != it[1]), (0, (b"", b"")))
        first, second = (it.decode(errors="replace") for it in pair)
        self.check(got == wanted, f"{name}: line {at} is '{first}', and '{second}' is wanted")


def program(words, text=b""):
    """Runs the program, and answers its status and what it wrote."""
    done = subprocess.run([PROGRAM, *words], input=text, stdout=subprocess.PIPE, timeout=LIMIT)
    return done.returncode, done.stdout


def script_of(live):
    """The script that a live update's input plays: the old image's writes, the plan, and the lanes."""
    before, _, lanes = live.partition(b"== lanes\n")
    old = before.partition(b"== old\n")[2].partition(b"== new\n")[0]
    boot, plan = program(["compile"], old)[1], program(["plan"], before)[1]
    return boot.removesuffix(b"end\n") + plan.removesuffix(b"end\n") + lanes


def spoilt(report):
    """Reports that no run can print, each made of this one: an event is lost, two of a caller change places, and a
    verdict moves to the place before the release."""
    lines = report.split("\n")
    count = int(lines[0].split()[1])
    events = lines[1:count + 1]
    callers = [line.split()[1] for line in events]
    busiest = max(set(callers), key=callers.count)
    mine = [at for at, caller in enumerate(callers) if caller == busiest]
    text = lambda at: events[at].split(" ", 2)[2]
    # The last of equal events, as the reads of an `until` are, and the one behind it.
    one, other = next(pair for pair in zip(mine, mine[1:]) if text(pair[0]) != text(pair[1]))
    lost = [f"events {count - 1}", *events[:one], *events[one + 1:]]
    moved = list(events)
    moved[one], moved[other] = events[other], events[one]
    for head, rest in ((lost[0], lost[1:]), (lines[0], moved)):
        yield "\n".join([head, *history.in_order(rest), *lines[count + 1:]])


def one_of_many(checks, word, path, sample):
    """Judges the sample beside an input with lanes, and a report of now."""
    text = path.read_bytes()
    status, now = program([word], text)
    checks.check(status == 0, f"{path}: status {status}")
    script = (script_of(text) if word == "live" else text).decode()
    if checks.writes and history.judge(script, sample.read_text())[0]:
        sample.write_bytes(now)
        print(f"check: wrote {sample}")
    for name, report in ((f"a report of now of {path}", now.decode()), (sample, sample.read_text())):
        wrong, line = history.judge(script, report)
        checks.check(not wrong, f"{name}: {wrong}")
        audits.legal(checks, program, name, script.encode(), report.encode())
        print(f"{name}: {line}", flush=True)
    for report in spoilt(sample.read_text()):
        checks.check(history.judge(script, report)[0], f"{sample}: history.py takes it spoilt")


def shell(checks, path):
    """Runs a shell script that uses the program."""
    how = {"cwd": path.parent, "env": {**os.environ, "IOPMP": PROGRAM}, "stdin": subprocess.DEVNULL}
    done = subprocess.run(["sh", path.name], stdout=subprocess.PIPE, timeout=LIMIT, **how)
    checks.check(done.returncode == 0, f"{path}: status {done.returncode}")
    checks.same(path, done.stdout, path.with_suffix(".out"))


def example(checks, path):
    """Checks one input against its partner."""
    word, partners = INPUTS[path.suffix]
    found = [path.with_suffix(it) for it in partners if path.with_suffix(it).is_file()]
    if not found:
        compiled = path.suffix == ".script" and path.with_suffix(".toml").is_file()
        checks.check(compiled, f"{path} has none of {' '.join(partners)} beside it")
    elif path.suffix == ".sh":
        shell(checks, path)
    elif found[0].suffix == ".sample":
        one_of_many(checks, word, path, found[0])
    else:
        status, got = program([word], path.read_bytes())
        checks.check(status == 0, f"{path}: status {status}")
        checks.same(path, got, found[0])
        if found[0].suffix == ".report" and word == "run":
            audits.legal(checks, program, path, path.read_bytes(), got)
        if path.suffix == ".update" and path.with_suffix(".narrow").is_file():
            checks.same(path, program(["narrow"], path.read_bytes())[1], path.with_suffix(".narrow"))


def changes(checks):
    """Reports that are changed in one byte."""
    for name, count in CHANGED.items():
        path = Path(name)
        if path.is_file():
            audits.changed(checks, program, name, path.read_bytes(), program(["run"], path.read_bytes())[1], count)


def examples(checks, folder):
    """Checks each input of a folder, and that each partner has one."""
    files = sorted(Path(folder).iterdir()) if Path(folder).is_dir() else []
    own = {".sh"} if folder == "examples" else set()
    inputs = [it for it in files if it.suffix in INPUTS and it.suffix not in own]
    for path in inputs:
        example(checks, path)
    partners = {ending: [it for it, (_, ends) in INPUTS.items() if ending in ends] for ending in
                (".report", ".sample", ".plan", ".answer", ".out")}
    partners[".narrow"] = [".update"]
    for path in files:
        inputs = [path.with_suffix(it) for it in partners.get(path.suffix, ())]
        checks.check(not inputs or any(it.is_file() for it in inputs), f"{path} has no input beside it")


def fault(checks, path, page):
    """Checks one refusal, and that the page of faults has it."""
    words, status = path.read_text().split("\n")[:2]
    given = path.with_suffix(".in")
    got, out = program(words.split(), given.read_bytes() if given.is_file() else b"")
    checks.check(got == int(status), f"{path}: status {got}, and not {status}")
    checks.same(path, out, path.with_suffix(".out"))
    checks.check(f"`{path.stem}`" in page, f"{path}: docs/FAULTS.md doesn't name it")
    line = path.with_suffix(".out").read_text().strip()
    checks.check(line in page, f"{path}: docs/FAULTS.md doesn't have its line")


def faults(checks, folder):
    """Checks each refusal of the folder."""
    if not folder.is_dir():
        return
    page = Path("docs/FAULTS.md").read_text() if Path("docs/FAULTS.md").is_file() else ""
    for path in sorted(folder.iterdir()):
        if path.suffix == ".how":
            fault(checks, path, page)
        elif path.suffix == ".sh":
            shell(checks, path)
            checks.check(f"`{path.stem}`" in page, f"{path}: docs/FAULTS.md doesn't name it")
        else:
            beside = path.with_suffix(".how").is_file() or path.with_suffix(".sh").is_file()
            checks.check(beside, f"{path} has no .how or .sh beside it")


def overlaps(count):
    """Tells of each example with lanes how many runs on two processors overlap."""
    os.sched_setaffinity(0, sorted(os.sched_getaffinity(0))[:2])
    for path in sorted(it for folder in FOLDERS for it in Path(folder).glob("*.sample")):
        source = next(it for it in (path.with_suffix(".script"), path.with_suffix(".live")) if it.is_file())
        text, word = source.read_bytes(), INPUTS[source.suffix][0]
        script = (script_of(text) if word == "live" else text).decode()
        lines = [history.judge(script, program([word], text)[1].decode())[1] for _ in range(count)]
        found = sum(line.endswith("overlap") for line in lines)
        print(f"{source}: {found} of {count} runs overlap", flush=True)


def main(words):
    os.chdir(TOP)
    if words[:1] == ["--overlap"]:
        overlaps(int(words[1]) if len(words) > 1 else 20)
        return
    if words not in ([], ["--write"]):
        sys.exit(__doc__)
    if subprocess.run([PROGRAM, "gen", "0"], stdout=subprocess.DEVNULL).returncode:
        sys.exit(f"check: the program {PROGRAM} doesn't run")
    checks = Checks(words == ["--write"])
    for folder in FOLDERS:
        examples(checks, folder)
    faults(checks, Path("examples/faults"))
    changes(checks)
    for wrong in quotes.wrong():
        checks.check(not wrong[1], f"{wrong[0]}: {wrong[1]}")
    for picture, how in PICTURES.items():
        checks.same(f"{picture}, drawn by examples/draw.py", draw.drawn(how).encode(), Path(picture))
    print(f"check: {checks.passed} passed, {checks.failed} failed")
    sys.exit(checks.failed > 0)


if __name__ == "__main__":
    main(sys.argv[1:])
