"""Measures the program on large inputs, and on inputs that are made to be costly: bench.sh [--quick] [LOAD ..]

Of each load it prints the bytes of the input, the processor time in milliseconds, the peak memory in MiB, and where
valgrind is there the millions of instructions, which don't depend on how busy the machine is; --quick leaves them out.
The last column is the first line that the program wrote. The program is $IOPMP, or else ./iopmp. A costly load that takes
more than two seconds or 300 MiB has a mark.
"""
import os
import random
import re
import shutil
import subprocess
import sys
import tempfile
from pathlib import Path

PROGRAM = os.path.abspath(os.environ.get("IOPMP") or Path(__file__).resolve().parent.parent / "iopmp")
MOST_MILLISECONDS, MOST_MEBIBYTES = 2000, 300
LETTERS, DIGITS = "abcdefghijklmnopqrstuvwxyz", "0123456789"


def name(number):
    """A short name for each number."""
    signs = LETTERS + DIGITS
    text, number = LETTERS[number % 26], number // 26
    while number:
        text, number = text + signs[number % 36], number // 36
    return text


def unit(requesters, domains, entries, queue):
    shape = f"unit rrids {requesters} domains {domains} entries {entries} mdcfg 0 k 0 srcmd 0 sps 0"
    return f"{shape} queue {queue} transl -"


def script(shape, boot, lanes=()):
    sections = [["boot", *boot], *([f"lane {at}", *lane] for at, lane in enumerate(lanes, 1))]
    return "\n".join(["iopmp 1", shape, *(line for section in sections for line in section), "end", ""])


SMALL, LARGE = unit(4, 3, 8, 1), unit(64, 31, 1024, 64)
FIRST = ["w 0 0x800 0x8", "w 0 0x1060 0x2", "w 0 0x8 0x1"]


def tables():
    """31 domains of 33 entries and more, a requester for one domain each, and 1024 entries, each a small NAPOT range."""
    for domain in range(31):
        yield f"w 0 {0x800 + 4 * domain:#x} {33 * (domain + 1) if domain < 30 else 1024}"
    for requester in range(64):
        yield f"w 0 {0x1000 + 32 * requester:#x} {2 << requester % 31:#x}"
    for entry in range(1024):
        yield f"w 0 {0x2000 + 16 * entry:#x} {16 * entry + 7}"
        yield f"w 0 {0x2008 + 16 * entry:#x} 0x1b"
    yield "w 0 0x8 0x1"


def accesses():
    """100,000 accesses of 64 requesters, judged by 1024 entries."""
    boot = list(tables())
    for number in range(100000):
        boot += [f"t 0 {number % 64} r {7919 * number % 64000} 4 as {name(number)}", f"j {name(number)}"]
    return script(LARGE, boot)


def writes():
    """As many register writes as a script may have."""
    return script(SMALL, [f"w 0 {0x2000 + 16 * (at % 8)} {at % 10}" for at in range(380000)])


def settles():
    """The largest history of one section: a submission that waits, and is judged again and again."""
    waits = ["w 0 0x30 0x1", "t 0 3 r 0x0 4 as a"]
    return script(SMALL, [*FIRST, *waits, *["settle a max 4096"] * 255, "settle a max 4091"])


def largest():
    """The largest history: the boot section and 15 lanes with 65,536 events each."""
    waits = ["t 0 3 r 0x0 4 as a", *["settle a max 4096"] * 15]
    boot = [*FIRST, "w 0 0x30 0x1", *waits, "settle a max 4091"]
    return script(unit(4, 3, 8, 64), boot, [[*waits, "settle a max 4095"]] * 15)


def names():
    """140,000 names that are alike for long."""
    return script(SMALL, [f"t 0 0 r 0 1 as aaa{number:05x}" for number in range(140000)])


def queued_writes():
    """16 lanes of register writes while the queue is full."""
    draw = random.Random(1)
    boot = ["w 0 0x38 0x4000003f", *(f"t 0 63 r 0 1 as {name(at)}" for at in range(64))]
    lanes = [[f"w 0 {0x2000 + 16 * draw.randrange(1024)} {draw.randrange(10)}" for _ in range(16000)] for _ in range(16)]
    return script(LARGE, boot, lanes)


def stalls():
    """16 lanes of writes of MDSTALL, over 64 requesters that are for one of 31 domains each."""
    return script(LARGE, list(tables()), [[f"w 0 48 {2 << at % 31:#x}" for at in range(15000)] for _ in range(16)])


def polls():
    """The boot section and 15 lanes with 65,536 reads each at most, of which the first hits."""
    section = ["until 0 0x8 0x0 0x0 max 4096"] * 16
    return script(SMALL, section, [section] * 15)


def blank():
    """4 MiB of line feeds."""
    return "\n" * 4194304


def dotted():
    """A policy of 4 MiB of tables inside tables. Its memory is the kit's own, whose toml keeps each table: no mark."""
    text = '[unit]\nrrids = 1\ndomains = 1\nentries = 1\nqueue = 1\n'
    lines, size, at = [text], len(text), 0
    while size < 4194000:
        lines.append(f"[{at:x}.a.a.a]\n")
        size, at = size + len(lines[-1]), at + 1
    return "".join(lines)


def held():
    """A submission that is judged 139,264 times while it waits: as long as a report may be whose audit is asked for."""
    waits = ["w 0 0x30 0x1", "t 0 3 r 0x0 4 as a"]
    return script(SMALL, [*FIRST, *waits, *["settle a max 4096"] * 34])


def audited():
    """The same script and its report."""
    text = held()
    report = subprocess.run([PROGRAM, "run"], input=text.encode(), stdout=subprocess.PIPE, check=True).stdout
    return f"{text}== report\n{report.decode()}"


def policy(rights):
    """64 requesters, 63 domains of two requesters each, and 16 grants a domain, of which every third has these rights."""
    lines = ["[unit]", "rrids = 64", "domains = 63", "entries = 1024", "queue = 1"]
    for domain in range(63):
        bases = [0x80000000 + 0x1000 * (16 * domain + at) for at in range(16)]
        grants = [f'{{ from = {it:#x}, size = 0x1000, rights = "{rights if it // 0x1000 % 3 == 0 else "r"}" }}' for it in bases]
        lines += ["[[domain]]", f'name = "d{domain}"', f"rrids = [{domain}, {domain + 1}]", f"grant = [{', '.join(grants)}]"]
    return "\n".join([*lines, ""])


def update():
    """A large unit, of which a third of the entries change."""
    return f"== old\n{policy('r')}== new\n{policy('rw')}== polls 8\n"


def unchanged():
    """The same with nothing that changes: all requesters are looked at all the way."""
    return f"== old\n{policy('r')}== new\n{policy('r')}== polls 8\n"


def nothing():
    """No input."""
    return ""


# The program's words, the input, and whether it is made to be costly.
LOADS = {
    "accesses": (["run"], accesses, False),
    "writes": (["run"], writes, False),
    "settles": (["run"], settles, False),
    "largest": (["run"], largest, False),
    "held": (["run"], held, False),
    "audited": (["audit"], audited, False),
    "narrow": (["narrow"], update, False),
    "unchanged": (["narrow"], unchanged, False),
    "gen": (["gen", "0"], nothing, False),
    "soak": (["soak", "0"], nothing, False),
    "names": (["run"], names, True),
    "queued_writes": (["run"], queued_writes, True),
    "stalls": (["run"], stalls, True),
    "polls": (["run"], polls, True),
    "blank": (["run"], blank, True),
    "dotted": (["compile"], dotted, False),
}


def write(path, make):
    """Writes an input in a process of its own: a child's peak memory begins at that of this process."""
    if os.fork() == 0:
        path.write_text(make())
        os._exit(0)
    os.wait()


def spent(words, path, out):
    """The status, the processor time and the peak memory of one run."""
    with open(path, "rb") as text, open(out, "wb") as to:
        child = subprocess.Popen([PROGRAM, *words], stdin=text, stdout=to)
        _, status, used = os.wait4(child.pid, 0)
        child.returncode = os.waitstatus_to_exitcode(status)
    return child.returncode, 1000 * (used.ru_utime + used.ru_stime), used.ru_maxrss / 1024


def instructions(words, path, room):
    """The millions of instructions of one run, or None."""
    counts = room / "counts"
    tool = ["valgrind", "--tool=callgrind", f"--callgrind-out-file={counts}"]
    with open(path, "rb") as text:
        how = {"stdin": text, "stdout": subprocess.DEVNULL, "stderr": subprocess.DEVNULL}
        subprocess.run([*tool, PROGRAM, *words], **how)
    found = re.search(r"^(?:totals|summary): (\d+)", counts.read_text() if counts.exists() else "", re.M)
    return int(found[1]) / 1e6 if found else None


def main(words):
    chosen = [it for it in words if not it.startswith("--")] or list(LOADS)
    if any(it not in LOADS for it in chosen):
        sys.exit(__doc__ + "\nLoads: " + " ".join(LOADS))
    counting = "--quick" not in words and shutil.which("valgrind")
    subprocess.run([PROGRAM, "gen", "0"], stdout=subprocess.DEVNULL, check=True)
    print(f"{'load':14} {'bytes':>8} {'ms':>7} {'MiB':>5} {'million':>8}  status and first line")
    with tempfile.TemporaryDirectory() as folder:
        room = Path(folder)
        for load in chosen:
            command, make, is_costly = LOADS[load]
            write(room / load, make)
            status, time, memory = spent(command, room / load, room / "out")
            count = instructions(command, room / load, room) if counting else None
            with open(room / "out", "rb") as out:
                first = out.readline(100).decode(errors="replace").strip()
            mark = " TOO MUCH" if is_costly and (time > MOST_MILLISECONDS or memory > MOST_MEBIBYTES) else ""
            million = f"{count:.0f}" if count else "-"
            size = (room / load).stat().st_size
            print(f"{load:14} {size:8} {time:7.0f} {memory:5.0f} {million:>8}  {status} {first}{mark}", flush=True)


main(sys.argv[1:])
