"""Tries the program's command lines: what each prints on both streams, its status, and the files that it leaves.

    python3 tools/try_program.py [PROGRAM..]

PROGRAM is a built program; where none is named, crates/sengoruwa/out/sengoruwa, and with it sengoruwa.by-rattle beside it, which
Rattle's own compiler builds, where that is there and no older. Each command line is run in a fresh folder, where the files of FILES
stand that its words name. What is expected follows docs/FORMATS.md and docs/REFUSALS.md, on standard error the usage text and the
messages of crates/sengoruwa/src/main.rt; plans, checks and runs are those of planning.py, checking.py, running.py and reference.py,
which share no code with the crates. Printed is each that differs, with both texts, and last how many are as they must be, or how
many differ, counted once for each program. The status is 0 only if none differs.
"""
import argparse
import os
import resource
import shlex
import subprocess
import sys
import tempfile
from typing import NamedTuple

import plan_cases
import planning
import reference
from checking import check_file
from reference import ALONE, HARBOUR, PLAN, encode, read_universe, script
from running import MOST_STEPS, run_text

ROOT = os.path.realpath(os.path.join(os.path.dirname(__file__), ".."))
OUT = f"{ROOT}/crates/sengoruwa/out"
MAIN = f"{ROOT}/crates/sengoruwa/src/main.rt"
# None of the command lines takes a second; so many seconds are waited.
SECONDS = 60
# So many lines of a text are shown, from the one before the first that differs, and of a line so many characters.
SHOWN = 30
WIDTH = 200
# The memory in bytes of a program that is to run out of it: enough to start.
LITTLE = 2 ** 25


def packed(*orders):
    """The packed script of written orders."""
    return script(*map(encode, orders))


def lines(*texts):
    """The texts, a line each."""
    return "".join(f"{text}\n" for text in texts)


# The files that a command line may name; FOLDER is a folder.
FOLDER = None
WHOLE = packed(*PLAN)
EXCHANGED = packed(*PLAN[:9], PLAN[10], PLAN[9])
LONGEST, LONGEST_GOAL = plan_cases.longest()
FULL = reference.full()
# The accident: the lock is taken away while the dispatcher requires it.
ACCIDENT = PLAN[:9] + ["u 0 0 2"]
FILES = {
    "harbour.universe": HARBOUR,
    "cut.universe": HARBOUR[:-1],
    "lone.universe": ALONE,
    "full.universe": FULL,
    "longest.universe": LONGEST,
    "harbour.goal": b"\x24",
    "empty.goal": b"",
    "longest.goal": LONGEST_GOAL,
    "seventeen.goal": b"\x24" * 17,
    "harbour.script": WHOLE,
    "exchanged.script": EXCHANGED,
    "empty.script": b"",
    "one.script": packed("c 0 0"),
    "bad.script": packed("c 1 1") + script(0x20200011) + packed("c 2 2"),
    "illegal.script": packed("c 0 0", "s 0 0"),
    "many.script": packed("c 0 0") * 32769,
    "odd1.script": WHOLE + b"\x20",
    "odd2.script": WHOLE[:-2],
    "odd3.script": b"\x20\x20\x00",
    "harbour.orders": lines("# the harbour", "", *PLAN).encode(),
    "accident.orders": lines(*ACCIDENT).encode(),
    "one.orders": b"c 0 0",
    "empty.orders": b"# none\n",
    "large.orders": b"c 0 0\n\nd 300\nd 400\n",
    "bad.orders": b"c 0 0\n# more\nc 1\nd 300\n",
    "old.file": b"what was there before, and is longer than the script " * 3,
    "folder": FOLDER,
    "--out": packed("c 1 1"),
}


class Try(NamedTuple):
    """A command line as a shell reads it; the texts on both streams, of which None is one line, whatever it says; the status; the
    files that it makes or replaces; and what it has not: the output, which then cannot be written, or the memory."""
    line: str
    out: str
    err: str | None
    status: int
    made: dict = {}
    lack: str = ""


def prints(line, out, made={}):
    """It is done."""
    return Try(line, out, "", 0, made)


def refuses(line, out):
    """It is refused, and leaves the files as they were."""
    return Try(line, out, "", 1)


def misuses(line, message):
    """It is called wrongly: nothing is printed but the message, and the files stay as they were."""
    return Try(line, "", lines(message), 1)


def fails(line, lack, made={}):
    """It lacks output or memory: nothing is printed but a line that says so, which no page words."""
    return Try(line, "", None, 1, made, lack)


def usage_text():
    """The usage text, as the program has it."""
    with open(MAIN, encoding="utf-8") as file:
        return file.read().partition('const USAGE: &str = "')[2].partition('";')[0]


# The messages of usage errors.
USAGE = usage_text()
UNKNOWN = "is no option of the command: sengoruwa with no words prints all commands and options"
TWICE = "is given twice: give each option once"
NO_VALUE = "has no value: write it behind the option"
NO_LAYERS = "is no word for --layers: write v or vv, or an empty word for none"
NO_STEPS = "is no number for --steps: write decimal digits, up to 1048576"
DEMO = "demo: write nothing behind it"
UNIVERSE = "universe: name one universe file"
CLOSING = "closing: name one universe file"
PLAN_WORDS = "plan: name a universe file and a goal"
CHECK = "check: name a universe file and a packed script"
LINES = "lines: name one packed script"
PACK = "pack: name a text file of orders and the file to write"
HOST = "host: name a universe file and a text file of orders"
RUN = "run: name a universe file, and either a goal or --script with a packed script, not both"


def no_command(word):
    return f"'{word}' is no command\n{USAGE}"


def no_number(option):
    return f"is no number for {option}: write decimal digits, up to 4294967295"


def no_script(path):
    return f"'{path}' is no script: its length is no multiple of four bytes, as many as a line has"


def unreadable(path):
    return f"cannot read '{path}': name a file that can be read"


def unwritable(path):
    return f"cannot write '{path}': name a file that can be written"


def no_order(number, path):
    return f"line {number} of '{path}' writes no order: write one as c 0 1, b 0 0 1, s 0 1, u 0 0 1 or d 0, with single blanks and nothing behind it"


def no_goal(word):
    return f"'{word}' is no goal: write its bytes in hexadecimal digits, as 24, or @PATH for a file of them"


def planned(data, goal):
    """The orders planned for a goal."""
    refusal, orders = planning.plan(read_universe(data), goal, plan_cases.MOST_LINES)
    assert refusal is None
    return orders


def told(answers, options="256 2048 0 -"):
    """What `host` prints of orders to the harbour, each with its answer worked out by hand."""
    return reference.host_text("host", reference.fresh_host(options, HARBOUR), answers)


def ran(request, options="256 2048 0 -", steps=None):
    """What `run` prints of a request that is run in the harbour."""
    status, text = run_text(HARBOUR, request, options, steps)
    assert status == 0
    return lines(*text)


def checked(data, path):
    """What `check` prints of a script."""
    given = FILES[path]
    return lines(check_file(data, [int.from_bytes(given[at:at + 4], "big") for at in range(0, len(given), 4)]))


GOAL = ("goal", b"\x24")
SCRIPT = ("script", list(map(encode, PLAN)))
PLAN_DONE = reference.done("/".join(PLAN))
ACCIDENT_DONE = reference.done("/".join(ACCIDENT))
ACCIDENT_REFUSED = ACCIDENT_DONE[:-1] + [("u 0 0 2", "30 by 1")]

COMMANDS = [
    misuses("", USAGE),
    misuses("''", no_command("")),
    misuses("help", no_command("help")),
    misuses("--help", no_command("--help")),
    misuses("Demo", no_command("Demo")),
    misuses("demo 24", DEMO),
]

UNIVERSES = [
    prints("universe harbour.universe", reference.universe_text(HARBOUR)),
    prints("universe full.universe", reference.universe_text(FULL)),
    refuses("universe cut.universe", "refused 1\n"),
    refuses("universe empty.goal", "refused 1\n"),
    misuses("universe", UNIVERSE),
    misuses("universe harbour.universe harbour.universe", UNIVERSE),
    misuses("universe none", unreadable("none")),
    misuses("universe folder", unreadable("folder")),
    prints("closing harbour.universe", reference.closing_text(HARBOUR)),
    prints("closing lone.universe", "0 0/0 parent -\nport 0 supplier -\n"),
    refuses("closing cut.universe", "refused 1\n"),
    misuses("closing", CLOSING),
    misuses("closing harbour.universe 24", CLOSING),
    misuses("closing none", unreadable("none")),
    misuses("closing --room", unreadable("--room")),
]

PLANS = [
    prints("plan harbour.universe 24", lines(*PLAN)),
    prints("plan harbour.universe 2402", lines(*PLAN)),
    prints("plan harbour.universe @harbour.goal", lines(*PLAN)),
    prints("plan full.universe aE", lines(*planned(FULL, b"\xae"))),
    prints("plan full.universe Ae0c", lines(*planned(FULL, b"\xae\x0c"))),
    prints("plan harbour.universe 24 --out new.script", lines(*PLAN), {"new.script": WHOLE}),
    prints("plan --out old.file harbour.universe 24", lines(*PLAN), {"old.file": WHOLE}),
    prints("plan harbour.universe --out --room 24", lines(*PLAN), {"--room": WHOLE}),
    prints("plan harbour.universe --room 11 24 --out new.script", lines(*PLAN), {"new.script": WHOLE}),
    prints("plan harbour.universe 24 --room 0000000000011", lines(*PLAN)),
    prints("plan harbour.universe 24 --room 4294967295", lines(*PLAN)),
    prints("plan longest.universe @longest.goal", lines(*planned(LONGEST, LONGEST_GOAL))),
    prints("plan longest.universe @longest.goal --room 6357", lines(*planned(LONGEST, LONGEST_GOAL))),
    refuses("plan longest.universe @longest.goal --room 6356 --out old.file", "refused 15\n"),
    refuses("plan harbour.universe 24 --room 10 --out new.script", "refused 15\n"),
    refuses("plan harbour.universe 24 --room 0", "refused 15\n"),
    refuses("plan harbour.universe ''", "refused 11\n"),
    refuses("plan harbour.universe @empty.goal", "refused 11\n"),
    refuses("plan harbour.universe @seventeen.goal", "refused 11\n"),
    refuses("plan harbour.universe 25 --out old.file", "refused 12\n"),
    refuses("plan harbour.universe 25 --out none/new.script", "refused 12\n"),
    refuses("plan lone.universe 02", "refused 14\n"),
    refuses("plan cut.universe 24 --out new.script", "refused 1\n"),
    misuses("plan", PLAN_WORDS),
    misuses("plan harbour.universe", PLAN_WORDS),
    misuses("plan harbour.universe 24 02", PLAN_WORDS),
    misuses("plan harbour.universe 24 --out none/new.script", unwritable("none/new.script")),
    misuses("plan harbour.universe 24 --out folder", unwritable("folder")),
    misuses("plan none 24 --out old.file", unreadable("none")),
    misuses("plan harbour.universe @none --out new.script", unreadable("none")),
    misuses("plan harbour.universe @folder", unreadable("folder")),
    misuses("plan harbour.universe zz --out old.file", no_goal("zz")),
    misuses("plan harbour.universe 242", no_goal("242")),
    misuses("plan harbour.universe 0x24", no_goal("0x24")),
    misuses("plan harbour.universe '24 '", no_goal("24 ")),
    misuses("plan harbour.universe -24", no_goal("-24")),
    misuses("plan harbour.universe 24 --delay 1", f"'--delay' {UNKNOWN}"),
    misuses("plan harbour.universe 24 --steps 1", f"'--steps' {UNKNOWN}"),
    misuses("plan harbour.universe 24 --out new.script --out old.file", f"'--out' {TWICE}"),
    misuses("plan harbour.universe 24 --out", f"'--out' {NO_VALUE}"),
    misuses("plan harbour.universe 24 --room", f"'--room' {NO_VALUE}"),
    misuses("plan harbour.universe 24 --out new.script --room x", f"'x' {no_number('--room')}"),
    misuses("plan harbour.universe 24 --room 4294967296", f"'4294967296' {no_number('--room')}"),
    misuses("plan harbour.universe 24 --room -1", f"'-1' {no_number('--room')}"),
]

SCRIPTS = [
    prints("check harbour.universe harbour.script", "passes, 11 lines\n"),
    prints("check harbour.universe one.script", "passes, 1 lines\n"),
    refuses("check harbour.universe exchanged.script", checked(HARBOUR, "exchanged.script")),
    refuses("check harbour.universe illegal.script", "refused 44 at 1: 28\n"),
    refuses("check harbour.universe bad.script", "refused 43 at 1\n"),
    refuses("check harbour.universe empty.script", "refused 41\n"),
    refuses("check harbour.universe many.script", "refused 41\n"),
    refuses("check cut.universe exchanged.script", "refused 1\n"),
    misuses("check harbour.universe odd1.script", no_script("odd1.script")),
    misuses("check cut.universe odd2.script", no_script("odd2.script")),
    misuses("check harbour.universe odd3.script", no_script("odd3.script")),
    misuses("check none harbour.script", unreadable("none")),
    misuses("check cut.universe none", unreadable("none")),
    misuses("check harbour.universe", CHECK),
    misuses("check harbour.universe harbour.script harbour.script", CHECK),
    prints("lines harbour.script", lines(*PLAN)),
    prints("lines empty.script", ""),
    prints("lines --out", "c 1 1\n"),
    refuses("lines bad.script", "c 1 1\nrefused 43 at 1\n"),
    misuses("lines odd1.script", no_script("odd1.script")),
    misuses("lines odd2.script", no_script("odd2.script")),
    misuses("lines odd3.script", no_script("odd3.script")),
    misuses("lines none", unreadable("none")),
    misuses("lines", LINES),
    prints("pack harbour.orders new.script", "11 lines\n", {"new.script": WHOLE}),
    prints("pack harbour.orders old.file", "11 lines\n", {"old.file": WHOLE}),
    prints("pack one.orders one.orders", "1 lines\n", {"one.orders": packed("c 0 0")}),
    prints("pack empty.orders new.script", "0 lines\n", {"new.script": b""}),
    refuses("pack large.orders new.script", "refused 43 at 1\n"),
    refuses("pack large.orders old.file", "refused 43 at 1\n"),
    refuses("pack large.orders none/new.script", "refused 43 at 1\n"),
    misuses("pack bad.orders new.script", no_order(3, "bad.orders")),
    misuses("pack bad.orders old.file", no_order(3, "bad.orders")),
    misuses("pack none new.script", unreadable("none")),
    misuses("pack harbour.orders none/new.script", unwritable("none/new.script")),
    misuses("pack harbour.orders folder", unwritable("folder")),
    misuses("pack harbour.orders", PACK),
    misuses("pack harbour.orders new.script old.file", PACK),
]

HOSTS = [
    prints("host harbour.universe harbour.orders", told(PLAN_DONE)),
    prints("host harbour.universe empty.orders", "instances 0, bindings 0, gap-free yes\n"),
    prints("host harbour.universe accident.orders", told(ACCIDENT_DONE)),
    prints("host harbour.universe accident.orders --layers ''", told(ACCIDENT_DONE)),
    prints("host --layers v harbour.universe accident.orders", told(ACCIDENT_REFUSED, "256 2048 0 v")),
    prints("host harbour.universe --layers vv harbour.orders --delay 0000", told(PLAN_DONE, "256 2048 0 vv")),
    prints("host harbour.universe large.orders",
        told([("c 0 0", "done"), ("d 300", "22 by 0"), ("d 400", "22 by 0")])),
    prints("host harbour.universe one.orders --instances 0 --bindings 7", told([("c 0 0", "31 by 0")], "0 7 0 -")),
    prints("host --instances 257 harbour.universe --bindings 4294967295 one.orders --delay 9",
        "c 0 0: refused 21 by 0 (waits 7, creations 256, bindings 2048)\ninstances 0, bindings 0, gap-free yes\n"),
    refuses("host cut.universe one.orders --delay 1", "refused 1\n"),
    misuses("host cut.universe bad.orders", no_order(3, "bad.orders")),
    misuses("host none one.orders", unreadable("none")),
    misuses("host cut.universe none", unreadable("none")),
    misuses("host", HOST),
    misuses("host harbour.universe --layers one.orders one.orders", f"'one.orders' {NO_LAYERS}"),
    misuses("host harbour.universe", HOST),
    misuses("host harbour.universe one.orders one.orders", HOST),
    misuses("host harbour.universe one.orders --steps 1", f"'--steps' {UNKNOWN}"),
    misuses("host harbour.universe one.orders --delay=1", f"'--delay=1' {UNKNOWN}"),
    misuses("host harbour.universe one.orders --Delay 1", f"'--Delay' {UNKNOWN}"),
    misuses("host harbour.universe one.orders --", f"'--' {UNKNOWN}"),
    misuses("host harbour.universe one.orders --layers V", f"'V' {NO_LAYERS}"),
    misuses("host harbour.universe one.orders --layers vvv", f"'vvv' {NO_LAYERS}"),
    misuses("host harbour.universe one.orders --delay --delay", f"'--delay' {no_number('--delay')}"),
    misuses("host --delay 1 harbour.universe one.orders --delay 1", f"'--delay' {TWICE}"),
    misuses("host harbour.universe one.orders --instances +1 --delay x --room 5", f"'+1' {no_number('--instances')}"),
]

RUNS = [
    prints("run harbour.universe 24", ran(GOAL)),
    prints("run --delay 2 harbour.universe --layers v @harbour.goal", ran(GOAL, "256 2048 2 v")),
    prints("run harbour.universe 24 --delay 9", ran(GOAL, "256 2048 8 -", 99)),
    prints("run harbour.universe 24 --steps 0",
        "place 0 of 11, leases 0, instances 0, bindings 0, gap-free yes, goal not met\n"),
    prints("run harbour.universe --steps 13 24", ran(GOAL, steps=11).replace("place", "11: refused 52\n11: refused 52\nplace")),
    prints("run harbour.universe 24 --instances 2 --bindings 1", ran(GOAL, "2 1 0 -")),
    prints(f"run harbour.universe 00 --steps {MOST_STEPS}", "0 c 0 0: done\n" + "1: refused 52\n" * (MOST_STEPS - 1)
        + "place 1 of 1, leases 0, instances 1, bindings 0, gap-free yes, goal met\n"),
    prints("run harbour.universe --script harbour.script", ran(SCRIPT)),
    prints("run --steps 5 --script harbour.script --layers vv harbour.universe --delay 1", ran(SCRIPT, "256 2048 1 vv", 5)),
    refuses("run harbour.universe --script exchanged.script", "refused 45 at 9\n"),
    refuses("run harbour.universe --script illegal.script --steps 0", "refused 44 at 1: 28\n"),
    refuses("run harbour.universe --script bad.script", "refused 43 at 1\n"),
    refuses("run harbour.universe --script empty.script", "refused 41\n"),
    refuses("run harbour.universe --script many.script", "refused 41\n"),
    refuses("run harbour.universe ''", "refused 11\n"),
    refuses("run harbour.universe 25", "refused 12\n"),
    refuses("run lone.universe 02", "refused 14\n"),
    refuses("run cut.universe 25", "refused 1\n"),
    refuses("run cut.universe --script empty.script", "refused 1\n"),
    misuses("run", RUN),
    misuses("run harbour.universe", RUN),
    misuses("run harbour.universe 24 02", RUN),
    misuses("run harbour.universe 24 --script harbour.script", RUN),
    misuses("run --script harbour.script", RUN),
    misuses("run cut.universe --script odd1.script", no_script("odd1.script")),
    misuses("run harbour.universe --script odd3.script", no_script("odd3.script")),
    misuses("run harbour.universe --script none", unreadable("none")),
    misuses("run harbour.universe --script --steps", unreadable("--steps")),
    misuses("run none 24", unreadable("none")),
    misuses("run cut.universe @none", unreadable("none")),
    misuses("run cut.universe 2", no_goal("2")),
    misuses("run harbour.universe 24 --steps 1048577", f"'1048577' {NO_STEPS}"),
    misuses("run harbour.universe 24 --steps -1", f"'-1' {NO_STEPS}"),
    misuses("run harbour.universe 24 --steps", f"'--steps' {NO_VALUE}"),
    misuses("run harbour.universe 24 --steps 1 --steps 1", f"'--steps' {TWICE}"),
    misuses("run harbour.universe --script harbour.script --script harbour.script", f"'--script' {TWICE}"),
    misuses("run harbour.universe 24 --delay 4294967296", f"'4294967296' {no_number('--delay')}"),
    misuses("run harbour.universe 24 --room 5", f"'--room' {UNKNOWN}"),
    misuses("run harbour.universe 24 --out new.script", f"'--out' {UNKNOWN}"),
]

FAILURES = [
    fails("universe harbour.universe", "output"),
    fails("plan harbour.universe 25", "output"),
    fails("plan harbour.universe 24 --out new.script", "output", {"new.script": WHOLE}),
    fails(f"run harbour.universe 00 --steps {MOST_STEPS}", "memory"),
]

TABLE = COMMANDS + UNIVERSES + PLANS + SCRIPTS + HOSTS + RUNS + FAILURES


def put_files(folder, words):
    """Puts the files that the words name into the folder, and answers them."""
    names = {word.removeprefix("@") for word in words}
    files = {name: held for name, held in FILES.items() if name in names}
    for name, held in files.items():
        if held is FOLDER:
            os.mkdir(f"{folder}/{name}")
        else:
            with open(f"{folder}/{name}", "wb") as file:
                file.write(held)
    return files


def files_in(folder):
    """The files that stand in the folder."""
    files = {}
    for entry in os.scandir(folder):
        files[entry.name] = FOLDER
        if entry.is_file():
            with open(entry.path, "rb") as file:
                files[entry.name] = file.read()
        else:
            files.update((f"{entry.name}/{name}", held) for name, held in files_in(entry.path).items())
    return files


def part(text, start):
    """The lines of a text from the start on, each behind a bar; not more of them, and of each, than are shown."""
    shown = text[start:start + SHOWN]
    rest = len(text) - start - len(shown)
    return "".join(f"  | {line[:WIDTH]}\n" for line in shown) + (f"  and {rest} lines more\n" if rest else "")


def both(what, wanted, found):
    """Both texts, from the line before the first that differs."""
    wanted, found = wanted.split("\n"), found.split("\n")
    same = next((at for at, pair in enumerate(zip(wanted, found)) if pair[0] != pair[1]), min(len(wanted), len(found)))
    start = max(same - 1, 0)
    return f"{what}, expected from line {start + 1}:\n{part(wanted, start)}found:\n{part(found, start)}"


def listed(files, others):
    """A line for each of the files that is otherwise among the others, with its bytes in hexadecimal digits."""
    told = {name: "a folder" if held is FOLDER else held.hex() for name, held in files.items() if (name, held) not in others.items()}
    return lines(*[f"{name}: {text}" for name, text in sorted(told.items())])


def run(program, words, folder, lack):
    """Runs the program in the folder, where it lacks what is said."""
    little = lambda: resource.setrlimit(resource.RLIMIT_AS, (LITTLE, LITTLE))
    with open("/dev/full", "wb") as full:
        return subprocess.run([program, *words], cwd=folder, timeout=SECONDS, stdin=subprocess.DEVNULL, stderr=subprocess.PIPE,
            stdout=full if lack == "output" else subprocess.PIPE, preexec_fn=little if lack == "memory" else None)


def differences(tried, program):
    """What the program does otherwise, as a text; empty if nothing."""
    words = shlex.split(tried.line)
    with tempfile.TemporaryDirectory(prefix="program") as folder:
        expected = put_files(folder, words) | tried.made
        try:
            ended = run(program, words, folder, tried.lack)
        except subprocess.TimeoutExpired:
            return f"it has not ended after {SECONDS} seconds\n"
        files = files_in(folder)
    out, err = ((stream or b"").decode(errors="backslashreplace") for stream in (ended.stdout, ended.stderr))
    text = ""
    if out != tried.out:
        text += both("standard output", tried.out, out)
    if tried.err is None and err.count("\n") != 1:
        text += both("standard error", "one line\n", err)
    elif tried.err not in (None, err):
        text += both("standard error", tried.err, err)
    if ended.returncode != tried.status:
        text += f"status {ended.returncode}, expected {tried.status}\n"
    if files != expected:
        text += both("files afterwards", listed(expected, files), listed(files, expected))
    return text


def standing():
    """The programs that stand built."""
    program, other = f"{OUT}/sengoruwa", f"{OUT}/sengoruwa.by-rattle"
    is_new = os.path.exists(program) and os.path.exists(other) and os.path.getmtime(other) >= os.path.getmtime(program)
    return [program, other] if is_new else [program]


def main():
    options = argparse.ArgumentParser(description="Tries the program's command lines.")
    options.add_argument("programs", nargs="*", metavar="PROGRAM", help="a built program; those in crates/sengoruwa/out if none is named")
    programs = [os.path.abspath(it) for it in options.parse_args().programs] or standing()
    for program in programs:
        if not os.path.isfile(program) or not os.access(program, os.X_OK):
            print(f"{program} is no built program: build it by `rt run -- demo` in crates/sengoruwa, or name another")
            return 1
    differ = 0
    for program in programs:
        for tried in TABLE:
            if text := differences(tried, program):
                differ += 1
                print(f"{os.path.basename(program)} {tried.line}{f' (without {tried.lack})' if tried.lack else ''}\n{text}", flush=True)
    count = len(TABLE) * len(programs)
    print(f"{differ} of {count} differ" if differ else f"{count} command lines as they must be")
    return 1 if differ else 0


if __name__ == "__main__":
    sys.exit(main())
