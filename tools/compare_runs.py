"""Compares what the command `run` prints, and its status, with running.py, on random inputs, options and numbers of steps.

    python3 tools/compare_runs.py N [--seed SEED] [PROGRAM]
    python3 tools/compare_runs.py N [--seed SEED] --own

PROGRAM is the built program, crates/sengoruwa/out/sengoruwa if it is not given. The inputs are universes with goals, good ones and
bad, as digits or in a file, and with scripts: those of the planner, whole and damaged, ones that are steered to be legal, and the
drafts of compare_checks.py. Now and then the universe is damaged, or the command has a usage error, which has to print nothing but
on standard error and to have the status 1. It says how many of the N differ, and how they ended; the status is 1 if any differ. The
files of the first that differ are kept and named.

With --own no program is run: what holds of every run is tried on running.py.
"""
import collections
import os
import subprocess
import sys
import tempfile

import compare_checks
from check_cases import Steering, some_universe
from plan_cases import Draw, random_case
from reference import read_universe
from run_cases import LARGEST, lawful
from running import MOST_STEPS, longest_wait, run_text

KEPT = 10
# More steps than these are drawn now and then only, since each prints a line.
MANY = 100000


def legal(draw):
    """A script of mostly legal lines in a small universe."""
    data = some_universe(draw)
    steering = Steering(draw, read_universe(data), [*range(draw.between(2, 8)), 255])
    return data, [steering.line() for _ in range(draw.between(1, 40))]


def some_input(draw):
    """(packed universe, request)"""
    kind = draw.one(["goal"] * 4 + ["planned", "damaged"] + ["legal"] * 4 + ["draft"] * 2)
    if kind == "goal":
        _, data, goal, _ = random_case(draw)
        if draw.chance(0.03):
            place = draw.between(0, len(data) - 1)
            flipped = bytes([data[place] ^ 1 << draw.between(0, 7)])
            data = draw.one([data[:place], data + b"\0", data[:place] + flipped + data[place + 1:]])
        return data, ("goal", goal)
    if kind in ("planned", "damaged"):
        data, lines = compare_checks.planned(draw)
        return data, ("script", compare_checks.damaged(draw, lines) if kind == "damaged" else lines)
    data, lines = (legal if kind == "legal" else compare_checks.case)(draw)
    return data, ("script", lines)


def some_options(draw):
    """The words of the options for the host, and the same as running.py writes them. Any may be left out."""
    little = draw.chance(0.5)
    chosen = {
        "--instances": draw.one([draw.between(0, 9), draw.between(0, 60)] if little else [255, 256, 257, LARGEST]),
        "--bindings": draw.one([draw.between(0, 9), draw.between(0, 300)] if little else [2047, 2048, 2049, LARGEST]),
        "--delay": draw.one([0, 0, 1, 2, 3, 7, 8, 9, 255, 256, LARGEST]),
        "--layers": draw.one(["", "v", "v", "vv", "vv"]),
    }
    left = {"--instances": 256, "--bindings": 2048, "--delay": 0, "--layers": ""}
    words = []
    for name, value in chosen.items():
        if draw.chance(0.7):
            left[name] = value
            words.append([name, str(value)])
    return words, "{} {} {} {}".format(*[left[name] for name in left if name != "--layers"], left["--layers"] or "-")


def some_steps(draw, lines, options):
    """The default, or fewer than end the script, about as many, or more."""
    needed = lines * (longest_wait(options) + 1)
    if needed > MANY:
        return draw.one([0, 1, draw.between(0, MANY), draw.between(0, 1000), None if draw.chance(0.2) else 100])
    more = draw.between(needed, MOST_STEPS) if draw.chance(0.01) else needed + draw.between(0, 30)
    return draw.one([None, None, None, draw.between(0, needed), draw.between(0, needed), max(needed - 1, 0), needed, more])


def shuffled(draw, groups):
    """The groups of words in a random order, one after the other."""
    groups, words = list(groups), []
    while groups:
        words += groups.pop(draw.between(0, len(groups) - 1))
    return words


def mixed(draw, operands, groups):
    """The words of the command: the operands in their order, and the groups of option words anywhere between them."""
    groups, words = list(groups), []
    places = [draw.between(0, len(operands)) for _ in groups]
    for at in range(len(operands) + 1):
        words += shuffled(draw, [group for group, place in zip(groups, places) if place == at])
        words += operands[at:at + 1]
    return words


def goal_word(draw, goal, path):
    """The goal in digits of either case, or in a file."""
    if draw.chance(0.2):
        with open(path, "wb") as f:
            f.write(goal)
        return "@" + path
    return goal.hex().upper() if draw.chance(0.3) else goal.hex()


SPOILT_OPTIONS = [
    ["--steps", str(MOST_STEPS + 1)], ["--steps", str(LARGEST)], ["--steps", ""], ["--steps", "+1"], ["--steps"], ["--room", "5"],
    ["--delay", str(LARGEST + 1)], ["--delay", "1", "--delay", "1"], ["--layers", "vvv"], ["--layers", "x"], ["--layers", "V"]]


def spoilt(draw, operands, groups):
    """The same with a usage error; an option without its value comes last."""
    operands, groups = list(operands), list(groups)
    kind = draw.one(["option"] * 5 + ["a word more", "no request", "no file", "odd"])
    if kind == "option":
        wrong = draw.one(SPOILT_OPTIONS)
        kept = [group for group in groups if group[0] != wrong[0]]
        return mixed(draw, operands, kept + [wrong]) if wrong[1:] else mixed(draw, operands, kept) + wrong
    if kind == "a word more":
        groups.append(["24"])
    elif kind == "no request":
        operands, groups = operands[:1], [group for group in groups if group[0] != "--script"]
    elif kind == "no file":
        operands[0] += ".none"
    elif operands[1:]:
        operands[1] += "2"
    else:
        with open(next(group[1] for group in groups if group[0] == "--script"), "ab") as f:
            f.write(bytes(draw.between(1, 3)))
    return mixed(draw, operands, groups)


def printed(program, words):
    """The status of the command, what it prints, and whether anything came on standard error."""
    ended = subprocess.run([program, "run", *words], capture_output=True)
    return ended.returncode, ended.stdout.decode(errors="replace"), ended.stderr != b""


def ending(status, text):
    """How a case ended, for the count of them."""
    if status:
        return text[0].partition(" at ")[0]
    place, lines = text[-1].split(",")[0].split(" of ")
    stopped = "finished" if place == f"place {lines}" else "full" if any(": refused 31" in line for line in text[-10:]) else "on its way"
    return f"{stopped}, goal not met" if "goal not met" in text[-1] else stopped


def first_difference(wanted, found):
    """The first line in which two outputs differ, and both there."""
    wanted, found = (text.split("\n") for text in (wanted, found))
    at = next((n for n, pair in enumerate(zip(wanted, found)) if pair[0] != pair[1]), min(len(wanted), len(found)))
    return f"line {at}: expected {wanted[at:at + 1]}, found {found[at:at + 1]}"


class Case:
    """A random case: its universe, request, options and steps."""

    def __init__(self, draw):
        self.data, self.request = some_input(draw)
        self.words, self.options = some_options(draw)
        status, text = run_text(self.data, self.request, self.options, 0)
        lines = 0 if status else int(text[-1].split(",")[0].split(" ")[3])
        self.steps = some_steps(draw, lines, self.options)
        self.status, self.text = run_text(self.data, self.request, self.options, self.steps)

    def command(self, draw, folder, number):
        """The operands and the groups of option words of the command, for files that are written; and the files."""
        kind, given = self.request
        paths = [os.path.join(folder, f"{name}{number}") for name in ("universe", kind)]
        with open(paths[0], "wb") as f:
            f.write(self.data)
        groups = self.words + ([] if self.steps is None else [["--steps", str(self.steps)]])
        if kind == "goal":
            return [paths[0], goal_word(draw, given, paths[1])], groups, paths
        with open(paths[1], "wb") as f:
            f.write(b"".join(line.to_bytes(4, "big") for line in given))
        return [paths[0]], groups + [["--script", paths[1]]], paths


def compare(program, count, seed):
    """Compares the program with running.py; whether all were the same."""
    draw, endings, differed = Draw(seed), collections.Counter(), 0
    folder = tempfile.mkdtemp(prefix="runs")
    for number in range(count):
        case = Case(draw)
        if program is None:
            endings[ending(case.status, case.text)] += 1
            if case.status == 0:
                lawful(f"case {number} of seed {seed}", case.request, case.options, case.steps, case.text)
            continue
        operands, groups, paths = case.command(draw, folder, number)
        wanted = case.status, "".join(f"{line}\n" for line in case.text), False
        words = mixed(draw, operands, groups)
        if draw.chance(0.03):
            words = spoilt(draw, operands, groups)
            wanted = 1, "", True
        found = printed(program, words)
        endings["a usage error" if wanted[2] else ending(case.status, case.text)] += 1
        if wanted != found:
            differed += 1
            if differed <= KEPT:
                print(f"case {number} of seed {seed}: expected status {wanted[0]}, found {found[0]}; {first_difference(wanted[1], found[1])}; "
                      f"standard error {'expected' if wanted[2] else 'not expected'}, {'found' if found[2] else 'not found'}")
                print(f"{program} run {' '.join(word or repr(word) for word in words)}")
                continue
        for path in filter(os.path.exists, paths):
            os.remove(path)
    if not os.listdir(folder):
        os.rmdir(folder)
    print(f"{count} cases, of which {differed} differ: " + ", ".join(f"{n} {kind}" for kind, n in sorted(endings.items())))
    return differed == 0


def main():
    return compare(*compare_checks.chosen(
        "Compares the command run with the runs of running.py.",
        "how many random cases",
        "try what holds of every run on running.py",
    ))


if __name__ == "__main__":
    sys.exit(0 if main() else 1)
