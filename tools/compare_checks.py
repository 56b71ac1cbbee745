"""Compares what the command `check` prints with the check in checking.py, on random universes and drafts.

    python3 tools/compare_checks.py N [--seed SEED] [PROGRAM]
    python3 tools/compare_checks.py N [--seed SEED] --own

PROGRAM is the built program, crates/sengoruwa/out/sengoruwa if it is not given. The drafts are scripts of the planner, whole and
damaged, drafts that are steered to be mostly legal, ones with about the most bindings or lines, and noise; now and then the
universe is damaged too. It says how many of the N differ, and how often each refusal came; the status is 1 if any differ. The
files of the first that differ are kept and named.

With --own no program is run: the two ways in which checking.py searches for gaps are compared with each other.
"""
import argparse
import os
import re
import subprocess
import sys
import tempfile

from check_cases import Steering, crowd, ends_exchanged, some_draft, some_universe
from checking import MOST_LINES, check_file
from plan_cases import MOST_LINES as MOST_PLANNED
from plan_cases import SIZES, Draw, packed, random_goal, random_types
from planning import plan
from reference import ALONE, decode, encode, read_universe

ROOT = os.path.join(os.path.dirname(os.path.abspath(__file__)), "..")
KEPT = 10


def planned(draw):
    """A universe and the lines of a script of the planner."""
    universe = random_types(draw, draw.one(SIZES))
    orders = plan(universe, random_goal(draw, universe, draw.one(["late", "listed"])), MOST_PLANNED)[1]
    return packed(*universe), list(map(encode, orders))


def damaged(draw, lines):
    """The draft with one change."""
    lines, place = list(lines), draw.between(0, len(lines) - 1)
    kind = draw.one(["bit", "left out", "double", "neighbours", "ends", "moved", "other", "cut", "noise"])
    line = lines[place]
    if kind == "bit":
        lines[place] = line ^ 1 << draw.between(0, 31)
    elif kind == "left out":
        del lines[place]
    elif kind == "double":
        lines.insert(draw.between(place, len(lines)), line)
    elif kind == "neighbours":
        lines[place:place + 2] = lines[place:place + 2][::-1]
    elif kind == "ends" and line >> 29 in (2, 4):
        lines[place] = encode(ends_exchanged(decode(line)))
    elif kind == "moved":
        lines.insert(draw.between(0, len(lines) - 1), lines.pop(place))
    elif kind == "other":
        lines[place] = draw.one(lines)
    elif kind == "cut":
        del lines[place + 1:]
    else:
        lines.insert(place, noise(draw))
    return lines


def noise(draw):
    """A line of random fields; half the time those that the order has no use for are zero."""
    line = draw.between(0, 2 ** 32 - 1)
    if draw.chance(0.5):
        operation = draw.between(1, 5)
        used = {1: 0x1FE000F0, 2: 0x1FFFFF00, 3: 0x1FE0000E, 4: 0x1FFFFF00, 5: 0x1FE00000}[operation]
        line = operation << 29 | line & used
    return line


def crowded(draw):
    """About as many bindings as may stand, to which others are added, mostly, and from which some are taken."""
    orders = crowd(46, draw.between(2035, 2048)).split("/")
    bound = {tuple(order.split(" ")[2:]) for order in orders if order[0] == "b"}
    pairs = [(str(x), str(y)) for x in range(50) for y in range(46) if x != y]
    orders += [f"c {z} 0" for z in range(46, 50)]
    for _ in range(draw.between(0, 60)):
        legal, letter = draw.chance(0.98), draw.one("bbu")
        pair = draw.one([pair for pair in pairs[-300:] if not legal or (pair in bound) == (letter == "u")] or pairs)
        orders.append(f"{letter} 0 {pair[0]} {pair[1]}")
        (bound.add if letter == "b" else bound.discard)(pair)
        if draw.chance(0.03):
            orders += ["d 45", "c 45 0"]
            bound = {pair for pair in bound if pair[1] != "45"}
    return ALONE, list(map(encode, orders))


def many(draw):
    """About as many lines as there may be."""
    count = MOST_LINES + draw.one([-1, 0, 0, 1, 2, MOST_LINES])
    lines = (list(map(encode, ["c 7 0", "d 7"])) * count)[:count]
    if draw.chance(0.6):
        lines[draw.one([0, count - 1, draw.between(0, count - 1)])] = draw.one([0, encode("d 9"), encode("c 7 0"), encode("c 8 0")])
    return some_universe(draw), lines


def steered(draw):
    """A draft in a small universe, or a longer one in a larger."""
    if draw.chance(0.7):
        data = some_universe(draw)
        return data, some_draft(draw, read_universe(data), 40)
    data = packed(*random_types(draw, draw.one(SIZES)))
    return data, some_draft(draw, read_universe(data), 100)


def case(draw):
    """(packed universe, lines)"""
    large = ["crowded", "crowded", "many"] if draw.chance(0.4) else []
    kind = draw.one(["planned"] * 3 + ["damaged"] * 8 + ["steered"] * 12 + ["noise"] + large)
    if kind in ("planned", "damaged"):
        data, lines = planned(draw)
        for _ in range(draw.between(1, 2) if kind == "damaged" else 0):
            lines = damaged(draw, lines) if lines else lines
    elif kind == "noise":
        data = some_universe(draw)
        steering = Steering(draw, read_universe(data), range(4))
        lines = [noise(draw) if draw.chance(0.3) else steering.line() for _ in range(draw.between(0, 8))]
    else:
        data, lines = {"steered": steered, "crowded": crowded, "many": many}[kind](draw)
    if draw.chance(0.02):
        place = draw.between(0, len(data) - 1)
        flipped = bytes([data[place] ^ 1 << draw.between(0, 7)])
        data = draw.one([data[:place], data + b"\0", data[:place] + flipped + data[place + 1:]])
    return data, lines


def printed(program, paths):
    """What the command prints, and its status."""
    ended = subprocess.run([program, "check", *paths], capture_output=True, text=True, errors="replace")
    return ended.stdout + (f"on standard error: {ended.stderr}" if ended.stderr else ""), ended.returncode


def compare(program, count, seed):
    """Compares the program with the check, or the check's two searches where there is none; whether all were the same."""
    draw = Draw(seed)
    folder = tempfile.mkdtemp(prefix="checks")
    answers, differed = {}, 0
    for number in range(count):
        data, lines = case(draw)
        answer = check_file(data, lines, whole=False)
        kind = re.sub(r"^passes.*", "passes", re.sub(r" at [0-9]+", "", answer))
        answers[kind] = answers.get(kind, 0) + 1
        if program is None:
            wanted = answer
            found = check_file(data, lines, whole=True) if len(lines) <= 1000 else answer
            paths = []
        else:
            paths = [os.path.join(folder, f"{name}{number}") for name in ("universe", "script")]
            for path, content in zip(paths, (data, b"".join(line.to_bytes(4, "big") for line in lines))):
                with open(path, "wb") as f:
                    f.write(content)
            wanted, found = (answer + "\n", 0 if kind == "passes" else 1), printed(program, paths)
        if wanted != found:
            differed += 1
            if differed <= KEPT:
                print(f"case {number} of seed {seed}: expected {wanted!r}, found {found!r}")
                if paths:
                    print(f"{program} check {' '.join(paths)}")
                continue
        for path in paths:
            os.remove(path)
    if not os.listdir(folder):
        os.rmdir(folder)
    print(f"{count} cases, of which {differed} differ: " + ", ".join(f"{n} {kind}" for kind, n in sorted(answers.items())))
    return differed == 0


def chosen(about, cases, own):
    """The program (none with --own), the number of cases and the seed among the command's words."""
    options = argparse.ArgumentParser(description=about)
    options.add_argument("count", type=int, metavar="N", help=cases)
    options.add_argument("program", nargs="?", default=os.path.join(ROOT, "crates", "sengoruwa", "out", "sengoruwa"))
    options.add_argument("--seed", type=int, default=1, help="where the random cases begin (1)")
    options.add_argument("--own", action="store_true", help=own)
    given = options.parse_intermixed_args()
    return None if given.own else given.program, given.count, given.seed


def main():
    return compare(*chosen(
        "Compares the command check with the check in checking.py.",
        "how many random universes and drafts",
        "compare the two searches for gaps in checking.py",
    ))


if __name__ == "__main__":
    sys.exit(0 if main() else 1)
