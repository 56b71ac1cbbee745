"""Times the command `plan` on its largest inputs, or compares what it prints with the planner in planning.py.

    python3 tools/bench_plans.py [PROGRAM]
    python3 tools/bench_plans.py --compare N [--seed SEED] [--room N] [PROGRAM]

PROGRAM is the built program, crates/sengoruwa/out/sengoruwa if it is not given. Each row has the seconds that the whole
command took, reading and printing included, the least of some tries. What is printed is compared there too.

With --compare, N random universes and goals are planned. The places of the list are those of --room for all; or else each
is planned without the option, or with a number of places about as large as the script. The first difference ends the
comparison with status 1, and the files of that universe and goal are kept and named.
"""
import argparse
import os
import subprocess
import sys
import tempfile
import time

from plan_cases import MOST_LINES, Draw, burdened, goal_of, longest, out_of_reach, random_case, walks
from planning import plan
from reference import full, read_universe

ROOT = os.path.join(os.path.dirname(os.path.abspath(__file__)), "..")
TRIES = 5


def expected(universe, goal, room):
    """What the command has to print, and its status."""
    number, orders = plan(universe, goal, MOST_LINES if room is None else room)
    return (f"refused {number}\n", 1) if number else ("\n".join(orders) + "\n", 0)


def difference(wanted, found):
    """The first line that differs, or the status; None where both are the same."""
    if wanted == found:
        return None
    lines = [output.split("\n") for output, _ in (wanted, found)]
    for number, pair in enumerate(zip(*lines), 1):
        if pair[0] != pair[1]:
            return f"line {number}: expected {pair[0]!r}, printed {pair[1]!r}"
    if wanted[0] != found[0]:
        return f"line {min(map(len, lines))}: expected {len(lines[0]) - 1} lines, printed {len(lines[1]) - 1}"
    return f"status: expected {wanted[1]}, was {found[1]}"


class Files:
    """The two files that the program is given, in a folder of their own."""

    def __init__(self, folder):
        self.paths = [os.path.join(folder, name) for name in ("universe", "goal")]

    def write(self, *contents):
        for path, content in zip(self.paths, contents):
            with open(path, "wb") as f:
                f.write(content)

    def run(self, program, room):
        words = [] if room is None else ["--room", str(room)]
        universe, goal = self.paths
        command = [program, "plan", universe, "@" + goal, *words]
        ended = subprocess.run(command, capture_output=True, text=True, errors="replace")
        return ended.stdout + (f"on standard error: {ended.stderr}" if ended.stderr else ""), ended.returncode

    def remove(self):
        for path in self.paths:
            if os.path.exists(path):
                os.remove(path)


def compare(program, count, seed, room):
    """Compares the program with the planner on random cases; whether all were the same."""
    draw = Draw(seed)
    folder = tempfile.mkdtemp(prefix="plans")
    files = Files(folder)
    answers = {}
    for number in range(count):
        _, data, goal, places = random_case(draw)
        places = room if room is not None else None if places == MOST_LINES and draw.chance(0.5) else places
        wanted = expected(read_universe(data), goal, places)
        files.write(data, goal)
        differs = difference(wanted, files.run(program, places))
        if differs:
            option = "" if places is None else f" --room {places}"
            print(f"case {number} of seed {seed}: {differs}\n{program} plan {' @'.join(files.paths)}{option}")
            return False
        answer = wanted[0].strip() if wanted[1] else "scripts"
        answers[answer] = answers.get(answer, 0) + 1
    files.remove()
    os.rmdir(folder)
    print(f"{count} cases are the same: " + ", ".join(f"{n} {answer}" for answer, n in sorted(answers.items())))
    return True


def largest():
    """(label, universe, goal)"""
    yield "48 instances, the first type first", *longest()
    yield "48 instances, the last type first", *longest(True)
    yield "32 instances, two ports from each state 0", *walks()
    yield "48 instances, 1,008 bindings", *burdened()
    yield "every state leads to every other", full(), goal_of(*[(t, 7) for t in range(16)])
    yield "out of reach, and 127 pairs listed", *out_of_reach()


def measure(program):
    """Prints the times; whether all that was printed was as expected."""
    same = True
    with tempfile.TemporaryDirectory() as folder:
        files = Files(folder)
        for label, data, goal in largest():
            wanted = expected(read_universe(data), goal, None)
            files.write(data, goal)
            times = []
            for _ in range(TRIES):
                start = time.perf_counter()
                found = files.run(program, None)
                times.append(time.perf_counter() - start)
            answer = wanted[0].strip() if wanted[1] else f"{wanted[0].count(chr(10))} lines"
            print(f"{label}, {answer}: {min(times):.3f} s")
            differs = difference(wanted, found)
            if differs:
                print(f"it differs: {differs}")
                same = False
    return same


def main():
    options = argparse.ArgumentParser(description="Times the command plan, or compares it with the planner in planning.py.")
    options.add_argument("program", nargs="?", default=os.path.join(ROOT, "crates", "sengoruwa", "out", "sengoruwa"))
    options.add_argument("--compare", type=int, metavar="N", help="compare on N random universes and goals")
    options.add_argument("--seed", type=int, default=1, help="where the random cases begin (1)")
    options.add_argument("--room", type=int, metavar="N", help="with --compare: the places of the list in every case")
    given = options.parse_args()
    if given.compare is None:
        return measure(given.program)
    return compare(given.program, given.compare, given.seed, given.room)


if __name__ == "__main__":
    sys.exit(0 if main() else 1)
