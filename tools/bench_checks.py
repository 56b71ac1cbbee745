"""Times the command `check` on its largest inputs.

    python3 tools/bench_checks.py [PROGRAM]

PROGRAM is the built program, crates/sengoruwa/out/sengoruwa if it is not given. Each row has the seconds that the whole
command took, reading and printing included, the least of some tries. All drafts pass.
"""
import os
import subprocess
import sys
import tempfile
import time

from bench_hosts import all_ports, filled, harbour
from check_cases import crowd
from plan_cases import MOST_LINES, longest
from planning import plan
from reference import ALONE, encode, read_universe

ROOT = os.path.join(os.path.dirname(os.path.abspath(__file__)), "..")
TRIES = 5


def planned():
    data, goal = longest()
    return data, plan(read_universe(data), goal, MOST_LINES)[1]


def full():
    """2,048 bindings, as a list of orders."""
    return crowd(46, 2048).split("/")


def largest():
    """(label, universe, orders)"""
    yield "creates and deletes in turn", ALONE, filled([], ["c 0 0", "d 0"])
    yield "2048 bindings", ALONE, full()
    yield "2048 bindings, the last ended and made in turn", ALONE, filled(full(), ["u 0 45 22", "b 0 45 22"])
    yield "2048 bindings, creates and deletes in turn", ALONE, filled(full(), ["c 255 0", "d 255"])
    yield "251 rosters at lock 0, bindings to an idle lock", *harbour(0)
    yield "251 rosters at lock 251, bindings to an idle lock", *harbour(251)
    yield "31 instances at two on 32 ports, changes of one of the two", *all_ports()
    yield "the longest script of the planner", *planned()


def seconds(program, paths, answer):
    start = time.perf_counter()
    out = subprocess.run([program, "check", *paths], check=True, capture_output=True, text=True).stdout
    took = time.perf_counter() - start
    assert out == answer, out[-200:]
    return took


def main():
    program = sys.argv[1] if len(sys.argv) > 1 else os.path.join(ROOT, "crates", "sengoruwa", "out", "sengoruwa")
    with tempfile.TemporaryDirectory() as folder:
        paths = [os.path.join(folder, name) for name in ("universe", "script")]
        for label, data, orders in largest():
            for path, content in zip(paths, (data, b"".join(encode(order).to_bytes(4, "big") for order in orders))):
                with open(path, "wb") as f:
                    f.write(content)
            answer = f"passes, {len(orders)} lines\n"
            print(f"{label}, {len(orders)} lines: {min(seconds(program, paths, answer) for _ in range(TRIES)):.3f} s")


if __name__ == "__main__":
    main()
