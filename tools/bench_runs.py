"""Times the command `run` on its largest inputs: scripts of 32,768 lines on clouds with delays 0 and 8 and no layer, one
and two.

    python3 tools/bench_runs.py [PROGRAM]

PROGRAM is the built program, crates/sengoruwa/out/sengoruwa if it is not given. Each row has the seconds that the whole
command took, checking, reading and printing included, the least of some tries where it does not take long; with the
command's own number of steps, by which every run ends here, and with the most steps that may be asked for.
"""
import os
import subprocess
import sys
import tempfile
import time

import bench_checks
from bench_hosts import filled
from plan_cases import chain, longest, packed
from reference import ALONE, encode
from running import MOST_STEPS

ROOT = os.path.join(os.path.dirname(os.path.abspath(__file__)), "..")
TRIES, LONG = 3, 2


def crowded():
    """252 instances and 2,048 bindings among them, the last ended and made in turn."""
    pairs = [(x, y) for x in range(252) for y in range(9) if x != y][:2048]
    orders = [f"c {z} 0" for z in range(252)] + [f"b 0 {x} {y}" for x, y in pairs]
    return ALONE, filled(orders, ["{} 0 {} {}".format(letter, *pairs[-1]) for letter in "ub"])


def served():
    """250 instances served on all eight ports by one, 48 of them on one port by another too, which stops and starts in turn."""
    ports = range(8)
    universe = packed(8, [[((), (), [1]), (ports, (), [0])], [((), (), [1]), ((), ports, ())]])
    orders = [order for z in (254, 255) for order in (f"c {z} 0", f"s {z} 1")]
    for y in range(250):
        orders += [f"c {y} 1"] + [f"b {p} 254 {y}" for p in ports] + [f"s {y} 1"]
    return universe, filled(orders + [f"b 7 255 {y}" for y in range(48)], ["s 255 0", "s 255 1"])


def refilled():
    """252 instances and 2,048 bindings, the last instance deleted, made and bound again in turn."""
    universe = packed(9, [chain([(range(9), ())]), chain([((), ()), ((), range(9))])])
    orders = [f"c {z} {min(z, 1)}" for z in range(252)]
    bindings = [f"b {p} 0 {y}" for y in range(1, 252) for p in range(9)]
    last = [f"b {p} 0 251" for p in range(9)]
    return universe, filled(orders + bindings[:2039] + last, ["d 251", "c 251 1"] + last)


def largest():
    """(label, universe, orders)"""
    yield "252 instances and 2048 bindings, the last ended and made in turn", *crowded()
    yield "252 instances and 2048 bindings, one of two providers stops and starts in turn", *served()
    yield "252 instances and 2048 bindings, the last instance deleted and bound in turn", *refilled()
    yield from bench_checks.largest()


def seconds(program, words, steps, end):
    start = time.perf_counter()
    out = subprocess.run([program, "run", *words], check=True, capture_output=True, text=True).stdout
    took = time.perf_counter() - start
    last = out[out.rindex("\n", 0, -1) + 1:]
    assert out.count("\n") == steps + 1 and last.startswith(end) and last.rstrip().split(", goal")[0].endswith("gap-free yes"), last
    return took


def least(*given):
    """The least time of some tries, or the first where that is long."""
    took = seconds(*given)
    return took if took > LONG else min([took] + [seconds(*given) for _ in range(TRIES - 1)])


def times(program, words, lines, delays):
    """A text for each delay, pile and number of steps."""
    end = f"place {lines} of {lines}, "
    for delay in delays:
        for layers in ("", "v", "vv"):
            options = ["--delay", str(delay)] + (["--layers", layers] if layers else [])
            needed = lines * (delay + 1)
            took = [least(program, words + options + more, steps, end) for more, steps in (([], needed), (["--steps", str(MOST_STEPS)], MOST_STEPS))]
            yield f"    delay {delay}, layers {layers or 'none'}: {needed} steps {took[0]:.3f} s, {MOST_STEPS} steps {took[1]:.3f} s"


def main():
    program = sys.argv[1] if len(sys.argv) > 1 else os.path.join(ROOT, "crates", "sengoruwa", "out", "sengoruwa")
    with tempfile.TemporaryDirectory() as folder:
        universe, script = (os.path.join(folder, name) for name in ("universe", "script"))
        for label, data, orders in largest():
            for path, content in ((universe, data), (script, b"".join(encode(order).to_bytes(4, "big") for order in orders))):
                with open(path, "wb") as f:
                    f.write(content)
            print(f"{label}, {len(orders)} lines:", flush=True)
            for line in times(program, [universe, "--script", script], len(orders), (0, 8)):
                print(line, flush=True)
        data, goal = longest()
        with open(universe, "wb") as f:
            f.write(data)
        lines = len(bench_checks.planned()[1])
        print(f"the longest script of the planner, from its goal, {lines} lines:", flush=True)
        for line in times(program, [universe, goal.hex()], lines, (0, 8)):
            print(line, flush=True)


if __name__ == "__main__":
    main()
