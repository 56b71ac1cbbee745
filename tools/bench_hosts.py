"""Times the command `host` on its largest inputs: 32,768 orders to a cloud with no layer, one and two.

    python3 tools/bench_hosts.py [PROGRAM]

PROGRAM is the built program, crates/sengoruwa/out/sengoruwa if it is not given. Each row has the seconds that the whole
command took, reading and printing included.
"""
import os
import subprocess
import sys
import tempfile
import time

from reference import HARBOUR

ROOT = os.path.join(os.path.dirname(os.path.abspath(__file__)), "..")
ORDERS = 32768


def filled(orders, more):
    """The orders, and then the others over and over, up to the largest script."""
    while len(orders) < ORDERS:
        orders += more
    return orders[:ORDERS]


def harbour(lock):
    """251 rosters served by one lock, and bindings to an idle lock made and ended in turn."""
    rosters = [z for z in range(252) if z != lock]
    orders = [f"c {lock} 0", f"s {lock} 1", "c 252 0"]
    for z in rosters:
        orders += [f"c {z} 1", f"b 0 {lock} {z}", f"s {z} 1"]
    return HARBOUR, filled(orders, [order for z in rosters for order in (f"b 0 252 {z}", f"u 0 252 {z}")])


def all_ports():
    """31 instances served by two others on all 32 ports, one of which stops and starts to serve over and over."""
    state = lambda provided, required, following: provided.to_bytes(4, "big") + required.to_bytes(4, "big") + bytes([following])
    every = 0xFFFFFFFF
    kind = lambda provided, required: b"\x20" + state(0, 0, 0x40) + state(provided, required, 0x80)
    universe = b"\x14\x00" + kind(every, 0) + kind(0, every)
    orders = [order for z in (254, 255) for order in (f"c {z} 0", f"s {z} 1")]
    for y in range(31):
        orders += [f"c {y} 1"] + [f"b {p} {x} {y}" for p in range(32) for x in (254, 255)] + [f"s {y} 1"]
    return universe, filled(orders, ["s 254 0", "s 254 1"])


def seconds(program, universe, orders, layers):
    start = time.perf_counter()
    out = subprocess.run([program, "host", universe, orders] + layers, check=True, capture_output=True, text=True).stdout
    took = time.perf_counter() - start
    assert out.count("\n") == ORDERS + 1 and out.rstrip().endswith("gap-free yes"), out[-200:]
    return took


def main():
    program = sys.argv[1] if len(sys.argv) > 1 else os.path.join(ROOT, "crates", "sengoruwa", "out", "sengoruwa")
    cases = [("lock 0", *harbour(0)), ("lock 251", *harbour(251)), ("32 ports", *all_ports())]
    with tempfile.TemporaryDirectory() as folder:
        universe, orders = os.path.join(folder, "universe"), os.path.join(folder, "orders")
        for label, packed, lines in cases:
            with open(universe, "wb") as f:
                f.write(packed)
            with open(orders, "w") as f:
                f.write("\n".join(lines) + "\n")
            times = [seconds(program, universe, orders, layers) for layers in ([], ["--layers", "v"], ["--layers", "vv"])]
            print(f"{label}: cloud {times[0]:.2f} s, one layer {times[1]:.2f} s, two layers {times[2]:.2f} s")


if __name__ == "__main__":
    main()
