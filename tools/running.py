"""Whole runs apart from the product's, written from the rules of starting, stepping and finishing and from no code of the crates.

Planner, check, cloud and layers are those of planning.py, checking.py and reference.py. A request is ("goal", the goal's bytes) or
("script", the numbers of its lines). A host's options are written `INSTANCES BINDINGS DELAY LAYERS`, where LAYERS is - for none.
"""
from checking import check
from plan_cases import MOST_LINES
from planning import goal_pair, plan
from reference import Refused, decode, encode, fresh_host, gap_free, read_universe

LONGEST_WAIT = 8
MOST_STEPS = 1048576


class Run:
    """A started run: its place and its leases, both moved by orders that were done and by no look at what stands."""

    def __init__(self, orders, host):
        self.orders, self.host = orders, host
        self.place = self.leases = 0
        self.requirers = {}  # of the bindings that were made and not ended

    def step(self):
        """One order to the host, if a line is left; the line that is printed."""
        if self.place == len(self.orders):
            return f"{self.place}: refused 52"
        place, order = self.place, self.orders[self.place]
        refusal = self.host.give(order)
        if refusal:
            return "{} {}: refused {} by {}".format(place, order, *refusal)
        self.place += 1
        self.count(order)
        return f"{place} {order}: done"

    def count(self, order):
        """The leases after an order that was done."""
        letter, *words = order.split(" ")
        numbers = tuple(map(int, words))
        if letter == "b":
            self.requirers[numbers] = numbers[2]
            self.leases += 1
        elif letter == "u":
            del self.requirers[numbers]
            self.leases -= 1
        elif letter == "d":
            for binding in [b for b, requirer in self.requirers.items() if requirer == numbers[0]]:
                del self.requirers[binding]
                self.leases -= 1

    def end(self):
        """What is printed at the end: place and leases of the run, and the rest of the host."""
        instances, bindings = map(len, self.host.config)
        free = "yes" if gap_free(self.host.universe, self.host.config) else "no"
        return (f"place {self.place} of {len(self.orders)}, leases {self.leases}, "
                f"instances {instances}, bindings {bindings}, gap-free {free}")


def met(universe, goal, config):
    """Whether for each line of the goal an instance stands in its type and state."""
    return set(config[0].values()).issuperset(goal_pair(universe, line) for line in goal)


def longest_wait(options):
    return min(int(options.split(" ")[2]), LONGEST_WAIT)


def run_text(data, request, options, steps=None):
    """The status of the command and the lines that it prints, for a universe's file. No number of steps means as many as end
    every script for which the host has room."""
    kind, given = request
    try:
        universe = read_universe(data)
    except Refused as r:
        return 1, [f"refused {r.number}"]
    lines = given
    if kind == "goal":
        number, orders = plan(universe, given, MOST_LINES)
        if number:
            return 1, [f"refused {number}"]
        lines = list(map(encode, orders))
    host = fresh_host(options, data)
    answer = check(universe, lines, host.config)
    if answer.startswith("refused"):
        return 1, [answer]
    run = Run(list(map(decode, lines)), host)
    text = [run.step() for _ in range(len(lines) * (longest_wait(options) + 1) if steps is None else steps)]
    end = run.end()
    if kind == "goal":
        end += ", goal met" if met(universe, given, host.config) else ", goal not met"
    return 0, text + [end]
