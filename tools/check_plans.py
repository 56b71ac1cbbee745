"""Checks of the planner in planning.py, and so of the expected outputs that are made with it.

    python3 tools/check_plans.py [--scripts N] [--universes N] [--small]

Every script of the table, and those of N random universes and goals, has to be a run that ends with the goal and keeps within
the most instances, lines and bindings. And for N random tiny universes exactly the listed pairs must be reached by some run
with up to three instances, found by a search over all configurations; --small searches all universes of two types of two
states with two ports. Legality, results and gaps are those of reference.py, which simulates hosts with them.
"""
import argparse
import sys
from itertools import product

from plan_cases import MOST_LINES, Draw, random_case
from planning import closing, plan
from reference import PLANS, decode, encode, gap_free, offence, outcome, read_universe

PAIRS = [(x, y) for x in range(3) for y in range(3) if x != y]


def run_sizes(universe, goal, orders):
    """(instances, lines, most bindings at a place) of a script, which has to be a run and to end with the goal."""
    config, most = ({}, set()), 0
    for order in orders:
        assert decode(encode(order)) == order, order
        assert offence(universe, config, order) is None, order
        config = outcome(config, order)
        assert gap_free(universe, config), order
        assert all(provider < requirer for _, provider, requirer in config[1]), order
        most = max(most, len(config[1]))
    instances = config[0]
    assert {(line >> 4, line >> 1 & 7) for line in goal} <= set(instances.values())
    assert sorted(instances) == list(range(len(instances))) and len(set(instances.values())) == len(instances)
    assert len(instances) <= 48 and len(orders) <= MOST_LINES and most <= 1536
    return len(instances), len(orders), most


def check_scripts(cases):
    """Says what was seen of the cases (universe, goal, places)."""
    answers, sizes = {}, []
    for universe, goal, room in cases:
        number, orders = plan(universe, goal, room)
        answers[number] = answers.get(number, 0) + 1
        if number is None:
            sizes.append(run_sizes(universe, goal, orders))
    refused = ", ".join(f"{count} refused {number}" for number, count in sorted(answers.items(), key=str) if number)
    instances, lines, bindings = map(max, zip(*sizes))
    return f"{len(sizes)} runs ({refused}); at most {instances} instances, {lines} lines, {bindings} bindings"


def reached(universe):
    """The pairs that some run with up to three instances reaches.

    A set of configurations with the same instances is a number whose bit number B stands for the bindings with the bits B."""
    ports, types = universe
    kinds = [(t, q) for t, states in enumerate(types) for q in range(len(states))]
    bonds = [(p, x, y) for p in range(ports) for x, y in PAIRS]
    every = (1 << (1 << len(bonds))) - 1
    # The configurations that have a binding: bit B of it is bit number `bit` of B.
    having = [sum(1 << b for b in range(1 << len(bonds)) if b >> bit & 1) for bit in range(len(bonds))] if bonds else []
    ever = lambda t, port, part: any(port in state[part] for state in types[t])

    def free_of_gaps(instances):
        good = every
        for y, pair in enumerate(instances):
            for port in types[pair[0]][pair[1]][1] if pair else []:
                served = 0
                for bit, (p, x, requirer) in enumerate(bonds):
                    if (p, requirer) == (port, y) and instances[x] and port in types[instances[x][0]][instances[x][1]][0]:
                        served |= having[bit]
                good &= served
        return good

    good = {}
    seen, grown = {(None, None, None): 1}, [(None, None, None)]

    def add(instances, configs):
        if instances not in good:
            good[instances] = free_of_gaps(instances)
        new = configs & good[instances] & ~seen.get(instances, 0)
        if new:
            seen[instances] = seen.get(instances, 0) | new
            grown.append(instances)

    found = set()
    while grown and len(found) < len(kinds):
        instances = grown.pop()
        found.update(pair for pair in instances if pair)
        for bit, (p, x, y) in enumerate(bonds):
            if instances[x] and instances[y] and ever(instances[x][0], p, 0) and ever(instances[y][0], p, 1):
                add(instances, (seen[instances] & ~having[bit]) << (1 << bit))
                add(instances, (seen[instances] & having[bit]) >> (1 << bit))
        for z, pair in enumerate(instances):
            put = lambda other: instances[:z] + (other,) + instances[z + 1:]
            if pair is None:
                for t in range(len(types)):
                    add(put((t, 0)), seen[instances])
                continue
            for successor in types[pair[0]][pair[1]][2]:
                add(put((pair[0], successor)), seen[instances])
            left = seen[instances]
            for bit, (_, x, _) in enumerate(bonds):
                if x == z:
                    left &= ~having[bit]
            for bit, (_, _, y) in enumerate(bonds):
                if y == z:
                    left = left & ~having[bit] | (left & having[bit]) >> (1 << bit)
            add(put(None), left)
    return found


def reached_plainly(universe):
    """The same, one configuration after the other."""
    ports, types = universe
    orders = [f"c {z} {t}" for z in range(3) for t in range(len(types))] + [f"d {z}" for z in range(3)]
    orders += [f"s {z} {q}" for z in range(3) for q in range(3)]
    orders += [f"{letter} {p} {x} {y}" for letter in "bu" for p in range(ports) for x, y in PAIRS]
    open_configs, seen, found = [({}, set())], set(), set()
    while open_configs:
        config = open_configs.pop()
        found.update(config[0].values())
        for order in orders:
            if offence(universe, config, order) is None:
                after = outcome(config, order)
                key = tuple(sorted(after[0].items())), frozenset(after[1])
                if gap_free(universe, after) and key not in seen:
                    seen.add(key)
                    open_configs.append(after)
    return found


def subset(draw, items):
    return [item for item in items if draw.chance(0.5)]


def tiny_universe(draw):
    """Two types of two or three states, and two ports."""
    types = []
    for _ in range(2):
        states = range(draw.between(2, 3))
        types.append([
            (subset(draw, range(2)) if draw.chance(0.6) else [], subset(draw, range(2)) if q else [],
                subset(draw, [n for n in states if n != q])) for q in states])
    return 2, types


def small_universes():
    """All universes of two types of two states, and two ports."""
    sets = [[], [0], [1], [0, 1]]
    kinds = [[(a, [], c), (b, d, e)] for a, b, d in product(sets, repeat=3) for c in ([], [1]) for e in ([], [0])]
    return ((2, list(types)) for types in product(kinds, repeat=2))


def check_reach(universes, reach):
    """Says of how many universes exactly the listed pairs are reached, and of how many these are not all pairs."""
    total = partial = 0
    for universe in universes:
        listed = set(closing(universe))
        assert reach(universe) == listed, (universe, listed)
        total += 1
        partial += len(listed) < sum(map(len, universe[1]))
    return f"{total} universes, in {partial} of which some pairs are out of reach"


def main():
    options = argparse.ArgumentParser(description="Checks of the planner in planning.py.")
    options.add_argument("--scripts", type=int, default=3000, metavar="N")
    options.add_argument("--universes", type=int, default=1000, metavar="N")
    options.add_argument("--small", action="store_true")
    given = options.parse_args()
    show = lambda text: print(text, flush=True)
    show(f"table: {check_scripts((read_universe(data), goal, room) for _, data, goal, room, _ in PLANS)}")
    draw = Draw(1)
    cases = (random_case(draw) for _ in range(given.scripts))
    show(f"random: {check_scripts((read_universe(data), goal, MOST_LINES) for _, data, goal, _ in cases)}")
    tiny = [tiny_universe(draw) for _ in range(given.universes)]
    show(f"reach: {check_reach(tiny, reached)}")
    few = [universe for universe in tiny if sum(len(state[1]) for states in universe[1] for state in states) < 2]
    show(f"reach, one configuration after the other: {check_reach(few[:20], reached_plainly)}")
    if given.small:
        show(f"reach, two states each: {check_reach(small_universes(), reached)}")


if __name__ == "__main__":
    sys.exit(main())
