"""Universes and goals for the planner: the worked cases whose universes are made for it, the largest ones, and random ones.

A case is (label, packed universe, packed goal, places of the list, answer), where the answer is worked out by hand: the orders
with slashes between them, `refused N`, or only the count, `N lines`; None where it was not worked out.
"""
import random

from planning import closing, plan

MOST_LINES = 48 * (1 + 7 * (1 + 32))
EVERY = range(32)


def packed(ports, types):
    """The packed form of a universe whose types are lists of (provided, required, successors)."""
    field = lambda members, width: sum(1 << (width - 1 - n) for n in set(members)).to_bytes(width // 8, "big")
    data = (len(types) << 11 | ports << 5).to_bytes(2, "big")
    for states in types:
        data += bytes([len(states) << 4])
        for provided, required, following in states:
            data += field(provided, 32) + field(required, 32) + field(following, 8)
    return data


def written(ports, *types):
    """The same, where a type is a text of its states: for each what it provides, requires and leads to, as 0+1 or -."""
    members = lambda word: [] if word == "-" else [int(n) for n in word.split("+")]
    return packed(ports, [[tuple(map(members, state.split())) for state in kind.split(",")] for kind in types])


def goal_of(*pairs):
    return bytes(t << 4 | q << 1 for t, q in pairs)


def chain(steps):
    """The states of a type that come one after the other: (provided, required) for each."""
    return [(provided, required, [q + 1] if q + 1 < len(steps) else []) for q, (provided, required) in enumerate(steps)]


def walked(first, provided, available):
    """A chain of 8 states. So many ports are available to each state after 0, and each requires those of them that the one
    before does not require, so that every available port is bound or unbound at every step."""
    steps = [(first, [])]
    for given, most in zip(provided, available):
        steps.append((given, set(range(most)).difference(steps[-1][1])))
    return chain(steps)


def walks():
    """16 types whose states 0 provide two ports each, and whose other states require all ports and none in turn."""
    goal = [(t, 7) for t in range(16)]
    return packed(32, [walked([2 * t, 2 * t + 1], [[]] * 7, [32] * 7) for t in range(16)]), goal_of(*goal)


# How many of the last states of the types 0 to 8 provide a port of their own, and how many of those of the types 9 to 15 are
# in the goal; the states 0 of the types 0 to 4 provide the other five ports. Simulated annealing over which pairs provide a
# port, in which order, and which are in the goal found none longer.
PROVIDERS = [5, 4, 3, 3, 3, 3, 2, 2, 2]
GOALS = [3, 3, 2, 2, 2, 2, 2]


def longest(backwards=False):
    """The longest script that was found: 48 instances. Backwards, the last type is the first that can be walked."""
    types, goal, port = [], [], 5
    for t, count in enumerate(PROVIDERS):
        before = 7 - count
        available = [port] * (before + 1) + list(range(port + 1, port + count))
        provided = [[]] * before + [[p] for p in range(port, port + count)]
        types.append(walked([t] if t < 5 else [], provided, available))
        port += count
    for count in GOALS:
        goal += [(len(types), q) for q in range(8 - count, 8)]
        types.append(walked([], [[]] * 7, [32] * 7))
    if backwards:
        types, goal = types[::-1], [(15 - t, q) for t, q in goal]
    return packed(32, types), goal_of(*goal)


def burdened():
    """The most bindings that were found: 32 pairs provide a port each and require all before it, and 16 more require all."""
    types = [chain([([0], [])] + [([p], range(p)) for p in range(1, 8)])]
    for t in range(1, 7):
        ports = range(7 * t + 1, 7 * t + 8)
        types.append(chain([([], [])] + [([p] if p < 32 else [], range(min(p, 32))) for p in ports]))
    pairs = [(t, q) for t in range(4, 7) for q in range(1, 8)]
    return packed(32, types), goal_of(*[pair for pair in pairs if pair >= (4, 4)][:16])


def out_of_reach():
    """The largest universe whose last pair alone is out of reach, since no other leads to it."""
    others = lambda t, q: [n for n in range(8) if n != q and (t, n) != (15, 7)]
    types = [[(EVERY, EVERY if q else [], others(t, q)) for q in range(8)] for t in range(16)]
    return packed(32, types), goal_of(*[(15, q) for q in range(8)])


NOTHING = "- - 1, - - -"


def case(label, universe, goal, answer, room=MOST_LINES):
    return label, universe, goal_of(*goal), room, answer


# The same universe under several goals.
AFTER_HIGHER = written(2, "- - 1, 0 1 -", "- - 1, 0+1 - -", "- - 1, - 0 -")
AGAIN = written(2, "- - 1, 0 - -", "- - 1, - 0 2, - - 3, - 0 4, - 0+1 -", "1 - -")
CIRCLE = written(0, "- - 1, - - 2, - - 0+1")
BRANCHES = written(0, "- - 1+2, - - -, - - -")
BACK = written(0, "- - 2, - - 2, - - 1")
ISLAND = written(0, "- - -, - - 2, - - 1")
SWAP = written(4, "0+3 - -", "1+2 - -", "- - 1, - 0+3 2, - 1+2 3, - 0+1+2+3 -")

CASES = [
    # Parents.
    case("the parent is the lower of two states that are listed by number",
        written(0, "- - 1+2, - - 3, - - 3, - - -"), [(0, 3)], "c 0 0/s 0 1/s 0 3"),
    case("the parent is the higher of two states, which is listed first",
        written(1, "- - 1+2, - 0 3, - - 3, - 0 -", "- - 1, 0 - -"), [(0, 3)], "c 0 1/s 0 1/c 1 0/s 1 2/b 0 0 1/s 1 3"),
    case("the parent is the state over which the pair was added, and its ports are needed",
        written(2, "- - 1+2, - 0 3, - 1 3, - - -", "- - 1, 0 - -", "1 - -"), [(0, 3)], "c 0 2/c 1 0/b 1 0 1/s 1 2/s 1 3/u 1 0 1"),
    case("the path is not the shortest, since the states on it are listed first",
        written(1, "- - 1+3, - - 2, - - 4, - 0 4, - - -", "- - 1, 0 - -"), [(0, 4)], "c 0 0/s 0 1/s 0 2/s 0 4"),
    case("the parent is state 0, though another leads there too", written(0, "- - 1+2, - - 2, - - -"), [(0, 2)], "c 0 0/s 0 2"),
    case("a lower state that is listed later leads back: the lower", BACK, [(0, 1)], "c 0 0/s 0 2/s 0 1"),
    case("a lower state that is listed later leads back: the higher", BACK, [(0, 2)], "c 0 0/s 0 2"),
    case("a circle of successors: its end", CIRCLE, [(0, 2)], "c 0 0/s 0 1/s 0 2"),
    case("a circle of successors: state 0", CIRCLE, [(0, 0)], "c 0 0"),
    case("a circle of successors: all", CIRCLE, [(0, 2), (0, 1), (0, 0)], "c 0 0/c 1 0/s 1 1/c 2 0/s 2 1/s 2 2"),
    case("a circle to which state 0 does not lead", ISLAND, [(0, 1)], "refused 14"),
    case("a circle to which state 0 does not lead: state 0", ISLAND, [(0, 0)], "c 0 0"),
    case("two states of one type", BRANCHES, [(0, 2), (0, 1)], "c 0 0/s 0 1/c 1 0/s 1 2"),
    case("state 0 and another of one type", BRANCHES, [(0, 2), (0, 0)], "c 0 0/c 1 0/s 1 2"),
    case("one state, asked for twice", BRANCHES, [(0, 2), (0, 2)], "c 0 0/s 0 2"),
    # Suppliers.
    case("the supplier is of the lower of two types", written(1, "- - 1, 0 - -", "- - 1, 0 - -", "- - 1, - 0 -"), [(2, 1)],
        "c 0 0/s 0 1/c 1 2/b 0 0 1/s 1 1"),
    case("the supplier is of the higher of two types, which is listed first", AFTER_HIGHER, [(2, 1)],
        "c 0 1/s 0 1/c 1 2/b 0 0 1/s 1 1"),
    case("the supplier is listed first, and the other that provides the port is needed too", AFTER_HIGHER, [(0, 1), (2, 1)],
        "c 0 1/s 0 1/c 1 0/b 1 0 1/s 1 1/c 2 2/b 0 0 2/s 2 1"),
    case("the supplier is the higher of two states, which is listed first",
        written(1, "- - 2, 0 - -, 0 - 1", "- - 1, - 0 -"), [(1, 1)], "c 0 0/s 0 2/c 1 1/b 0 0 1/s 1 1"),
    case("the supplier is state 0 of a later type", written(1, "- - 1, 0 - -", "- - 1, - 0 -", "0 - -"), [(1, 1)],
        "c 0 2/c 1 1/b 0 0 1/s 1 1"),
    case("the supplier is the first of two states 0", written(1, "- - 1, - 0 -", "0 - -", "0 - -"), [(0, 1)],
        "c 0 1/c 1 0/b 0 0 1/s 1 1"),
    case("the goal names another than the supplier", written(1, "- - 1, 0 - -", "- - 1, 0 - -", "- - 1, - 0 -"), [(1, 1), (2, 1)],
        "c 0 0/s 0 1/c 1 1/s 1 1/c 2 2/b 0 0 2/s 2 1"),
    case("one supplier of two ports", written(2, "- - 1, 0+1 - -", "- - 1, - 0+1 -"), [(1, 1)],
        "c 0 0/s 0 1/c 1 1/b 0 0 1/b 1 0 1/s 1 1"),
    case("two suppliers, and the port of the second is the lower", written(2, "- - 1, 1 - -", "- - 1, 0 - -", "- - 1, - 0+1 -"),
        [(2, 1)], "c 0 0/s 0 1/c 1 1/s 1 1/c 2 2/b 0 1 2/b 1 0 2/s 2 1"),
    case("a supplier that walks through states and is served on its way",
        written(3, "- - 1, - 1 2, - 1+2 3, 0 2 -", "1 - 1, 2 - -", "- - 1, - 0 -"), [(2, 1)],
        "c 0 1/c 1 1/s 1 1/c 2 0/b 1 0 2/s 2 1/b 2 1 2/s 2 2/s 2 3/u 1 0 2/c 3 2/b 0 2 3/s 3 1"),
    case("the supplier is a state on the requirer's own path", written(1, "- - 1, 0 - 2, - 0 -"), [(0, 2)],
        "c 0 0/s 0 1/c 1 0/s 1 1/b 0 0 1/s 1 2"),
    case("the supplier is state 0 of the requirer's own type", written(1, "0 - 1, 0 0 -"), [(0, 1)], "c 0 0/c 1 0/b 0 0 1/s 1 1"),
    case("a state that provides what it requires, after another", written(1, "- - 1, 0 0 -", "- - 1, 0 - -"), [(0, 1)],
        "c 0 1/s 0 1/c 1 0/b 0 0 1/s 1 1"),
    case("two types that would wait for each other, but for a third",
        written(2, "- - 1, 0 1 -", "- - 1, 1 0 -", "- - 1, 1 - -"), [(1, 1)],
        "c 0 2/s 0 1/c 1 0/b 1 0 1/s 1 1/c 2 1/b 0 1 2/s 2 1"),
    # The order of listing.
    case("a pair that waits for a lower type, and so on up", written(2, "- - 1, 0 - -", "- - 1, 1 0 -", "- - 1, - 1 -"), [(2, 1)],
        "c 0 0/s 0 1/c 1 1/b 0 0 1/s 1 1/c 2 2/b 1 1 2/s 2 1"),
    case("a pair that waits for a higher type, and so on down", written(2, "- - 1, - 1 -", "- - 1, 1 0 -", "- - 1, 0 - -"), [(0, 1)],
        "c 0 2/s 0 1/c 1 1/b 0 0 1/s 1 1/c 2 0/b 1 1 2/s 2 1"),
    case("a lower type goes on before the higher does",
        written(3, "- - 1, 0 - 2, 2 1 -", "- - 1, 1 0 2, 2 - -", "- - 1, - 2 -"), [(2, 1)],
        "c 0 0/s 0 1/c 1 1/b 0 0 1/s 1 1/c 2 0/s 2 1/b 1 1 2/s 2 2/c 3 2/b 2 2 3/s 3 1"),
    case("instances are numbered by rank, whatever the order of the goal", written(0, NOTHING, NOTHING, NOTHING),
        [(2, 1), (1, 0), (0, 1), (2, 0)], "c 0 1/c 1 2/c 2 0/s 2 1/c 3 2/s 3 1"),
    # Bindings along a path.
    case("a port that is dropped and required again", AGAIN, [(1, 4)],
        "c 0 2/c 1 0/s 1 1/c 2 1/b 0 1 2/s 2 1/s 2 2/u 0 1 2/b 0 1 2/s 2 3/b 1 0 2/s 2 4"),
    case("a port that is required on the way only", AGAIN, [(1, 2)], "c 0 0/s 0 1/c 1 1/b 0 0 1/s 1 1/s 1 2/u 0 0 1"),
    case("all states of a path, each for itself", AGAIN, [(1, q) for q in range(4)],
        "c 0 1/c 1 0/s 1 1/c 2 1/b 0 1 2/s 2 1/c 3 1/b 0 1 3/s 3 1/s 3 2/u 0 1 3"
        "/c 4 1/b 0 1 4/s 4 1/s 4 2/u 0 1 4/b 0 1 4/s 4 3"),
    case("ports that are changed for others, and all at the end", SWAP, [(2, 3)],
        "c 0 0/c 1 1/c 2 2/b 0 0 2/b 3 0 2/s 2 1/b 1 1 2/b 2 1 2/s 2 2/u 0 0 2/u 3 0 2/b 0 0 2/b 3 0 2/s 2 3"),
    case("the first port and the last", written(32, "0+31 - -", "- - 1, - 0+31 -"), [(1, 1)],
        "c 0 0/c 1 1/b 0 0 1/b 31 0 1/s 1 1"),
    case("the last type and the last state", packed(0, [chain([([], [])] * 8)] * 16), [(15, 7)],
        "c 0 15/s 0 1/s 0 2/s 0 3/s 0 4/s 0 5/s 0 6/s 0 7"),
    # Out of reach.
    case("two types that wait for each other", written(2, "- - 1, 0 1 -", "- - 1, 1 0 -"), [(0, 1)], "refused 14"),
    case("a port that nothing provides", written(1, "- - 1, - 0 2, - - -"), [(0, 1)], "refused 14"),
    case("a state behind one that is out of reach", written(1, "- - 1, - 0 2, - - -"), [(0, 2)], "refused 14"),
    case("a port that only a pair out of reach provides", written(1, "- - -, 0 - -", "- - 1, - 0 -"), [(1, 1)], "refused 14"),
    case("one of many ports is missing", written(32, "- - 1, - 0+7+31 -", "0+31 - -"), [(0, 1)], "refused 14"),
    case("the last of 16 lines is out of reach", ISLAND, [(0, 0)] * 15 + [(0, 2)], "refused 14"),
    case("the first of 16 lines is out of reach", ISLAND, [(0, 2)] + [(0, 0)] * 15, "refused 14"),
    case("the second of three lines is out of reach", ISLAND, [(0, 0), (0, 1), (0, 0)], "refused 14"),
]


class Draw:
    """Random numbers that are the same in every Python, since they come from the one method that promises it."""

    def __init__(self, seed):
        self.random = random.Random(seed).random

    def between(self, least, most):
        return least + int(self.random() * (most + 1 - least))

    def chance(self, share):
        return self.random() < share

    def one(self, items):
        return items[self.between(0, len(items) - 1)]

    def some(self, items, most):
        """Up to so many of the items."""
        return {self.one(items) for _ in range(self.between(0, most))} if items else set()


# The most types, states of a type, and ports.
SIZES = [(4, 5, 6), (7, 7, 14), (16, 8, 32)]


def random_types(draw, size):
    """(ports, types). The pairs are placed in a random order, the states 0 first. Each other gets a leader among those of its
    type that are placed, often the last, and requires ports that placed ones provide; but a few may require any, or have no
    leader. Then further successors are added."""
    most_types, most_states, most_ports = size
    ports = draw.between(most_ports // 2, most_ports) if draw.chance(0.8) else draw.between(0, most_ports)
    counts = [draw.between(most_states // 2, most_states) for _ in range(draw.between(1 + most_types // 3, most_types))]
    given, asked = draw.one([1, 1, 2, 4]), draw.between(ports // 4, ports)
    wild, straight, further = draw.one([0, 0, 0.02, 0.1, 0.5]), draw.one([0.3, 0.8, 1]), draw.one([0, 0, 0.05, 0.4])
    types = [[(set(), set(), set()) for _ in range(count)] for count in counts]
    placed, available = [], set()
    waiting = [(t, q) for t, count in enumerate(counts) for q in range(1, count)]
    first = [(t, 0) for t in range(len(types))]
    while first or waiting:
        t, q = first.pop(0) if first else waiting.pop(draw.between(0, len(waiting) - 1))
        provided, required, _ = types[t][q]
        if q != 0:
            required |= draw.some(list(range(ports)) if draw.chance(wild) else sorted(available), asked)
            if not draw.chance(wild):
                states = [state for kind, state in placed if kind == t]
                types[t][states[-1] if draw.chance(straight) else draw.one(states)][2].add(q)
        if draw.chance(0.7 if q else 0.3):
            provided |= draw.some(list(range(ports)), given)
        placed.append((t, q))
        available |= provided
    for states in types:
        for q, (_, _, following) in enumerate(states):
            following |= {n for n in range(len(states)) if n != q and draw.chance(further)}
    return ports, types


def random_goal(draw, universe, kind):
    """A goal of pairs that are listed late, of any listed pairs, or of any pairs; with a byte changed; or of a bad length."""
    listed = closing(universe)
    pairs = [(t, q) for t, states in enumerate(universe[1]) for q in range(len(states))]
    pairs = {"late": listed[len(listed) // 2:], "listed": listed}.get(kind, pairs)
    length = draw.one([0, 17, 40]) if kind == "length" else draw.between(1, draw.one([2, 6, 16]))
    goal = bytearray(goal_of(*[draw.one(pairs) for _ in range(length)]))
    if kind == "byte":
        goal[draw.between(0, length - 1)] = draw.between(0, 255)
    return bytes(goal)


def random_case(draw):
    """(universe, packed universe, goal, places). The places are all, or none, or one less than the script has lines, as many, or
    one more."""
    universe = random_types(draw, draw.one(SIZES))
    goal = random_goal(draw, universe, draw.one(["late"] * 10 + ["listed"] * 4 + ["any"] * 3 + ["byte", "byte", "length"]))
    _, orders = plan(universe, goal, MOST_LINES)
    places = [MOST_LINES] * 6 + [0] + ([len(orders) - 1, len(orders), len(orders) + 1] if orders else [1])
    return universe, packed(*universe), goal, draw.one(places)


def random_cases():
    """The random cases of the table: now and then the list has just enough places, or one too few."""
    draw = Draw(2026)
    for number in range(42):
        universe = random_types(draw, SIZES[number % len(SIZES)])
        goal = random_goal(draw, universe, "any" if number % 4 == 3 else "listed" if number % 8 == 1 else "late")
        _, orders = plan(universe, goal, MOST_LINES)
        room = {2: len(orders), 6: len(orders) - 1}.get(number % 10, MOST_LINES) if orders else MOST_LINES
        label = f"random {number}: {len(universe[1])} types, {universe[0]} ports, {len(goal)} goal lines"
        yield label, packed(*universe), goal, room, None


def large_cases():
    data, goal = walks()
    yield "32 instances, whose ports all change at every step", data, goal, MOST_LINES, "3728 lines"
    data, goal = longest()
    yield "the longest script that was found, of 48 instances", data, goal, MOST_LINES, "6357 lines"
    yield "the longest script, and a place for each line", data, goal, 6357, "6357 lines"
    yield "the longest script, and a place too few", data, goal, 6356, "refused 15"
    yield "the longest script, from the last type on", *longest(True), MOST_LINES, "6357 lines"
    yield "the most bindings that were found", *burdened(), MOST_LINES, "1239 lines"
    yield "the largest universe without its last pair", *out_of_reach(), MOST_LINES, "refused 14"


CASES += [*large_cases(), *random_cases()]
