"""A planner apart from the product's, written from the rules of planning and from no code of the crates.

A universe is what reference.read_universe gives: (ports, [[(provided, required, successors)]]), and a pair is (type, state).
"""

GOAL_LINES = 16


def closing(universe):
    """The closing order: the states 0 by type, then in each turn the lowest pair that can be added."""
    types = universe[1]
    listed = [(t, 0) for t in range(len(types))]
    while True:
        provided = {p for t, q in listed for p in types[t][q][0]}
        following = {(t, successor) for t, q in listed for successor in types[t][q][2]}
        addable = [(t, q) for t, q in following.difference(listed) if provided.issuperset(types[t][q][1])]
        if not addable:
            return listed
        listed.append(min(addable))


def parent(universe, listed, pair):
    """The first listed pair of the same type that has the pair as successor."""
    return next((t, q) for t, q in listed if t == pair[0] and pair[1] in universe[1][t][q][2])


def path(universe, listed, pair):
    """The states from 0 to the pair's."""
    states = [pair[1]]
    while states[0] != 0:
        states.insert(0, parent(universe, listed, (pair[0], states[0]))[1])
    return states


def supplier(universe, listed, port):
    """The first listed pair that provides the port."""
    return next((t, q) for t, q in listed if port in universe[1][t][q][0])


def needed(universe, listed, goal):
    """The goal's pairs and all suppliers that their paths and those of suppliers call for, by rank."""
    found, open_pairs = set(goal), list(goal)
    while open_pairs:
        pair = open_pairs.pop()
        for state in path(universe, listed, pair):
            for port in universe[1][pair[0]][state][1]:
                other = supplier(universe, listed, port)
                if other not in found:
                    found.add(other)
                    open_pairs.append(other)
    return sorted(found, key=listed.index)


def script(universe, listed, goal):
    """The orders, in written form, that make an instance of each needed pair."""
    pairs = needed(universe, listed, goal)
    provider = lambda port: pairs.index(supplier(universe, listed, port))
    orders = []
    for number, (t, q) in enumerate(pairs):
        orders.append(f"c {number} {t}")
        states = path(universe, listed, (t, q))
        for before, after in zip(states, states[1:]):
            old, new = (set(universe[1][t][state][1]) for state in (before, after))
            orders += [f"b {port} {provider(port)} {number}" for port in sorted(new - old)]
            orders.append(f"s {number} {after}")
            orders += [f"u {port} {provider(port)} {number}" for port in sorted(old - new)]
    return orders


def goal_pair(universe, line):
    """The pair that a line of a goal names, or None."""
    t, q = line >> 4, line >> 1 & 7
    named = line & 1 == 0 and t < len(universe[1]) and q < len(universe[1][t])
    return (t, q) if named else None


def plan(universe, goal, room):
    """For a goal's bytes and a list of so many places: (None, the orders), or (the refusal's number, None)."""
    if not 1 <= len(goal) <= GOAL_LINES:
        return 11, None
    pairs = [goal_pair(universe, line) for line in goal]
    if None in pairs:
        return 12, None
    listed = closing(universe)
    if any(pair not in listed for pair in pairs):
        return 14, None
    orders = script(universe, listed, pairs)
    if room < len(orders):
        return 15, None
    return None, orders
