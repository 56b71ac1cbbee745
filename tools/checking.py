"""A check of drafts apart from the product's, written from the rules of the check and from no code of the crates.

A universe is what reference.read_universe gives, a draft is a list of the numbers of its lines, and a configuration is that of
reference.py, whose decoding, offences and whole search for gaps are used here.
"""
from reference import Refused, decode, gap_free, offence, parsed, read_universe

MOST_LINES = 32768
MOST_BINDINGS = 2048
# Up to so many lines a check searches for gaps everywhere after each of them.
SMALL = 100


class Replay:
    """What stands while a draft is replayed, and who is bound to whom."""

    def __init__(self, universe):
        self.universe = universe
        self.config = self.instances, self.bindings = {}, set()
        self.providers = {}  # of a requirer and a port
        self.served = {}  # by a provider: requirers and ports

    def take(self, order):
        """Gives what stands the order's result, where it is legal; the places (instance, port) where it may have opened a gap."""
        letter, numbers = parsed(order)
        if letter == "c":
            self.instances[numbers[0]] = (numbers[1], 0)
        elif letter == "s":
            z, state = numbers
            self.instances[z] = (self.instances[z][0], state)
            return [(z, port) for port in self.state_of(z)[1]] + list(self.served.get(z, ()))
        elif letter == "b":
            port, provider, requirer = numbers
            self.bindings.add((port, provider, requirer))
            self.providers.setdefault((requirer, port), set()).add(provider)
            self.served.setdefault(provider, set()).add((requirer, port))
        elif letter == "u":
            self.end(tuple(numbers))
            return [(numbers[2], numbers[0])]
        else:
            for binding in [b for b in self.bindings if b[2] == numbers[0]]:
                self.end(binding)
            del self.instances[numbers[0]]
        return []

    def end(self, binding):
        port, provider, requirer = binding
        self.bindings.remove(binding)
        self.providers[requirer, port].remove(provider)
        self.served[provider].remove((requirer, port))

    def state_of(self, z):
        kind, state = self.instances[z]
        return self.universe[1][kind][state]

    def gap(self, z, port):
        covering = (x for x in self.providers.get((z, port), ()) if port in self.state_of(x)[0])
        return port in self.state_of(z)[1] and next(covering, None) is None


def check(universe, lines, host=None, whole=None):
    """What the check says of a draft, for a host in which the configuration stands if one is given. The search for gaps is whole
    or a local one; where that is not said, the length of the draft decides."""
    if not 1 <= len(lines) <= MOST_LINES:
        return "refused 41"
    if host is not None and any(host):
        return "refused 42"
    whole = len(lines) <= SMALL if whole is None else whole
    replay = Replay(universe)
    for place, line in enumerate(lines):
        order = decode(line)
        if order is None:
            return f"refused 43 at {place}"
        number = offence(universe, replay.config, order)
        if number is not None:
            return f"refused 44 at {place}: {number}"
        suspects = replay.take(order)
        if whole:
            has_gap = not gap_free(universe, replay.config)
        else:
            has_gap = any(replay.gap(*suspect) for suspect in suspects)
        if has_gap:
            return f"refused 45 at {place}"
        if order[0] == "b" and len(replay.bindings) > MOST_BINDINGS:
            return f"refused 46 at {place}"
    return f"passes, {len(lines)} lines"


def check_file(data, lines, host=None, whole=None):
    """The same where the universe is a file, which may be refused."""
    try:
        return check(read_universe(data), lines, host, whole)
    except Refused as r:
        return f"refused {r.number}"
