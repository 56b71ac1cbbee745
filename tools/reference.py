#!/usr/bin/env python3
"""An implementation of the packed forms, of hosts and of the planner apart from the product's, and the tables of worked cases.

It follows the rules that docs/FORMATS.md and docs/REFUSALS.md state and shares no code with the crates.
It has the same author as they, so a rule that was misread would be misread in both; so the answers of
hosts also stand in the table, worked out by hand, and have to be those of the simulation. So do most of the planner's.
The planner is planning.py, and the universes that are made for it stand in plan_cases.py; the check is checking.py, and its
drafts stand in check_cases.py; whole runs are in running.py, and their cases in run_cases.py.
Run from the repository's root, it writes the inputs to crates/cases/data/ and what the program `cases` has to print for
them to crates/cases/stdout.
"""
import os

import plan_cases
import planning
from planning import plan

HARBOUR = bytes.fromhex(
    "1840"
    "20" "000000000000000040" "800000000000000000"
    "20" "000000000000000040" "400000008000000000"
    "30" "000000000000000040" "000000008000000020" "000000004000000000")


class Refused(Exception):
    def __init__(self, number):
        self.number = number


def read_universe(data):
    """The universe of a file: (ports, [[(provided, required, successors)]]), or Refused."""
    at = 0

    def group(size, offences):
        nonlocal at
        if len(data) - at < size:
            raise Refused(1)
        value = int.from_bytes(data[at:at + size], "big")
        at += size
        for number in sorted(offences(value)):
            raise Refused(number)
        return value

    def members(field, width):
        return [n for n in range(width) if field >> (width - 1 - n) & 1]

    def header(value):
        if not 1 <= value >> 11 <= 16 or (value >> 5 & 63) > 32:
            yield 2
        if value & 31:
            yield 3

    value = group(2, header)
    types, ports = value >> 11, value >> 5 & 63

    def count(value):
        if not 1 <= value >> 4 <= 8:
            yield 2
        if value & 15:
            yield 3

    universe = []
    for _ in range(types):
        states = group(1, count) >> 4
        entries = []
        for q in range(states):
            def entry(value):
                if any(p >= ports for p in members(value >> 40, 32) + members(value >> 8 & 0xFFFFFFFF, 32)):
                    yield 4
                if any(n == q or n >= states for n in members(value & 255, 8)):
                    yield 5
                if q == 0 and value >> 8 & 0xFFFFFFFF:
                    yield 6
            value = group(9, entry)
            entries.append((members(value >> 40, 32), members(value >> 8 & 0xFFFFFFFF, 32), members(value & 255, 8)))
        universe.append(entries)
    if at != len(data):
        raise Refused(1)
    return ports, universe


def universe_text(data):
    try:
        ports, universe = read_universe(data)
    except Refused as r:
        return f"refused {r.number}\n"
    text = f"types {len(universe)}, ports {ports}\n"
    join = lambda ns: ",".join(map(str, ns)) or "-"
    for t, entries in enumerate(universe):
        text += f"type {t}: {len(entries)} states\n"
        for q, (a, b, c) in enumerate(entries):
            text += f"state {t}/{q}: provides {join(a)}, requires {join(b)}, next {join(c)}\n"
    return text


# field: (lowest bit, width)
FIELDS = dict(first=(21, 8), second=(13, 8), port=(8, 5), kind=(4, 4), state=(1, 3))
ORDERS = {1: ("c", "first kind"), 2: ("b", "port first second"), 3: ("s", "first state"),
          4: ("u", "port first second"), 5: ("d", "first")}


def decode(line):
    """The written form of a line, or None."""
    letter, used = ORDERS.get(line >> 29, (None, ""))
    if letter is None or line & 1:
        return None
    values = {f: line >> low & (1 << width) - 1 for f, (low, width) in FIELDS.items()}
    if any(v for f, v in values.items() if f not in used.split()):
        return None
    return " ".join([letter] + [str(values[f]) for f in used.split()])


def encode(order):
    """The line of a written order, or None where it is too large."""
    letter, *numbers = order.split(" ")
    operation, used = next((k, u) for k, (l, u) in ORDERS.items() if l == letter)
    line = operation << 29
    for f, n in zip(used.split(), map(int, numbers)):
        low, width = FIELDS[f]
        if n >> width:
            return None
        line |= n << low
    return line


def lines_text(data):
    if len(data) % 4:
        return "no whole lines\n"
    text = ""
    for place in range(len(data) // 4):
        order = decode(int.from_bytes(data[4 * place:4 * place + 4], "big"))
        if order is None:
            return text + f"refused 43 at {place}\n"
        text += order + "\n"
    return text


def is_order(line):
    words = line.split(b" ")
    lengths = {b"c": 2, b"b": 3, b"s": 2, b"u": 3, b"d": 1}
    return (words[0] in lengths and len(words) == lengths[words[0]] + 1
            and all(w and all(48 <= b <= 57 for b in w) and int(w) < 2 ** 32 for w in words[1:]))


def pack_text(data):
    orders = []
    for number, line in enumerate(data.split(b"\n"), 1):
        if not line or line.startswith(b"#"):
            continue
        if not is_order(line):
            return f"line {number} writes no order\n"
        orders.append(line.decode())
    packed = b""
    for place, order in enumerate(orders):
        line = encode(order)
        if line is None:
            return f"refused 43 at {place}\n"
        packed += line.to_bytes(4, "big")
    return f"{len(orders)} lines\n" + lines_text(packed)


def changed(changes, length=None, base=HARBOUR):
    data = bytearray(base)
    for place, value in changes:
        data[place] = value
    if length is not None:
        data = (data + bytes(length))[:length]
    return bytes(data)


def full():
    """16 types of 8 states and 32 ports; every state leads to every other."""
    data = bytes([0x84, 0x00])
    for t in range(16):
        data += b"\x80"
        for q in range(8):
            required = 0 if q == 0 else 0xFFFFFFFF
            data += 0xFFFFFFFF.to_bytes(4, "big") + required.to_bytes(4, "big") + bytes([0xFF & ~(0x80 >> q)])
    return data


# In the harbour file the header is at 0, type 0 at 2 (states at 3 and 12), type 1 at 21 (22, 31),
# type 2 at 40 (41, 50, 59).
UNIVERSES = [
    ("harbour", HARBOUR),
    ("least", bytes.fromhex("080010" + "00" * 9)),
    ("largest", full()),
    ("no bytes", b""),
    ("harbour cut to 67 bytes", HARBOUR[:67]),
    ("harbour grown to 69 bytes", HARBOUR + b"\0"),
    ("header 88 40: 17 types", changed([(0, 0x88)])),
    ("header 1C 20: 33 ports", changed([(0, 0x1C), (1, 0x20)])),
    ("header 00 40: no types", changed([(0, 0x00)])),
    ("header 1F E0: 63 ports", changed([(0, 0x1F), (1, 0xE0)])),
    ("header 18 41: a zero bit", changed([(1, 0x41)])),
    ("header 18 50: the highest zero bit", changed([(1, 0x50)])),
    ("header cut to one byte", HARBOUR[:1]),
    ("header cut to one byte, too many types", b"\x88"),
    ("header with a count and a zero bit", changed([(0, 0x88), (1, 0x41)])),
    ("file ends before a state count", HARBOUR[:2]),
    ("no states", changed([(2, 0x00)])),
    ("nine states", changed([(2, 0x90)])),
    ("state count with a zero bit", changed([(2, 0x21)])),
    ("state count out of range, with a zero bit", changed([(2, 0x98)])),
    ("state entry cut by one byte", HARBOUR[:11]),
    ("state entry of no bytes", HARBOUR[:3]),
    ("provided port not below the count", changed([(12, 0x20)])),
    ("required port not below the count", changed([(35, 0x20)])),
    ("the last port of all is provided", changed([(15, 0x01)])),
    ("a state is its own successor", changed([(20, 0x40)])),
    ("a successor not below the count", changed([(20, 0x20)])),
    ("the last successor of all", changed([(20, 0x01)])),
    ("state 0 requires a port", changed([(7, 0x80)])),
    ("state 0 of a later type requires a port", changed([(45, 0x40)])),
    ("entry cut short, with a port", changed([(12, 0x20)], 20)),
    ("entry cut short, where state 0 requires a port", changed([(7, 0x80)], 11)),
    ("entry with a port and a successor", changed([(12, 0x20), (20, 0x40)])),
    ("entry with a port, where state 0 requires one", changed([(3, 0x20), (7, 0x80)])),
    ("state 0 requires a port not below the count", changed([(7, 0x20)])),
    ("entry with a successor, where state 0 requires a port", changed([(7, 0x80), (11, 0x80)])),
    ("entry with all three", changed([(3, 0x20), (7, 0x80), (11, 0x80)])),
    ("the header offends, and bytes are left over", changed([(1, 0x41)], 69)),
    ("the header offends, and bytes are missing", changed([(0, 0x88)], 30)),
    ("a state entry offends before a state count", changed([(12, 0x20), (21, 0x90)])),
    ("a state count offends before a state entry", changed([(21, 0x90), (22, 0x20)])),
    ("state 0 offends before a port in state 1", changed([(7, 0x80), (12, 0x20)])),
    ("an entry offends, and bytes are missing later", changed([(12, 0x20)], 60)),
    ("an entry offends, and bytes are left over", changed([(67, 0x20)], 70)),
    ("all ports of 32", changed([(15, 0x01)], None, bytes.fromhex("0C0020" + "00" * 9 + "FFFFFFFE" "00000000" "00"))),
    ("no ports, and one is provided", bytes.fromhex("080010" + "80" + "00" * 8)),
]


def script(*lines):
    return b"".join(line.to_bytes(4, "big") for line in lines)


PLAN = "c 0 0/s 0 1/c 1 1/b 0 0 1/s 1 1/c 2 2/b 0 0 2/s 2 1/b 1 1 2/s 2 2/u 0 0 2".split("/")
SCRIPTS = [
    ("no lines", b""),
    ("the harbour script", script(*map(encode, PLAN))),
    ("20200010", script(0x20200010)),
    ("40204100", script(0x40204100)),
    ("80004000", script(0x80004000)),
    ("20200011", script(0x20200011)),
    ("00000000", script(0x00000000)),
    ("three bytes", b"\x20\x20\x00"),
    ("five bytes", script(0x20200010) + b"\x00"),
    ("the largest of each", script(*map(encode, ["c 255 15", "b 31 255 255", "s 255 7", "u 31 255 255", "d 255"]))),
    ("operation 6", script(0xC0000000)),
    ("operation 7", script(0xE0000000)),
    ("all bits", script(0xFFFFFFFF)),
    ("a second line that is none", script(0x20200010, 0x20200011, 0x40204100)),
    ("a third line that is none", script(0x20200010, 0x40204100, 0)),
] + [(f"{word} with the {name} set", script(0x20200010, encode(order) | bit)) for word, order, extra in [
    ("create", "c 1 1", "second port state"), ("bind", "b 1 1 2", "kind state"), ("change", "s 1 1", "second port kind"),
    ("unbind", "u 1 1 2", "kind state"), ("delete", "d 1", "second port kind state")]
    for name, bit in [(f if f != "kind" else "type", 1 << FIELDS[f][0]) for f in extra.split()] + [("spare bit", 1)]]

PACKS = [
    ("no orders", ""),
    ("the harbour script", "\n".join(PLAN) + "\n"),
    ("no newline at the end", "c 1 1"),
    ("comments and empty lines", "# a comment\n\nc 1 1\n#c 2 2\n\n\nd 1\n"),
    ("leading zeros", "c 0001 00\n"),
    ("the largest of each", "c 255 15\nb 31 255 255\ns 255 7\nu 31 255 255\nd 255\n"),
    ("create of instance 256", "c 256 0\n"),
    ("create of type 16", "c 0 16\n"),
    ("bind on port 32", "b 32 0 1\n"),
    ("bind from 256", "b 0 256 1\n"),
    ("bind to 256", "b 0 1 256\n"),
    ("change of 256", "s 256 0\n"),
    ("change to state 8", "s 0 8\n"),
    ("unbind on port 32", "u 32 0 1\n"),
    ("unbind from 256", "u 0 256 1\n"),
    ("unbind to 256", "u 0 1 256\n"),
    ("delete of 256", "d 256\n"),
    ("delete of 4294967295", "d 4294967295\n"),
    ("the place counts orders", "# first\nc 1 1\n\nd 1\nd 300\nd 400\n"),
    ("4294967296 is no number", "c 1 1\nd 4294967296\n"),
    ("99999999999999999999 is no number", "d 99999999999999999999\n"),
    ("a bad line before a large order", "d 300\nx\n"),
    ("an unknown letter", "x 1\n"),
    ("a large letter", "C 1 1\n"),
    ("a number is missing", "c 1\n"),
    ("all numbers are missing", "c\n"),
    ("a blank and no number", "c \n"),
    ("a number too many", "d 1 2\n"),
    ("two blanks", "c  1 1\n"),
    ("a blank before", " c 1 1\n"),
    ("a blank after", "c 1 1 \n"),
    ("a sign", "c +1 1\n"),
    ("a minus", "c 1 -1\n"),
    ("a tab", "c\t1 1\n"),
    ("a carriage return", "c 1 1\r\n"),
    ("a word for a number", "c one 1\n"),
    ("the third line", "c 1 1\n# more\nnothing\n"),
    ("a blank line of blanks", "c 1 1\n \nd 1\n"),
    ("a comment behind a blank", " # no\n"),
]


# A configuration is (instances, bindings): {number: (type, state)} and {(port, provider, requirer)}.

def parsed(order):
    letter, *numbers = order.split(" ")
    return letter, list(map(int, numbers))


def ever(universe, kind, port, part):
    """Whether some state of the type provides (part 0) or requires (part 1) the port."""
    return any(port in state[part] for state in universe[1][kind])


def offence(universe, config, order):
    """The first of the rules 22 to 29 that applies, or None."""
    ports, types = universe
    instances, bindings = config
    letter, numbers = parsed(order)
    if letter in "bu":
        port, provider, requirer = numbers
        ends, strays = [provider, requirer], port >= ports
    else:
        ends = numbers[:1]
        strays = letter == "c" and numbers[1] >= len(types) or letter == "s" and numbers[1] > 7
    if strays or max(ends) > 255:
        return 22
    if letter == "c":
        return 23 if ends[0] in instances else None
    if any(z not in instances for z in ends):
        return 24
    if letter == "b":
        if provider == requirer:
            return 25
        if not ever(universe, instances[provider][0], port, 0) or not ever(universe, instances[requirer][0], port, 1):
            return 25
        return 26 if (port, provider, requirer) in bindings else None
    if letter == "u":
        return None if (port, provider, requirer) in bindings else 27
    if letter == "s":
        kind, state = instances[ends[0]]
        return None if numbers[1] in types[kind][state][2] else 28
    return 29 if any(provider == ends[0] for _, provider, _ in bindings) else None


def outcome(config, order):
    """What stands after an order that is legal."""
    instances, bindings = dict(config[0]), set(config[1])
    letter, numbers = parsed(order)
    if letter == "c":
        instances[numbers[0]] = (numbers[1], 0)
    elif letter == "s":
        instances[numbers[0]] = (instances[numbers[0]][0], numbers[1])
    elif letter == "b":
        bindings.add(tuple(numbers))
    elif letter == "u":
        bindings.remove(tuple(numbers))
    else:
        del instances[numbers[0]]
        bindings = {b for b in bindings if b[2] != numbers[0]}
    return instances, bindings


def gap_free(universe, config):
    instances, bindings = config
    state_of = lambda z: universe[1][instances[z][0]][instances[z][1]]
    covered = {(requirer, port) for port, provider, requirer in bindings if port in state_of(provider)[0]}
    return all((z, port) in covered for z in instances for port in state_of(z)[1])


class Cloud:
    """The simulated cloud: it takes orders, and refuses with (number, height)."""
    height = 0

    def __init__(self, universe, instances, bindings, delay):
        self.universe, self.config = universe, ({}, set())
        self.most = min(instances, 256), min(bindings, 2048)
        self.delay = self.waits = min(delay, 8)

    def allowances(self):
        return tuple(most - len(standing) for most, standing in zip(self.most, self.config))

    def give(self, order):
        if self.waits:
            self.waits -= 1
            return 21, 0
        self.waits = self.delay
        number = offence(self.universe, self.config, order)
        creations, bindings = self.allowances()
        if number is None and {"c": creations, "b": bindings}.get(order[0]) == 0:
            number = 31
        if number is None:
            self.config = outcome(self.config, order)
            return None
        return number, 0


class Verifying:
    """The verifying layer: it refuses changes and unbinds whose result has a gap, and hands all else on."""

    def __init__(self, below):
        self.below, self.height = below, below.height + 1

    universe = property(lambda self: self.below.universe)
    config = property(lambda self: self.below.config)
    waits = property(lambda self: self.below.waits)

    def allowances(self):
        return self.below.allowances()

    def give(self, order):
        if self.waits == 0 and order[0] in "su" and offence(self.universe, self.config, order) is None:
            if not gap_free(self.universe, outcome(self.config, order)):
                return 30, self.height
        return self.below.give(order)


def fresh_host(options, universe):
    instances, bindings, delay, layers = options.split(" ")
    host = Cloud(read_universe(universe), int(instances), int(bindings), int(delay))
    for _ in layers.strip("-"):
        host = Verifying(host)
    return host


def told(host, order):
    """The answer to the order as the table writes it, and the line that is printed."""
    refusal = host.give(order)
    creations, bindings = host.allowances()
    answer = "{} by {}".format(*refusal) if refusal else "done"
    shown = f"refused {answer}" if refusal else answer
    return answer, f"{order}: {shown} (waits {host.waits}, creations {creations}, bindings {bindings})\n"


def host_text(label, host, rows):
    """The lines of the orders, whose answers have to be those of the table, and the last line."""
    text = ""
    for place, (order, expected) in enumerate(rows):
        answer, line = told(host, order)
        assert answer == expected, f"{label}: order {place}, {order}: {answer}, by hand {expected}"
        text += line
    instances, bindings = map(len, host.config)
    return text + f"instances {instances}, bindings {bindings}, gap-free {'yes' if gap_free(host.universe, host.config) else 'no'}\n"


def done(orders):
    return [(order, "done") for order in orders.split("/")]


def put_off(times, order, answer):
    """The order is put off so many times, then answered."""
    return [(order, "21 by 0")] * times + [(order, answer)]


def slowly(times, rows):
    """Each order is put off so many times, then answered."""
    return [row for order, answer in rows for row in put_off(times, order, answer)]


# The lock 0 serves, and the roster 1 or the dispatcher 2 is bound to it.
LOCK = done("c 0 0/s 0 1")
ROSTER = done("c 1 1/b 0 0 1")
BUILT = done("/".join(PLAN[:9]))
# All but the last of these answers are the same on every host.
EVERY = [
    ("c 256 0", "22 by 0"), ("c 0 3", "22 by 0"), ("c 0 0", "done"), ("c 0 1", "23 by 0"), ("s 1 1", "24 by 0"),
    ("c 1 1", "done"), ("b 0 1 0", "25 by 0"), ("s 0 1", "done"), ("b 0 0 1", "done"), ("b 0 0 1", "26 by 0"),
    ("u 0 1 0", "27 by 0"), ("s 0 0", "28 by 0"), ("d 0", "29 by 0"), ("c 2 2", "done"), ("c 3 0", "31 by 0"),
    ("b 0 0 2", "done"), ("s 1 1", "done"), ("b 1 1 2", "31 by 0"),
]
# Busy before every other rule; a refusal from the cloud starts the waits again.
BUSY = (put_off(2, "c 300 0", "22 by 0") + put_off(2, "c 0 0", "done") + put_off(2, "c 0 0", "23 by 0")
        + put_off(2, "s 1 1", "24 by 0") + put_off(2, "c 1 1", "31 by 0") + put_off(2, "b 0 0 0", "25 by 0")
        + put_off(2, "u 0 0 0", "27 by 0") + put_off(2, "s 0 7", "28 by 0") + put_off(2, "s 0 1", "done"))
# 22 before 23 and 24.
RANGE = LOCK + [
    ("c 0 3", "22 by 0"), ("c 0 4294967295", "22 by 0"), ("c 256 0", "22 by 0"), ("c 4294967295 4294967295", "22 by 0"),
    ("b 2 5 6", "22 by 0"), ("b 0 256 5", "22 by 0"), ("b 0 5 256", "22 by 0"), ("b 4294967295 0 0", "22 by 0"),
    ("s 5 8", "22 by 0"), ("s 256 1", "22 by 0"), ("s 0 8", "22 by 0"), ("s 0 4294967295", "22 by 0"),
    ("u 2 5 6", "22 by 0"), ("u 0 256 0", "22 by 0"), ("u 0 0 256", "22 by 0"),
    ("d 256", "22 by 0"), ("d 4294967295", "22 by 0"),
]
# 24 before 25, 27 and 28.
NOT_STANDING = LOCK + [
    ("b 0 5 6", "24 by 0"), ("b 0 0 5", "24 by 0"), ("b 0 5 0", "24 by 0"), ("b 0 5 5", "24 by 0"), ("b 1 0 5", "24 by 0"),
    ("u 0 5 6", "24 by 0"), ("u 0 0 5", "24 by 0"), ("u 0 5 0", "24 by 0"), ("u 0 5 5", "24 by 0"),
    ("s 5 0", "24 by 0"), ("s 5 7", "24 by 0"), ("d 5", "24 by 0"), ("d 255", "24 by 0"),
]
# 25: one instance with itself, a port that the provider's type never provides, or the requirer's never requires.
UNFIT = done("c 0 0/c 1 1/c 2 2/c 3 0") + [
    ("b 0 0 0", "25 by 0"), ("b 0 1 1", "25 by 0"), ("b 1 1 1", "25 by 0"), ("b 1 0 2", "25 by 0"), ("b 0 1 2", "25 by 0"),
    ("b 1 2 1", "25 by 0"), ("b 0 0 3", "25 by 0"), ("b 1 1 0", "25 by 0"), ("b 0 0 1", "done"), ("b 0 0 2", "done"),
    ("b 1 1 2", "done"), ("b 0 0 2", "26 by 0"), ("b 1 1 2", "26 by 0"), ("b 0 3 2", "done"), ("b 0 0 0", "25 by 0"),
]
# 28: its own state, a state that comes too early, and states from the count up to 7.
SUCCESSORS = done("c 0 0/c 2 2") + [
    ("s 0 0", "28 by 0"), ("s 0 2", "28 by 0"), ("s 0 7", "28 by 0"), ("s 0 8", "22 by 0"), ("s 2 2", "28 by 0"),
    ("s 2 3", "28 by 0"), ("s 0 1", "done"), ("s 0 0", "28 by 0"), ("s 0 1", "28 by 0"),
]
# A delete takes the bindings with it whose requirer the instance was.
DELETES = LOCK + ROSTER + done("s 1 1/c 2 2/b 0 0 2/b 1 1 2") + [
    ("d 0", "29 by 0"), ("d 1", "29 by 0"), ("d 2", "done"), ("d 2", "24 by 0"), ("d 1", "done"), ("c 1 2", "done"),
    ("u 0 0 1", "27 by 0"), ("b 0 0 1", "done"), ("d 1", "done"), ("d 0", "done"), ("d 0", "24 by 0"),
]


def bound(locks, rosters):
    """Locks, rosters bound to each of them, and one roster more, for which no binding is left."""
    numbers = range(locks, locks + rosters)
    orders = [f"c {z} 0" for z in range(locks)] + [f"c {z} 1" for z in numbers] + [f"b 0 {x} {y}" for y in numbers for x in range(locks)]
    return [(order, "done") for order in orders + [f"c {numbers.stop} 1"]] + [(f"b 0 {locks - 1} {numbers.stop}", "31 by 0")]


# Limits of 0, 1 and 2 with waits of 0, 2 and 8 on every pile, and of 256: so many creates or binds are done, and one more is
# refused. With 256 instances every further create is of a number that is out of range (22) or stands (23).
PILES = [("a cloud", "-"), ("a verifying cloud", "v"), ("a pile of two", "vv")]
CREATED = done("c 0 0/c 1 1/c 2 2")
BOUND = done("b 0 0 1/b 0 0 2/b 0 0 3")
LIMITS = [
    row
    for pile, layers in PILES for wait in (0, 2, 8) for most in (0, 1, 2)
    for row in (
        (f"{most} instances with waits of {wait} on {pile}", f"{most} 2048 {wait} {layers}",
            slowly(wait, CREATED[:most] + [(CREATED[most][0], "31 by 0")])),
        (f"{most} bindings with waits of {wait} on {pile}", f"256 {most} {wait} {layers}",
            slowly(wait, done("c 0 0/c 1 1/c 2 1/c 3 1") + BOUND[:most] + [(BOUND[most][0], "31 by 0")])),
    )
] + [
    (f"256 bindings on {pile}", f"256 256 0 {layers}", bound(2, 128) + [
        ("d 129", "done"), ("c 129 1", "done"), ("b 0 1 129", "done"), ("b 0 0 129", "done"), ("b 0 1 130", "31 by 0")])
    for pile, layers in PILES
]

# (label, options, [(order, the answer worked out by hand)])
HOSTS = [
    ("no orders", "256 2048 0 -", []),
    ("the harbour script on a cloud", "256 2048 0 -", done("/".join(PLAN))),
    ("the harbour script on a verifying cloud", "256 2048 0 v", done("/".join(PLAN))),
    ("the harbour script on a pile of two", "256 2048 0 vv", done("/".join(PLAN))),
    ("every refusal but 21 and 30 on a cloud", "3 2 0 -", EVERY + [("u 0 0 1", "done")]),
    ("every refusal but 21 on a verifying cloud", "3 2 0 v", EVERY + [("u 0 0 1", "30 by 1")]),
    ("every refusal but 21 on a pile of two", "3 2 0 vv", EVERY + [("u 0 0 1", "30 by 2")]),
    ("every refusal but 30 on a cloud with waits of 2", "3 2 2 -", slowly(2, EVERY + [("u 0 0 1", "done")])),
    ("every refusal on a verifying cloud with waits of 2", "3 2 2 v", slowly(2, EVERY + [("u 0 0 1", "30 by 1")])),
    ("every refusal on a pile of two with waits of 2", "3 2 2 vv", slowly(2, EVERY + [("u 0 0 1", "30 by 2")])),
    ("every refusal but 30 on a cloud with waits of 8", "3 2 8 -", slowly(8, EVERY + [("u 0 0 1", "done")])),
    ("every refusal on a verifying cloud with waits of 8", "3 2 8 v", slowly(8, EVERY + [("u 0 0 1", "30 by 1")])),
    ("every refusal on a pile of two with waits of 8", "3 2 8 vv", slowly(8, EVERY + [("u 0 0 1", "30 by 2")])),
    ("busy before all on a cloud", "1 0 2 -", BUSY),
    ("busy before all on a verifying cloud", "1 0 2 v", BUSY),
    ("busy before all on a pile of two", "1 0 2 vv", BUSY),
    ("waits of 2 and a gap on a cloud", "256 2048 2 -",
        put_off(2, "c 1 1", "done") + put_off(2, "s 1 1", "done") + put_off(2, "s 1 1", "28 by 0") + [("c 0 0", "21 by 0")]),
    ("a verifying layer's refusal leaves the waits at 0", "256 2048 2 v",
        put_off(2, "c 1 1", "done") + put_off(2, "s 1 1", "30 by 1") + [("s 1 1", "30 by 1"), ("c 0 0", "done")]
        + put_off(2, "s 1 1", "30 by 1") + [("s 1 0", "28 by 0"), ("s 1 1", "21 by 0")]),
    ("the outermost layer's refusal leaves the waits at 0", "256 2048 2 vv",
        put_off(2, "c 1 1", "done") + put_off(2, "s 1 1", "30 by 2") + [("s 1 1", "30 by 2"), ("c 0 0", "done")]
        + put_off(2, "s 1 1", "30 by 2") + [("s 1 0", "28 by 0"), ("s 1 1", "21 by 0")]),
    ("waits of 8 on a cloud", "256 2048 8 -", put_off(8, "c 0 0", "done") + put_off(8, "c 0 0", "23 by 0")),
    ("waits of 8 on a verifying cloud", "256 2048 8 v",
        put_off(8, "c 1 1", "done") + put_off(8, "s 1 1", "30 by 1") + [("d 1", "done"), ("c 1 1", "21 by 0")]),
    ("waits of 8 on a pile of two", "256 2048 8 vv",
        put_off(8, "c 1 1", "done") + put_off(8, "s 1 1", "30 by 2") + [("d 1", "done"), ("c 1 1", "21 by 0")]),
    ("larger choices count as the largest", "1000 5000 9 -", put_off(8, "c 0 0", "done") + put_off(8, "c 256 0", "22 by 0")),
    ("the largest choices of all", "4294967295 4294967295 4294967295 vv", put_off(8, "c 0 0", "done")),
    ("256 instances", "1000 5000 0 -", [(f"c {z} {z % 3}", "done") for z in range(256)]
        + [("c 255 0", "23 by 0"), ("c 256 0", "22 by 0"), ("d 128", "done"), ("c 128 0", "done"), ("c 128 0", "23 by 0")]),
    ("2048 bindings on a verifying cloud", "256 2048 0 v", bound(16, 128) + [
        ("s 0 1", "done"), ("u 0 7 100", "done"), ("b 0 7 144", "done"), ("b 0 7 100", "31 by 0")]),
    ("no instance is allowed", "0 0 0 -", [
        ("c 0 0", "31 by 0"), ("c 256 0", "22 by 0"), ("c 0 3", "22 by 0"), ("b 0 0 1", "24 by 0"), ("s 0 1", "24 by 0"),
        ("u 0 0 1", "24 by 0"), ("d 0", "24 by 0"), ("c 255 2", "31 by 0")]),
    ("no instance is allowed on a pile of two", "0 2048 0 vv", [("c 0 0", "31 by 0"), ("s 0 1", "24 by 0"), ("c 0 3", "22 by 0")]),
    ("no binding is allowed", "256 0 0 -", LOCK + done("c 1 1") + [
        ("b 0 0 1", "31 by 0"), ("b 2 0 1", "22 by 0"), ("b 0 0 2", "24 by 0"), ("b 0 1 0", "25 by 0"), ("b 0 0 0", "25 by 0"),
        ("u 0 0 1", "27 by 0"), ("s 1 1", "done")]),
    ("no binding is allowed on a verifying cloud", "256 0 0 v", LOCK + done("c 1 1") + [
        ("b 0 0 1", "31 by 0"), ("b 0 1 0", "25 by 0"), ("s 1 1", "30 by 1"), ("d 1", "done")]),
    ("one instance", "1 2048 0 -", done("c 0 0") + [
        ("c 0 0", "23 by 0"), ("c 1 0", "31 by 0"), ("d 0", "done"), ("c 1 0", "done"), ("c 0 0", "31 by 0"), ("c 256 0", "22 by 0"),
        ("d 1", "done"), ("d 1", "24 by 0"), ("c 0 2", "done")]),
    ("two instances and one binding", "2 1 0 -", LOCK + ROSTER + [
        ("b 0 0 1", "26 by 0"), ("c 2 2", "31 by 0"), ("d 1", "done"), ("c 2 2", "done"), ("b 0 0 2", "done"), ("u 0 0 2", "done"),
        ("b 0 0 2", "done"), ("s 2 1", "done"), ("b 0 0 2", "26 by 0"), ("c 1 1", "31 by 0")]),
    ("two instances and one binding on a verifying cloud", "2 1 0 v", LOCK + ROSTER + [
        ("b 0 0 1", "26 by 0"), ("c 2 2", "31 by 0"), ("d 1", "done"), ("c 2 2", "done"), ("b 0 0 2", "done"), ("u 0 0 2", "done"),
        ("b 0 0 2", "done"), ("s 2 1", "done"), ("u 0 0 2", "30 by 1"), ("c 1 1", "31 by 0")]),
    ("two bindings", "256 2 0 -", LOCK + done("c 1 1/c 2 2/c 3 1/b 0 0 1/b 0 0 2") + [
        ("b 0 0 3", "31 by 0"), ("b 0 0 2", "26 by 0"), ("d 2", "done"), ("b 0 0 3", "done"), ("u 0 0 1", "done"), ("b 0 0 1", "done")]),
    ("22 before 23 and 24 on a cloud", "256 2048 0 -", RANGE),
    ("22 before 23 and 24 on a verifying cloud", "256 2048 0 v", RANGE),
    ("24 before 25, 27 and 28 on a cloud", "256 2048 0 -", NOT_STANDING),
    ("24 before 25, 27 and 28 on a pile of two", "256 2048 0 vv", NOT_STANDING),
    ("25 and 26 on a cloud", "256 2048 0 -", UNFIT),
    ("25 and 26 on a verifying cloud", "256 2048 0 v", UNFIT),
    ("28 on a cloud", "256 2048 0 -", SUCCESSORS),
    ("28 on a verifying cloud, before 30", "256 2048 0 v", SUCCESSORS),
    ("28 on a pile of two, before 30", "256 2048 0 vv", SUCCESSORS),
    ("29, and what a delete takes with it, on a cloud", "256 2048 0 -", DELETES),
    ("29, and what a delete takes with it, on a verifying cloud", "256 2048 0 v", DELETES),
    ("29, and what a delete takes with it, on a pile of two", "256 2048 0 vv", DELETES),
    ("30 after 22 to 29", "256 2048 0 v", done("c 0 0/c 1 1/c 2 2") + [
        ("s 1 8", "22 by 0"), ("s 3 1", "24 by 0"), ("s 1 2", "28 by 0"), ("u 0 0 1", "27 by 0"), ("s 1 1", "30 by 1"), ("s 2 1", "30 by 1")]),
    ("a state that lacks its port on a cloud", "256 2048 0 -", done("c 1 1/s 1 1")),
    ("a state that lacks its port on a verifying cloud", "256 2048 0 v", done("c 1 1") + [("s 1 1", "30 by 1")]),
    ("a provider that does not serve yet on a cloud", "256 2048 0 -", done("c 0 0/c 1 1/b 0 0 1/s 1 1/s 0 1")),
    ("a provider that never comes to serve on a cloud", "256 2048 0 -", done("c 0 0/c 1 1/b 0 0 1/s 1 1")),
    ("a provider that does not serve yet on a verifying cloud", "256 2048 0 v",
        done("c 0 0/c 1 1/b 0 0 1") + [("s 1 1", "30 by 1")] + done("s 0 1/s 1 1")),
    ("a provider that does not serve yet on a pile of two", "256 2048 0 vv",
        done("c 0 0/c 1 1/b 0 0 1") + [("s 1 1", "30 by 2")] + done("s 0 1/s 1 1")),
    ("two providers of one port", "256 2048 0 v", LOCK + done("c 3 0/s 3 1") + ROSTER + done("b 0 3 1/s 1 1/u 0 0 1") + [
        ("u 0 3 1", "30 by 1"), ("b 0 0 1", "done"), ("u 0 3 1", "done"), ("d 3", "done"), ("d 0", "29 by 0")]),
    ("an unbind beside another gap on a cloud", "256 2048 0 -", LOCK + done("c 1 1/s 1 1/c 2 2/b 0 0 2/u 0 0 2/b 0 0 2/s 2 1/b 0 0 1")),
    ("an unbind beside another gap that stays on a cloud", "256 2048 0 -", LOCK + done("c 1 1/s 1 1/c 2 2/b 0 0 2/u 0 0 2")),
    ("the accident on a cloud", "256 2048 0 -", BUILT + done("u 0 0 2")),
    ("the accident on a cloud, and the change after it", "256 2048 0 -", BUILT + done("u 0 0 2/s 2 2")),
    ("the accident on a verifying cloud", "256 2048 0 v", BUILT + [("u 0 0 2", "30 by 1")] + done("s 2 2/u 0 0 2")),
    ("the accident on a pile of two", "256 2048 0 vv", BUILT + [("u 0 0 2", "30 by 2")] + done("s 2 2/u 0 0 2")),
    ("the accident on a cloud with waits of 2", "256 2048 2 -", slowly(2, BUILT + done("u 0 0 2"))),
    ("the accident on a verifying cloud with waits of 2", "256 2048 2 v", slowly(2, BUILT + [("u 0 0 2", "30 by 1")])),
    ("the wrong binding given up on a verifying cloud", "256 2048 0 v", BUILT + done("s 2 2") + [("u 1 1 2", "30 by 1"), ("u 0 0 1", "30 by 1")]),
] + LIMITS
# One type: state 1 follows 0, and provides and requires port 0. Only here can 25 come for the ends alone.
ALONE = bytes.fromhex("0820" "20" "000000000000000040" "800000008000000000")
PAIR = done("c 0 0") + [("b 0 0 0", "25 by 0")] + done("c 1 0/b 0 0 1/b 0 1 0") + [("b 0 0 0", "25 by 0"), ("b 0 1 1", "25 by 0")]
ALONE_HOSTS = [
    ("an instance bound to itself on a cloud", "256 2048 0 -", PAIR + done("s 1 1/s 0 1") + [("b 0 0 0", "25 by 0"), ("u 0 0 0", "27 by 0")]),
    ("an instance bound to itself on a verifying cloud", "256 2048 0 v", PAIR + [("s 1 1", "30 by 1"), ("s 0 1", "30 by 1")]),
]
# A layer over a cloud that has a gap already, which no order to the layer leads to: orders to the cloud, then to the layer.
LAYERED = [("an old gap under a verifying layer", LOCK + done("c 1 1/s 1 1/c 2 2/b 0 0 2/c 3 2/b 0 0 3"), [
    ("u 0 0 3", "30 by 1"), ("s 2 1", "30 by 1"), ("c 4 0", "done"), ("b 0 0 3", "26 by 0"), ("d 3", "done"), ("b 0 0 1", "done"),
    ("s 2 1", "done"), ("u 0 0 2", "30 by 1")])]


def hosts_table():
    """The rows of the data file, and what is printed of them."""
    rows, out = "", "hosts\n"
    for universe, table in [(HARBOUR, HOSTS), (ALONE, ALONE_HOSTS)]:
        for label, options, orders in table:
            rows += f"{label} = {universe.hex()} {options} | {'; '.join(order for order, _ in orders)}\n"
            out += f"{label}:\n{host_text(label, fresh_host(options, universe), orders)}"
    return rows, out


def layered_table():
    """The same for orders to a cloud, and then to a verifying layer over it."""
    rows, out = "", "layered\n"
    for label, before, after in LAYERED:
        cloud = fresh_host("256 2048 0 -", HARBOUR)
        rows += f"{label} = {'; '.join(order for order, _ in before)} | {'; '.join(order for order, _ in after)}\n"
        out += f"{label}:\n{host_text(label, cloud, before)}{host_text(label, Verifying(cloud), after)}"
    return rows, out


# (label, universe, goal, places of the list, the answer worked out by hand)
WHOLE, SCRIPT = plan_cases.MOST_LINES, "/".join(PLAN)
BAD, UNREACHED = "25", "02"
LEAST = dict(UNIVERSES)["least"]
PLANS = [
    (label, universe, bytes.fromhex(goal), room, answer)
    for label, universe, goal, room, answer in [
        ("the harbour", HARBOUR, "24", WHOLE, SCRIPT),
        ("the harbour, and a place for each line", HARBOUR, "24", 11, SCRIPT),
        ("the harbour, and a place more", HARBOUR, "24", 12, SCRIPT),
        ("the harbour, and a place too few", HARBOUR, "24", 10, "refused 15"),
        ("the harbour, and no places", HARBOUR, "24", 0, "refused 15"),
        ("the harbour: the zero bit is set", HARBOUR, "25", WHOLE, "refused 12"),
        ("the harbour: no such state", HARBOUR, "26", WHOLE, "refused 12"),
        ("the harbour: no such type", HARBOUR, "34", WHOLE, "refused 12"),
        ("the harbour: all bits but the zero bit", HARBOUR, "fe", WHOLE, "refused 12"),
        ("the harbour: all bits", HARBOUR, "ff", WHOLE, "refused 12"),
        ("the harbour: the zero bit of type 0 and state 0", HARBOUR, "01", WHOLE, "refused 12"),
        ("the harbour: the last of 16 lines is none", HARBOUR, "24" * 15 + "26", WHOLE, "refused 12"),
        ("the harbour: a line that is none, and no places", HARBOUR, "26", 0, "refused 12"),
        ("the harbour: no goal", HARBOUR, "", WHOLE, "refused 11"),
        ("the harbour: no goal and no places", HARBOUR, "", 0, "refused 11"),
        ("the harbour: 16 equal lines", HARBOUR, "24" * 16, WHOLE, SCRIPT),
        ("the harbour: 17 equal lines", HARBOUR, "24" * 17, WHOLE, "refused 11"),
        ("the harbour: 17 lines that are none", HARBOUR, BAD * 17, WHOLE, "refused 11"),
        ("the harbour: 17 lines and no places", HARBOUR, "24" * 17, 0, "refused 11"),
        ("the harbour: 255 lines", HARBOUR, "24" * 255, WHOLE, "refused 11"),
        ("the harbour: 256 lines", HARBOUR, "24" * 256, WHOLE, "refused 11"),
        ("the harbour: 257 lines", HARBOUR, "24" * 257, WHOLE, "refused 11"),
        ("the harbour: the suppliers are in the goal, in another order", HARBOUR, "241202", WHOLE, SCRIPT),
        ("the harbour: the lock", HARBOUR, "02", WHOLE, "c 0 0/s 0 1"),
        ("the harbour: the roster", HARBOUR, "12", WHOLE, "c 0 0/s 0 1/c 1 1/b 0 0 1/s 1 1"),
        ("the harbour: the dispatcher's state 1", HARBOUR, "22", WHOLE, "c 0 0/s 0 1/c 1 2/b 0 0 1/s 1 1"),
        ("the harbour: two states of the dispatcher", HARBOUR, "2422", WHOLE,
            "c 0 0/s 0 1/c 1 1/b 0 0 1/s 1 1/c 2 2/b 0 0 2/s 2 1/c 3 2/b 0 0 3/s 3 1/b 1 1 3/s 3 2/u 0 0 3"),
        ("the harbour: the states 0", HARBOUR, "200010", WHOLE, "c 0 0/c 1 1/c 2 2"),
        ("the harbour: all pairs", HARBOUR, "00021012202224", WHOLE,
            "c 0 0/c 1 1/c 2 2/c 3 0/s 3 1/c 4 1/b 0 3 4/s 4 1/c 5 2/b 0 3 5/s 5 1/c 6 2/b 0 3 6/s 6 1/b 1 4 6/s 6 2/u 0 3 6"),
        ("the lone universe", ALONE, UNREACHED, WHOLE, "refused 14"),
        ("the lone universe: state 0", ALONE, "00", WHOLE, "c 0 0"),
        ("the lone universe: state 0, and no places", ALONE, "00", 0, "refused 15"),
        ("the lone universe: both states", ALONE, "00" + UNREACHED, WHOLE, "refused 14"),
        ("the lone universe: out of reach, and no places", ALONE, UNREACHED, 0, "refused 14"),
        ("the lone universe: a line that is none behind one out of reach", ALONE, UNREACHED + "04", WHOLE, "refused 12"),
        ("the lone universe: a zero bit behind a line out of reach", ALONE, UNREACHED + "01", WHOLE, "refused 12"),
        ("the lone universe: a line that is none before one out of reach", ALONE, "04" + UNREACHED, WHOLE, "refused 12"),
        ("the lone universe: 16 lines out of reach", ALONE, UNREACHED * 16, WHOLE, "refused 14"),
        ("the lone universe: 17 lines out of reach, and no places", ALONE, UNREACHED * 17, 0, "refused 11"),
        ("the least universe", LEAST, "00", WHOLE, "c 0 0"),
        ("the least universe: 16 lines, and one place", LEAST, "00" * 16, 1, "c 0 0"),
        ("the least universe: no such state", LEAST, "02", WHOLE, "refused 12"),
        ("the least universe: no such type", LEAST, "10", WHOLE, "refused 12"),
        ("the largest universe: a state with 32 ports", full(), "02", WHOLE,
            "/".join(["c 0 0", "c 1 0"] + [f"b {p} 0 1" for p in range(32)] + ["s 1 1"])),
        ("the largest universe: the last state of each type", full(), "0e1e2e3e4e5e6e7e8e9eaebecedeeefe", WHOLE, "545 lines"),
        ("a universe that is cut short", HARBOUR[:-1], "24", WHOLE, "refused 1"),
        ("a universe that is cut short, and no goal and no places", HARBOUR[:-1], "", 0, "refused 1"),
        ("a universe with no types", bytes(2), "24", WHOLE, "refused 2"),
    ]
] + plan_cases.CASES
# A longer script is not printed, but its checksum.
PRINTED = 40


def checksum(data):
    """FNV-1a of 32 bits."""
    value = 0x811C9DC5
    for byte in data:
        value = (value ^ byte) * 0x01000193 % 2 ** 32
    return value


def closing_text(data):
    """What is printed of a universe's closing order."""
    try:
        universe = read_universe(data)
    except Refused as r:
        return f"refused {r.number}\n"
    listed, text = planning.closing(universe), ""
    for rank, (t, q) in enumerate(listed):
        parent = "-" if q == 0 else listed.index(planning.parent(universe, listed, (t, q)))
        text += f"{rank} {t}/{q} parent {parent}\n"
    for port in range(universe[0]):
        ranks = [rank for rank, (t, q) in enumerate(listed) if port in universe[1][t][q][0]]
        text += f"port {port} supplier {ranks[0] if ranks else '-'}\n"
    return text


def closings_table():
    """The same of closing orders: all universes of UNIVERSES, and those that are made for the planner."""
    rows, out, seen = "", "closings\n", set()
    for label, data in UNIVERSES + [(case[0], case[1]) for case in plan_cases.CASES]:
        if data not in seen:
            seen.add(data)
            rows += f"{label} = {data.hex()}\n"
            out += f"{label}:\n{closing_text(data)}"
    return rows, out


def plan_text(label, universe, goal, room, by_hand):
    """What is printed of a case, whose answer has to be that by hand."""
    try:
        number, orders = plan(read_universe(universe), goal, room)
    except Refused as r:
        assert by_hand == f"refused {r.number}", label
        return f"refused {r.number}\n"
    answers = [f"refused {number}"] if number else ["/".join(orders), f"{len(orders)} lines"]
    assert by_hand in answers or by_hand is None, f"{label}: {answers[0]}, by hand {by_hand}"
    text = f"refused {number}\n" if number else f"{len(orders)} lines\n"
    if orders and len(orders) > PRINTED:
        text += f"checksum {checksum(script(*map(encode, orders))):08x}\n"
    elif orders:
        text += "\n".join(orders) + "\n"
    return text + "rest unchanged\n"


def plans_table():
    """The rows of the data file (universe, goal, places), and what is printed of them."""
    rows, out = "", "plans\n"
    for label, universe, goal, room, by_hand in PLANS:
        rows += f"{label} = {universe.hex()} {goal.hex() or '-'} {room}\n"
        out += f"{label}:\n{plan_text(label, universe, goal, room, by_hand)}"
    return rows, out


def file_table(name, table, show):
    """The rows of a data file of packed files or texts, and what is printed of them."""
    rows, out = "", f"{name}\n"
    for label, data in table:
        data = data.encode() if isinstance(data, str) else data
        rows += f"{label} = {data.hex()}\n"
        out += f"{label}:\n{show(data)}"
    return rows, out


def write(name, text):
    """Writes a file of the program `cases`."""
    folder = os.path.join(os.path.dirname(os.path.abspath(__file__)), "..", "crates", "cases")
    with open(os.path.join(folder, name), "w") as f:
        f.write(text)


def main():
    import check_cases  # which stands on this module
    import run_cases  # and so does this

    printed = ""
    # In the order in which the program shows them.
    for name, (rows, out) in {
        "universes": file_table("universes", UNIVERSES, universe_text),
        "scripts": file_table("scripts", SCRIPTS, lines_text),
        "orders": file_table("orders", PACKS, pack_text),
        "closings": closings_table(),
        "plans": plans_table(),
        "hosts": hosts_table(),
        "layered": layered_table(),
        "drafts": check_cases.drafts_table(),
        "standing": check_cases.standing_table(),
        "runs": run_cases.runs_table(),
    }.items():
        write(os.path.join("data", f"{name}.txt"), rows)
        printed += out
    write("stdout", printed)


if __name__ == "__main__":
    main()
