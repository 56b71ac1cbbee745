"""The worked cases of whole runs: a universe, a goal or a script, a host and a number of steps.

A case is (label, packed universe, request, options, steps, answer). A request is written `goal:` and the goal's hexadecimal digits,
or `script:` and orders as in check_cases.py. Options are written as in running.py. The steps are None where the command's own number
is taken. An answer that was worked out by hand is a refusal as in check_cases.py, or the place and the number of lines, `P of N`,
with the leases and instances at the end behind it, `P of N, L I`, and for a goal `, met` or `, not met` too; it is None where it was
not worked out.

A row of the data file is `NAME = UNIVERSE REQUEST INSTANCES BINDINGS DELAY LAYERS STEPS`: the universe in hexadecimal digits, the
request with its script in the notation of drafts, LAYERS - for none, and STEPS - for the command's own number.
"""
import re

from check_cases import (
    ALL, BOUND, DELETES, GAPS, HARBOUR_ROWS, ILLEGAL, LENGTHS, LONG, MOST, NO_LINES, PORTS, PRECEDENCE, RING, SCRIPT, STEPS, Steering,
    TURN, answer_of, crowd, digits, joined, lines_of, noted, some_draft, some_universe)
from plan_cases import CASES, SIZES, Draw, burdened, longest, packed, random_goal, random_types, written
from plan_cases import MOST_LINES as MOST_PLANNED
from planning import plan
from reference import ALONE, HARBOUR, PLAN, UNIVERSES, changed, read_universe
from running import longest_wait, run_text

PILES = ["-", "v", "vv"]
NAMES = {"-": "a cloud", "v": "a verifying cloud", "vv": "a pile of two"}
LARGEST = 4294967295


def on(layers="-", delay=0, instances=256, bindings=2048):
    return f"{instances} {bindings} {delay} {layers}"


# The harbour script up to each place: the leases and the instances, worked out by hand.
LEASES = [0, 0, 0, 0, 1, 1, 1, 2, 2, 3, 3, 2]
INSTANCES = [0, 1, 1, 2, 2, 2, 3, 3, 3, 3, 3, 3]


def harbour_end(place, goal=True):
    """The dispatcher reaches its last state by the line at place 9."""
    end = f"{place} of 11, {LEASES[place]} {INSTANCES[place]}"
    return end + (", met" if place > 9 else ", not met") if goal else end


def harbour_rows():
    for layers in PILES:
        for delay in (0, 1, 2, 8):
            yield f"the harbour on {NAMES[layers]}, delay {delay}", HARBOUR, "goal:24", on(layers, delay), None, harbour_end(11)
        for steps in (12, 20, 40):
            yield f"the harbour on {NAMES[layers]}, {steps} steps", HARBOUR, "goal:24", on(layers), steps, harbour_end(11)
        yield f"the harbour's script on {NAMES[layers]}", HARBOUR, f"script:{SCRIPT}", on(layers), None, harbour_end(11, False)
    for layers in PILES[:2]:
        for steps in range(41):
            label = f"the harbour on {NAMES[layers]}, delay 2, {steps} steps"
            yield label, HARBOUR, "goal:24", on(layers, 2), steps, harbour_end(min(steps // 3, 11))
    for steps in (0, 7, 8, 9, 10, 98, 99, 100):
        label = f"the harbour's script on a pile of two, delay 8, {steps} steps"
        yield label, HARBOUR, f"script:{SCRIPT}", on("vv", 8), steps, harbour_end(min(steps // 9, 11), False)


def harbour_limits():
    """The line that a limit stops is at the place, and its step is refused as often as it comes."""
    for layers, delay in (("-", 0), ("vv", 0), ("-", 2), ("v", 1)):
        host = f"{NAMES[layers]}, delay {delay}"
        for limit, place in enumerate([0, 2, 5, 11]):
            options = on(layers, delay, instances=limit)
            yield f"the harbour on {host}, instances {limit}", HARBOUR, "goal:24", options, None, harbour_end(place)
        for limit, place in enumerate([3, 6, 8, 11]):
            options = on(layers, delay, bindings=limit)
            yield f"the harbour on {host}, bindings {limit}", HARBOUR, "goal:24", options, None, harbour_end(place)
    for steps in (4, 5, 6, 7, 100):
        label = f"the harbour on a cloud, instances 2, {steps} steps"
        yield label, HARBOUR, "goal:24", on(instances=2), steps, harbour_end(min(steps, 5))
    yield "the harbour on a cloud, instances 2, bindings 1", HARBOUR, "goal:24", on(instances=2, bindings=1), None, harbour_end(5)
    yield "the harbour on a cloud, instances 3, bindings 1", HARBOUR, "goal:24", on(instances=3, bindings=1), None, harbour_end(6)
    yield "the harbour on a cloud with no room", HARBOUR, "goal:24", on("-", 1, 0, 0), 40, harbour_end(0)


def harbour_goals():
    """All end with their goals met but where steps are missing; state 0 may be met on the way and left again."""
    for goal, end in [
        ("02", "2 of 2, 0 1"), ("12", "5 of 5, 1 2"), ("22", "5 of 5, 1 2"), ("2422", "14 of 14, 3 4"), ("200010", "3 of 3, 0 3"),
        ("00021012202224", "17 of 17, 3 7"), ("241202", "11 of 11, 2 3"), ("24" * 16, "11 of 11, 2 3"), ("00", "1 of 1, 0 1"),
    ]:
        for layers in PILES:
            yield f"goal {goal} on {NAMES[layers]}, delay 1", HARBOUR, f"goal:{goal}", on(layers, 1), None, f"{end}, met"
    yield "goal 0002: the first instance stands in state 0", HARBOUR, "goal:0002", on(), 1, "1 of 3, 0 1, not met"
    yield "goal 0002: the second instance stands in state 0 too", HARBOUR, "goal:0002", on(), 2, "2 of 3, 0 2, not met"
    yield "goal 0002: the second instance moves on", HARBOUR, "goal:0002", on(), 3, "3 of 3, 0 2, met"
    yield "goal 00: no steps", HARBOUR, "goal:00", on(), 0, "0 of 1, 0 0, not met"
    yield "goal 00: one step, put off", HARBOUR, "goal:00", on("-", 1), 1, "0 of 1, 0 0, not met"
    yield "goal 20: a supplier is not wanted", HARBOUR, "goal:20", on(), None, "1 of 1, 0 1, met"


SELF = written(1, "- - 1, 0 0 -", "- - 1, - 0 -")


def refused_goals():
    for layers in PILES:
        for label, data, goal, number in [
            ("no goal", HARBOUR, "", "11"), ("17 lines", HARBOUR, "24" * 17, "11"), ("17 lines that are none", HARBOUR, "25" * 17, "11"),
            ("the zero bit", HARBOUR, "25", "12"), ("no such state", HARBOUR, "26", "12"), ("no such type", HARBOUR, "34", "12"),
            ("the last of 16 lines is none", HARBOUR, "24" * 15 + "26", "12"),
            ("a state that needs itself", ALONE, "02", "14"), ("a type that needs itself", SELF, "02", "14"),
            ("a type that needs one that needs itself", SELF, "12", "14"), ("a line that is none behind one out of reach", ALONE, "0204", "12"),
        ]:
            yield f"a goal refused before {NAMES[layers]}: {label}", data, f"goal:{goal}", on(layers, 2), None, number
    yield "a goal refused, whatever room and steps", ALONE, "goal:02", on("v", 8, 0, 0), 0, "14"
    yield "a goal refused, and many steps", HARBOUR, "goal:25", on(), 1048576, "12"


def refused_universes():
    named = dict(UNIVERSES)
    for label, number in [
        ("harbour cut to 67 bytes", "1"), ("harbour grown to 69 bytes", "1"), ("header cut to one byte", "1"),
        ("header 88 40: 17 types", "2"), ("header 1C 20: 33 ports", "2"), ("nine states", "2"), ("header 18 41: a zero bit", "3"),
        ("state count with a zero bit", "3"), ("provided port not below the count", "4"), ("a state is its own successor", "5"),
        ("state 0 requires a port", "6"),
    ]:
        for request in ("goal:24", f"script:{SCRIPT}"):
            yield f"a universe refused, with a {request.partition(':')[0]}: {label}", named[label], request, on(), None, number
    for request, what in [("goal:", "no goal"), ("goal:25", "a bad goal"), ("script:", "no lines"), ("script:#00000000", "a bad line"),
                          (f"script:{LONG} + c 0 0", "too many lines")]:
        yield f"a universe refused before {what}", changed([(7, 0x80)]), request, on("v", 1, 0, 0), 0, "6"


# (label, universe, orders, options, steps, answer)
UP = "c 0 0/s 0 1/c 1 1/b 0 0 1/s 1 1"
TWO_SERVE = f"{UP}/c 2 0/s 2 1/b 0 2 1"
SCRIPTS = [
    ("no lines", HARBOUR, "", on(), None, "41"),
    ("no lines, and no room and no steps", HARBOUR, "", on("vv", 8, 0, 0), 0, "41"),
    ("32769 lines", HARBOUR, f"{LONG} + c 0 0", on(), 3, "41"),
    ("32768 lines, and no step", HARBOUR, LONG, on(), 0, "0 of 32768, 0 0"),
    ("32768 lines, and 7 steps", HARBOUR, LONG, on(), 7, "7 of 32768, 0 1"),
    ("32768 lines, and 30 steps, delay 2", HARBOUR, LONG, on("v", 2), 30, "10 of 32768, 0 0"),
    ("32768 lines, and no room", HARBOUR, LONG, on(instances=0), 5, "0 of 32768, 0 0"),
    ("one line", HARBOUR, "c 0 0", on(), None, "1 of 1, 0 1"),
    ("one line, and instance 255", HARBOUR, "c 255 2", on("vv", 8), None, "1 of 1, 0 1"),
    ("one line, and steps behind it", HARBOUR, "c 0 0", on("-", 8), 12, "1 of 1, 0 1"),
    ("a step is busy after the last line too early", HARBOUR, "c 0 0/d 0", on("-", 2), 5, "1 of 2, 0 1"),
    ("a lock that does not serve yet", HARBOUR, "c 0 0/c 1 1/b 0 0 1/s 1 1", on(), None, "45@3"),
    ("a lock that does not serve yet, on a verifying cloud", HARBOUR, "c 0 0/c 1 1/b 0 0 1/s 1 1", on("v"), None, "45@3"),
    ("two lines exchanged", HARBOUR, "/".join(PLAN[:9] + [PLAN[10], PLAN[9]]), on(), None, "45@9"),
    ("two lines exchanged, on a pile of two", HARBOUR, "/".join(PLAN[:9] + [PLAN[10], PLAN[9]]), on("vv", 2), None, "45@9"),
    ("two lines exchanged, and steps up to them", HARBOUR, "/".join(PLAN[:9] + [PLAN[10], PLAN[9]]), on(), 9, "45@9"),
    ("a refused check, whatever room and steps", HARBOUR, "c 0 0/c 0 0", on("v", 8, 0, 0), 0, "23@1"),
    # Leases go up and down.
    ("all is taken down", HARBOUR, f"{SCRIPT}/d 2/d 1/d 0", on(), None, "14 of 14, 0 0"),
    ("all is taken down, delay 2", HARBOUR, f"{SCRIPT}/d 2/d 1/d 0", on("v", 2), None, "14 of 14, 0 0"),
    *[(f"all is taken down: {steps} steps", HARBOUR, f"{SCRIPT}/d 2/d 1/d 0", on("vv"), steps, end)
      for steps, end in [(11, "11 of 14, 2 3"), (12, "12 of 14, 1 2"), (13, "13 of 14, 0 1"), (14, "14 of 14, 0 0"), (15, "14 of 14, 0 0")]],
    ("a binding is made and ended twice", HARBOUR, f"{BOUND}/u 0 0 1/b 0 0 1/u 0 0 1", on(bindings=1), None, "6 of 6, 0 2"),
    ("a delete ends two bindings", HARBOUR, f"{BOUND}/c 2 0/b 0 2 1/d 1", on(), None, "6 of 6, 0 2"),
    ("a delete ends two bindings: the step before", HARBOUR, f"{BOUND}/c 2 0/b 0 2 1/d 1", on(), 5, "5 of 6, 2 3"),
    ("a delete ends one of two bindings", HARBOUR, f"{BOUND}/c 2 1/b 0 0 2/d 2", on(), None, "6 of 6, 1 2"),
    ("a delete ends no binding", HARBOUR, f"{BOUND}/c 2 2/d 2", on(), None, "5 of 5, 1 2"),
    ("a delete ends bindings on two ports", HARBOUR, f"{SCRIPT}/b 0 0 2/d 2", on(), None, "13 of 13, 1 2"),
    ("an unbind and a delete end a binding each", HARBOUR, f"{SCRIPT}/b 0 0 2/u 0 0 2/d 2/d 1", on(), None, "15 of 15, 0 1"),
    ("a create after a delete of the same number", HARBOUR, "c 0 0/d 0/c 0 1/d 0/c 0 2", on(instances=1), None, "5 of 5, 0 1"),
    ("a create after a delete of the same number, which was bound", HARBOUR, f"{BOUND}/d 1/c 1 1", on(), None, "5 of 5, 0 2"),
    ("the same, and it is bound again", HARBOUR, f"{BOUND}/d 1/c 1 1/b 0 0 1/s 0 1/s 1 1", on("v", 1, 2, 1), None, "8 of 8, 1 2"),
    ("the number of a requirer is one of a provider later", HARBOUR, f"{BOUND}/d 1/c 1 0/s 1 1/d 0/c 0 1/b 0 1 0/s 0 1", on("v"), None,
        "10 of 10, 1 2"),
    ("all bindings end", STEPS, f"{UP}/s 1 0/u 0 0 1/s 0 0", on("vv", 1), None, "8 of 8, 0 2"),
    ("a binding is handed over", STEPS, f"{TWO_SERVE}/u 0 0 1/s 0 0/d 0", on("v"), None, "11 of 11, 1 2"),
    ("a binding is handed over, and bindings 1", STEPS, f"{TWO_SERVE}/u 0 0 1/s 0 0/d 0", on("v", bindings=1), None, "7 of 11, 1 3"),
    ("a binding is handed over, and instances 2", STEPS, f"{TWO_SERVE}/u 0 0 1/s 0 0/d 0", on("v", instances=2), None, "5 of 11, 1 2"),
    ("two that serve each other", RING, "c 0 0/c 1 0/b 0 0 1/b 0 1 0/s 0 1/s 1 1", on("vv", 2), None, "6 of 6, 2 2"),
    ("two that serve each other are taken down", RING, "c 0 0/c 1 0/b 0 0 1/b 0 1 0/s 0 1/s 1 1/s 0 0/u 0 1 0/d 0", on("v"), None,
        "29@8"),
    ("two that serve each other are taken down in order", RING, "c 0 0/c 1 0/b 0 0 1/b 0 1 0/s 0 1/s 1 1/s 0 0/u 0 1 0/d 1/d 0", on("v"),
        None, "10 of 10, 0 0"),
    ("one of a type serves another", TURN, "c 0 0/c 1 0/b 0 0 1/s 1 1", on("v", 1), None, "4 of 4, 1 2"),
    ("32 ports are bound", PORTS, joined("c 0 0/s 0 1/c 1 1", *[f"b {p} 0 1" for p in range(32)], "s 1 1"), on("vv"), None, "36 of 36, 32 2"),
    ("32 ports are bound, and a delete ends all", PORTS, joined("c 0 0/s 0 1/c 1 1", *[f"b {p} 0 1" for p in range(32)], "s 1 1/d 1"),
        on("vv"), None, "37 of 37, 0 1"),
    ("32 ports, and bindings 31", PORTS, joined("c 0 0/s 0 1/c 1 1", *[f"b {p} 0 1" for p in range(32)], "s 1 1"),
        on("v", bindings=31), None, "34 of 36, 31 2"),
    # Limits, and deletes and unbinds that make room.
    ("instances 1, and deletes in between", HARBOUR, "c 0 0/d 0/c 1 1/d 1/c 2 2/d 2/c 0 2", on(instances=1), None, "7 of 7, 0 1"),
    ("instances 1, and a delete too late", HARBOUR, "c 0 0/d 0/c 1 1/c 2 2/d 1/d 2", on("-", 1, 1), None, "3 of 6, 0 1"),
    ("instances 0, and deletes in between", HARBOUR, "c 0 0/d 0/c 1 1/d 1", on(instances=0), None, "0 of 4, 0 0"),
    ("instances 2, and a delete makes room", HARBOUR, f"{BOUND}/d 1/c 2 1/b 0 0 2/c 3 1", on(instances=2), None, "6 of 7, 1 2"),
    ("bindings 1, and an unbind makes room", HARBOUR, f"{BOUND}/c 2 1/u 0 0 1/b 0 0 2/b 0 0 1", on(bindings=1), None, "6 of 7, 1 3"),
    ("bindings 1, and a delete makes room", HARBOUR, f"{BOUND}/c 2 1/d 1/b 0 0 2/c 1 1/b 0 0 1", on("v", bindings=1), None, "7 of 8, 1 3"),
    ("bindings 2, and a delete makes room for two", HARBOUR, f"{BOUND}/c 2 0/b 0 2 1/d 1/c 1 1/b 0 0 1/b 0 2 1", on(bindings=2), None,
        "9 of 9, 2 3"),
    ("bindings 1, and a delete of none makes no room", HARBOUR, f"{BOUND}/c 2 1/c 3 2/d 3/b 0 0 2", on(bindings=1), None, "6 of 7, 1 3"),
    ("bindings 0, and no bind", HARBOUR, "c 0 0/s 0 1/c 1 1/d 1", on("vv", bindings=0), None, "4 of 4, 0 1"),
    ("256 instances", HARBOUR, "/".join(ALL), on(), None, "256 of 256, 0 256"),
    ("256 instances, and instances 255", HARBOUR, "/".join(ALL), on("v", instances=255), 259, "255 of 256, 0 255"),
    ("256 instances, and one is deleted and created", HARBOUR, "/".join(ALL + ["d 7/c 7 0"]), on(), None, "258 of 258, 0 256"),
    ("256 instances, and instances 255 with a delete in between", HARBOUR, "/".join(ALL[:255] + ["d 7/c 255 0"]), on(instances=255), None,
        "257 of 257, 0 255"),
    ("2048 bindings", ALONE, crowd(46, 2048), on("vv"), None, "2094 of 2094, 2048 46"),
    ("2048 bindings, and bindings 2047", ALONE, crowd(46, 2048), on(bindings=2047), 2097, "2093 of 2094, 2047 46"),
    ("2048 bindings, and a step too few", ALONE, crowd(46, 2048), on(bindings=LARGEST), 2093, "2093 of 2094, 2047 46"),
]


def script_rows():
    for label, data, text, options, steps, answer in SCRIPTS:
        yield f"script: {label}", data, f"script:{text}", options, steps, answer


def largest_numbers():
    """Limits and delays that are too large count as the largest."""
    for name, options in [
        ("delay 9", on("-", 9)), (f"delay {LARGEST}", on("v", LARGEST)), ("delay 256", on("vv", 256)),
        (f"instances and bindings {LARGEST}, delay 8", on("-", 8, LARGEST, LARGEST)),
        ("instances 257 and bindings 2049, delay 10", on("v", 10, 257, 2049)),
        (f"instances, bindings and delay {LARGEST}", on("vv", LARGEST, LARGEST, LARGEST)),
    ]:
        yield f"the harbour, {name}", HARBOUR, "goal:24", options, None, harbour_end(11)
        yield f"the harbour, {name}, 50 steps", HARBOUR, "goal:24", options, 50, harbour_end(5)
        yield f"the harbour, {name}, 99 steps", HARBOUR, "goal:24", options, 99, harbour_end(11)
    yield f"no room, delay {LARGEST}", HARBOUR, "goal:24", on("-", LARGEST, 0, LARGEST), None, harbour_end(0)
    yield f"no bindings, delay {LARGEST}", HARBOUR, "goal:24", on("-", LARGEST, LARGEST, 0), None, harbour_end(3)
    yield f"256 instances, instances {LARGEST}", HARBOUR, f"script:{'/'.join(ALL)}", on(instances=LARGEST), None, "256 of 256, 0 256"


def checked_rows():
    """Drafts of the table of the check, which are refused or run to their ends."""
    hosts = [on("-"), on("v", 1), on("vv"), on("-", 2), on("v"), on("vv", LARGEST)]
    drafts = HARBOUR_ROWS + LENGTHS + NO_LINES[::5] + ILLEGAL + GAPS + MOST[1:] + DELETES + PRECEDENCE
    for number, (label, data, text, answer) in enumerate(drafts):
        passed = answer.startswith("passes ")
        if passed and int(answer[7:]) > 40:
            continue
        end = "{0} of {0}".format(answer[7:]) if passed else answer
        yield f"checked: {label}", data, f"script:{text}", hosts[number % len(hosts)] if passed else hosts[number % 3], None, end


def planned_rows():
    """Goals of the table of the planner, and three of its largest scripts."""
    for number, (label, data, goal, room, answer) in enumerate(case for case in CASES if not case[0].startswith("random ")):
        if len(data) < 200 and room == MOST_PLANNED:
            end = answer[8:] if answer.startswith("refused ") else "{0} of {0}".format(answer.count("/") + 1)
            yield f"planned: {label}", data, f"goal:{goal.hex()}", on(PILES[number % 3], number % 4), None, end
    data, goal = longest()
    yield "planned: the longest script that was found", data, f"goal:{goal.hex()}", on("vv"), None, "6357 of 6357"
    yield "planned: the longest script that was found, 20 steps, delay 2", data, f"goal:{goal.hex()}", on("v", 2), 20, "6 of 6357"
    yield "planned: the longest script that was found, instances 10", data, f"goal:{goal.hex()}", on("v", 0, 10), 1000, None
    data, goal = burdened()
    yield "planned: the most bindings that were found", data, f"goal:{goal.hex()}", on("v"), None, "1239 of 1239"
    yield "planned: the most bindings that were found, bindings 100", data, f"goal:{goal.hex()}", on("-", 0, 256, 100), 200, None


def some_host(draw):
    """A host with much room or with little."""
    little = draw.chance(0.5)
    instances = draw.between(0, 7) if little and draw.chance(0.7) else draw.one([255, 256, 257, LARGEST])
    bindings = draw.between(0, 8) if little and draw.chance(0.7) else draw.one([2047, 2048, 2049, LARGEST])
    return on(draw.one(PILES), draw.one([0, 0, 0, 1, 1, 2, 3, 7, 8, 9, LARGEST]), instances, bindings)


def some_steps(draw, lines, options):
    """About as many as are needed, fewer or more, or the command's own number."""
    needed = lines * (longest_wait(options) + 1)
    return draw.one([None, None, None, draw.between(0, needed), draw.between(0, needed), needed + draw.between(-2, 3) if lines else 0])


def random_rows():
    draw = Draw(2029)
    for number in range(120):
        data = some_universe(draw)
        if draw.chance(0.15):
            lines = some_draft(draw, read_universe(data))
        else:
            steering = Steering(draw, read_universe(data), [*range(draw.between(2, 7)), 255])
            lines = [steering.line() for _ in range(draw.between(1, 25))]
        options = some_host(draw)
        yield f"random script {number}", data, f"script:{digits(lines)}", options, some_steps(draw, len(lines), options), None
    for number in range(120):
        ports, types = random_types(draw, SIZES[0])
        goal = random_goal(draw, (ports, types), draw.one(["late"] * 6 + ["listed"] * 3 + ["any", "byte", "length"]))
        options = some_host(draw)
        lines = len(plan((ports, types), goal, MOST_PLANNED)[1] or [])
        yield f"random goal {number}", packed(ports, types), f"goal:{goal.hex()}", options, some_steps(draw, lines, options), None


RUNS = [
    *harbour_rows(), *harbour_limits(), *harbour_goals(), *refused_goals(), *refused_universes(), *script_rows(), *largest_numbers(),
    *checked_rows(), *planned_rows(), *random_rows()]

# What some of the cases print, worked out by hand.
IN_FULL = {
    "the harbour on a cloud, delay 0": [f"{place} {order}: done" for place, order in enumerate(PLAN)]
        + ["place 11 of 11, leases 2, instances 3, bindings 2, gap-free yes, goal met"],
    "the harbour on a cloud, instances 2, 7 steps": [
        "0 c 0 0: done", "1 s 0 1: done", "2 c 1 1: done", "3 b 0 0 1: done", "4 s 1 1: done", "5 c 2 2: refused 31 by 0",
        "5 c 2 2: refused 31 by 0", "place 5 of 11, leases 1, instances 2, bindings 1, gap-free yes, goal not met"],
    "the harbour on a verifying cloud, delay 2, 7 steps": [
        "0 c 0 0: refused 21 by 0", "0 c 0 0: refused 21 by 0", "0 c 0 0: done", "1 s 0 1: refused 21 by 0", "1 s 0 1: refused 21 by 0",
        "1 s 0 1: done", "2 c 1 1: refused 21 by 0", "place 2 of 11, leases 0, instances 1, bindings 0, gap-free yes, goal not met"],
    "script: one line, and steps behind it": ["0 c 0 0: refused 21 by 0"] * 8 + ["0 c 0 0: done"] + ["1: refused 52"] * 3
        + ["place 1 of 1, leases 0, instances 1, bindings 0, gap-free yes"],
}
END = re.compile(r"place (\d+) of (\d+), leases (\d+), instances (\d+), bindings (\d+), gap-free (yes|no)(?:, goal (met|not met))?")
STEP = re.compile(r"(\d+)(?: ([cbsud](?: \d+)+))?: (?:done|refused (\d+)(?: by (\d+))?)")


def request_of(notation):
    kind, _, word = notation.partition(":")
    return kind, bytes.fromhex(word) if kind == "goal" else lines_of(word)


def noted_request(request):
    kind, _, text = request.partition(":")
    return request if kind == "goal" else f"script:{noted(text)}"


def agree(label, text, answer):
    """The last line has to be the answer that was worked out by hand, as far as it was."""
    if answer is None:
        return
    if " of " not in answer:
        assert text == [answer_of(answer)], f"{label}: {text[-1]}, by hand {answer}"
        return
    place, *rest = answer.split(", ")
    wanted = f"place {place}, "
    if rest:
        leases, instances = rest[0].split(" ")
        wanted += f"leases {leases}, instances {instances}, bindings {leases}, gap-free yes"
        wanted += f", goal {rest[1]}" if rest[1:] else ""
        assert text[-1] == wanted, f"{label}: {text[-1]}, by hand {wanted}"
    assert text[-1].startswith(wanted), f"{label}: {text[-1]}, by hand {wanted}"


def lawful(label, request, options, steps, text):
    """What holds of every run that was started: it is gap-free, its leases are what stands, its refusals are 21, 31 and 52, only
    done orders move its place, and where the host has room for the script the command's own number of steps ends it."""
    end = END.fullmatch(text[-1])
    place, lines, leases, _, bindings = map(int, end.groups()[:5])
    assert leases == bindings and end[6] == "yes" and (end[7] is not None) == (request[0] == "goal"), label
    at, orders = 0, {}
    for line in text[:-1]:
        step = STEP.fullmatch(line)
        assert int(step[1]) == at and (step[3], step[4]) in [(None, None), ("21", "0"), ("31", "0"), ("52", None)], f"{label}: {line}"
        assert (step[2] is None) == (at == lines) == (step[3] == "52"), f"{label}: {line}"
        assert orders.setdefault(at, step[2]) == step[2], f"{label}: {line}"
        at += step[3] is None
    assert at == place, label
    if request[0] == "goal" and place == lines:
        assert end[7] == "met", label
    room = [min(int(word), most) for word, most in zip(options.split(" "), (256, 2048))]
    if steps is None and place < lines:
        done = [order[0] for at, order in orders.items() if at <= place]
        assert done.count("c") > room[0] or done.count("b") > room[1], f"{label}: stopped at {place}"


def runs_table():
    """The rows of the data file, and what is printed of them."""
    labels = {case[0] for case in RUNS}
    assert len(labels) == len(RUNS) and labels.issuperset(IN_FULL) and not any(" = " in label for label in labels)
    table, out = "", "runs\n"
    for label, data, request, options, steps, answer in RUNS:
        notation = noted_request(request)
        status, text = run_text(data, request_of(notation), options, steps)
        agree(label, text, answer)
        assert IN_FULL.get(label, text) == text, label
        if status == 0:
            lawful(label, request_of(notation), options, steps, text)
        table += f"{label} = {data.hex()} {notation} {options} {'-' if steps is None else steps}\n"
        out += f"{label}:\n" + "".join(f"{line}\n" for line in text)
    return table, out
