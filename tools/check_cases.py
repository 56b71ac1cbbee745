"""The worked cases of the check: drafts for it alone, and hosts that a draft is checked against.

Orders are written as in plan_cases.py, with slashes between them; a line that is no order as # and its eight digits. Segments
have ` + ` between them, and ` * N` behind one that stands N times in a row. An answer that was worked out by hand is `passes N`,
`N` for a refusal without a place, `N@PLACE` for 43, 45 and 46, and for 44 likewise the rule's number, from 22 to 29; it is None
where it was not worked out.
"""
from checking import SMALL, check_file
from plan_cases import BRANCHES, CASES, Draw, packed, written
from planning import plan
from reference import ALONE, FIELDS, HARBOUR, LEAST, PLAN, UNIVERSES, Cloud
from reference import decode, encode, gap_free, offence, outcome, read_universe


def line_of(word):
    return int(word[1:], 16) if word.startswith("#") else encode(word)


def noted(text):
    """The notation of the data files for what is written as above."""
    segments = []
    for segment in text.split(" + ") if text else []:
        words, _, count = segment.partition(" * ")
        digits = "".join(f"{line_of(word):08x}" for word in words.split("/"))
        segments.append(f"{digits}*{count}" if count else digits)
    return "+".join(segments) or "-"


def lines_of(notation):
    """The lines of what stands in a data file."""
    lines = []
    for segment in notation.split("+") if notation != "-" else []:
        digits, _, count = segment.partition("*")
        lines += [int(digits[at:at + 8], 16) for at in range(0, len(digits), 8)] * int(count or 1)
    return lines


def answer_of(short):
    number, _, place = short.partition("@")
    if number.startswith("passes "):
        return f"passes, {number[7:]} lines"
    if not place:
        return f"refused {number}"
    return f"refused 44 at {place}: {number}" if int(number) < 30 else f"refused {number} at {place}"


def digits(lines):
    return "/".join(f"#{line:08x}" for line in lines)


def rows(universe, *cases):
    return [(label, universe, text, by_hand) for label, text, by_hand in cases]


def joined(*texts):
    return "/".join(text for text in texts if text)


EVERY = "+".join(map(str, range(32)))
# Type 0 serves in state 1 and can stop; type 1 requires in state 1 and can stop.
STEPS = written(1, "- - 1, 0 - 0", "- - 1, - 0 0")
# Type 0 serves both ports in state 1 and only port 0 in state 2; type 1 requires port 0 in state 1, 1 in state 2, and both in 3.
TWO = written(2, "- - 1+2, 0+1 - 0+2, 0 - 0+1", "- - 1+2+3, - 0 0+2+3, - 1 0+1+3, - 0+1 0+1+2")
# One type: both states serve, and state 1 requires.
RING = written(1, "0 - 1, 0 0 0")
# One type: state 0 serves, and state 1 requires.
TURN = written(1, "0 - 1, - 0 0")
# Type 0 serves all ports in state 1, type 1 requires them all in state 1.
PORTS = written(32, f"- - 1, {EVERY} - -", f"- - 1, - {EVERY} 0")
SIXTEEN = written(32, *["- - -"] * 14, "31 - -", "- - 1, - 31 0")

SCRIPT = "/".join(PLAN)
EARLY = "c 0 0/c 1 1/b 0 0 1/s 1 1"
BUILT = "/".join(PLAN[:9])
LONG = "c 0 0/d 0 * 16384"
ALL = [f"c {z} {z % 3}" for z in range(256)]

HARBOUR_ROWS = rows(
    HARBOUR,
    ("the harbour script", SCRIPT, "passes 11"),
    *[(f"the harbour script up to place {n}", "/".join(PLAN[:n]), f"passes {n}") for n in range(1, 11)],
    ("a lock that does not serve yet", EARLY, "45@3"),
    ("a lock that does not serve yet, and serves then", f"{EARLY}/s 0 1", "45@3"),
    ("the accident", f"{BUILT}/u 0 0 2/s 2 2", "45@9"),
    ("the accident, and nothing after it", f"{BUILT}/u 0 0 2", "45@9"),
    ("the accident, and the binding is made again", f"{BUILT}/u 0 0 2/b 0 0 2/s 2 2", "45@9"),
    ("the dispatcher's roster binding given up", f"{SCRIPT}/u 1 1 2", "45@11"),
    ("the roster's lock binding given up", f"{SCRIPT}/u 0 0 1", "45@11"),
    ("all is taken down", f"{SCRIPT}/d 2/d 1/d 0", "passes 14"),
    ("all is taken down, the roster too early", f"{SCRIPT}/d 1/d 2/d 0", "29@11"),
)

LENGTHS = rows(
    HARBOUR,
    ("no lines", "", "41"),
    ("1 line", "c 0 0", "passes 1"),
    ("2 lines", "c 0 0/d 0", "passes 2"),
    ("32767 lines", "c 0 0/d 0 * 16383 + c 0 0", "passes 32767"),
    ("32768 lines", LONG, "passes 32768"),
    ("32769 lines", f"{LONG} + c 0 0", "41"),
    ("65536 lines", "c 0 0/d 0 * 32768", "41"),
    ("65537 lines", "c 0 0/d 0 * 32768 + c 0 0", "41"),
    ("32769 lines, and the first is none", f"#00000000 + {LONG}", "41"),
    ("32769 lines that are none", "#00000000 * 32769", "41"),
    ("32769 lines, and the first is illegal", f"d 0 + {LONG}", "41"),
    ("32769 lines, and a gap at the second", "c 1 1/s 1 1 * 16384 + c 0 0", "41"),
    ("32769 lines, and the last is none", f"{LONG} + #ffffffff", "41"),
    ("32768 lines that are none", "#00000000 * 32768", "43@0"),
    ("32768 lines, and the last is none", "c 0 0/d 0 * 16383 + c 0 0/#00000000", "43@32767"),
    ("32768 lines, and the last is illegal", "c 0 0/d 0 * 16383 + c 0 0/c 0 0", "23@32767"),
    ("32768 lines, and a gap at the last", "c 0 0/d 0 * 16383 + c 1 1/s 1 1", "45@32767"),
    ("32768 lines, and a change of nothing at place 20001", "c 0 0/d 0 * 10000 + c 0 0 + s 1 1 * 12767", "24@20001"),
)

# For each operation: orders, and an order that is legal behind them.
BEHIND = [("create", "c 0 0", "c 1 1"), ("bind", "/".join(PLAN[:3]), "b 0 0 1"), ("change", "c 0 0", "s 0 1"),
          ("unbind", SCRIPT[:-len("/u 0 0 2")], "u 0 0 2"), ("delete", "c 0 0", "d 0")]
UNUSED = dict(create="second port state", bind="kind state", change="second port kind", unbind="kind state",
              delete="second port kind state")


def no_lines():
    """(label, orders that are legal, two lines that are none). The first is for the first place, where the universe does not matter,
    the second for behind the orders. Each unused field of each operation is not zero: its lowest bit, then its highest."""
    for n in (0, 6, 7):
        for name, rest in (("no other bit", 0), ("all other bits", 2 ** 29 - 1)):
            yield f"operation {n} and {name}", "c 0 0/s 0 1", [n << 29 | rest] * 2
    for word, before, order in BEHIND:
        for field in UNUSED[word].split():
            low, width = FIELDS[field]
            name = f"{word} with the {'type' if field == 'kind' else field} set"
            yield name, before, [encode(order) | 1 << bit for bit in (low, low + width - 1)]
        yield f"{word} with the spare bit set", before, [encode(order) | 1] * 2


NO_LINES = rows(
    LEAST,
    *[(f"{label}, first", digits(lines[:1]), "43@0") for label, _, lines in no_lines()],
) + rows(
    HARBOUR,
    *[(f"{label}, later", joined(before, digits(lines[1:])), f"43@{before.count('/') + 1}") for label, before, lines in no_lines()],
    ("operation 0 with the fields of a create", f"c 0 0/#{encode('c 1 1') & 2 ** 29 - 1:08x}", "43@1"),
    ("a bad line, and worse ones behind it", f"c 0 0/#{encode('c 1 1') | 1:08x}/#00000000/c 0 0/#ffffffff", "43@1"),
    ("a bad line in the middle of the harbour script", joined("/".join(PLAN[:5]), "#c0000000", "/".join(PLAN[5:])), "43@5"),
    ("a bad line behind the harbour script", f"{SCRIPT}/#e0000000", "43@11"),
    ("all lines are bad", "#00000000/#e0000000/#c0000000", "43@0"),
)

BOUND = "c 0 0/c 1 1/b 0 0 1"
ILLEGAL = rows(
    HARBOUR,
    # 22
    ("22: create of the type that would be next", "c 0 3", "22@0"),
    ("22: create of type 15", "c 0 15", "22@0"),
    ("22: create of type 15 later", "c 0 0/c 1 1/c 255 15", "22@2"),
    ("22: bind on the port that would be next", "c 0 0/c 1 1/b 2 0 1", "22@2"),
    ("22: bind on port 31", "c 0 0/c 1 1/b 31 0 1", "22@2"),
    ("22: unbind on the port that would be next", f"{BOUND}/u 2 0 1", "22@3"),
    ("22: unbind on port 31", f"{BOUND}/u 31 0 1", "22@3"),
    ("22 before 23: create of a standing number", "c 0 0/c 0 3", "22@1"),
    ("22 before 24: bind, where nothing stands", "b 2 5 6", "22@0"),
    ("22 before 24: unbind, where nothing stands", "u 31 5 6", "22@0"),
    ("22 before 25: bind of an instance to itself", "c 0 0/b 2 0 0", "22@1"),
    # 23
    ("23: create of a standing number", "c 0 0/c 0 0", "23@1"),
    ("23: create of a standing number with another type", "c 0 0/c 1 1/c 0 2", "23@2"),
    ("23: create of a standing number that has moved on", "c 0 0/s 0 1/c 0 0", "23@2"),
    ("23: create of 255 twice", "c 255 1/c 255 1", "23@1"),
    ("23: create of a number that stood and stands again", "c 0 0/d 0/c 0 1/c 0 0", "23@3"),
    # 24
    ("24: change of nothing", "s 0 1", "24@0"),
    ("24: change of nothing later", "c 0 0/s 1 1", "24@1"),
    ("24: change of nothing to state 2, of which the other types have none", "c 0 0/s 5 2", "24@1"),
    ("24: change of nothing to the state that would be next", "c 0 0/s 5 3", "24@1"),
    ("24: change of nothing to state 7", "s 255 7", "24@0"),
    ("24: change of what was deleted", "c 0 0/d 0/s 0 1", "24@2"),
    ("24: bind from nothing", "c 1 1/b 0 0 1", "24@1"),
    ("24: bind to nothing", "c 0 0/b 0 0 1", "24@1"),
    ("24: bind from nothing to nothing", "c 0 0/b 0 5 6", "24@1"),
    ("24 before 25: bind of nothing to itself", "c 0 0/b 0 5 5", "24@1"),
    ("24 before 25: bind to nothing on a port that is never provided", "c 0 0/b 1 0 5", "24@1"),
    ("24 before 25: bind from nothing on a port that is never required", "c 0 0/b 0 5 0", "24@1"),
    ("24: bind from what was deleted", "c 0 0/c 1 1/d 0/b 0 0 1", "24@3"),
    ("24: unbind from nothing", f"{BOUND}/u 0 5 1", "24@3"),
    ("24: unbind to nothing", f"{BOUND}/u 0 0 5", "24@3"),
    ("24: unbind from nothing to nothing", "u 0 5 6", "24@0"),
    ("24: unbind of nothing from itself", f"{BOUND}/u 0 5 5", "24@3"),
    ("24: delete of nothing", "d 0", "24@0"),
    ("24: delete of nothing later", f"{SCRIPT}/d 255", "24@11"),
    ("24: delete of what was deleted", "c 0 0/d 0/d 0", "24@2"),
    # 25
    ("25: bind of an instance to itself", "c 1 1/b 0 1 1", "25@1"),
    ("25: bind on a port that the provider's type never provides", "c 0 0/c 2 2/b 1 0 2", "25@2"),
    ("25: bind from a type that provides nothing", "c 2 2/c 1 1/b 0 2 1", "25@2"),
    ("25: bind on a port that the requirer's type never requires", "c 1 1/c 2 1/b 1 1 2", "25@2"),
    ("25: bind to a type that requires nothing", "c 0 0/c 3 0/b 0 0 3", "25@2"),
    ("25: bind on a port that neither type has", "c 0 0/c 3 0/b 1 0 3", "25@2"),
    ("25: provider and requirer exchanged", "c 0 0/c 1 1/b 0 1 0", "25@2"),
    ("25: bind of the dispatcher to itself behind the harbour script", f"{SCRIPT}/b 1 2 2", "25@11"),
    ("no 25: bind before the provider provides and the requirer requires", BOUND, "passes 3"),
    # 26
    ("26: bind twice", f"{BOUND}/b 0 0 1", "26@3"),
    ("26: bind twice, and changes between", f"{BOUND}/s 0 1/s 1 1/b 0 0 1", "26@5"),
    ("26: the first binding of three again", "c 0 0/c 1 1/b 0 0 1/c 2 1/b 0 0 2/c 3 2/b 0 0 3/b 0 0 1", "26@7"),
    ("26: bind, unbind, bind and bind", f"{BOUND}/u 0 0 1/b 0 0 1/b 0 0 1", "26@5"),
    ("no 26: bind, unbind and bind", f"{BOUND}/u 0 0 1/b 0 0 1", "passes 5"),
    ("no 26: bind from another provider", f"{BOUND}/c 2 0/b 0 2 1", "passes 5"),
    # 27
    ("27: unbind of what was never bound", "c 0 0/c 1 1/u 0 0 1", "27@2"),
    ("27: unbind on another port", f"{BOUND}/u 1 0 1", "27@3"),
    ("27: unbind with provider and requirer exchanged", f"{BOUND}/u 0 1 0", "27@3"),
    ("27: unbind from another provider", f"{BOUND}/c 2 0/u 0 2 1", "27@4"),
    ("27: unbind of another requirer", f"{BOUND}/c 2 1/u 0 0 2", "27@4"),
    ("27: unbind twice", f"{BOUND}/u 0 0 1/u 0 0 1", "27@4"),
    ("27: unbind of an instance from itself", f"{BOUND}/u 0 1 1", "27@3"),
    # 28
    ("28: change to the instance's own state", "c 0 0/s 0 0", "28@1"),
    ("28: change to the instance's own state later", "c 0 0/s 0 1/s 0 1", "28@2"),
    ("28: change to a state that comes too early", "c 2 2/s 2 2", "28@1"),
    ("28: change back to state 0", "c 0 0/s 0 1/s 0 0", "28@2"),
    ("28: change to a state that another type has", "c 0 0/s 0 2", "28@1"),
    *[(f"28: change to state {q} of what stands", f"c 2 2/c 0 0/s 2 {q}", "28@2") for q in (3, 4, 5, 6, 7)],
    ("28: change of the dispatcher back behind the harbour script", f"{SCRIPT}/s 2 1", "28@11"),
    # 29
    ("29: delete of a provider", f"{BOUND}/d 0", "29@3"),
    ("29: delete of a provider that serves", f"{BOUND}/s 0 1/s 1 1/d 0", "29@5"),
    ("29: delete of the lock behind the harbour script", f"{SCRIPT}/d 0", "29@11"),
    ("29: delete of a provider that is a requirer too", f"{SCRIPT}/d 1", "29@11"),
    ("29: delete of a provider that lost one of two requirers", f"{BOUND}/c 2 1/b 0 0 2/d 1/d 0", "29@6"),
    ("29: delete of a provider that lost one of two bindings", f"{BOUND}/c 2 1/b 0 0 2/u 0 0 1/d 0", "29@6"),
    ("no 29: delete of a provider behind its last unbind", f"{BOUND}/u 0 0 1/d 0", "passes 5"),
    ("no 29: delete of a provider behind its last requirer", f"{BOUND}/d 1/d 0", "passes 5"),
    ("no 29: delete of a requirer", f"{BOUND}/d 1", "passes 4"),
) + rows(
    LEAST,
    ("the least universe", "c 0 0/c 255 0", "passes 2"),
    ("the least universe: type 1", "c 0 0/c 1 1", "22@1"),
    ("the least universe: bind on port 0", "c 0 0/c 1 0/b 0 0 1", "22@2"),
    ("the least universe: unbind on port 0", "u 0 0 1", "22@0"),
    ("the least universe: state 1", "c 0 0/s 0 1", "28@1"),
    ("the least universe: state 0", "c 0 0/s 0 0", "28@1"),
) + rows(
    SIXTEEN,
    ("16 types: the last type and the last port", "c 255 15/c 254 14/b 31 254 255/s 255 1", "passes 4"),
    ("16 types: the last type and the last port, and a gap", "c 255 15/c 254 14/b 31 254 255/s 255 1/u 31 254 255", "45@4"),
    ("16 types: the port before the last", "c 255 15/c 254 14/b 30 254 255", "25@2"),
    ("16 types: each type", "/".join(f"c {t} {t}" for t in range(16)), "passes 16"),
) + rows(
    ALONE,
    ("25: bind to itself of an instance whose type provides and requires", "c 0 0/b 0 0 0", "25@1"),
    ("25: the same where two are bound to each other", "c 0 0/c 1 0/b 0 0 1/b 0 1 0/b 0 1 1", "25@4"),
    ("27: unbind from itself of an instance whose type provides and requires", "c 0 0/u 0 0 0", "27@1"),
    ("29: two that are bound to each other", "c 0 0/c 1 0/b 0 0 1/b 0 1 0/d 1", "29@4"),
) + rows(
    BRANCHES,
    ("28: from one branch to the other", "c 0 0/s 0 1/s 0 2", "28@2"),
    ("two branches", "c 0 0/c 1 0/s 0 1/s 1 2", "passes 4"),
)

SERVED = "c 0 0/s 0 1/c 1 1/b 0 0 1/s 1 1"
SHARED = f"{SERVED}/c 2 1/b 0 0 2/s 2 1/c 3 0/s 3 1"
TWICE = f"{SERVED}/c 2 0/s 2 1/b 0 2 1"
IDLE = "c 0 0/c 1 0/s 1 1/c 2 1/b 0 0 2/b 0 1 2/s 2 1"
PART = "c 0 0/s 0 1/c 1 1/b 0 0 1"
GAPS = rows(
    STEPS,
    ("a change: nothing is bound", "c 1 1/s 1 1", "45@1"),
    ("a change: another is served", f"{SERVED}/c 2 1/s 2 1", "45@6"),
    ("a change: the provider does not serve yet", "c 0 0/c 1 1/b 0 0 1/s 1 1", "45@3"),
    ("a change: the provider serves no longer", "c 0 0/s 0 1/c 1 1/b 0 0 1/s 0 0/s 1 1", "45@5"),
    ("a change: the provider stops", f"{SERVED}/s 0 0", "45@5"),
    ("a change: the provider stops, and starts again", f"{SERVED}/s 0 0/s 0 1", "45@5"),
    ("a change: the provider stops, and the requirer then", f"{SERVED}/s 0 0/s 1 0", "45@5"),
    ("a change: the provider stops, and the requirer is deleted", f"{SERVED}/s 0 0/d 1", "45@5"),
    ("a change: the provider stops, and another is bound then", f"{SERVED}/c 2 0/s 2 1/s 0 0/b 0 2 1", "45@7"),
    ("no gap: the requirer stops before the provider", f"{SERVED}/s 1 0/s 0 0", "passes 7"),
    ("no gap: the requirer stops and starts", f"{SERVED}/s 1 0/s 1 1", "passes 7"),
    ("a change: the requirer stops, the provider too, and the requirer starts", f"{SERVED}/s 1 0/s 0 0/s 1 1", "45@7"),
    ("no gap: the provider of a requirer that does not require stops", "c 0 0/s 0 1/c 1 1/b 0 0 1/s 0 0", "passes 5"),
    ("no gap: a provider with no binding stops", f"{SERVED}/c 2 0/s 2 1/s 2 0", "passes 8"),
    ("a change: one of two requirers is idle", f"{SERVED}/c 2 1/b 0 0 2/s 0 0", "45@7"),
    ("a change: the first of two requirers is idle", "c 0 0/s 0 1/c 1 1/b 0 0 1/c 2 1/b 0 0 2/s 2 1/s 0 0", "45@7"),
    ("a change: only one of two requirers loses cover", f"{SHARED}/b 0 3 2/s 0 0", "45@11"),
    ("a change: only the other of two requirers loses cover", f"{SHARED}/b 0 3 1/s 0 0", "45@11"),
    ("a change: two requirers lose cover", f"{SHARED}/s 0 0", "45@10"),
    ("no gap: both requirers are served by another", f"{SHARED}/b 0 3 1/b 0 3 2/s 0 0", "passes 13"),
    ("an unbind: the only binding", f"{SERVED}/u 0 0 1", "45@5"),
    ("an unbind: the only binding, which is made again", f"{SERVED}/u 0 0 1/b 0 0 1", "45@5"),
    ("an unbind: the only binding, and the requirer stops then", f"{SERVED}/u 0 0 1/s 1 0", "45@5"),
    ("an unbind: the only binding, and the requirer is deleted", f"{SERVED}/u 0 0 1/d 1", "45@5"),
    ("an unbind: one of two requirers", f"{SERVED}/c 2 1/b 0 0 2/s 2 1/u 0 0 1", "45@8"),
    ("no gap: the unbind of a requirer that does not require", f"{SERVED}/c 2 1/b 0 0 2/u 0 0 2", "passes 8"),
    ("no gap: the unbind of a requirer that has stopped", f"{SERVED}/s 1 0/u 0 0 1/d 0", "passes 8"),
    ("two providers: one is unbound", f"{TWICE}/u 0 0 1", "passes 9"),
    ("two providers: the other is unbound", f"{TWICE}/u 0 2 1", "passes 9"),
    ("two providers: one is unbound, then the other", f"{TWICE}/u 0 0 1/u 0 2 1", "45@9"),
    ("two providers: one is unbound, then the other, and one is bound", f"{TWICE}/u 0 0 1/u 0 2 1/b 0 0 1", "45@9"),
    ("two providers: one stops", f"{TWICE}/s 0 0", "passes 9"),
    ("two providers: one stops, then the other", f"{TWICE}/s 0 0/s 2 0", "45@9"),
    ("two providers: one stops, and the other is unbound", f"{TWICE}/s 0 0/u 0 2 1", "45@9"),
    ("two providers: one stops, and is unbound and deleted", f"{TWICE}/s 0 0/u 0 0 1/d 0", "passes 11"),
    ("two providers: one is unbound, and the other stops", f"{TWICE}/u 0 0 1/s 2 0", "45@9"),
    ("two providers: one is unbound and bound, then the other", f"{TWICE}/u 0 0 1/b 0 0 1/u 0 2 1/b 0 2 1", "passes 12"),
    ("an idle binding and one that serves", IDLE, "passes 7"),
    ("an idle binding and one that serves: the idle one is unbound", f"{IDLE}/u 0 0 2", "passes 8"),
    ("an idle binding and one that serves: the other is unbound", f"{IDLE}/u 0 1 2", "45@7"),
    ("an idle binding and one that serves: the other stops", f"{IDLE}/s 1 0", "45@7"),
    ("an idle binding comes to serve: the other is unbound", f"{IDLE}/s 0 1/u 0 1 2", "passes 9"),
    ("two idle bindings", "c 0 0/c 1 0/c 2 1/b 0 0 2/b 0 1 2/s 2 1", "45@5"),
    ("gaps come and go, and none is left at the end", "c 1 1/s 1 1/c 0 0/s 0 1/b 0 0 1", "45@1"),
    ("an instance of a higher number serves", "c 255 0/s 255 1/c 0 1/b 0 255 0/s 0 1/s 255 0", "45@5"),
) + rows(
    TWO,
    ("two ports: the one that is bound", f"{PART}/s 1 1", "passes 5"),
    ("two ports: the one that is not bound", f"{PART}/s 1 2", "45@4"),
    ("two ports: one of them is not bound", f"{PART}/s 1 3", "45@4"),
    ("two ports: both are bound", f"{PART}/b 1 0 1/s 1 3", "passes 6"),
    ("two ports: the provider gives one up, both are required", f"{PART}/b 1 0 1/s 1 3/s 0 2", "45@6"),
    ("two ports: the provider gives up the one that is required", f"{PART}/b 1 0 1/s 1 2/s 0 2", "45@6"),
    ("two ports: the provider gives up the other", f"{PART}/b 1 0 1/s 1 1/s 0 2", "passes 7"),
    ("two ports: the provider has given one up, and both are required", f"{PART}/b 1 0 1/s 1 1/s 0 2/s 1 3", "45@7"),
    ("two ports: the provider has given one up, which is required", f"{PART}/b 1 0 1/s 1 1/s 0 2/s 1 2", "45@7"),
    ("two ports: the provider gives both up", f"{PART}/b 1 0 1/s 1 1/s 0 0", "45@6"),
    ("two ports: one is unbound, the other required", f"{PART}/b 1 0 1/s 1 2/u 0 0 1", "passes 7"),
    ("two ports: the required one is unbound", f"{PART}/b 1 0 1/s 1 2/u 1 0 1", "45@6"),
    ("two ports: from one to the other and back", f"{PART}/b 1 0 1/s 1 1/s 1 2/s 1 3/s 1 1", "passes 9"),
    ("two ports: from one to the other, which is not bound", f"{PART}/s 1 1/s 1 2", "45@5"),
    ("two ports: two providers, one for each", f"{PART}/c 2 0/s 2 1/b 1 2 1/s 1 3/s 0 2", "passes 9"),
    ("two ports: two providers, the other gives its port up", f"{PART}/c 2 0/s 2 1/b 1 2 1/s 1 3/s 2 2", "45@8"),
) + rows(
    RING,
    ("a state that provides what it requires", "c 0 0/s 0 1", "45@1"),
    ("two that serve each other", "c 0 0/c 1 0/b 0 0 1/b 0 1 0/s 0 1/s 1 1", "passes 6"),
    ("two that serve each other: one is unbound", "c 0 0/c 1 0/b 0 0 1/b 0 1 0/s 0 1/s 1 1/u 0 0 1", "45@6"),
    ("two that serve each other: the other is unbound", "c 0 0/c 1 0/b 0 0 1/b 0 1 0/s 0 1/s 1 1/u 0 1 0", "45@6"),
    ("two that serve each other: one is deleted", "c 0 0/c 1 0/b 0 0 1/b 0 1 0/s 0 1/s 1 1/d 0", "29@6"),
    ("two that serve each other: one stops", "c 0 0/c 1 0/b 0 0 1/b 0 1 0/s 0 1/s 1 1/s 0 0/u 0 1 0", "passes 8"),
) + rows(
    ALONE,
    ("two that wait for each other", "c 0 0/c 1 0/b 0 0 1/b 0 1 0/s 0 1/s 1 1", "45@4"),
) + rows(
    TURN,
    ("one serves the other", "c 0 0/c 1 0/b 0 0 1/s 1 1", "passes 4"),
    ("a change: the instance itself, and one bound to it", "c 0 0/c 1 0/b 0 0 1/s 1 1/b 0 1 0/s 0 1", "45@5"),
    ("a change: one bound to it, not itself", "c 0 0/c 1 0/b 0 0 1/s 1 1/c 2 0/b 0 2 0/s 0 1", "45@6"),
    ("a change: itself, not one bound to it", "c 0 0/c 1 0/b 0 0 1/s 1 1/c 2 0/b 0 2 1/s 0 1", "45@6"),
    ("a change: neither itself nor one bound to it", "c 0 0/c 1 0/b 0 0 1/s 1 1/c 2 0/b 0 2 0/b 0 2 1/s 0 1", "passes 8"),
) + rows(
    PORTS,
    ("32 ports are bound", joined("c 0 0/s 0 1/c 1 1", *[f"b {p} 0 1" for p in range(32)], "s 1 1"), "passes 36"),
    *[(f"32 ports, and port {left} is not bound",
        joined("c 0 0/s 0 1/c 1 1", *[f"b {p} 0 1" for p in range(32) if p != left], "s 1 1"), "45@34") for left in (0, 17, 31)],
    *[(f"32 ports, and port {left} is unbound",
        joined("c 0 0/s 0 1/c 1 1", *[f"b {p} 0 1" for p in range(32)], f"s 1 1/u {left} 0 1"), "45@36") for left in (0, 16, 31)],
)


def crowd(instances, bindings):
    """So many instances of ALONE's type, and so many bindings among them."""
    pairs = [(x, y) for x in range(instances) for y in range(instances) if x != y]
    return joined(*[f"c {z} 0" for z in range(instances)], *[f"b 0 {x} {y}" for x, y in pairs[:bindings]])


# Two instances from which 32 others are bound on 32 ports.
FULL = joined("c 254 0/c 255 0", *[f"c {y} 1" for y in range(33)],
              *[f"b {p} {x} {y}" for y in range(32) for x in (254, 255) for p in range(32)])
# A row with so many bindings is large, so there are only three. That the 2,049th is refused and the 2,048th is not is also in
# the places of the last two.
MOST = rows(
    ALONE,
    ("2048 bindings", crowd(46, 2048), "passes 2094"),
    ("2048 bindings, and one of them again", f"{crowd(46, 2048)}/b 0 0 1", "26@2094"),
) + rows(
    PORTS,
    ("2049 bindings, and before that room was made by an unbind and a delete, and used up",
        joined(FULL, "u 7 254 0/b 7 254 0/d 31/c 31 1", *[f"b {p} {x} 31" for x in (254, 255) for p in range(32)],
            "s 254 1/b 0 254 32/b 1 254 32"),
        "46@2152"),
)

DELETES = rows(
    HARBOUR,
    ("a delete takes the bindings of its requirer", f"{BOUND}/d 1/d 0", "passes 5"),
    ("a delete takes all bindings of its requirer", f"{BOUND}/c 2 0/b 0 2 1/d 1/d 0/d 2", "passes 8"),
    ("a delete leaves the bindings of others", f"{BOUND}/c 2 1/b 0 0 2/d 1/u 0 0 2/d 0", "passes 8"),
    ("a number is used again with other types", "c 0 0/d 0/c 0 1/d 0/c 0 2", "passes 5"),
    ("a number is used again with another type, and begins in state 0", "c 0 0/s 0 1/d 0/c 0 2/s 0 2", "28@4"),
    ("a number is used again with the same type, and begins in state 0", "c 0 0/s 0 1/d 0/c 0 0/s 0 1", "passes 5"),
    ("a provider's number becomes a requirer", "c 0 0/c 1 1/d 0/c 0 1/c 2 0/s 2 1/b 0 2 0/s 0 1", "passes 8"),
    ("a requirer's number becomes a provider", f"{BOUND}/d 1/c 1 0/s 1 1/d 0/c 0 1/b 0 1 0/s 0 1", "passes 10"),
    ("a bound number with a type that cannot be bound so", f"{BOUND}/d 1/c 1 0/b 0 0 1", "25@5"),
    ("an unbind of what a delete took", f"{BOUND}/d 1/u 0 0 1", "24@4"),
    ("an unbind of what a delete took, and the number stands again", f"{BOUND}/d 1/c 1 1/u 0 0 1", "27@5"),
    ("a bind of what a delete took", f"{BOUND}/d 1/c 1 1/b 0 0 1", "passes 6"),
    ("an instance is deleted in a state that requires", f"{SCRIPT}/d 2", "passes 12"),
    ("an instance is deleted in a state that requires, and comes again without its binding",
        "c 0 0/s 0 1/c 1 1/b 0 0 1/s 1 1/d 1/c 1 1/s 1 1", "45@7"),
    ("a delete behind a delete that is refused", f"{BOUND}/d 0/d 1/d 0", "29@3"),
    ("a delete of one served, and the other stays", f"{SCRIPT}/c 3 1/b 0 0 3/s 3 1/d 3/u 0 0 1", "45@15"),
    ("all 256 instances, and one of them is deleted and created, and the last lock serves the last dispatcher",
        "/".join(ALL + ["d 128/c 128 0/s 255 1/b 0 255 254/s 254 1"]), "passes 261"),
    ("all 256 instances, and 255 again", "/".join(ALL + ["c 255 0"]), "23@256"),
)

PRECEDENCE = rows(
    HARBOUR,
    ("43 before 44: type 15 and the spare bit", f"c 0 0/{digits([encode('c 1 15') | 1])}", "43@1"),
    ("43 before 44: a standing number and the port set", f"c 0 0/{digits([encode('c 0 0') | 1 << 8])}", "43@1"),
    ("43 before 44: change of nothing and the type set", digits([encode("s 5 1") | 1 << 4]), "43@0"),
    ("43 before 44: bind to itself and the state set", f"c 0 0/{digits([encode('b 0 0 0') | 1 << 1])}", "43@1"),
    ("43 before 44: unbind of what is not bound and the type set", f"c 0 0/c 1 1/{digits([encode('u 0 0 1') | 1 << 4])}", "43@2"),
    ("43 before 44: delete of a provider and the second set", f"{BOUND}/{digits([encode('d 0') | 1 << 13])}", "43@3"),
    ("43 before 45: a change with a gap and the second set", f"c 1 1/{digits([encode('s 1 1') | 1 << 13])}", "43@1"),
    ("43 before 45: an unbind with a gap and the spare bit", f"{BUILT}/{digits([encode('u 0 0 2') | 1])}", "43@9"),
    ("44 before 45: a change to a state that requires and is no successor", "c 2 2/s 2 2", "28@1"),
    ("44 before 45: an unbind of what does not cover", f"{BUILT}/u 1 0 2", "27@9"),
    ("two bad lines: 43, then 44", "c 0 0/#00000000/c 0 0", "43@1"),
    ("two bad lines: 43, then 45", "c 1 1/#00000000/s 1 1", "43@1"),
    ("two bad lines: 44, then 43", "c 0 0/c 0 0/#00000000", "23@1"),
    ("two bad lines: 44, then 44 with a lower number", "c 0 0/s 0 0/d 1/c 0 0/c 1 3", "28@1"),
    ("two bad lines: 44, then 45", "c 1 1/c 1 1/s 1 1", "23@1"),
    ("two bad lines: 45, then 43", "c 1 1/s 1 1/#00000000", "45@1"),
    ("two bad lines: 45, then 44", "c 1 1/s 1 1/c 1 1", "45@1"),
    ("two bad lines: 45, then 45", "c 1 1/c 2 2/s 2 1/s 1 1", "45@2"),
    ("two bad lines: the last is worst", f"{SCRIPT}/d 1/#00000000", "29@11"),
)

REFUSED_UNIVERSES = [
    (f"a universe that is refused: {label}", dict(UNIVERSES)[label], text, number)
    for label, text, number in [
        ("harbour cut to 67 bytes", SCRIPT, "1"), ("harbour grown to 69 bytes", SCRIPT, "1"),
        ("no states", SCRIPT, "2"), ("header 18 41: a zero bit", "", "3"), ("a state is its own successor", "c 0 0", "5"),
        ("state 0 requires a port", "#00000000", "6"), ("provided port not below the count", f"{LONG} + c 0 0", "4")]
]


# The harbour script with one bit flipped, for each place: the bits and the answer, at the line itself if no place is told. Another
# instance's number in a create is missed only where the number is used.
FLIPPED = [
    "31 30 24, 29 43, 28-21 24@1, 20-8 43, 7 6 22, 5 4 45@1, 3-0 43",
    "31-29 43, 28-21 24, 20-4 43, 3-1 28, 0 43",
    "31-29 43, 28-22 24@3, 21 23, 20-8 43, 7-5 22, 4 25@3, 3-0 43",
    "31-29 43, 28-22 24, 21 25, 20-14 24, 13 25, 12-9 22, 8 25, 7-0 43",
    "31-29 43, 28-22 24, 21 28, 20-4 43, 3-1 28, 0 43",
    "31-29 43, 28-23 24@6, 22 23, 21 24@6, 20-8 43, 7 6 22, 5 25@6, 4 22, 3-0 43",
    "31-29 43, 28-23 24, 22 21 25, 20-15 24, 14 25, 13 24, 12-9 22, 8 25, 7-0 43",
    "31-29 43, 28-23 24, 22 28, 21 24, 20-4 43, 3-1 28, 0 43",
    "31-29 43, 28-22 24, 21 25, 20-15 24, 14 25, 13 24, 12-9 22, 8 25, 7-0 43",
    "31-29 43, 28-23 24, 22 28, 21 24, 20-4 43, 3-1 28, 0 43",
    "31-29 43, 28-23 24, 22 21 27, 20-15 24, 14 27, 13 24, 12-9 22, 8 27, 7-0 43",
]


def flipped_rows():
    lines = [encode(order) for order in PLAN]
    for place, text in enumerate(FLIPPED):
        answers = {}
        for group in text.split(", "):
            *bits, answer = group.split(" ")
            for span in bits:
                most, least = map(int, span.split("-")) if "-" in span else (int(span),) * 2
                answers.update((bit, answer if "@" in answer else f"{answer}@{place}") for bit in range(least, most + 1))
        for bit in range(32):
            damaged = lines[:place] + [lines[place] ^ 1 << bit] + lines[place + 1:]
            yield f"bit {bit} of line {place}", HARBOUR, digits(damaged), answers[bit]


def ends_exchanged(order):
    letter, *numbers = order.split(" ")
    return " ".join([letter, numbers[0], numbers[2], numbers[1]])


def damages(orders):
    """The script with a line left out or doubled, two neighbours exchanged, or provider for requirer."""
    for place in range(len(orders)):
        yield f"without line {place}", orders[:place] + orders[place + 1:]
    for place in range(len(orders)):
        yield f"line {place} twice", orders[:place + 1] + orders[place:]
    for place in range(len(orders) - 1):
        yield f"line {place} behind the next", orders[:place] + [orders[place + 1], orders[place]] + orders[place + 2:]
    for place, order in enumerate(orders):
        if order[0] in "bu":
            yield f"line {place} with its ends exchanged", orders[:place] + [ends_exchanged(order)] + orders[place + 1:]


def scripted(label):
    """The universe and the script of a case of the planner."""
    data, goal, room = next(case[1:4] for case in CASES if case[0] == label)
    return data, plan(read_universe(data), goal, room)[1]


# (name, universe, script, the answers in the order of `damages`)
DAMAGED = [
    ("harbour", HARBOUR, PLAN,
        "24@0 45@3 24@2 45@3 45@8 24@5 45@6 28@8 45@8 45@9 passes:10 "
        "23@1 28@2 23@3 26@4 28@5 23@6 26@7 28@8 26@9 28@10 27@11 "
        "24@0 passes:11 24@2 45@3 passes:11 24@5 45@6 passes:11 45@8 45@9 "
        "25@3 25@6 25@8 27@10"),
    ("again", *scripted("a port that is dropped and required again"),
        "24@9 24@1 45@4 24@3 45@4 28@5 45@6 26@7 45@8 28@10 45@10 passes:11 "
        "23@1 23@2 28@3 23@4 26@5 28@6 28@7 27@8 26@9 28@10 26@11 28@12 "
        "passes:12 24@1 passes:12 24@3 45@4 28@5 45@6 26@7 45@8 passes:12 45@10 "
        "25@4 27@7 25@8 25@10"),
]


def damaged_rows():
    for name, data, orders, answers in DAMAGED:
        cases = list(damages(orders))
        answers = [answer.replace(":", " ") for answer in answers.split()]
        assert len(answers) == len(cases), name
        for (label, damaged), answer in zip(cases, answers):
            yield f"{name}: {label}", data, "/".join(damaged), answer


# Which random cases of the planner have scripts that the table checks.
CHECKED_RANDOM = (0, 13, 15, 39)


def planned_rows():
    """The planner's scripts, which all have to pass. How many lines they have was worked out by hand for most."""
    for label, data, goal, room, by_hand in CASES:
        random = label.startswith("random ")
        number, orders = plan(read_universe(data), goal, room)
        if number or (random and int(label.split()[1].rstrip(":")) not in CHECKED_RANDOM):
            continue
        if random or 4 <= len(orders) < 20 and len(data) < 100:
            answer = None if random else f"passes {by_hand.count('/') + 1}"
            yield f"planned: {label}", data, "/".join(orders), answer


def some_universe(draw):
    """A universe of 2 to 4 types with 2 to 4 states each, and 2 to 5 ports."""
    ports, types = draw.between(2, 5), []
    for _ in range(draw.between(2, 4)):
        count = draw.between(2, 4)
        states = []
        for q in range(count):
            others = [n for n in range(count) if n != q]
            states.append((draw.some(range(ports), 3), draw.some(range(ports), 2) if q else set(),
                draw.some(others, 3) | ({draw.one(others)} if q == 0 or draw.chance(0.5) else set())))
        types.append(states)
    return packed(ports, types)


class Steering:
    """Makes drafts in a universe that are mostly legal, while it keeps what stands."""

    def __init__(self, draw, universe, numbers):
        self.draw, self.universe, self.numbers = draw, universe, numbers
        self.config = {}, set()
        self.most_states = max(map(len, universe[1]))

    def number(self):
        """Mostly one that stands."""
        standing = sorted(self.config[0])
        return self.draw.one(standing if standing and self.draw.chance(0.95) else self.numbers)

    def order(self, letters="cccbbbbbbbbssssssuudd", stray=0):
        draw, (ports, types) = self.draw, self.universe
        letter = draw.one(letters)
        if letter == "c":
            return f"c {draw.one(self.numbers)} {draw.between(0, len(types) - 1 + stray)}"
        if letter == "s":
            return f"s {self.number()} {draw.between(0, self.most_states - 1 + stray)}"
        if letter == "d":
            return f"d {self.number()}"
        if letter == "u" and self.config[1] and not stray:
            return "u {} {} {}".format(*draw.one(sorted(self.config[1])))
        return f"{letter} {draw.between(0, ports - 1 + stray)} {self.number()} {self.number()}"

    def legal(self, gapped=False, tries=400):
        """A legal order whose result is gap-free, or one whose result is not; None if none is found."""
        for _ in range(tries):
            order = self.order("su" if gapped else "cccbbbbbbbbssssssuudd")
            if offence(self.universe, self.config, order) is None:
                if gap_free(self.universe, outcome(self.config, order)) != gapped:
                    return order
        return None

    def illegal(self, tries=200):
        """An order that offends a rule, if it can be one that is drawn."""
        wanted, order = self.draw.between(22, 29), "d 255"
        if wanted in (26, 29) and self.config[1]:
            port, provider, requirer = self.draw.one(sorted(self.config[1]))
            return f"b {port} {provider} {requirer}" if wanted == 26 else f"d {provider}"
        for _ in range(tries):
            other = self.order("cbsud", 1)
            number = offence(self.universe, self.config, other)
            if encode(other) is not None and number is not None:
                order = other
                if number == wanted:
                    break
        return order

    def line(self):
        """The line of a legal order, which is given."""
        order = self.legal() or "d 255"
        if offence(self.universe, self.config, order) is None:
            self.config = outcome(self.config, order)
        return encode(order)

    def bad(self, kind):
        """A line that offends 43, 44 or 45, if one is found."""
        if kind == 43:
            line = self.line()
            while decode(line) is not None:
                line ^= 1 << self.draw.between(0, 31)
            return line
        order = self.legal(True) if kind == 45 else self.illegal()
        return self.line() if order is None else encode(order)


def some_draft(draw, universe, most=25):
    """A draft whose lines are legal and leave no gap, but for one of them, or for a few, or none."""
    steering = Steering(draw, universe, [*range(draw.between(3, 7)), 255])
    kind = draw.one([None] * 4 + [43, 44, 44, 44, 45, 45, 45, 45, "few"])
    lines = [steering.line() for _ in range(draw.between(0 if kind else 1, most))]
    if kind == "few":
        return [steering.bad(draw.one([43, 44, 45])) if draw.chance(0.08) else line for line in lines] + [steering.line()]
    if kind:
        lines += [steering.bad(kind)] + [steering.line() for _ in range(draw.between(0, 3))]
    return lines


def random_rows():
    draw = Draw(2027)
    for number in range(150):
        data = some_universe(draw)
        lines = some_draft(draw, read_universe(data))
        yield f"random {number}", data, digits(lines), None


DRAFTS = (HARBOUR_ROWS + LENGTHS + NO_LINES + ILLEGAL + GAPS + MOST + DELETES + PRECEDENCE + REFUSED_UNIVERSES
          + [*flipped_rows(), *damaged_rows(), *planned_rows(), *random_rows()])


# (label, universe, orders to the host, draft, answer, instances, bindings)
STANDING = [
    (label, HARBOUR, orders, text, by_hand, instances, bindings)
    for label, orders, text, by_hand, instances, bindings in [
        ("nothing was ordered", "", SCRIPT, "passes 11", 0, 0),
        ("nothing was ordered, and no lines", "", "", "41", 0, 0),
        ("nothing was ordered, and a bad first line", "", "#00000000", "43@0", 0, 0),
        ("nothing was ordered, and an illegal first line", "", "s 0 1", "24@0", 0, 0),
        ("nothing was ordered, and a gap", "", EARLY, "45@3", 0, 0),
        ("an instance stands", "c 0 0", SCRIPT, "42", 1, 0),
        ("an instance stands that the draft does not name", "c 200 2", SCRIPT, "42", 1, 0),
        ("instance 255 stands", "c 255 0", SCRIPT, "42", 1, 0),
        ("an instance stands in state 1", "c 0 0/s 0 1", "s 0 1", "42", 1, 0),
        ("instances and a binding stand", BOUND, SCRIPT, "42", 2, 1),
        ("instances and a binding stand, and the draft goes on from there", BOUND, "s 0 1/s 1 1", "42", 2, 1),
        ("the script stands", SCRIPT, SCRIPT, "42", 3, 2),
        ("the script stands, and the draft takes it down", SCRIPT, "d 2/d 1/d 0", "42", 3, 2),
        ("a gap stands", "c 1 1/s 1 1", SCRIPT, "42", 1, 0),
        ("an instance stood and is deleted", "c 0 0/d 0", SCRIPT, "passes 11", 0, 0),
        ("an instance stood and is deleted, and the draft names it", "c 0 0/d 0", "s 0 1", "24@0", 0, 0),
        ("an instance in a gap stood and is deleted", "c 1 1/s 1 1/d 1", SCRIPT, "passes 11", 0, 0),
        ("a binding stood and is deleted with its ends", f"{BOUND}/d 1/d 0", SCRIPT, "passes 11", 0, 0),
        ("a binding stood, which the draft ends", f"{BOUND}/d 1/d 0", "c 0 0/c 1 1/u 0 0 1", "27@2", 0, 0),
        ("a binding stood, and its provider stands", f"{BOUND}/d 1", SCRIPT, "42", 1, 0),
        ("a binding stood, and its ends stand", f"{BOUND}/u 0 0 1", SCRIPT, "42", 2, 0),
        ("the script stood and is taken down", f"{SCRIPT}/d 2/d 1/d 0", SCRIPT, "passes 11", 0, 0),
        ("the script stood and is taken down but for the lock", f"{SCRIPT}/d 2/d 1", SCRIPT, "42", 1, 0),
        ("the script stood and is taken down in the wrong order", f"{SCRIPT}/d 0/d 1/d 2", SCRIPT, "42", 2, 1),
        ("no order was done", "c 0 3/c 0 15/d 0/s 0 1/b 0 0 1/u 0 0 1/b 31 0 1/s 255 7", SCRIPT, "passes 11", 0, 0),
        ("no order was done but one", "d 0/c 0 3/c 7 1/b 0 0 7/s 7 2", SCRIPT, "42", 1, 0),
        ("a delete of a provider was refused", f"{BOUND}/d 0/d 1", SCRIPT, "42", 1, 0),
        ("a delete of a provider was refused, and done later", f"{BOUND}/d 0/d 1/d 0", SCRIPT, "passes 11", 0, 0),
        ("a second create was refused, and one delete is enough", "c 0 0/c 0 1/d 0", SCRIPT, "passes 11", 0, 0),
        ("a second bind was refused", f"{BOUND}/b 0 0 1/b 0 1 0", SCRIPT, "42", 2, 1),
        ("no lines before what stands", "c 0 0", "", "41", 1, 0),
        ("32769 lines before what stands", "c 0 0", f"{LONG} + c 0 0", "41", 1, 0),
        ("32768 lines and what stands", "c 0 0", LONG, "42", 1, 0),
        ("32768 lines, where nothing stands any more", "c 0 0/d 0", LONG, "passes 32768", 0, 0),
        ("32769 lines, where nothing stands any more", "c 0 0/d 0", f"{LONG} + c 0 0", "41", 0, 0),
        ("what stands before a bad first line", "c 0 0", "#00000000", "42", 1, 0),
        ("what stands before an illegal first line", "c 0 0", "d 9", "42", 1, 0),
        ("what stands before a gap", "c 0 0", "c 1 1/s 1 1", "42", 1, 0),
        ("what stands before 32768 bad lines", BOUND, "#00000000 * 32768", "42", 2, 1),
        ("16384 creates and deletes", LONG, SCRIPT, "passes 11", 0, 0),
        ("16384 creates and deletes, and a create", f"{LONG} + c 3 0", SCRIPT, "42", 1, 0),
        ("256 instances stand", "/".join(ALL), SCRIPT, "42", 256, 0),
        ("256 instances stood and are deleted", "/".join(ALL + [f"d {z}" for z in range(256)]), SCRIPT, "passes 11", 0, 0),
    ]
] + [
    ("two that serve each other stand", RING, "c 0 0/c 1 0/b 0 0 1/b 0 1 0/s 0 1/s 1 1", "c 0 0", "42", 2, 2),
    ("two that serve each other stood", RING, "c 0 0/c 1 0/b 0 0 1/b 0 1 0/s 0 1/s 1 1/u 0 0 1/d 0/d 1", "c 0 0/c 0 0", "23@1", 0, 0),
    ("an idle binding stands", ALONE, "c 0 0/c 1 0/b 0 0 1", "c 0 0/s 0 1", "42", 2, 1),
    ("a universe that is refused, and a host in it", HARBOUR[:-1], "c 0 0", SCRIPT, "1", None, None),
]


def given(data, lines):
    """What stands in an empty cloud with no delays and the largest limits behind the orders."""
    cloud = Cloud(read_universe(data), 256, 2048, 0)
    for line in lines:
        cloud.give(decode(line))
    return cloud.config


def random_standing():
    """Random orders to a host, behind which half the time all is deleted that can be."""
    draw = Draw(2028)
    for number in range(10):
        data = some_universe(draw)
        universe = read_universe(data)
        steering = Steering(draw, universe, [*range(5), 255])
        orders = [steering.order() if draw.chance(0.7) else steering.legal() or "d 255" for _ in range(draw.between(4, 20))]
        for _ in range(3 if draw.chance(0.6) else 0):
            orders += [f"d {z}" for z in (0, 1, 2, 3, 4, 255)]
        yield f"random host {number}", data, "/".join(orders), digits(some_draft(draw, universe, 15)), None, None, None


STANDING += random_standing()


def checked(label, data, lines, by_hand, host=None):
    """The answer, which has to be that by hand; and for a small draft the two searches for gaps have to agree."""
    answer = check_file(data, lines, host)
    assert len(lines) > SMALL or answer == check_file(data, lines, host, False), f"{label}: the searches differ"
    assert by_hand is None or answer == answer_of(by_hand), f"{label}: {answer}, by hand {by_hand}"
    return answer


def drafts_table():
    """The table of the data file (universe, draft), and what is printed of them."""
    table, out = "", "drafts\n"
    for label, data, text, by_hand in DRAFTS:
        notation = noted(text)
        table += f"{label} = {data.hex()} {notation}\n"
        out += f"{label}:\n{checked(label, data, lines_of(notation), by_hand)}\n"
    return table, out


def standing_table():
    """The same of drafts and hosts (universe, orders, draft)."""
    table, out = "", "standing\n"
    for label, data, orders, text, by_hand, *counts in STANDING:
        notations = noted(orders), noted(text)
        table += f"{label} = {data.hex()} {' '.join(notations)}\n"
        before, lines = map(lines_of, notations)
        if by_hand and counts == [None, None]:
            out += f"{label}:\n{checked(label, data, lines, by_hand)}\n"
            continue
        host = given(data, before)
        sizes = [len(part) for part in host]
        assert counts in (sizes, [None, None]), f"{label}: {sizes}, by hand {counts}"
        out += f"{label}:\n{checked(label, data, lines, by_hand, host)}\ninstances {sizes[0]}, bindings {sizes[1]}\n"
    return table, out
