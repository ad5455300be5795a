#!/usr/bin/env python3
"""Makes the example charts in examples/charts, and examples/check.expected: what the example program has to say of them.

Run it in any folder: python3 examples/make_charts.py
It needs Python 3 and its standard library, takes no chance numbers, and gives the same bytes each time.

What is expected of a chart does not come from the engine. This file has a checker of its own, which goes by the letter of
the rules in docs/CHARTS.md, with plain sets and without care for speed. Each chart below also states by hand what has to
become of it, and the script ends with an error where the checker sees it otherwise.
"""
import re
from pathlib import Path

ROOT = Path(__file__).resolve().parent.parent
WORKED = ROOT / "crates" / "chart_check" / "data" / "chart.txt"
CHARTS = ROOT / "examples" / "charts"
EXPECTED = ROOT / "examples" / "check.expected"

MOST_TEXT_BYTES = 16384
MOST_LINE_BYTES = 96
CONDITIONS = 32

# What each number means, in the words of examples/check.c.
MEANINGS = {
    1: "the text has more than 16,384 bytes",
    2: "a line has no end: no byte 10 follows from its start on",
    3: "a line has more than 96 bytes",
    4: "a line does not begin with the key that is due and `=`",
    5: "an element is not written as it should be",
    6: "an element is outside its limits or names something that there is not",
    7: "the text goes on behind its last due line",
    8: "automaton 0 is not under `top`, or a later one not under a state of a lower-numbered automaton",
    9: "the `first` of an automaton does not lie in it",
    10: "`from` and `to` of a transition lie in different automata",
    11: "a `with` has a state that is not below its `from`, or two that are not orthogonal",
    12: "an `into` has a state that is not basic or not below its `to`, or two that are not orthogonal, or lacks one",
}


class Refused(Exception):
    """A refusal: its number, and in words what it names."""

    def __init__(self, number, names):
        super().__init__(f"refusal {number}: {names}")
        self.number = number


# The checker, first part: the text. A chart is a dictionary with the keys of its text.

def is_number(piece):
    return re.fullmatch(rb"0|[1-9][0-9]?", piece) is not None


def is_term(piece):
    return piece[:1] in (b"s", b"n", b"c", b"d") and is_number(piece[1:])


def is_parent(piece):
    return piece == b"top" or is_number(piece)


def is_name(piece):
    return re.fullmatch(rb"[a-z0-9_]{1,16}", piece) is not None


class Lines:
    """A text, from its first line that was not yet taken."""

    def __init__(self, text):
        self.rest = text
        self.number = 1

    def value(self, key):
        """The bytes behind the due key of the next line."""
        end = self.rest.find(b"\n")
        if end < 0:
            raise Refused(2, f"line {self.number}")
        line = self.rest[:end]
        if len(line) > MOST_LINE_BYTES:
            raise Refused(3, f"line {self.number}")
        if not line.startswith(key + b"="):
            raise Refused(4, f"line {self.number}")
        self.rest = self.rest[end + 1:]
        self.number += 1
        return line[len(key) + 1:]

    def elements(self, pieces, most, has_shape, ascends, is_inside):
        """The elements of the line before, tried for form from the left, and then for range from the left."""
        place = f"line {self.number - 1}, element "
        for i, piece in enumerate(pieces):
            if i >= most or not has_shape(piece):
                raise Refused(5, f"{place}{i}")
            if ascends and i > 0 and int(piece) <= int(pieces[i - 1]):
                raise Refused(5, f"{place}{i}")
        for i, piece in enumerate(pieces):
            if not is_inside(piece):
                raise Refused(6, f"{place}{i}")
        return pieces

    def one(self, key, has_shape, is_inside):
        return self.elements([self.value(key)], 1, has_shape, False, is_inside)[0]

    def number_of(self, key, least, most):
        return int(self.one(key, is_number, lambda piece: least <= int(piece) <= most))

    def many(self, key, most, has_shape, ascends, is_inside):
        value = self.value(key)
        return self.elements(value.split(b",") if value else [], most, has_shape, ascends, is_inside)


def read(text):
    """The chart that the text spells. Raises the refusal, where there is one: 1 to 7."""
    if len(text) > MOST_TEXT_BYTES:
        raise Refused(1, "the text as a whole")
    lines = Lines(text)
    chart = {"chart": lines.one(b"chart", is_name, lambda piece: True).decode()}
    chart["events"] = events = lines.number_of(b"events", 1, 64)
    automata = lines.number_of(b"automata", 1, 24)
    states = lines.number_of(b"states", 1, 64)
    transitions = lines.number_of(b"transitions", 0, 96)

    def is_state(piece):
        return int(piece) < states

    def is_known_term(piece):
        return int(piece[1:]) < (states if piece[:1] in (b"s", b"n") else CONDITIONS)

    chart["automata"] = []
    for _ in range(automata):
        under = lines.one(b"under", is_parent, lambda piece: piece == b"top" or is_state(piece))
        first = lines.number_of(b"first", 0, states - 1)
        chart["automata"].append({"under": "top" if under == b"top" else int(under), "first": first})
    chart["in"] = [lines.number_of(b"in", 0, automata - 1) for _ in range(states)]
    chart["transitions"] = []
    for _ in range(transitions):
        row = {"from": lines.number_of(b"from", 0, states - 1)}
        row["with"] = [int(piece) for piece in lines.many(b"with", 8, is_number, True, is_state)]
        row["on"] = lines.number_of(b"on", 0, events - 1)
        row["if"] = [piece.decode() for piece in lines.many(b"if", 8, is_term, False, is_known_term)]
        row["do"] = [int(piece) for piece in lines.many(b"do", 8, is_number, False, lambda piece: int(piece) < events)]
        row["to"] = lines.number_of(b"to", 0, states - 1)
        row["into"] = [int(piece) for piece in lines.many(b"into", 24, is_number, True, is_state)]
        chart["transitions"].append(row)
    if lines.rest:
        raise Refused(7, f"line {lines.number}")
    return chart


# The checker, second part: the rules on charts.

class Tree:
    """The relations of a chart, each as the set of what it holds of."""

    def __init__(self, chart):
        self.states = range(len(chart["in"]))
        self.automata = range(len(chart["automata"]))
        self.under = {(a, row["under"]) for a, row in enumerate(chart["automata"]) if row["under"] != "top"}
        self.lies_in = set(enumerate(chart["in"]))
        self.below = self.all_below()
        # in or below: (v, a) if state v lies in automaton a, or is below a state that lies in a
        self.in_or_below = self.lies_in | {(v, a) for v, u in self.below for s, a in self.lies_in if s == u}
        self.orthogonal = self.all_orthogonal()
        self.basic = {v for v in self.states if all(p != v for _, p in self.under)}

    def all_below(self):
        """(v, u) if v lies in an automaton under u, or in one under a state below u."""
        direct = {(v, u) for v, a in self.lies_in for b, u in self.under if a == b}
        below = set(direct)
        while True:
            more = {(v, u) for v, w in direct for x, u in below if w == x} - below
            if not more:
                return below
            below |= more

    def all_orthogonal(self):
        """(v, w) if v and w lie in or below two different automata under one same state."""
        beside = {(a, b) for a, u in self.under for b, v in self.under if u == v and a != b}
        holds = {a: {v for v, b in self.in_or_below if a == b} for a in self.automata}
        return {(v, w) for a, b in beside for v in holds[a] for w in holds[b]}

    def are_pairwise_orthogonal(self, states):
        return all((v, w) in self.orthogonal for v in states for w in states if v != w)

    def is_full(self, into, to):
        if not all(v in self.basic and (v, to) in self.below for v in into):
            return False
        if not self.are_pairwise_orthogonal(into):
            return False
        others = {v for v in self.basic if (v, to) in self.below} - set(into)
        return not any(all((v, w) in self.orthogonal for w in into) for v in others)


def check_automata(chart):
    for a, row in enumerate(chart["automata"]):
        if a == 0:
            is_placed = row["under"] == "top"
        else:
            is_placed = row["under"] != "top" and chart["in"][row["under"]] < a
        if not is_placed:
            raise Refused(8, f"automaton {a}")
        if chart["in"][row["first"]] != a:
            raise Refused(9, f"automaton {a}")


def check_transitions(chart):
    tree = Tree(chart)
    for t, row in enumerate(chart["transitions"]):
        if chart["in"][row["from"]] != chart["in"][row["to"]]:
            raise Refused(10, f"transition {t}")
        if not all((v, row["from"]) in tree.below for v in row["with"]) or not tree.are_pairwise_orthogonal(row["with"]):
            raise Refused(11, f"transition {t}")
        if not tree.is_full(row["into"], row["to"]):
            raise Refused(12, f"transition {t}")


def check(text):
    """0 if the text is an accepted chart, else the refusal's number; and what the refusal names."""
    try:
        chart = read(text)
        check_automata(chart)
        check_transitions(chart)
    except Refused as refusal:
        return refusal.number, str(refusal)
    return 0, "accepted"


# Charts as texts, and trees as nested lists: an automaton is a list of states, a state the list of automata under it.

def spell(chart):
    def listed(items):
        return ",".join(str(item) for item in items)

    lines = [f"chart={chart['chart']}", f"events={chart['events']}", f"automata={len(chart['automata'])}",
             f"states={len(chart['in'])}", f"transitions={len(chart['transitions'])}"]
    for row in chart["automata"]:
        lines += [f"under={row['under']}", f"first={row['first']}"]
    lines += [f"in={a}" for a in chart["in"]]
    for row in chart["transitions"]:
        lines += [f"from={row['from']}", f"with={listed(row['with'])}", f"on={row['on']}", f"if={listed(row['if'])}",
                  f"do={listed(row['do'])}", f"to={row['to']}", f"into={listed(row['into'])}"]
    return "".join(line + "\n" for line in lines).encode()


def planted(name, events, top):
    """The chart of a tree, without transitions: level by level, automata and states numbered as they come. An automaton is
    entered at its first state."""
    chart = {"chart": name, "events": events, "automata": [], "in": [], "transitions": []}
    level = [("top", top)]
    while level:
        next_level = []
        for under, automaton in level:
            chart["automata"].append({"under": under, "first": len(chart["in"])})
            for automata in automaton:
                next_level += [(len(chart["in"]), inner) for inner in automata]
                chart["in"].append(len(chart["automata"]) - 1)
        level = next_level
    return chart


def states_of(chart, automaton):
    return [v for v, a in enumerate(chart["in"]) if a == automaton]


def automata_under(chart, state):
    return [a for a, row in enumerate(chart["automata"]) if row["under"] == state]


def landing(chart, state, pick):
    """The basic states that are entered below a state, where `pick` chooses a state of each automaton."""
    found = []
    for automaton in automata_under(chart, state):
        chosen = pick(automaton)
        found += landing(chart, chosen, pick) if automata_under(chart, chosen) else [chosen]
    return sorted(found)


def first_of(chart):
    return lambda automaton: chart["automata"][automaton]["first"]


def last_of(chart):
    return lambda automaton: states_of(chart, automaton)[-1]


def inmost_of(chart):
    """Chooses a state that has automata under it, where there is one."""
    return lambda automaton: max(states_of(chart, automaton), key=lambda v: bool(automata_under(chart, v)))


def add(chart, source, target, into, restriction=(), on=0, guard=(), raised=()):
    chart["transitions"].append({"from": source, "with": list(restriction), "on": on, "if": list(guard),
                                 "do": list(raised), "to": target, "into": list(into)})


# The charts that are accepted.

BASIC = []


def basic(count):
    """An automaton of basic states."""
    return [BASIC] * count


def full():
    """As much of everything as there may be, in a tree five automata deep and up to six wide, with lists as a planner has
    them: most are empty, and few have more than two elements."""
    stroke = [basic(2), basic(2)]
    recovery = [[BASIC, stroke, BASIC]]
    phases = [BASIC, [[BASIC, recovery], basic(3)], BASIC]
    zones = [basic(3), basic(2), basic(2)]
    pairing = [basic(3), basic(2)]
    work = [phases, basic(3), [BASIC, zones], basic(3), basic(2), [BASIC, BASIC, pairing]]
    menu = [basic(4), [BASIC, [basic(3)]], basic(2)]
    settings = [basic(3), [BASIC, [basic(2)]]]
    chart = planted("full", 64, [BASIC, BASIC, work, menu, settings, BASIC])
    picks = [first_of(chart), last_of(chart), inmost_of(chart)]
    for t, (source, target) in enumerate(neighbours(chart)[:96]):
        pick = picks[t % 3]
        guard = [f"c{t % 32}"] if t % 6 == 4 else [f"n{t % 64}", f"d{t % 10}"] if t % 24 == 7 else []
        raised = [(t * 3) % 64] if t % 5 == 2 else [t % 64, t % 10] if t % 24 == 11 else []
        restriction = landing(chart, source, pick)[:t % 4]
        add(chart, source, target, landing(chart, target, pick), restriction, (t * 5) % 64, guard, raised)
    return chart


def neighbours(chart):
    """Pairs of states of one automaton: each with the one behind it, then each with the one before, then over one."""
    pairs = []
    for distance in (1, -1, 2):
        for automaton in range(len(chart["automata"])):
            members = states_of(chart, automaton)
            new = [(v, members[(i + distance) % len(members)]) for i, v in enumerate(members)]
            pairs += [pair for pair in new if pair not in pairs]
    return pairs


def wide():
    """23 automata under one state, the most that there may be, so that an `into` has 23 states."""
    hub = [basic(3)] * 16 + [basic(2)] * 7
    chart = planted("wide", 24, [BASIC, hub])
    rest, work = 0, 1
    inner = automata_under(chart, work)
    add(chart, rest, work, landing(chart, work, first_of(chart)), on=0)
    add(chart, work, work, landing(chart, work, last_of(chart)), landing(chart, work, first_of(chart))[:8], 0, ["c0"])
    add(chart, work, rest, [], landing(chart, work, last_of(chart))[-8:], 0)
    for automaton in inner:
        members = states_of(chart, automaton)
        add(chart, members[0], members[1], [], on=automaton)
        add(chart, members[1], members[-1] if len(members) > 2 else members[0], [], on=automaton)
    return chart


def deep():
    """24 automata in a chain: each but the first stands under a state of the one before it. The last has two states, each
    other one two or three: a composite one and basic ones."""
    automaton = basic(2)
    for depth in range(23):
        automaton = [BASIC, [automaton]] + ([BASIC] if depth >= 7 else [])
    chart = planted("deep", 24, automaton)
    for a in range(24):
        members = states_of(chart, a)
        outer, inner = members[0], members[1]
        at_first, at_last = landing(chart, inner, first_of(chart)), landing(chart, inner, inmost_of(chart))
        add(chart, outer, inner, at_first, on=a)
        add(chart, inner, inner, at_last, at_first, on=a)
        add(chart, inner, outer, [], at_last, on=a, raised=[23 - a])
    return chart


def largest():
    """As much of everything as there may be, with each list as long as the limits and the tree allow, and as many such
    lists as a text has room for: it has the most bytes that a text may have, 16,384.

    An `into` cannot have more than 23 states: basic states that are pairwise orthogonal lie in different automata, and
    `to` lies in one more. So 23 automata stand under one state. The two states of the top automaton come last, and the
    transitions keep to states from 10 on, so that numbers have two digits.
    """
    work = 63
    chart = {"chart": "largest", "events": 64, "automata": [], "in": [v % 23 + 1 for v in range(62)] + [0, 0]}
    for a in range(24):
        chart["automata"].append({"under": work if a else "top", "first": states_of(chart, a)[-1]})
    long_rows = 0
    while len(spell(chart_with(chart, work, long_rows))) <= MOST_TEXT_BYTES:
        long_rows += 1
    # that is one row more than there is room for: the last such rows get a shorter `with`, and the name the rest
    for row in reversed(chart["transitions"][:long_rows]):
        while row["with"] and len(spell(chart)) > MOST_TEXT_BYTES:
            row["with"].pop()
    chart["chart"] += "_" * (MOST_TEXT_BYTES - len(spell(chart)))
    return chart


def chart_with(chart, work, long_rows):
    """The chart with 96 transitions: so many of `work` with all lists full, and then others of the inner automata."""
    chart["transitions"] = []
    for t in range(96):
        guard = [f"{'scnd'[i % 4]}{10 + (t + i) % 22}" for i in range(8)]
        raised = [10 + (t + 11 * i) % 54 for i in range(8)]
        if t < long_rows:
            begin = 10 + t % 44
            add(chart, work, work, range(39 - t % 2, 62 - t % 2), range(begin, begin + 8), 10 + t % 54, guard, raised)
        else:
            source = 10 + t % 29
            add(chart, source, source + 23, [], [], 10 + t % 54, guard, raised)
    return chart


# The charts that are refused: the worked chart with one line changed.

def changed(text, number, old, new):
    """The text with another line in place of line `number`, counted from 1."""
    lines = text.split(b"\n")
    assert lines[number - 1] == old, (number, lines[number - 1])
    lines[number - 1] = new
    return b"\n".join(lines)


def texts():
    """Each chart's name, its text, and what has to become of it: 0, or the refusal's number."""
    worked = WORKED.read_bytes()
    return [
        ("rower", worked, 0),
        ("full", spell(full()), 0),
        ("largest", spell(largest()), 0),
        ("deep", spell(deep()), 0),
        ("wide", spell(wide()), 0),
        # only one of the two automata under state 1 is entered
        ("half_landing", changed(worked, 24, b"into=2,4", b"into=2"), 12),
        # two states of one automaton are entered, and none of the other
        ("twice_landing", changed(worked, 24, b"into=2,4", b"into=2,3"), 12),
        # state 4 lies in automaton 2, which is not lower-numbered than automaton 1
        ("later_parent", changed(worked, 8, b"under=1", b"under=4"), 8),
        # the list does not ascend
        ("descending", changed(worked, 24, b"into=2,4", b"into=4,2"), 5),
        # the events are 0, 1 and 2
        ("no_event", changed(worked, 20, b"on=0", b"on=3"), 6),
    ]


def main():
    CHARTS.mkdir(exist_ok=True)
    answers = []
    for name, text, stated in sorted(texts()):
        number, words = check(text)
        assert number == stated, f"{name}: {words}, but stated was {stated}"
        assert number != 0 or spell(read(text)) == text, f"{name} is not spelled as it was read"
        (CHARTS / f"{name}.txt").write_bytes(text)
        answer = f"refusal {number}: {MEANINGS[number]}" if number else "accepted"
        answers.append(f"examples/charts/{name}.txt: {answer}\n")
        print(f"{name}.txt: {len(text)} bytes, {words}")
    EXPECTED.write_text("".join(answers))


if __name__ == "__main__":
    main()
