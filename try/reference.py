"""What `regaudit check` has to print, from the bytes of a tower file and of traces, straight from the definitions.

It is slow and plain: an atomic register is judged by a search through all orders of its operations, the others by
Lamport's sentences, and every register is judged anew at each question. The codes and the lines are those of
docs/FORMATS.md, the operations of a conflict and the order of `--order` those of docs/DEFINITIONS.md. Nothing here is
shared with what makes histories, records or pictures.

`checked` gives the report and the status of one order of arrival; `interleavings` gives the orders in which the steps
of traces may arrive. A tower file has to be one that the program takes.
"""
import functools
import itertools
import math

# The text: elements, and the fault that ends it.

WHITE = b"\t\n\v\f\r ,"
DELIMITERS = WHITE + b"{}[]()\";"
CLOSING = {b"(": b")", b"[": b"]", b"{": b"}", b"#{": b"}"}
DEEPEST = 64
LEAST_NUMBER, GREATEST_NUMBER, GREATEST_MOMENT = -2**63, 2**63 - 1, 2**62 - 1


class Broken(Exception):
    """A fault of the text: its code, and its place in bytes."""


class Element:
    """An element: the bytes of it, and those without its tags; its kind is what these begin with."""

    def __init__(self, text, bare, kind, parts=()):
        self.text, self.bare, self.kind, self.parts = text, bare, kind, parts

    def word(self):
        """The bytes of an atom, nothing of another element."""
        return self.bare if self.kind == "atom" else b""

    def number(self):
        """The integer that it is, None where it is none."""
        digits = self.word().removesuffix(b"N")
        digits = digits[1:] if digits[:1] in (b"+", b"-") else digits
        if not digits.isdigit() or digits.startswith(b"0") and digits != b"0":
            return None
        number = int(self.word().removesuffix(b"N"))
        return number if LEAST_NUMBER <= number <= GREATEST_NUMBER else None


class Text:
    """A text that is read from its first byte to its last."""

    def __init__(self, text):
        self.text, self.at = text, 0
        # Of each bracket, tag and discard that waits: what closes it, None for the latter two, and its first byte.
        self.open = []

    def elements(self):
        """The outermost elements that ended, each with the place after it, and the fault, None where there is none."""
        found = []
        try:
            while element := self.element():
                found.append((element, self.at))
            if self.at < len(self.text):
                self.close()
        except Broken as fault:
            return found, fault.args
        return found, None

    def after(self, many=1):
        return self.text[self.at:self.at + many]

    def run(self):
        while self.after() and self.after() not in DELIMITERS:
            self.at += 1

    def gap(self):
        while self.after():
            if self.after() in WHITE:
                self.at += 1
            elif self.after() == b";":
                while self.after() not in (b"", b"\n"):
                    self.at += 1
            elif self.after(2) == b"#_":
                self.begin(None, 2)
                self.awaited()
            else:
                return

    def begin(self, close, many):
        """Opens a bracket, a tag or a discard, of so many bytes."""
        if len(self.open) == DEEPEST:
            raise Broken("E4", self.at)
        self.open.append((close, self.at))
        self.at += many

    def close(self):
        """Closes the bracket that was opened last, by the next byte, or says why it cannot be."""
        brackets = [close for close, _ in self.open if close]
        if not self.after():
            raise Broken("E1", self.at)
        if not brackets:
            raise Broken("E2", self.at)
        if self.after() != brackets[-1]:
            raise Broken("E3", self.at)
        close, place = self.open.pop()
        if not close:
            raise Broken("E6", place)
        self.at += 1

    def awaited(self):
        """The element that a tag or a discard waits for."""
        element = self.element()
        if not element:
            self.close()
        self.open.pop()
        return element

    def element(self):
        """The next element, None before a closing bracket and at the end."""
        self.gap()
        start, first, two = self.at, self.after(), self.after(2)
        if not first or first in b")]}":
            return None
        if two == b"#":
            raise Broken("E1", len(self.text))
        parts, kind = (), {b"(": "list", b"[": "vector", b"{": "map", b"#{": "set"}.get(two if two == b"#{" else first)
        if kind:
            opening = two if two == b"#{" else first
            self.begin(CLOSING[opening], len(opening))
            parts = self.inside(kind == "map")
        elif first == b'"' or two == b'#"':
            kind = "text"
            self.at += len(two) if first == b"#" else 1
            while self.after() != b'"':
                self.at += 2 if self.after() == b"\\" else 1
                if self.at >= len(self.text):
                    raise Broken("E1", len(self.text))
            self.at += 1
        elif first == b"\\":
            kind = "char"
            self.at += 2
            if self.at > len(self.text):
                raise Broken("E1", len(self.text))
            self.run()
        elif first == b"#" and two != b"##":
            self.begin(None, 1)
            self.run()
            element = self.awaited()
            return Element(self.text[start:self.at], element.bare, element.kind, element.parts)
        else:
            kind = "atom"
            self.run()
        text = self.text[start:self.at]
        return Element(text, text, kind, parts)

    def inside(self, is_map):
        """The elements of a bracket, up to and past what closes it."""
        parts = []
        while element := self.element():
            parts.append(element)
        place = self.at
        self.close()
        if is_map and len(parts) % 2:
            raise Broken("E5", place)
        return parts


# The form: what an element says.


class Refused(Exception):
    """An element is left out, by this code."""


def fields(element, name):
    pairs = zip(element.parts[::2], element.parts[1::2])
    return [value for key, value in pairs if key.word() == b":" + name.encode()]


def field(element, name, is_needed=True):
    found = fields(element, name)
    if len(found) > 1:
        raise Refused("F3")
    if is_needed and not found:
        raise Refused("F2")
    return found[0] if found else None


def word(element, name, words, code):
    found = field(element, name).word()
    if found[:1] != b":" or found[1:].decode("latin-1") not in words:
        raise Refused(code)
    return found[1:].decode()


def value_of(element):
    """The value that an element is: nil, or an integer."""
    if element is None or element.word() == b"nil":
        return None
    if element.number() is None:
        raise Refused("F6")
    return element.number()


def moment_of(element):
    if element.number() is None or element.number() < 0:
        raise Refused("F7")
    return element.number()


def register_of(element, tower):
    """The number of the register that an element names."""
    found = [number for number, register in enumerate(tower) if register["name"] == element.bare]
    if not found:
        raise Refused("F8")
    return found[0]


def item_of(element, tower, moment):
    """What an element says, None where it is skipped."""
    if element.kind != "map":
        raise Refused("F1")
    if fields(element, "edit"):
        return edit_of(element, tower)
    if fields(element, "ask"):
        return {"what": "ask", "register": register_of(field(element, "ask"), tower)}
    return event_of(element, tower, moment)


def event_of(element, tower, moment):
    process = field(element, "process").number()
    if process is None:
        return None
    what = word(element, "type", ["invoke", "ok", "fail", "info"], "F4")
    f = word(element, "f", ["read", "write"], "F5")
    event = {"what": what, "process": process, "f": f}
    if what in ("fail", "info"):
        return event
    value, number = field(element, "value", is_needed=False), 0
    if value and value.kind == "vector" and len(value.parts) == 2:
        number, value = register_of(value.parts[0], tower), value.parts[1]
    elif len(tower) != 1:
        raise Refused("F8")
    value = None if (what, f) == ("invoke", "read") else value_of(value)
    return {**event, "register": number, "value": value, "moment": moment_of(field(element, moment))}


def edit_of(element, tower):
    what = word(element, "edit", ["amend", "withdraw", "claim"], "F4")
    if what == "claim":
        register = register_of(field(element, "register"), tower)
        return {"what": what, "register": register, "kind": word(element, "kind", ["safe", "regular", "atomic"], "F4")}
    of = field(element, "of").number()
    if of is None or of < 0:
        raise Refused("F6")
    changes = {}
    for name in ["value", "begin", "end"] if what == "amend" else []:
        found = field(element, name, is_needed=False)
        if found:
            is_open = name == "end" and found.word() == b"nil"
            changes[name] = value_of(found) if name == "value" else None if is_open else moment_of(found)
    return {"what": what, "of": of, "changes": changes}


# The pairing: what becomes of the elements of a trace.


def paired(item, place, accepted):
    """The step of an item, None where it is none. An event that is accepted is added to the earlier ones."""
    if item["what"] in ("ask", "claim"):
        return item
    if item["what"] in ("amend", "withdraw"):
        invocations = [event for event in accepted if event["what"] == "invoke" and event["place"] == item["of"]]
        if not invocations:
            raise Refused("P2")
        return {**item, "register": invocations[0]["register"]}
    last = next((event for event in reversed(accepted) if event["process"] == item["process"]), None)
    is_waiting = last is not None and last["what"] == "invoke"
    if item["what"] == "invoke" and is_waiting:
        raise Refused("P1")
    if item["what"] != "invoke" and not is_waiting:
        raise Refused("P2")
    if item["what"] == "ok":
        same = ["f", "register"] + ["value"] * (item["f"] == "write")
        if any(item[name] != last[name] for name in same):
            raise Refused("P3")
    accepted.append({**item, "place": place})
    if item["what"] == "invoke":
        return item
    if item["what"] == "info":
        return None
    changes = {"end": item["moment"]} if item["what"] == "ok" else {}
    if item["what"] == "ok" and item["f"] == "read":
        changes["value"] = item["value"]
    return {"what": item["what"], "register": last["register"], "of": last["place"], "changes": changes}


def steps_of(trace, tower, moment):
    """The steps of a trace, each with its place and its text; a refusal is one too. And what broke the trace, if so. A
    trace of None is one whose first read call failed."""
    if trace is None:
        return [], ("N1", 0)
    (elements, fault), steps, accepted = Text(trace).elements(), [], []
    for place, (element, _) in enumerate(elements):
        try:
            item = item_of(element, tower, moment)
            step = item and paired(item, place, accepted)
        except Refused as code:
            step = {"what": "refused", "code": str(code)}
        if step:
            steps.append({**step, "place": place, "text": element.text})
    return steps, fault


# A register: what stands, and what is refused.


def precedes(a, b):
    return a["end"] is not None and a["end"] < b["begin"]


def overlaps(a, b):
    return not precedes(a, b) and not precedes(b, a)


def writes_of(ops):
    return [op for op in ops if op["f"] == "write"]


def is_repeated(register, write, others):
    """Whether a write has the initial value, where that is known, or the value of another write."""
    is_initial = register["initial"] != UNKNOWN and write["value"] == register["initial"]
    return is_initial or any(other["value"] == write["value"] for other in writes_of(others))


def refuse_claim(register, ops, kind):
    """Raises the code that refuses the claim of a kind."""
    overlapping = any(overlaps(a, b) for a, b in itertools.combinations(writes_of(ops), 2))
    repeated = any(is_repeated(register, op, ops[:place]) for place, op in enumerate(ops) if op["f"] == "write")
    for code, holds in (("X10", register["fixed"]),
                        ("X11", kind != "atomic" and (register["writers"] is None or len(register["writers"]) != 1)),
                        ("X14", kind != "atomic" and register["initial"] == UNKNOWN),
                        ("X12", kind != "atomic" and overlapping),
                        ("X13", kind == "atomic" and repeated)):
        if holds:
            raise Refused(code)


def refuse(register, kind, new, others):
    """Raises the code that refuses an operation as it would be, beside the others that stand."""
    moments = [new["begin"]] + [new["end"]] * (new["end"] is not None)
    taken = [moment for op in others for moment in (op["begin"], op["end"])]
    writes, is_write = writes_of(others), new["f"] == "write"
    is_writer = register["writers"] is None or new["process"] in register["writers"]
    for code, holds in (("X3", new["end"] is not None and new["end"] <= new["begin"]),
                        ("X4", any(moment in taken for moment in moments)),
                        ("X5", max(moments) > GREATEST_MOMENT),
                        ("X6", is_write and not is_writer),
                        ("X7", is_write and kind != "atomic" and any(overlaps(new, write) for write in writes)),
                        ("X8", is_write and kind == "atomic" and is_repeated(register, new, writes)),
                        ("X9", is_write and register["domain"] is not None and new["value"] not in register["domain"])):
        if holds:
            raise Refused(code)


class Standing:
    """A register with the kind that it claims and the operations that stand, in the order in which they were added."""

    def __init__(self, register):
        self.register, self.kind, self.ops = register, register["kind"], []

    def take(self, trace, step):
        """Applies an edit, or raises the code that refuses it."""
        what, place, text = step["what"], step["place"], step["text"]
        if what == "claim":
            refuse_claim(self.register, self.ops, step["kind"])
            self.kind = step["kind"]
            return
        if what == "invoke":
            new = {"id": (trace, place), "process": step["process"], "f": step["f"], "value": step["value"],
                   "begin": step["moment"], "end": None, "texts": [text, None, None]}
            refuse(self.register, self.kind, new, self.ops)
            self.ops.append(new)
            return
        found = [op for op in self.ops if op["id"] == (trace, step["of"])]
        if not found:
            raise Refused("X1")
        at = self.ops.index(found[0])
        others = self.ops[:at] + self.ops[at + 1:]
        if what in ("fail", "withdraw"):
            self.ops = others
            return
        texts = list(found[0]["texts"])
        texts[1 if what == "ok" else 2] = text
        new = {**found[0], **step["changes"], "texts": texts}
        refuse(self.register, self.kind, new, others)
        self.ops[at] = new


# The verdict.

UNKNOWN = "unknown"
# A value that no operation has.
OTHER = "other"


def is_ordered(ops, initial):
    """Whether some order of the operations keeps precedence, and in it each read returns the value of the latest write
    before it, or the initial value where there is none: all orders are searched, place by place."""
    before = [sum(1 << other for other, a in enumerate(ops) if precedes(a, b)) for b in ops]

    @functools.lru_cache(maxsize=None)
    def goes_on(placed, value):
        if placed == (1 << len(ops)) - 1:
            return True
        for at, op in enumerate(ops):
            is_next = not placed >> at & 1 and before[at] & placed == before[at]
            if is_next and (op["f"] == "write" or op["value"] == value) and goes_on(placed | 1 << at, op["value"]):
                return True
        return False

    return goes_on(0, initial)


def is_atomic(ops, initial):
    """Whether the operations have such an order; where nobody knows the initial value, with some value that no write
    has."""
    if initial != UNKNOWN:
        return is_ordered(ops, initial)
    written = {op["value"] for op in writes_of(ops)}
    return any(is_ordered(ops, value) for value in {op["value"] for op in ops} - written | {OTHER})


def is_wrong(register, kind, read, ops):
    """Whether a read returned what a safe or regular register may not."""
    before = [op for op in writes_of(ops) if precedes(op, read)]
    during = [op for op in writes_of(ops) if overlaps(op, read)]
    last = max(before, key=lambda op: op["begin"])["value"] if before else register["initial"]
    if kind == "regular":
        return read["value"] not in [last] + [op["value"] for op in during]
    if not during:
        return read["value"] != last
    return register["domain"] is not None and read["value"] not in register["domain"] + [register["initial"]]


def name_of(op):
    return "initial" if op["id"] is None else f"{op['id'][0]}:{op['id'][1]}"


# The initial value, as a write before all moments. A missing end comes after all.
BEFORE, NEVER = -1, math.inf


def end_of(op):
    return NEVER if op["end"] is None else op["end"]


def clusters_of(ops, initial):
    """The operations of the initial value, and of each value that a write has, the write first; by the left ends of the
    zones."""
    values = {op["value"]: [op] for op in writes_of(ops)}
    reads = [op for op in ops if op["f"] == "read"]
    if initial == UNKNOWN:
        unwritten = {op["value"] for op in reads} - set(values)
        initial = unwritten.pop() if len(unwritten) == 1 else UNKNOWN
    if initial != UNKNOWN:
        values[initial] = [{"id": None, "f": "write", "value": initial, "begin": BEFORE, "end": BEFORE}]
    for read in sorted(reads, key=lambda op: op["begin"]):
        values.get(read["value"], []).append(read)
    return sorted(values.values(), key=lambda cluster: min(zone_of(cluster)))


def zone_of(cluster):
    """The least end of a cluster and its greatest beginning: a forward zone where the former is less."""
    return min(end_of(op) for op in cluster), max(op["begin"] for op in cluster)


def conflict_of(clusters):
    """The operations of the first conflict: of the first zone that meets an earlier forward one, and of the earlier
    forward zone that goes farthest."""
    for at, second in enumerate(clusters):
        forward = [cluster for cluster in clusters[:at] if zone_of(cluster)[0] < zone_of(cluster)[1]]
        (end, begin), ends = zone_of(second), [zone_of(cluster) for cluster in forward]
        if any(first_end < begin and end < first_begin for first_end, first_begin in ends):
            first = max(forward, key=lambda cluster: zone_of(cluster)[1])
            return [min(first, key=end_of), max(second, key=lambda op: op["begin"]), min(second, key=end_of),
                    max(first, key=lambda op: op["begin"])]
    return None


def atomic_fault(ops, initial):
    """Why there is no order: the words of the line, and the operations."""
    written = {op["value"]: op for op in writes_of(ops)}
    reads = sorted((op for op in ops if op["f"] == "read"), key=end_of)
    unwritten = [op for op in reads if op["value"] not in written and op["value"] != initial]
    if initial == UNKNOWN:
        others = [op for op in unwritten if op["value"] != unwritten[0]["value"]]
        if others:
            return "unwritten {} and {}", [unwritten[0], others[0]]
    elif unwritten:
        return "unwritten {}", unwritten[:1]
    for read in reads:
        if read["value"] in written and precedes(read, written[read["value"]]):
            return "early {} before {}", [read, written[read["value"]]]
    conflict = conflict_of(clusters_of(ops, initial))
    return conflict and ("conflict {} {} {} {}", conflict)


def fault_of(standing):
    """Why a register fails, None where it holds."""
    judged = [op for op in standing.ops if op["f"] == "write" or op["end"] is not None]
    if standing.kind == "atomic":
        fault = atomic_fault(judged, standing.register["initial"])
        assert is_atomic(judged, standing.register["initial"]) == (fault is None), "the definitions disagree"
        return fault
    wrong = [op for op in judged if op["f"] == "read" and is_wrong(standing.register, standing.kind, op, standing.ops)]
    return ("wrong {}", [min(wrong, key=end_of)]) if wrong else None


def order_of(standing):
    """An order of the operations of an atomic register that holds: by the zones of the values."""
    judged = [op for op in standing.ops if op["f"] == "write" or op["end"] is not None]
    order = sum(clusters_of(judged, standing.register["initial"]), [])
    order = [op for op in order if op["id"] is not None]
    keeps = all(not precedes(b, a) for a, b in itertools.combinations(order, 2))
    assert keeps and len(order) == len(judged), "it is no order of the operations"
    return order


# The tower file, and the report.


def tower_of(text):
    """The registers of a tower file that the program takes, by number."""
    ((file, _),), _ = Text(text).elements()
    tower = []
    for level in field(file, "levels").parts:
        for element in field(level, "registers").parts:
            writers, initial, domain = (field(element, name, False) for name in ("writers", "initial", "domain"))
            parts, fixed = field(element, "of", False), field(element, "fixed", False)
            tower.append({
                "name": field(element, "name").bare, "kind": field(element, "kind").word()[1:].decode(),
                "writers": None if writers.word() == b":any" else [writer.number() for writer in writers.parts],
                "initial": UNKNOWN if initial and initial.word() == b":unknown" else value_of(initial),
                "domain": domain and [value_of(value) for value in domain.parts],
                "parts": [register_of(part, tower) for part in parts.parts] if parts else [],
                "fixed": fixed is not None and fixed.word() == b"true"})
    return tower


def printed(text):
    """A name or a text as it is printed."""
    return "".join(character if character >= " " else " " for character in text.decode("utf-8", "replace"))


def verdict(register, standing, fault):
    return f"{'fails' if fault else 'holds'} {len(standing.ops)}"


def fault_lines(words, ops):
    yield "  " + words.format(*map(name_of, ops))
    shown = [op for at, op in enumerate(ops) if at != 2 or op["id"] != ops[1]["id"]]
    for op in shown:
        yield from ("  | " + printed(text) for text in op.get("texts", []) if text is not None)


def interleavings(counts):
    """Each order in which steps of traces may arrive, so many of each trace: the numbers of the traces."""
    if not any(counts):
        yield []
    for trace, many in enumerate(counts):
        if many:
            for rest in interleavings(counts[:trace] + [many - 1] + counts[trace + 1:]):
                yield [trace] + rest


class Check:
    """A tower and traces; the steps of these do not depend on the order in which they arrive."""

    def __init__(self, tower, traces, moment="index", order=None, least=0):
        self.tower, self.order, self.least = tower_of(tower), order, least
        self.read = [steps_of(trace, self.tower, moment) for trace in traces]

    def arrivals(self):
        """Each order of arrival of the steps; the first is one trace after another."""
        return interleavings([len(steps) for steps, _ in self.read])

    def checked(self, arrival):
        """The report where the steps arrive so, and the status."""
        standings = [Standing(register) for register in self.tower]
        left, notes = [iter(steps) for steps, _ in self.read], [[] for _ in self.read]
        for trace in arrival:
            step = next(left[trace])
            notes[trace] += self.noted(standings, trace, step)
        faults = [fault_of(standing) for standing in standings]
        lines = []
        for register, standing, fault in zip(self.tower, standings, faults):
            name = printed(register["name"])
            lines.append(f"register {name} {standing.kind} {verdict(register, standing, fault)}")
            lines += fault_lines(*fault) if fault else []
        lines += [f"culprit {printed(register['name'])}" for register, fault in zip(self.tower, faults)
                  if fault and not any(faults[part] for part in register["parts"])]
        for trace, (_, broken) in enumerate(self.read):
            lines += notes[trace] + ([f"broken {trace} {broken[0]} at {broken[1]}"] if broken else [])
        lines += self.order_lines(standings, faults)
        refused = any(note.startswith("refused") for trace in notes for note in trace)
        is_short = sum(len(standing.ops) for standing in standings) < self.least
        broken = any(broken for _, broken in self.read)
        status = 2 if broken else 1 if any(faults) else 3 if refused else 4 if is_short else 0
        return "".join(line + "\n" for line in lines).encode(), status

    def noted(self, standings, trace, step):
        """Takes a step; the lines of it."""
        if step["what"] == "refused":
            return [f"refused {trace}:{step['place']} {step['code']}"]
        standing = standings[step["register"]]
        if step["what"] == "ask":
            register = self.tower[step["register"]]
            said = verdict(register, standing, fault_of(standing))
            return [f"answer {trace}:{step['place']} {printed(register['name'])} {said}"]
        try:
            standing.take(trace, step)
        except Refused as code:
            return [f"refused {trace}:{step['place']} {code}"]
        return []

    def order_lines(self, standings, faults):
        if self.order is None:
            return []
        number = register_of(Element(self.order, self.order, "atom"), self.tower)
        ids = ["none"]
        if standings[number].kind == "atomic" and not faults[number]:
            ids = [name_of(op) for op in order_of(standings[number])]
        return [" ".join(["order", printed(self.tower[number]["name"])] + ids)]
