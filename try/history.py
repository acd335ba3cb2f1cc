"""Histories for the scripts of this folder: towers and traces by chance, and what should become of them.

`Run` is a tower file and traces of all kinds of elements, of which no two traces meet on one register; `applied` is the
plain twin of the program, which applies the elements that were not refused, so that each register is there as it should
be at the end. `one_register` is a history of one register that mostly is right, `files_of` its tower file and trace.
`of_items` and `cut` make traces of the elements of one. `event`, `write` and `read` are single elements.
"""
import os
import pathlib
import random

TOP = pathlib.Path(__file__).resolve().parents[1]
# The program that is tried: the one that the environment variable REGAUDIT names, else the one built in this repository.
PROGRAM = os.path.abspath(os.environ.get("REGAUDIT", TOP / "crates/regaudit/out/regaudit"))
KINDS = ["safe", "regular", "atomic"]

# Single elements.


def event(process, type_, f, register, value, moment):
    return f"{{:process {process} :type :{type_} :f :{f} :value [{register} {value}] :index {moment}}}\n"


def write(register, value, begin, end):
    return event(0, "invoke", "write", register, value, begin) + event(0, "ok", "write", register, value, end)


def read(register, value, begin, end):
    return event(1, "invoke", "read", register, "nil", begin) + event(1, "ok", "read", register, value, end)


# A history of one register.


def one_register(chance):
    """Operations as (process, is a write, value, begin, end), and the kind of a register that they are of."""
    kind = chance.choice(["safe", "regular", "atomic", "atomic"])
    processes, many = chance.randint(1, 5), chance.randint(0, 30)
    scale = chance.choice([1, 1, 7, 1000000007])
    free = {process: 0 for process in range(processes)}
    moments = sorted(chance.sample(range(8 * many + 8), 2 * many))
    ops, written, waiting = [], [], []
    for _ in range(many):
        process = min(free, key=lambda p: (free[p], p)) if chance.random() < 0.7 else chance.choice(list(free))
        later = [m for m in moments if m >= free[process]]
        if len(later) < 2:
            break
        begin = later[0]
        end = later[min(len(later) - 1, chance.randint(1, 4))]
        moments = [m for m in moments if m not in (begin, end)]
        writes = (process == 0 or kind == "atomic") and chance.random() < 0.4
        if writes:
            value = chance.choice([1, -1]) * chance.choice([len(written) + 1, 10**18 + len(written)])
            written.append(value)
        else:
            value = chance.choice((written or [0])[-3:] + ([99] if chance.random() < 0.05 else []))
        ends = None if chance.random() < 0.06 and not (writes and kind != "atomic") else end * scale
        ops.append((process, writes, value, begin * scale, ends))
        free[process] = end + 1 if ends is not None else 10**9
    return kind, ops


def files_of(kind, ops, name):
    tower = b'{:levels [{:name l :registers [{:name "%s" :kind :%s :writers [0%s] :initial 0%s}]}]}' % (
        name, kind.encode(), b" 1 2 3 4" if kind == "atomic" else b"", b" :domain [0]" if kind == "safe" else b"")
    events = []
    for process, writes, value, begin, end in ops:
        act = b"write" if writes else b"read"
        events.append((begin, process, b"invoke", act, value if writes else "nil"))
        if end is not None:
            events.append((end, process, b"ok", act, value))
    lines = [b'{:process %d :type :%s :f :%s :value ["%s" %s] :index %d}\n' % (process, step, act, name, str(value).encode(), at)
             for at, process, step, act, value in sorted(events)]
    return tower, b"".join(lines)


# Runs: a tower, and traces of which each has registers of its own.

NAMES = [b"x", b"y", b"r1", b":k", b"7", b"-3", b"a'b", b'"a b"', b'"q\\"u\\\\"', b"[1 2]", b"{:a 1}", b"\\c", b"#{1}",
         b"()", b'"\xff\xc3"', b"\xce\xb1\xff", b'"tab\tline\nend"', b"a\x01b\x7f", b'"\xed\xa0\x80 \xe2\x82"',
         b'"\xc2\x85\xe2\x80\xa8\xf0\x9f\x98\x80"', b"</a>&", b"nil", b"initial", b":domain"]
NOTES = [b'"n"', b'"\\"\\\\ \t"', b'"\xff\xfe"', b'"\xe2\x80\xa9\xf0\x9f\x98\x80"', b"[1 ;c\n 2]", b"{:process 9}",
         b"\\\"", b"a/b\\c"]
TAGS = [b"#op ", b"#a #b ", b"#j/x", b"#\xc3\xa9;x\n"]
FILES = ["tower.edn", 'to"wer.edn', "to\\wer.edn", "t\u00f6wer.edn", "a b.edn", "\U0001f600.edn", "ta\tb.edn"]
# Elements that are refused by their form, or skipped, and what can be read of them all the same: `register` is NAME, or
# the tower's only one; `writes` is what it would have written; `of` the place that it edits; `answers` the process whose
# invocation it answers; `claims` that it claims a kind.
UNREAD = "unread"
JUNK = [(b"5", {}), (b'"text"', {}), (b"{}", {}), (b"{:process 0}", {}), (b"{:edit :withdraw}", {}),
        (b"{:process 0 :process 1}", {}), (b"{:ask a :ask a}", {}), (b"{:process 0 :type :begin}", {}),
        (b"{:process 0 :type :invoke :f :write :index -1 :time -1}", {"register": "only", "writes": [None]}),
        (b"{:edit :move :of 0}", {"of": 0}),
        (b"{:process 0 :type :info :f :cas}", {"answers": 0}),
        (b"{:process 0 :type :fail :f :cas :value [NAME [1 VALUE]]}", {"register": "NAME", "answers": 0}),
        (b"{:process 0 :type :invoke :f :cas :value [NAME [1 VALUE]] :index 3 :time 3}",
         {"register": "NAME", "writes": ["VALUE"]}),
        (b"{:process 0 :type :ok :f :cas :value [NAME [1 VALUE]] :index 3 :time 3}",
         {"register": "NAME", "writes": ["VALUE"], "answers": 0}),
        (b"{:process 0 :type :invoke :f :cas :value [NAME [VALUE 1.5]] :index 3 :time 3}",
         {"register": "NAME", "writes": [UNREAD]}),
        (b"{:process 0 :type :ok :f :read :value [NAME 1.5] :index 3 :time 3}", {"register": "NAME", "answers": 0}),
        (b"{:process 0 :type :invoke :f :write :value [NAME 1.5] :index 3 :time 3}",
         {"register": "NAME", "writes": [UNREAD]}),
        (b"{:edit :amend :of -1}", {}), (b"{:edit :amend :of 0 :value x}", {"of": 0, "writes": [UNREAD]}),
        (b"{:process 0 :type :invoke :f :write :value [NAME VALUE] :index -1 :time -1}",
         {"register": "NAME", "writes": ["VALUE"]}),
        (b"{:edit :amend :of 0 :begin nil}", {"of": 0}),
        (b"{:process 0 :type :invoke :f :write :value [nowhere 1] :index 3 :time 3}", {"writes": [1]}),
        (b"{:ask nowhere}", {}), (b"{:edit :claim :register nowhere :kind :safe}", {"claims": True}),
        (b"{:edit :claim :register NAME :kind :linear}", {"register": "NAME", "claims": True}),
        (b"{:process :nemesis :type :info :f :kill}", {}), (b"#t {:process nil :type :ok :f :read}", {})]
GAPS = [b"#_ {:a 1}\n", b"; a comment { \n", b",,,", b"#_#_ 1 2 "]
BREAKS = [b"]", b"[1 2)", b"[" * 65, b"{:a}", b"[#t]"]
TAILS = BREAKS + [b"{:process 0 :type", b'"text', b"#_", b"\\"]
UNKNOWN = "unknown"


def value_text(chance, value):
    if value is None:
        return b"nil"
    text = b"%d" % value
    return chance.choice([text] * 8 + [text + b"N", b"+" + text if value >= 0 else text])


class Register:
    def __init__(self, chance, place, name, processes):
        self.number, self.name = place, name
        self.kind = chance.choice(KINDS + ["atomic"])
        one = self.kind != "atomic" or chance.random() < 0.5
        self.writers = [chance.choice(processes)] if one else chance.choice([None, None, None, processes[:2]])
        self.base = chance.choice([0, 0, 100, -50, 2**62, -2**63, 2**53 + 1])
        self.domain, self.initial = None, chance.choice([None, None, 0, self.base + 1000])
        if chance.random() < (0.6 if self.kind == "safe" else 0.1):
            self.domain = [self.base + n for n in range(chance.choice([1, 2, 3, 6]))] + chance.choice([[], [None]])
            self.initial = chance.choice(self.domain)
        if self.kind == "atomic" and chance.random() < 0.25:
            self.initial = UNKNOWN
        self.fixed, self.parts, self.level = chance.random() < 0.1, [], None
        # What the traces do with it.
        self.mood = chance.choice(["right", "right", "stale", "unwritten", "early", "any"])
        self.current = None if self.initial == UNKNOWN else self.initial
        self.past, self.written = [self.current], 0

    def next_value(self):
        return self.base + self.written + 1

    def write_value(self, chance):
        if self.domain:
            return chance.choice(self.domain) if chance.random() < 0.93 else self.base + 5000
        if chance.random() < (0.06 if self.kind == "atomic" else 0.25):
            return chance.choice(self.past)
        self.written += 1
        return self.base + self.written

    def read_value(self, chance):
        """What a read returns: mostly what the register has, and by its mood an old, a new or another value."""
        mood = chance.choice(["stale", "unwritten", "early"]) if self.mood == "any" else self.mood
        if self.kind == "safe" and self.domain and mood != "stale" and chance.random() < 0.5:
            return 777777
        if mood == "right" or chance.random() < 0.6:
            return self.current
        if mood == "stale":
            return chance.choice(self.past[-5:])
        return self.next_value() if mood == "early" else chance.choice([777777, 888888])

    def text(self, chance):
        writers = b":any" if self.writers is None else b"[%s]" % b" ".join(b"%d" % process for process in self.writers)
        fields = [b":name " + chance.choice([b"", b"", b"#t "]) + self.name, b":kind :" + self.kind.encode(),
                  b":writers " + writers]
        if self.initial is not None or chance.random() < 0.5:
            fields.append(b":initial " + (b":unknown" if self.initial == UNKNOWN else value_text(chance, self.initial)))
        if self.domain is not None:
            fields.append(b":domain [%s]" % b" ".join(value_text(chance, value) for value in self.domain))
        if self.parts:
            fields.append(b":of [%s]" % b" ".join(part.name for part in self.parts))
        if self.fixed:
            fields.append(b":fixed true")
        chance.shuffle(fields)
        return b"{" + b" ".join(fields) + b"}"


class Trace:
    """Elements, each with its text and what it says, in the order of their places; and the bytes of all of it."""

    def __init__(self, chance, registers, processes, alone, moment):
        self.chance, self.registers, self.processes = chance, registers, processes
        self.alone, self.moment, self.calm = alone, moment, chance.random() < 0.3
        self.items, self.bytes, self.clock, self.waiting, self.invoked = [], b"", 0, {}, []
        if chance.random() < 0.05:
            # A byte order mark, which is an element of its own.
            self.bytes = b"\xef\xbb\xbf" + chance.choice([b"\n", b"; c\n"])
            self.items.append({"what": "none", "text": self.bytes[:3], "starts": 0, "ends": 3})
        steps = chance.choice([0, 6, 25, 60, 60])
        broken = steps if chance.random() < 0.1 else chance.randrange(steps + 1) if chance.random() < 0.05 else None
        if self.calm:
            broken = None
        for step in range(steps + 1):
            if step == broken:
                self.bytes += chance.choice(TAILS if step == steps else BREAKS)
            if step < steps:
                self.step()

    def add(self, text, **says):
        """Adds an element, whose place is then the number of elements before it."""
        if self.chance.random() < 0.06:
            text = self.chance.choice(TAGS if text.startswith(b"{") else TAGS[:2]) + text
        starts = len(self.bytes)
        self.bytes += text
        self.items.append(dict(says, text=text, starts=starts, ends=len(self.bytes)))
        self.bytes += self.chance.choice([b"\n", b"\n", b"\n", b" ", b"\n\n", b", ", b"\r\n"])
        if self.chance.random() < 0.04:
            self.bytes += self.chance.choice(GAPS)

    def line_of(self, byte):
        """The line of a byte, each from 1 and ended by a byte 10."""
        return 1 + self.bytes.count(b"\n", 0, byte)

    def place_of(self, number):
        """The line of the first byte of an element, and that byte."""
        starts = self.items[number]["starts"]
        return {"line": self.line_of(starts), "byte": starts}

    def fields(self, fields):
        chance = self.chance
        fields = [b":%s %s" % field for field in fields]
        if chance.random() < 0.15:
            fields.append(b":note " + chance.choice(NOTES))
        chance.shuffle(fields)
        return b"{" + chance.choice([b" "] * 6 + [b", ", b"\n ", b" ;c\n", b"\t"]).join(fields) + b"}"

    def value(self, register, value):
        text = value_text(self.chance, value)
        if self.alone and self.chance.random() < 0.5:
            return text
        return b"[%s%s %s]" % (self.chance.choice([b"", b"", b"", b"#t "]), register.name, text)

    def event(self, process, type_, f, register, value=None):
        chance, moment = self.chance, None
        fields = [(b"process", value_text(chance, process)), (b"type", b":" + type_.encode())]
        fields.append((b"f", b":" + f.encode()))
        if type_ in ("invoke", "ok"):
            self.clock += chance.choice([1, 1, 2, 5])
            moment = self.clock
            if not self.calm and chance.random() < 0.03:
                moment = chance.choice([self.clock - 1, chance.randrange(self.clock + 1), 2**62 - 1, 2**62, 2**63 - 1])
            fields += [(b"value", self.value(register, value)), (self.moment, b"%d" % moment)]
        elif chance.random() < 0.3:
            fields.append((b"value", self.value(register, value)))
        self.add(self.fields(fields), what=type_, process=process, f=f, register=register, value=value, moment=moment)

    def step(self):
        chance, dice = self.chance, self.chance.random()
        if self.registers and self.calm and dice < 0.22:
            dice = chance.choice([0.07, 0.5])
        if not self.registers or dice < 0.05:
            register = chance.choice(self.registers) if self.registers else None
            value = chance.choice([register.current, register.past[-1], register.next_value()]) if register else None
            text, gist = chance.choice(JUNK)
            text = text.replace(b"NAME", register.name if register else b"nowhere")
            self.add(text.replace(b"VALUE", value_text(chance, value)), what="none", gist=gist, register=register, value=value)
        elif dice < 0.1:
            register = chance.choice(self.registers)
            self.add(self.fields([(b"ask", register.name)]), what="ask", register=register)
        elif dice < 0.14:
            register, kind = chance.choice(self.registers), chance.choice(KINDS)
            for _ in range(3):
                # Most claims are of another kind, of a register that one process writes.
                if register.kind == kind or register.writers is None or register.fixed:
                    register, kind = chance.choice(self.registers), chance.choice(KINDS)
            self.add(self.fields([(b"edit", b":claim"), (b"register", register.name), (b"kind", b":" + kind.encode())]),
                     what="claim", register=register, kind=kind)
        elif dice < 0.205 and self.items:
            self.edit()
        elif dice < 0.22:
            self.fault_of_pairing()
        else:
            process = chance.choice(self.processes)
            if process in self.waiting:
                self.answer(process)
            else:
                self.invoke(process)

    def invoke(self, process):
        chance, register = self.chance, self.chance.choice(self.registers)
        writer = register.writers is None or process in register.writers
        if chance.random() < (0.5 if writer else 0 if self.calm else 0.04):
            value = register.write_value(chance)
            self.waiting[process] = ("write", register, value)
        else:
            value = None
            self.waiting[process] = ("read", register, None)
        self.invoked.append(len(self.items))
        self.event(process, "invoke", self.waiting[process][0], register, value)

    def answer(self, process):
        chance = self.chance
        f, register, value = self.waiting.pop(process)
        open_ = 0.1 if f == "read" or register.writers is None else 0.25 if register.kind == "atomic" else 0.02
        type_ = "fail" if chance.random() < 0.05 else "info" if chance.random() < open_ else "ok"
        if type_ == "ok" and f == "read":
            value = register.read_value(chance)
        elif type_ == "ok":
            register.current = value
            register.past.append(value)
        self.event(process, type_, f, register, value)

    def fault_of_pairing(self):
        chance, process = self.chance, self.chance.choice(self.processes)
        register = chance.choice(self.registers)
        if process not in self.waiting:
            self.event(process, chance.choice(["ok", "fail", "info"]), chance.choice(["read", "write"]), register)
        elif chance.random() < 0.5:
            self.event(process, "invoke", "read", register)
        else:
            f, register, value = self.waiting[process]
            self.event(process, "ok", "write", register, 5 if value != 5 else 6)

    def edit(self):
        chance = self.chance
        of = chance.randrange(len(self.items) + 2)
        if self.invoked and chance.random() < 0.9:
            of = chance.choice(self.invoked)
        if chance.random() < 0.3:
            self.add(self.fields([(b"edit", b":withdraw"), (b"of", b"%d" % of)]), what="withdraw", of=of)
            return
        fields, changes = [(b"edit", b":amend"), (b"of", b"%d" % of)], {}
        if chance.random() < 0.5:
            register = chance.choice(self.registers)
            changes["value"] = chance.choice([None, register.current, register.next_value(), register.past[-1]])
        if chance.random() < 0.3:
            changes["begin"] = chance.randrange(self.clock + 2)
        if chance.random() < 0.4:
            far = self.clock + 10**6 + len(self.items)
            changes["end"] = chance.choice([None, chance.randrange(self.clock + 2), far])
        fields += [(name.encode(), value_text(chance, value)) for name, value in changes.items()]
        self.add(self.fields(fields), what="amend", of=of, changes=changes)


class Run:
    """A tower file and traces, the words of the command, and what was made for them."""

    def __init__(self, seed, number):
        chance = random.Random(f"{seed} {number}")
        many = chance.choice([1, 1, 2, 3, 5, 8, 8])
        traces = min(chance.choice([1, 1, 2, 3]), many + (chance.random() < 0.1))
        processes = [chance.sample([0, 1, 2, 3, 4, 10**9, -1, -2**63], chance.randint(1, 5)) for _ in range(traces)]
        names = chance.sample(NAMES, many + 3)
        self.registers = [Register(chance, n, names[n], processes[n % traces]) for n in range(many)]
        cuts = chance.choices(range(many + 1), k=chance.choice([0, 1, 1, 2]))
        self.levels = [names[many + n] for n in range(len(cuts) + 1)]
        for register in self.registers:
            register.level = sum(cut <= register.number for cut in cuts)
            below = [part for part in self.registers[:register.number] if part.level < register.level]
            register.parts = chance.sample(below, min(len(below), chance.choice([0, 1, 2, 3])))
        self.moment = chance.choice(["index", "index", "time"])
        self.traces = [Trace(chance, [r for r in self.registers if r.number % traces == n], processes[n], many == 1,
                             self.moment.encode()) for n in range(traces)]
        self.files = chance.sample(FILES, traces + 1)
        self.folders = [chance.random() < 0.01 for _ in range(traces)]
        for trace, folder in zip(self.traces, self.folders):
            if folder:
                trace.items, trace.bytes = [], b""
        self.words = [b"--tower=" + self.files[0].encode()]
        if self.moment == "time" or chance.random() < 0.1:
            self.words.append(b"--moment=" + self.moment.encode())
        if chance.random() < 0.3:
            self.words.append(b"--shards=%d" % chance.randint(1, 5))
        self.least = chance.choice([1, 10, 40]) if chance.random() < 0.2 else 0
        if self.least:
            self.words.append(b"--least=%d" % self.least)
        self.order = chance.choice(self.registers) if chance.random() < 0.5 else None
        if self.order and is_utf8(self.order.name):
            self.words.append(b"--order=" + self.order.name)
        else:
            self.order = None
        self.words += [file.encode() for file in self.files[1:]]
        levels = []
        for level, name in enumerate(self.levels):
            texts = [register.text(chance) for register in self.registers if register.level == level]
            levels.append(b"{:name %s :registers [%s]}" % (name, b"\n".join(texts)))
        self.tower = b"{:levels [%s]}\n" % b"\n".join(levels)

    def place_of(self, id_):
        """Where an element is; none where the id is a word in place of one."""
        trace, colon, number = id_.partition(":")
        return self.traces[int(trace)].place_of(int(number)) if colon else None

    def lay_out(self, folder):
        with open(os.path.join(folder, self.files[0]), "wb") as file:
            file.write(self.tower)
        for name, trace, is_folder in zip(self.files[1:], self.traces, self.folders):
            path = os.path.join(folder, name)
            if is_folder:
                os.mkdir(path)
            else:
                with open(path, "wb") as file:
                    file.write(trace.bytes)


def of_items(items):
    """A trace of these elements of a trace."""
    trace = object.__new__(Trace)
    trace.items, trace.bytes = [], b""
    for item in items:
        starts = len(trace.bytes)
        trace.bytes += item["text"] + b"\n"
        trace.items.append(dict(item, starts=starts, ends=len(trace.bytes) - 1))
    return trace


def cut(trace):
    """The trace as two, by processes; the first is the one with fewer writes."""
    processes = sorted({item["process"] for item in trace.items if "process" in item})
    parts = [], []
    for item in trace.items:
        parts[item.get("process") in processes[::2]].append(item)
    return [of_items(part) for part in sorted(parts, key=lambda part: sum(item.get("f") == "write" for item in part))]


def is_utf8(name):
    try:
        name.decode()
        return True
    except UnicodeDecodeError:
        return False


# What should become of a run: the elements that were not refused, applied in turn.


def printed(name):
    return "".join(" " if char < " " else char for char in name.decode("utf-8", "replace"))


def precedes(a, b):
    return a["end"] is not None and a["end"] < b["begin"]


def overlap(a, b):
    return not precedes(a, b) and not precedes(b, a)


def by_begin(ops):
    return sorted(ops, key=lambda op: op["begin"])


class Held:
    """A register with its operations, by the places of their invocations, in the order in which they were added."""

    def __init__(self, register):
        self.register, self.kind, self.ops = register, register.kind, {}

    def writes(self, but=None):
        return [op for op in self.ops.values() if op["f"] == "write" and (but is None or op["id"] != but["id"])]

    def collisions(self, code, new):
        """What a claim, or an edit that would make the operation `new`, collides with where the code refuses it."""
        if code == "X4":
            moments = [moment for moment in (new["begin"], new["end"]) if moment is not None]
            return [op["id"] for moment in moments for op in self.ops.values()
                    if op["id"] != new["id"] and moment in (op["begin"], op["end"])][:1]
        if code == "X7":
            return [op["id"] for op in by_begin(self.writes(new)) if overlap(op, new)][:1]
        if code == "X8":
            return ([op["id"] for op in self.writes(new) if op["value"] == new["value"]] + ["initial"])[:1]
        if code == "X12":
            return [op["id"] for pair in ((a, b) for a in by_begin(self.writes()) for b in by_begin(self.writes(a))
                                          if overlap(a, b)) for op in pair][:2]
        if code == "X13":
            writes = self.writes()
            for at, op in enumerate(writes):
                same = [other["id"] for other in writes[:at] if other["value"] == op["value"]]
                if same or op["value"] == self.register.initial:
                    return [op["id"], same[0] if same else "initial"]
        return []

    def allowed(self, read):
        """What a read might have returned, and what each of these values comes from."""
        overlapping = by_begin(op for op in self.writes() if overlap(op, read))
        before = by_begin(op for op in self.writes() if precedes(op, read))
        first = {"value": before[-1]["value"], "id": before[-1]["id"]} if before else {
            "value": self.register.initial, "id": "initial"}
        if self.kind == "regular":
            return [first] + [{"value": op["value"], "id": op["id"]} for op in overlapping]
        if not overlapping:
            return [first]
        return [{"value": value, "id": "domain"} for value in self.register.domain] + [
            {"value": self.register.initial, "id": "initial"}]


def about_junk(run, feeder, item, waiting, invoked):
    """What an element that its form refuses is about, by what can be read of it."""
    gist = item.get("gist", {})
    target = waiting.get(gist["answers"]) if "answers" in gist else gist["of"] if gist.get("of") in invoked else None
    register = {"NAME": item.get("register"), "only": run.registers[0] if len(run.registers) == 1 else None}.get(
        gist.get("register"))
    number = register.number if register else invoked.get(target)
    writes = [item["value"] if value == "VALUE" else value for value in gist.get("writes", [])]
    return {"register": number, "writes": writes, "of": None if target is None else f"{feeder}:{target}",
            "claims": gist.get("claims", False)}


def about(run, feeder, code, item, waiting, invoked):
    """What a refused element is about: its register, what it would have written, the operation that it answers or edits,
    and whether it claims a kind."""
    what = item["what"]
    if what == "none":
        return about_junk(run, feeder, item, waiting, invoked)
    found = {"register": None, "writes": [], "of": None, "claims": what == "claim"}
    if what in ("invoke", "claim"):
        found["register"] = item["register"].number
    if what in ("ok", "fail", "info") and item["process"] in waiting:
        target = waiting[item["process"]]
        found["of"], found["register"] = f"{feeder}:{target}", invoked[target]
    if what in ("amend", "withdraw") and item["of"] in invoked:
        found["of"], found["register"] = f"{feeder}:{item['of']}", invoked[item["of"]]
    if what == "ok" and code[0] == "P":
        found["register"] = item["register"].number
    if what == "invoke" and item["f"] == "write" or what == "ok" and code[0] == "P" and item["f"] == "write":
        found["writes"] = [item["value"]]
    if what == "amend" and "value" in item["changes"]:
        found["writes"] = [item["changes"]["value"]]
    return found


def touches(found, ops):
    """Whether a refused element touches a failure that these operations show."""
    return bool(ops) and (found["claims"] or UNREAD in found["writes"] or any(
        op["id"] == found["of"] or op["value"] in found["writes"] for op in ops))


def applied(run, refused, broken):
    """Each register as it is at the end, by number; what each refused element collides with, by its id; and what each is
    about."""
    held, collisions, left_out = {register.number: Held(register) for register in run.registers}, {}, {}
    for feeder, trace in enumerate(run.traces):
        waiting, invoked = {}, {}
        for place, item in enumerate(trace.items):
            if feeder in broken and item["ends"] > broken[feeder]:
                break
            code, what, text = refused.get(f"{feeder}:{place}", ""), item["what"], printed(item["text"])
            if code:
                left_out[f"{feeder}:{place}"] = about(run, feeder, code, item, waiting, invoked)
            if code[:1] in ("F", "P") or what in ("none", "ask"):
                continue
            new, of = None, place
            if what == "invoke":
                waiting[item["process"]], invoked[place] = place, item["register"].number
                new = {"id": f"{feeder}:{place}", "process": item["process"], "f": item["f"], "value": item["value"],
                       "begin": item["moment"], "end": None, "invocation": text, "answer": None, "amendment": None,
                       **trace.place_of(place)}
            elif what in ("ok", "fail", "info"):
                of = waiting.pop(item["process"])
            elif what in ("amend", "withdraw"):
                of = item["of"]
            book = held[item["register"].number if what == "claim" else invoked[of]]
            if what == "ok" and code != "X1":
                new = dict(book.ops[of], end=item["moment"], answer=text)
                if new["f"] == "read":
                    new["value"] = item["value"]
            if what == "amend" and code != "X1":
                new = dict(book.ops[of], amendment=text, **item["changes"])
            if code:
                collisions[f"{feeder}:{place}"] = book.collisions(code, new)
            elif what == "claim":
                book.kind = item["kind"]
            elif what in ("fail", "withdraw"):
                del book.ops[of]
            elif new:
                book.ops[of] = new
    return held, collisions, left_out


SHOWN = {"wrong": ["read"], "unwritten": ["read"], "split": ["first", "second"], "early": ["read", "write"],
         "conflict": ["a", "b", "c", "d"]}


def ops_of(fault, held):
    """The operations that show a fault, those of a conflict's second and third id once where they are one."""
    ids = [fault[name] for name in SHOWN[fault["kind"]]]
    ids = [id_ for at, id_ in enumerate(ids) if at != 2 or id_ != ids[1]]
    return [held.ops[int(id_.split(":")[1])] for id_ in ids if id_ != "initial"]


def fault_of(run, found, held):
    """The fault as it should be, with the kind and the ids that were found."""
    fault = {"kind": found["kind"]}
    for name in SHOWN[fault["kind"]]:
        fault[name] = found[name]
    ops = {op["id"]: op for op in held.ops.values()}
    if fault["kind"] == "wrong":
        fault["allowed"] = [dict(record, **(run.place_of(record["id"]) or {"line": None, "byte": None}))
                            for record in held.allowed(ops[fault["read"]])]
        values = [record["value"] for record in fault["allowed"]]
        assert ops[fault["read"]]["value"] not in values, "the read is allowed"
    if fault["kind"] == "conflict":
        a, b, c, d = (ops.get(fault[name]) for name in "abcd")
        assert fault["a"] == "initial" or precedes(a, b), "a does not precede b"
        assert precedes(c, d), "c does not precede d"
        assert b["value"] == c["value"] and (a is None or a["value"] == d["value"]), "the values are not two"
        fault["first"], fault["second"] = d["value"], c["value"]
    return fault
