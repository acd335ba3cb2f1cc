"""What `regaudit` writes of a run, for the scripts of this folder: records in JSON and EDN, and the report that they make."""
import json
import re

from history import SHOWN

# The report that records make.


def fault_text(fault):
    ids = [fault[name] for name in SHOWN[fault["kind"]]]
    line = {"split": "unwritten %s and %s", "early": "early %s before %s"}.get(fault["kind"])
    return line % tuple(ids) if line else " ".join([fault["kind"]] + ids)


def verdict(record):
    return f"{'holds' if record['holds'] else 'fails'} {record['operations']}"


def report_of(records):
    lines = []
    for record in records:
        if record["t"] == "register":
            lines.append(f"register {record['name']} {record['kind']} {verdict(record)}")
            if record["fault"]:
                lines.append("  " + fault_text(record["fault"]))
            for op in record["witness"]:
                lines += ["  | " + op[part] for part in ("invocation", "answer", "amendment") if op[part] is not None]
    lines += ["culprit " + record["name"] for record in records if record["t"] == "register" and record["culprit"]]
    for record in records:
        if record["t"] == "answer":
            lines.append(f"answer {record['id']} {record['register']} {verdict(record)}")
        elif record["t"] == "refused":
            lines.append(f"refused {record['id']} {record['code']}")
        elif record["t"] == "broken":
            lines.append(f"broken {record['trace']} {record['code']} at {record['byte']}")
        elif record["t"] == "order":
            ids = ["none"] if record["ids"] is None else record["ids"]
            lines.append(" ".join(["order", record["register"]] + ids))
    return "".join(line + "\n" for line in lines).encode()


# How a record is written, and a reader of what records in EDN consist of.


def json_of(record):
    return json.dumps(record, ensure_ascii=False, separators=(",", ":"))


WORDS = {"t", "kind", "f", "code", "moment"}
SOURCES = {"a", "b", "c", "d", "id", "with"}


def edn_of(value, key=""):
    if isinstance(value, dict):
        return "{" + " ".join(f":{name} {edn_of(part, name)}" for name, part in value.items()) + "}"
    if isinstance(value, list):
        return "[" + " ".join(edn_of(part, key) for part in value) + "]"
    if isinstance(value, str):
        is_word = key in WORDS or (key in SOURCES and value in ("initial", "domain"))
        return ":" + value if is_word else '"' + value.replace("\\", "\\\\").replace('"', '\\"') + '"'
    if value is None:
        return "nil"
    return str(value).lower()


class Keyword(str):
    pass


TOKEN = re.compile(r'[ ,]*(?:([\[\]{}])|:([A-Za-z0-9_-]+)|"((?:[^"\\]|\\["\\])*)"|(-?(?:0|[1-9][0-9]*))(?![^ ,\[\]{}"])'
                   r'|(nil|true|false)(?![^ ,\[\]{}"]))')


def read_edn(line):
    """The one element that a line is: its maps as dicts, its keywords as Keyword."""
    stack, key_of, at = [[]], [None], 0
    while at < len(line):
        match = TOKEN.match(line, at)
        if not match:
            raise ValueError(f"no EDN at character {at}")
        at = match.end()
        bracket, word, text, digits, other = match.groups()
        if bracket in ("[", "{"):
            stack.append([])
            key_of.append(bracket)
            continue
        if bracket:
            parts, opened = stack.pop(), key_of.pop()
            if {"[": "]", "{": "}"}.get(opened) != bracket:
                raise ValueError(f"a stray {bracket}")
            value = parts if bracket == "]" else dict(zip(parts[::2], parts[1::2]))
            if bracket == "}" and (len(parts) != 2 * len(value) or not all(isinstance(key, Keyword) for key in value)):
                raise ValueError("a map with equal keys, or with keys that are no keywords")
        elif word is not None:
            value = Keyword(word)
        elif text is not None:
            value = re.sub(r"\\(.)", r"\1", text)
        elif digits is not None:
            value = int(digits)
        else:
            value = {"nil": None, "true": True, "false": False}[other]
        stack[-1].append(value)
    if len(stack) != 1 or len(stack[0]) != 1:
        raise ValueError("not one element")
    return stack[0][0]


# Outputs, line by line.


def difference(what, found, wanted):
    for at, (one, other) in enumerate(zip(found, wanted)):
        if one != other:
            return f"{what}: line {at + 1} is {one!r} and not {other!r}"
    return f"{what}: {len(found)} lines and not {len(wanted)}"


def lines_of(out):
    """The lines of an output, each of which has its end."""
    lines = out.split(b"\n")
    assert lines.pop() == b"", "the last line has no end"
    return [line.decode() for line in lines]
