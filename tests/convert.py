#!/usr/bin/env python3
"""Draws small histories of a key-value store, writes them in each foreign format, some of them damaged, and
compares what `convert` makes of them with what was drawn: the verdict of a search that tries every order, and the
lines that faults and verdicts name. Mistakes that are put into the conversion on purpose must be found. The program
judge judges some of the histories. The argument is the program vacation, beside whose crate that of judge
stands; with none it is the one that the last build left."""

import base64
import json
import os
import random
import subprocess
import sys
import tempfile
from importlib.machinery import SourceFileLoader
from importlib.util import module_from_spec, spec_from_loader
from pathlib import Path

ROOT = Path(__file__).resolve().parent.parent
sys.dont_write_bytecode = True
sys.path.insert(0, str(ROOT / "tools"))

from converting import jepsen, jsonlines
from converting.calls import Fault, Options, Report, in_order, line_of
from converting.events import Begun

HISTORIES, JUDGED, MISTAKES = 2000, 40, 1500
VALUES = [b"1", b"2", b"3"]
FAULTS = {"bad-edn", "bad-event", "bad-json", "bad-line", "bad-number", "bad-reply", "bad-value", "half-call",
          "no-call", "transaction", "two-open-calls", "unknown-operation"}


def load(name):
    """A script of tests/ as a module."""
    loader = SourceFileLoader(name, str(ROOT / "tests" / name))
    module = module_from_spec(spec_from_loader(name, loader))
    loader.exec_module(module)
    return module


STORE = load("store.py")


class Drawn:
    """A drawn history: events (process, type, operation, what was returned), in the order of their times."""

    def __init__(self, draw, keys, names):
        self.draw, self.keys, self.names = draw, keys, names
        self.events, self.held = [], {}
        self.free, self.open, self.next = list(range(draw.randint(1, 4))), {}, 10
        for _ in range(draw.randint(0, 22)):
            self.step()

    def operation(self):
        name = self.draw.choice(self.names)
        if name in ("txn", "txn-get"):
            held = [self.draw.choice([None, *VALUES]) for _ in range(3)]
            return name, self.draw.choice(self.keys), [held[0], *(self.draw.choice([one, STORE.KEEP]) for one in held[1:])]
        values = [self.draw.choice(VALUES) for _ in range({"get": 0, "delete": 0, "cas": 2}.get(name, 1))]
        return name, self.draw.choice(self.keys), values

    def apply(self, operation):
        name, key, values = operation
        self.held[key], reply = STORE.step(self.held.get(key), name.encode(), values)
        return reply

    def step(self):
        """Begins a call, lets one take effect, or ends one."""
        draw = self.draw
        if self.free and (not self.open or draw.random() < 0.5):
            process = self.free.pop(draw.randrange(len(self.free)))
            operation = self.operation()
            self.open[process] = [operation, None]
            self.events.append((process, "invoke", operation, None))
            return
        if not self.open:
            return
        process = draw.choice(sorted(self.open))
        operation, reply = self.open[process]
        type_ = draw.choices(["ok", "fail", "info"], [8, 2, 1])[0]
        if reply is None and (type_ == "ok" or (type_ == "info" and draw.random() < 0.5)):
            self.open[process][1] = reply = self.apply(operation)
            if draw.random() < 0.5:
                return
        if reply is not None and type_ == "fail":
            type_ = "ok"
        if type_ == "ok" and operation[0] == "cas" and reply == b"false":
            type_ = "fail"
        if type_ == "ok" and operation[0] == "get" and draw.random() < 0.15:
            reply = draw.choice([b"-", *map(STORE.quoted, VALUES)])
        self.events.append((process, type_, operation, reply))
        del self.open[process]
        if type_ == "info":
            self.next += 1
            process = self.next
        self.free.append(process)

    def calls(self):
        """The calls that had or may have had an effect, as tests/store.py has them."""
        begun, calls = {}, []
        for time, (process, type_, operation, reply) in enumerate(self.events):
            name, key, values = operation
            asked = (name.encode(), key, values)
            if type_ == "invoke":
                begun[process] = (time, asked)
                continue
            begin, _ = begun.pop(process)
            if type_ == "ok":
                calls.append((process, begin, time, asked, reply))
            elif type_ == "info":
                calls.append((process, begin, STORE.NEVER, asked, b"?"))
        calls += [(process, begin, STORE.NEVER, asked, b"?") for process, (begin, asked) in begun.items()]
        return sorted(calls, key=lambda call: call[1])

    def bad_keys(self):
        """The keys whose calls have no order."""
        calls = self.calls()
        return {key for key in self.keys if not STORE.has_order([call for call in calls if call[3][1] == key])}


READERS_OF = ("get", "get-and-set", "txn-get", "increment")


def text_of(value):
    return value.decode()


def shown(reply):
    """A reply of a read in EDN."""
    return "nil" if reply == b"-" else text_of(STORE.unquoted(reply))


def edn_value(event, key=None):
    """The value of an event in a history of registers."""
    _, type_, (name, _, values), reply = event
    if name == "get":
        value = shown(reply) if type_ == "ok" else "nil"
    else:
        value = f"[{text_of(values[0])} {text_of(values[1])}]" if name == "cas" else text_of(values[0])
    return value if key is None else f"[{text_of(key)} {value}]"


FUNCTIONS = {"get": "read", "put": "write", "cas": "cas"}


def register(drawn):
    return "".join(f"{{:process {event[0]}, :type :{event[1]}, :f :{FUNCTIONS[event[2][0]]},"
                   f" :value {edn_value(event)}}}\n" for event in drawn.events)


def independent(drawn):
    return "".join(f"{{:process {event[0]} :type :{event[1]} :f :{FUNCTIONS[event[2][0]]}"
                   f" :value {edn_value(event, event[2][1])}}}\n" for event in drawn.events)


def log(drawn):
    return "".join(f"INFO  jepsen.util - {event[0]}\t:{event[1]}\t:{FUNCTIONS[event[2][0]]}\t{edn_value(event)}\n"
                   for event in drawn.events)


def stores(drawn):
    """Events of a store with keys and strings."""
    def value(event):
        _, type_, (name, _, values), reply = event
        if name == "get":
            return "nil" if type_ != "ok" or reply == b"-" else json.dumps(text_of(STORE.unquoted(reply)))
        return json.dumps(text_of(values[0])) if values else "nil"

    return "".join(f'{{:process {event[0]}, :type :{event[1]}, :f :{event[2][0]}, :key "{text_of(event[2][1])}",'
                   f" :value {value(event)}}}\n" for event in drawn.events)


def json_value(value, draw):
    if draw.random() < 0.2:
        return {"base64": base64.b64encode(value).decode()}
    return text_of(value)


def json_operation(operation, draw):
    name, key, values = operation
    fields = {"op": name, "key": json_value(key, draw)}
    if name == "cas":
        return fields | {"old": json_value(values[0], draw), "new": json_value(values[1], draw)}
    if name in ("txn", "txn-get"):
        return fields | {part: None if value is None else json_value(value, draw)
                         for part, value in zip(("old", "then", "else"), values) if value is not STORE.KEEP}
    return fields | ({"value": json_value(values[0], draw)} if values else {})


def json_reply(reply):
    if reply in (b"true", b"false"):
        return reply == b"true"
    if reply in (b"-", b"ok"):
        return None if reply == b"-" else "ok"
    return text_of(STORE.unquoted(reply))


def events(drawn):
    """Porcupine's events, as Go writes them."""
    lines, ids, count = [], {}, 0
    for process, type_, operation, reply in drawn.events:
        if type_ == "invoke":
            ids[process], count = count, count + 1
            lines.append({"ClientId": process, "Kind": False, "Value": json_operation(operation, drawn.draw),
                          "Id": ids[process]})
            continue
        kind = {"ok": True, "fail": "fail", "info": "unknown"}[type_]
        output = {} if type_ != "ok" else {"ok": json_reply(reply)} if operation[0] in ("cas", "put-if-absent", "txn") \
            else {"value": json_reply(reply)} if operation[0] in READERS_OF else {}
        lines.append({"ClientId": process, "Kind": kind, "Value": output, "Id": ids[process]})
    return "".join(json.dumps(line) + "\n" for line in lines)


def calls_in_json(drawn):
    """An object for each call."""
    lines = []
    for process, begin, end, (name, key, values), reply in drawn.calls():
        fields = {"client": process, "begin": begin} | json_operation((name.decode(), key, values), drawn.draw)
        if end != STORE.NEVER:
            fields |= {"end": end, "reply": json_reply(reply)}
        lines.append(fields)
    drawn.draw.shuffle(lines)
    return "".join(json.dumps(line) + "\n" for line in lines)


def operations(drawn):
    """Porcupine's operations, in one array."""
    found = []
    for process, begin, end, (name, key, values), reply in drawn.calls():
        given = json_operation((name.decode(), key, values), drawn.draw)
        output = {"value": json_reply(reply), "ok": reply == b"true"} if end != STORE.NEVER else None
        if end != STORE.NEVER and name == b"increment":
            output = {"value": json_reply(reply)}
        if name in (b"put", b"append", b"delete"):
            output = {}
        found.append({"ClientId": process, "Input": given, "Call": begin, "Output": output,
                      "Return": None if end == STORE.NEVER else end})
    return json.dumps(found, indent=1)


REGISTER = [b"register"]
KEYS = [b"7", b"8"]
ALL = ["get", "get", "put", "delete", "cas", "append", "put-if-absent", "get-and-set", "increment", "txn", "txn-get"]
FORMATS = {
    "register": ("jepsen", register, REGISTER, ["get", "get", "put", "cas"]),
    "independent": ("jepsen", independent, KEYS, ["get", "get", "put", "cas"]),
    "log": ("jepsen", log, REGISTER, ["get", "put", "cas"]),
    "stores": ("jepsen", stores, KEYS, ["get", "get", "put", "append", "delete"]),
    "events": ("porcupine", events, KEYS, ALL),
    "operations": ("porcupine", operations, KEYS, ALL),
    "calls": ("json", calls_in_json, KEYS, ALL),
}
READERS = {"jepsen": jepsen.jepsen_calls, "porcupine": jsonlines.porcupine_calls, "json": jsonlines.json_calls}


class Sets:
    """A drawn history of a set, whose reads return all its elements; and one of lists that transactions append to,
    if it is one of lists."""

    def __init__(self, draw, is_list):
        self.is_list = is_list
        names = ["get", "append"] if is_list else ["get", "put"]
        drawn = Drawn(draw, [b"5"], names)
        self.events, held, begun, self.text = [], [], {}, ""
        added = iter(range(100))
        for process, type_, (name, _, _), _ in drawn.events:
            if type_ == "invoke":
                begun[process] = None if name == "get" else next(added)
            element = begun[process]
            if element is not None and (type_ == "ok" or (type_ == "info" and draw.random() < 0.5)):
                held.append(element)
            seen = [one for one in held if draw.random() < 0.95] if type_ == "ok" and element is None else None
            self.events.append((process, type_, element, seen))
            self.text += self.line(process, type_, element, seen)

    def line(self, process, type_, element, seen):
        shown_ = "nil" if seen is None else "[" + " ".join(map(str, seen)) + "]"
        if self.is_list:
            value = f"[[:r 5 {shown_}]]" if element is None else f"[[:append 5 {element}]]"
            return f"{{:process {process} :type :{type_} :f :txn :value {value}}}\n"
        if element is None:
            return f"{{:process {process} :type :{type_} :f :read :value {shown_.replace('[', '#{').replace(']', '}')}}}\n"
        return f"{{:process {process} :type :{type_} :f :add :value {element}}}\n"

    def bad_keys(self):
        """The elements, or the list, whose calls have no order."""
        elements = {element for _, _, element, _ in self.events if element is not None}
        keys = [b"5"] if self.is_list else [b"%d" % element for element in elements]
        return {key for key in keys if not STORE.has_order(self.calls(key))}

    def calls(self, key):
        begun, calls = {}, []
        for time, (process, type_, element, seen) in enumerate(self.events):
            if type_ == "invoke":
                begun[process] = (time, element)
                continue
            begin, _ = begun.pop(process)
            calls += self.call(key, process, (begin, time if type_ == "ok" else STORE.NEVER), element, seen) \
                if type_ != "fail" else []
        for process, (begin, element) in begun.items():
            calls += self.call(key, process, (begin, STORE.NEVER), element, None)
        return sorted(calls, key=lambda call: call[1])

    def call(self, key, process, times, element, seen):
        begin, end = times
        if element is None:
            if end == STORE.NEVER:
                return []
            value = b"".join(b"%d " % one for one in seen) or None if self.is_list \
                else b"" if int(key) in seen else None
            return [(process, begin, end, (b"get", key, []), b"-" if value is None else STORE.quoted(value))]
        if not self.is_list and b"%d" % element != key:
            return []
        name, value = (b"append", b"%d " % element) if self.is_list else (b"put", b"")
        return [(process, begin, end, (name, key, [value]), b"?" if end == STORE.NEVER else b"ok")]


class Transactions:
    """A drawn history of a whole store: single calls, and transactions over several keys with their reads."""

    def __init__(self, draw):
        self.draw, self.pairs, self.calls, self.text = draw, frozenset(), [], ""
        free, now = {client: 0 for client in range(draw.randint(1, 4))}, 0
        for _ in range(draw.randint(0, 9)):
            if not free:
                break
            client, now = draw.choice(sorted(free)), now + draw.randint(0, 2)
            begin = max(free[client] + 1, now - draw.randint(0, 3))
            end = max(begin, now) + draw.randint(0, 3)
            free[client] = end
            self.add(client, begin, *draw.choices([(end, True), (None, False), (None, True)], [16, 1, 1])[0])
            if self.calls[-1][2] == STORE.NEVER:
                del free[client]

    def add(self, client, begin, end, has_reply):
        draw, keys = self.draw, [*KEYS, b"9"]
        fields = {"client": client, "begin": begin} | ({} if end is None else {"end": end})
        if draw.random() < 0.3:
            name = draw.choice(["get", "put", "cas"])
            values = [draw.choice(VALUES) for _ in range({"get": 0, "cas": 2}.get(name, 1))]
            asked = (name.encode(), draw.choice(keys), values)
            fields |= json_operation((name, *asked[1:]), draw)
        else:
            asked = (b"txn", None, STORE.drawn_clauses(draw, keys, VALUES, dict(self.pairs)))
            fields["op"] = "txn"
            if not any(role != b"get" for role, _, _ in asked[2]):
                asked = (b"txn", None, [*asked[2], (b"then", keys[0], None)])
            if not has_reply:
                asked = (b"txn", None, [clause for clause in asked[2] if clause[0] != b"get"])
            for role, name in zip(STORE.ROLES, ("if", "reads", "then", "else")):
                if found := [clause[1:] for clause in asked[2] if clause[0] == role]:
                    fields[name] = [{"key": json_value(key, draw), "value": None if value is None else
                                     json_value(value, draw)} for key, value in found]
        self.pairs, reply = STORE.whole_step(self.pairs, asked)
        # The reply of a transaction with a read of another value has no text in JSON.
        reply = reply if asked[1] is not None or reply != b"-" else b"true"
        if asked[1] is None and draw.random() < 0.1:
            reply = draw.choice([b"true", b"false"])
        fields |= {"reply": json_reply(reply)} if has_reply else {}
        has_reply = has_reply and (end is not None or fields["reply"] is not None)
        self.calls.append((client, begin, STORE.NEVER if end is None else end, asked, reply if has_reply else b"?"))
        self.text += json.dumps(fields) + "\n"

    def has_order(self):
        calls = [call for call in self.calls if not (call[3][0] == b"get" and call[2] == STORE.NEVER)]
        return STORE.has_order(sorted(calls, key=lambda call: call[1]), frozenset(), STORE.whole_step)


def transactions_alike():
    """The first drawn text with transactions over several keys that is converted to something else, and how many of
    the histories had no order."""
    draw, bad = random.Random("transactions"), 0
    for _ in range(HISTORIES // 2):
        drawn = Transactions(draw)
        calls = converted("json", drawn.text)
        if isinstance(calls, Fault):
            return drawn.text, bad
        lines = "".join(line_of(call) + "\n" for call in calls).encode().split(b"\n")[:-1]
        read = [STORE.call_of(line, True) for line in lines]
        bad += not drawn.has_order()
        if any(isinstance(call, str) for call in read) or \
                STORE.has_order(read, frozenset(), STORE.whole_step) != drawn.has_order():
            return drawn.text, bad
    return None, bad


def converted(format_, text):
    """The calls of a text, or the fault."""
    try:
        return in_order(READERS[format_](text, Options(), Report()))
    except Fault as fault:
        return fault


def found_bad(calls):
    """The keys of calls that have no order, by their lines alone."""
    text = "".join(line_of(call) + "\n" for call in calls).encode()
    read = [STORE.call_of(line) for line in text.split(b"\n")[:-1]]
    assert not any(isinstance(call, str) for call in read), text
    keys = {call[3][1] for call in read}
    return {key for key in keys if not STORE.has_order([call for call in read if call[3][1] == key])}


def is_alike(drawn, text, format_):
    """Whether a conversion has the verdict of what was drawn, and names lines of the text."""
    calls = converted(format_, text)
    if isinstance(calls, Fault):
        return False
    lines = text.count("\n") + 1
    return found_bad(calls) == drawn.bad_keys() and all(1 <= call.lines[0] <= call.lines[1] <= lines for call in calls)


def draw_one(name, draw):
    """A drawn history, its text and its format."""
    if name in ("sets", "lists"):
        drawn = Sets(draw, name == "lists")
        return drawn, drawn.text, "jepsen"
    format_, write, keys, names = FORMATS[name]
    drawn = Drawn(draw, keys, names)
    return drawn, write(drawn), format_


def first_difference(name, seed, count):
    """The first drawn text that is converted to something else, and how many of the histories had no order."""
    draw, bad = random.Random(f"{name} {seed}"), 0
    for _ in range(count):
        drawn, text, format_ = draw_one(name, draw)
        bad += bool(drawn.bad_keys())
        if not is_alike(drawn, text, format_):
            return text, bad
    return None, bad


def wrong_fail(self, begun, event):
    """A failed call has its effect."""
    self._return(begun, begun.asked[0], event.value, event.line)


def wrong_forced(self, begun):
    """A call of unknown outcome had its effect before it was left."""
    for step in begun.asked:
        if step.f not in jepsen.READS:
            self._return(begun, step, step.value, begun.line)


def wrong_dropped(self, begun):
    """A call of unknown outcome had no effect."""


MISTAKES_MADE = [
    ("a failed call with an effect", jepsen.Conversion, "_fail", wrong_fail, "register"),
    ("a call of unknown outcome forced", jepsen.Conversion, "_leave", wrong_forced, "register"),
    ("a call of unknown outcome dropped", jepsen.Conversion, "_leave", wrong_dropped, "register"),
    ("a call of unknown outcome dropped from a set", jepsen.Conversion, "_leave", wrong_dropped, "sets"),
    ("a pending call returns when it began", Begun, "pending",
     lambda self, operation: self.returned(operation, "ok", self.begin, self.line), "stores"),
    ("a call that returned is pending", Begun, "returned",
     lambda self, operation, reply, end, line: self.pending(operation), "events"),
    ("a missing value is an empty one", jsonlines, "read_reply",
     lambda operation, reply, options, line: '""' if reply is None and operation.name == "get"
     else jsonlines_reply(operation, reply, options, line), "calls"),
]
jsonlines_reply = jsonlines.read_reply


def mistakes_found():
    """Whether each mistake is found."""
    for what, place, name, wrong, format_ in MISTAKES_MADE:
        right = getattr(place, name)
        setattr(place, name, wrong)
        found, _ = first_difference(format_, 5, MISTAKES)
        setattr(place, name, right)
        if found is None:
            print(f"convert: not found: {what}")
            return False
    return True


def fault_of(format_, text, name, line):
    fault = converted(format_, text)
    return isinstance(fault, Fault) and str(fault) == f"fault {name} {line}"


def lines_named():
    """Whether faults name their lines, in texts that have one."""
    draw = random.Random(3)
    for name in FORMATS:
        if name in ("calls", "operations"):
            continue
        format_, write, keys, names = FORMATS[name]
        for _ in range(200):
            drawn = Drawn(draw, keys, names)
            lines = write(drawn).splitlines(keepends=True)
            if not lines:
                continue
            place = draw.randrange(len(lines))
            want = "two-open-calls" if drawn.events[place][1] == "invoke" else "no-call"
            text = "".join(lines[:place + 1] + lines[place:])
            if not fault_of(format_, text, want, place + 2):
                print(f"convert: line {place + 1} stands twice in a text of {name}, and {converted(format_, text)}:\n{text}")
                return False
    return True


def damage_named():
    """Whether each damaged text is converted or has a named fault with a line of its own."""
    draw, seen = random.Random(4), set()
    for name in [*FORMATS, "sets", "lists"]:
        for _ in range(400):
            _, text, format_ = draw_one(name, draw)
            if not text:
                continue
            place, char = draw.randrange(len(text)), draw.choice('[]{}":, \n0a-')
            text = draw.choice([text[:place], text[:place] + text[place + 1:], text[:place] + char + text[place + 1:]])
            fault = converted(format_, text)
            if isinstance(fault, Fault):
                _, kind, line = str(fault).split(" ")
                seen.add(kind)
                if kind not in FAULTS or not 1 <= int(line) <= text.count("\n") + 1:
                    print(f"convert: {fault} of:\n{text}")
                    return False
    wanted = {"bad-edn", "bad-event", "bad-json", "bad-number", "no-call", "two-open-calls", "unknown-operation"}
    if wanted - seen:
        print(f"convert: never seen: {wanted - seen}")
    return not wanted - seen


def judged(program):
    """Whether the command with --judge gives the verdicts of what was drawn, on lines of the given file."""
    draw = random.Random(6)
    with tempfile.TemporaryDirectory() as folder:
        path = Path(folder) / "history"
        for place in range(JUDGED):
            name = [*FORMATS, "sets", "lists"][place % (len(FORMATS) + 2)]
            drawn, text, format_ = draw_one(name, draw)
            path.write_text(text)
            done = subprocess.run([ROOT / "convert", format_, path, "--judge", "--program", program], text=True,
                                  capture_output=True, timeout=60, check=False)
            bad = drawn.bad_keys()
            first = done.stdout.split("\n")[0].split(" ")
            right = done.returncode == bool(bad) and first[:2] == (["illegal", "part"] if bad else first[:2])
            if bad:
                right = right and STORE.unquoted(first[3].encode()) == min(bad) and is_return(drawn, text, first)
            if not (right and (bad or first[0] == "legal") and "not proved" in done.stderr):
                print(f"convert: {name}: {done.stdout}{done.stderr} of:\n{text}, wrong: {bad}")
                return False
        return transactions_judged(program, path)


def transactions_judged(program, path):
    """Whether the command with --judge gives the verdicts on whole stores."""
    draw = random.Random(8)
    for _ in range(JUDGED):
        drawn = Transactions(draw)
        path.write_text(drawn.text)
        done = subprocess.run([ROOT / "convert", "json", path, "--judge", "--program", program], text=True,
                              capture_output=True, timeout=60, check=False)
        if done.returncode != (not drawn.has_order()):
            print(f"convert: {done.stdout}{done.stderr} of:\n{drawn.text}")
            return False
    return True


def is_return(drawn, text, first):
    """Whether the line that a verdict names is one on which a call returned."""
    line = text.split("\n")[int(first[2]) - 1]
    return ":ok" in line or "true" in line or '"end"' in line or text.startswith("[")


def main():
    """Status 0: all is alike, and each mistake is found."""
    vacation = sys.argv[1] if len(sys.argv) > 1 else f"{ROOT}/crates/vacation/out/vacation"
    crates = os.path.dirname(os.path.dirname(os.path.dirname(os.path.abspath(vacation))))
    program = f"{crates}/judge/out/judge"
    if not os.access(program, os.X_OK):
        print(f"convert: {program} is missing: build judge first")
        return 1
    told = []
    for name in [*FORMATS, "sets", "lists"]:
        text, bad = first_difference(name, 1, HISTORIES // 2)
        if text is not None:
            print(f"convert: a history in the format of {name} is converted to another one:\n{text}")
            return 1
        told.append(f"{name} {bad}")
    text, bad = transactions_alike()
    if text is not None:
        print(f"convert: a history with transactions over several keys is converted to another one:\n{text}")
        return 1
    told.append(f"transactions {bad}")
    if not (mistakes_found() and lines_named() and damage_named() and judged(program)):
        return 1
    print(f"convert: {HISTORIES // 2} histories of each format are converted right, of which wrong ones: {', '.join(told)};"
          f" {len(MISTAKES_MADE)} mistakes are found")
    return 0


if __name__ == "__main__":
    sys.exit(main())
