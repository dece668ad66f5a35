#!/usr/bin/env python3
"""Draws 2,000 small histories of a key-value store, some with damaged lines, pending and undetermined calls and equal
times, and compares the verdicts of 'judge keys' with those of a search that tries every order. Draws 2,000 more
in which keys have drawn first values, some with a damaged start file, and 2,000 with transactions over several keys,
half of them with first values, for whole stores of one or several classes of keys, and 3,000 at the levels below
linearizability. Then gives it hostile input: a history and a start file cut at each byte, keys of all bytes, values of 1 MiB, a million keys and words, bytes that are
no text, command lines that it must refuse, too little memory, an input that cannot be read, an output that cannot be
written, more steps than there are. Its argument is the program vacation, beside whose crate that of judge stands;
with none it is the one that the last build left."""

import os
import random
import re
import resource
import subprocess
import sys
import tempfile

HERE = os.path.dirname(os.path.realpath(__file__))
HISTORIES = 2000
NEVER = 1 << 64
PLAIN = re.compile(rb'[!-~]')
QUOTED = re.compile(rb'"((?:[!#$&-~]|%[0-9a-f]{2})*)"')
ONE_VALUE = {b"put", b"append", b"put-if-absent", b"get-and-set", b"increment"}
TRANSACTIONS = {b"txn", b"txn-get"}
ROLES = (b"if", b"get", b"then", b"else")
BYTES = [b"", b"a", b"b", b"a>b", b"->", b"-", b" ", b'"', b"%", b"\n\x00\xff", b"1", b"007", b"18446744073709551615"]
# What a transaction leaves as it is.
KEEP = object()
# The status by the first word of a verdict, and that after a fault of a stream or of memory.
STATUSES, STOPPED = {b"legal": 0, b"illegal": 1, b"fault": 1, b"undecided": 3, b"touching": 3}, 4
# The status of a refused command line.
REFUSED = 2
LINEARIZABLE, SEQUENTIAL, SERIALIZABLE = "linearizable", "sequential", "serializable"
# What the program may take beside the text and for each call, in bytes.
MOST_BESIDE, MOST_EACH = 64 << 20, 512
# What the program may take for a search among calls that overlap, in bytes.
MOST_SEARCH = 256 << 20


def quoted(value):
    """A value as a quoted word."""
    parts = []
    for byte in value:
        one = bytes([byte])
        parts.append(one if PLAIN.fullmatch(one) and one not in b'"%' else b"%%%02x" % byte)
    return b'"' + b"".join(parts) + b'"'


def unquoted(word):
    """The value of a quoted word, or None."""
    match = QUOTED.fullmatch(word)
    if not match:
        return None
    return re.sub(rb"%(..)", lambda pair: bytes([int(pair[1], 16)]), match[1])


def word_of(value):
    """A value, or none, as a word."""
    return b"-" if value is None else b"=" if value is KEEP else quoted(value)


def step(held, name, values):
    """What a key has after an operation, and the reply. None stands for a missing value."""
    shown = word_of(held)
    if name in TRANSACTIONS:
        made = values[1] if held == values[0] else values[2]
        reply = shown if name == b"txn-get" else b"true" if held == values[0] else b"false"
        return held if made is KEEP else made, reply
    if name == b"increment":
        old, by = number(held or b"0", 20, NEVER - 1), int(values[0])
        if old is None or held == b"" or old + by >= NEVER:
            return held, b"false"
        return b"%d" % (old + by), quoted(b"%d" % (old + by))
    if name == b"get":
        return held, shown
    if name == b"put":
        return values[0], b"ok"
    if name == b"delete":
        return None, b"ok"
    if name == b"append":
        return (held or b"") + values[0], b"ok"
    if name == b"get-and-set":
        return values[0], shown
    if name == b"put-if-absent":
        return (values[0], b"true") if held is None else (held, b"false")
    return (values[1], b"true") if held == values[0] else (held, b"false")


def transact(held, clauses):
    """The keys with their values after a transaction, and the reply."""
    def hold(role):
        return all(held.get(key) == value for one, key, value in clauses if one == role)

    branch, after = b"then" if hold(b"if") else b"else", dict(held)
    for role, key, value in clauses:
        if role == branch:
            after[key] = value
    reply = b"-" if not hold(b"get") else b"true" if branch == b"then" else b"false"
    return {key: value for key, value in after.items() if value is not None}, reply


def whole_step(pairs, asked):
    """The keys with their values after an operation on a whole store, and the reply."""
    name, key, values = asked
    held = dict(pairs)
    if key is None:
        after, reply = transact(held, values)
    else:
        one, reply = step(held.pop(key, None), name, values)
        after = held if one is None else held | {key: one}
    return frozenset(after.items()), reply


def number(word, digits, most):
    """The number that a word of so many digits writes, or None."""
    if not re.fullmatch(rb"[0-9]{1,%d}" % digits, word) or int(word) > most:
        return None
    return int(word)


def clauses_of(words):
    """A transaction of clauses, which words write behind its name, or None."""
    clauses = []
    for place in range(0, len(words), 3):
        if len(words) < place + 3 or words[place] not in ROLES or unquoted(words[place + 1]) is None:
            return None
        role, key, word = words[place:place + 3]
        if word != b"-" and unquoted(word) is None:
            return None
        clauses.append((role, unquoted(key), None if word == b"-" else unquoted(word)))
    return b"txn", None, clauses


def operation(words, whole=False):
    """The name, key and values that words write, or None. A transaction of clauses, which only a whole store has, has
    None for a key."""
    if len(words) < 2:
        return None
    if whole and words[0] == b"txn" and words[1] in ROLES:
        return clauses_of(words[1:])
    if words[0] in TRANSACTIONS:
        return transaction(words)
    values = [unquoted(word) for word in words[1:]]
    few = {b"get": 1, b"delete": 1, b"cas": 3}.get(words[0], 2 if words[0] in ONE_VALUE else 0)
    if len(values) != few or None in values:
        return None
    if words[0] == b"increment" and number(values[1], 20, NEVER - 1) is None:
        return None
    return words[0], values[0], values[1:]


def transaction(words):
    """The name, key and values of a transaction, or None."""
    if len(words) != 5 or unquoted(words[1]) is None:
        return None
    values = []
    for place, word in enumerate(words[2:]):
        value = None if word == b"-" else KEEP if word == b"=" and place > 0 else unquoted(word)
        if value is None and word != b"-":
            return None
        values.append(value)
    return words[0], unquoted(words[1]), values


def call_of(line, whole=False):
    """The call of a line, or the name of its fault."""
    words = line.split(b" ")
    if len(words) < 6 or words[-2] != b"->":
        return "bad-call"
    client, begin = number(words[0], 10, 2**32 - 1), number(words[1], 20, NEVER - 1)
    end = NEVER if words[2] == b"-" else number(words[2], 20, NEVER - 1)
    if None in (client, begin, end):
        return "bad-number"
    asked = operation(words[3:-2], whole)
    if asked is None:
        return "bad-operation"
    reply = words[-1]
    if reply not in (b"ok", b"true", b"false", b"-", b"?"):
        if unquoted(reply) is None:
            return "bad-reply"
        reply = quoted(unquoted(reply))
    if end < NEVER and reply == b"?":
        return "half-call"
    return client, begin, end, asked, reply


def key_step(held, asked):
    """What a key has after an operation on it, and the reply."""
    return step(held, asked[0], asked[2])


def has_order(calls, first=None, run=key_step):
    """Whether some order of the calls of one object is a linearization: of a key, which has this value at first, or
    none, or of a whole store."""
    seen = set()

    def search(left, held):
        if all(calls[i][2] == NEVER for i in left):
            return True
        if (left, held) in seen:
            return False
        seen.add((left, held))
        for i in left:
            client, begin, _, asked, reply = calls[i]
            if any(calls[j][2] < begin or (calls[j][0] == client and j < i) for j in left):
                continue
            after, expected = run(held, asked)
            if reply in (b"?", expected) and search(left - {i}, after):
                return True
        return False

    return search(frozenset(range(len(calls))), first)


def relaxed(level, calls):
    """The calls without the order that a level does not keep."""
    if level == LINEARIZABLE:
        return calls
    return [(client if level == SEQUENTIAL else place, 0, end if end == NEVER else 0, *rest)
            for place, (client, _, end, *rest) in enumerate(calls)]


def first_values_of(text):
    """The values that keys have at first by the text of a start file, or the verdict that names its first fault."""
    lines, firsts = text.split(b"\n"), {}
    if not lines[-1]:
        lines.pop()
    for place, line in enumerate(lines):
        words = line.split(b" ")
        key = unquoted(words[0])
        value = unquoted(words[1]) if len(words) == 2 else None
        if key is None or len(words) > 2 or (len(words) == 2 and words[1] != b"-" and value is None):
            return b"fault bad-start %d" % (place + 1)
        if value is None:
            return b"fault missing-value %d" % (place + 1)
        if key in firsts:
            return b"fault key-twice %d" % (place + 1)
        firsts[key] = value
    return firsts


def objects_of(calls, together):
    """The name of the object that each call is for: its key, or a key of its class if transactions touch several keys
    together, the one that they name first. If all calls are together, the name is empty."""
    touched = [[key for _, key, _ in call[3][2]] for call in calls if call[3][1] is None and len(call[3][2]) > 1]
    order = [key for keys in touched for key in keys]
    names = {key: key for key in order}
    for keys in touched:
        joined = {names[key] for key in keys}
        first = min(joined, key=order.index)
        names = {key: first if name in joined else name for key, name in names.items()}
    firsts = [call[3][2][0][1] if call[3][1] is None else call[3][1] for call in calls]
    return [b"" if together else names.get(key, key) for key in firsts]


def expected_of(text, firsts, whole=False, level=LINEARIZABLE):
    """The verdict on a text at a level, where keys have these values at first: its first line, and the calls if all
    lines are calls."""
    lines = text.split(b"\n")
    if not lines[-1]:
        lines.pop()
    calls = []
    for place, line in enumerate(lines):
        call = call_of(line, whole)
        if isinstance(call, str):
            return b"fault %s %d" % (call.encode(), place + 1), None
        calls.append(call)
    for place, (client, begin, end, _, _) in enumerate(calls):
        ends = [other[2] for other in calls[:place] if other[0] == client]
        if end < begin or any(begin < other for other in ends):
            return b"illegal client %d" % (place + 1), None
    clients, calls = len({call[0] for call in calls}), relaxed(level, calls)
    touches = any(other[0] == call[0] and other[2] == call[1] for place, call in enumerate(calls)
                  for other in calls[:place])
    objects = objects_of(calls, touches and whole)
    keys = sorted(set(objects))
    for key in keys:
        part = [call for call, name in zip(calls, objects) if name == key]
        right = has_order(part, frozenset(firsts.items()), whole_step) if whole else has_order(part, firsts.get(key))
        if not right:
            return b"illegal part " + quoted(key), [(*call, name) for call, name in zip(calls, objects)]
    if touches and len(keys) > 1:
        return b"touching", None
    return b"legal calls=%d clients=%d objects=%d" % (len(calls), clients, len(keys)), None


def names_blocked(lines, calls):
    """Whether the lines of a verdict name blocked calls of the object: completed, each with a reply other than the one
    it has, in the order of their ends, the first one first."""
    first = re.fullmatch(rb"illegal part ([0-9]+) (.*)", lines[0])
    blocked = [re.fullmatch(rb"stuck ([0-9]+) ([^ ]+)", line) for line in lines[1:]]
    if not first or not blocked or None in blocked or blocked[0][1] != first[1]:
        return False
    found = [calls[int(one[1]) - 1] for one in blocked]
    ends = [call[2] for call in found]
    return ends == sorted(ends) and all(
        call[2] < NEVER and call[4] != one[2] and quoted(call[5]) == first[2]
        for call, one in zip(found, blocked)
    )


def drawn_operation(random, keys, values):
    """An operation: its name, key and values."""
    name = random.choice([b"get", b"get", b"delete", b"cas", *sorted(ONE_VALUE), *sorted(TRANSACTIONS)])
    if name in TRANSACTIONS:
        old, *changes = [random.choice([None, *values]), *random.choices([None, KEEP, *values], k=2)]
        return name, random.choice(keys), [old, *changes]
    if name == b"increment":
        return name, random.choice(keys), [b"%d" % random.choice([0, 1, 1, 2, NEVER - 1])]
    few = {b"get": 0, b"delete": 0, b"cas": 2}.get(name, 1)
    return name, random.choice(keys), [random.choice(values) for _ in range(few)]


def drawn_keys(random, fewest, most, begins):
    """Some keys, so many, some values, and the values that keys have at first, if the history begins with some."""
    keys = random.sample(BYTES, random.randint(fewest, most))
    values = random.sample(BYTES, random.randint(1, 3))
    firsts = {key: random.choice(values) for key in keys if random.random() < 0.7} if begins else {}
    return keys, values, firsts


def drawn_calls(random, gone, most):
    """The client, the begin and the end of each of some calls, at most so many, of clients that are not gone."""
    ends = [random.randrange(3) for _ in range(random.randint(1, 4))]
    for _ in range(random.randint(0, most)):
        client = random.randrange(len(ends))
        if client in gone:
            continue
        begin = ends[client] + random.choice([0, 1, 1, 2, 3])
        ends[client] = begin + random.randint(0, 6)
        yield client, begin, ends[client]


def drawn_history(random, begins=False):
    """The text of a small history, most of whose replies are right in the order of its lines, and the values that keys
    have at first, if it begins with some. Calls without an end are pending or undetermined, and some took no effect."""
    keys, values, firsts = drawn_keys(random, 1, 3, begins)
    held, lines, gone = dict(firsts), [], set()
    for client, begin, end in drawn_calls(random, gone, 8):
        name, key, given = drawn_operation(random, keys, values)
        after, reply = step(held.get(key), name, given)
        if random.random() < 0.2:
            reply = random.choice([b"-", b"ok", b"true", b"false", quoted(random.choice(values))])
        ended = b"%d" % end
        if random.random() < 0.12:
            gone.add(client)
            after, ended, reply = random.choice([after, held.get(key)]), b"-", random.choice([b"?", reply])
        elif random.random() < 0.01:
            reply = b"?"
        held[key] = after
        words = [b"%d" % client, b"%d" % begin, ended, name, quoted(key), *map(word_of, given), b"->", reply]
        lines.append(b" ".join(words))
    return b"".join(line + b"\n" for line in lines), firsts


def drawn_clauses(random, keys, values, held):
    """The clauses of a transaction: comparisons and reads mostly of what the keys have, and writes."""
    clauses = []
    for role in random.choices(ROLES, [4, 2, 4, 3], k=random.randint(1, 5)):
        key = random.choice(keys)
        value = random.choice([None, *values])
        if role in (b"if", b"get") and random.random() < 0.8:
            value = held.get(key)
        clauses.append((role, key, value))
    return clauses


def drawn_whole(random, begins):
    """The text of a small history with transactions over several keys, most of whose replies are right in the order of
    its lines, and the values that keys have at first. Calls without an end are as in `drawn_history`."""
    every, values, firsts = drawn_keys(random, 2, 6, begins)
    pairs, lines, gone = frozenset(firsts.items()), [], set()
    # Keys of which most transactions touch only some, so that there are several classes.
    groups = [every[place::random.choice([1, 2, 3])] for place in range(3)]
    for client, begin, end in drawn_calls(random, gone, 8):
        keys = random.choice([group for group in [*groups, every] if group])
        asked = drawn_operation(random, keys, values)
        words = [asked[0], quoted(asked[1]), *map(word_of, asked[2])]
        if random.random() < 0.7:
            asked = (b"txn", None, drawn_clauses(random, keys, values, dict(pairs)))
            words = [b"txn", *(word for role, key, value in asked[2] for word in (role, quoted(key), word_of(value)))]
        after, reply = whole_step(pairs, asked)
        if random.random() < 0.15:
            reply = random.choice([b"-", b"ok", b"true", b"false", quoted(random.choice(values))])
        ended = b"%d" % end
        if random.random() < 0.12:
            gone.add(client)
            after, ended, reply = random.choice([after, pairs]), b"-", random.choice([b"?", reply])
        pairs = after
        lines.append(b" ".join([b"%d" % client, b"%d" % begin, ended, *words, b"->", reply]))
    return b"".join(line + b"\n" for line in lines), firsts


def start_text(random, firsts):
    """The text of a start file with these values of keys, sometimes with a line that it must not have."""
    lines = [quoted(key) + b" " + quoted(value) for key, value in firsts.items()]
    if random.random() < 0.3:
        key = quoted(random.choice(BYTES))
        line = random.choice([key, key + b" -", key + b' "x"', b"", key + b' "x" "y"'])
        lines.insert(random.randint(0, len(lines)), line)
    return b"\n".join(lines) + random.choice([b"\n", b"\n", b""]) if lines else b""


def damaged(random, text):
    """The text with one byte left out, changed or put in, or cut off at some byte."""
    if not text:
        return b"\n"
    place = random.randrange(len(text))
    byte = bytes([random.choice(b' "%->?\n0123456789abgx\r\x00\xff')])
    return random.choice([
        text[:place] + text[place + 1:],
        text[:place] + byte + text[place + 1:],
        text[:place] + byte + text[place:],
        text[:place],
    ])


def status_of(verdict):
    """The status of the program after a verdict."""
    return STATUSES[verdict.split(b"\n")[0].split(b" ")[0]]


def is_right(program, text, start=None, whole=False, level=LINEARIZABLE):
    """Whether the program's verdict on a text at a level is the expected one, where the text of a start file has the
    values that keys have at first. Returns that and the verdict."""
    firsts = {} if start is None else first_values_of(start)
    want, calls = (firsts, None) if isinstance(firsts, bytes) else expected_of(text, firsts, whole, level)
    with tempfile.NamedTemporaryFile() as file:
        file.write(start or b"")
        file.flush()
        words = [program, "keys", *(["--whole"] if whole else []), *([] if start is None else ["--start", file.name]),
                 *([] if level == LINEARIZABLE else ["--level", level])]
        done = subprocess.run(words, input=text, capture_output=True, timeout=60, check=False)
    lines = done.stdout.split(b"\n")[:-1]
    if not lines or done.returncode != status_of(want):
        return False, want, done.stdout
    if calls is None:
        return lines == [want], want, done.stdout
    got = re.sub(rb"(illegal part) [0-9]+", rb"\1", lines[0])
    return got == want and names_blocked(lines, calls), want, done.stdout


def told_of(program, text):
    """What the program writes about a text, and its status and most memory."""
    with tempfile.TemporaryFile() as given, tempfile.TemporaryFile() as out:
        given.write(text)
        given.seek(0)
        child = subprocess.Popen([program, "keys"], stdin=given, stdout=out, stderr=subprocess.DEVNULL)
        _, status, used = os.wait4(child.pid, 0)
        child.returncode = os.waitstatus_to_exitcode(status)
        out.seek(0)
        return out.read(), child.returncode, used.ru_maxrss * 1024


def is_told(program, name, text, want):
    """Whether the verdict on a text is this one, within bounds of memory."""
    got, status, memory = told_of(program, text)
    # A child's memory is counted from that of its parent on.
    most = resource.getrusage(resource.RUSAGE_SELF).ru_maxrss * 1024 + 3 * len(text) + MOST_BESIDE
    most += MOST_EACH * text.count(b"\n")
    if got == want and status == status_of(want) and memory < most:
        return True
    print(f"store: {name}: expected {want[:80]!r}, got {got[:80]!r}, status {status}, {memory} bytes of {most}")
    return False


def bears_cuts(program):
    """Whether a history that is cut at any byte has the expected verdict."""
    draw = random.Random(19)
    text = b""
    while text.count(b"\n") < 6:
        text, _ = drawn_history(draw)
    for place in range(len(text) + 1):
        right, want, got = is_right(program, text[:place])
        if not right:
            print(f"store: cut at {place}: expected {want!r}, got {got!r} for:\n{text[:place]!r}")
            return False
    return True


def bears_cut_starts(program):
    """Whether a start file that is cut at any byte has the expected verdict."""
    text = b'0 0 1 get "a" -> "%00%ff"\n0 2 3 get "b" -> ""\n'
    start = b'"b" ""\n"a" "%00%ff"\n"c" "x"\n'
    for place in range(len(start) + 1):
        right, want, got = is_right(program, text, start[:place])
        if not right:
            print(f"store: start file cut at {place}: expected {want!r}, got {got!r}")
            return False
    return True


def bears_usage(program):
    """Whether command lines that the program does not know are refused, and nothing is judged then."""
    refused = (["--begin"], ["--start"], ["--start", __file__, "more"], ["history"], [""], ["--whole", "more"],
               ["--whole", "--start"], ["--whole", "--whole"], ["--given-order"], ["--level", "strict"],
               ["--level", "sequential"], ["--steps", "-1"])
    # A folder is opened, and then cannot be read.
    stopped = ((["--start", "/"], b"fault read\n"), (["--start", f"{HERE}/none", "--whole"], b"fault open\n"))
    for words, told in (*((words, None) for words in refused), *stopped):
        done = subprocess.run([program, "keys", *words], input=b"0 0 1 get", capture_output=True, timeout=60, check=False)
        named = done.stdout == told if told else done.stderr and not done.stdout
        if done.returncode != (STOPPED if told else REFUSED) or not named:
            print(f"store: {words}: status {done.returncode}, {done.stdout!r} {done.stderr!r}")
            return False
    done = subprocess.run([program, "keys", "--help"], stdin=subprocess.DEVNULL, capture_output=True, check=False)
    if done.returncode or b"--start <FILE>" not in done.stdout:
        print(f"store: help: status {done.returncode}, {done.stdout!r}")
        return False
    return True


def bears_size(program):
    """Whether keys of all bytes, long values and many keys have right verdicts."""
    each = bytes(range(256))
    large = quoted(each * 4096)
    keys = b"".join(b'0 %d %d put %s "" -> ok\n' % (2 * place, 2 * place + 1, quoted(bytes([place, 0, 255 - place])))
                    for place in range(256))
    values = b'0 0 1 put "k" %s -> ok\n0 2 3 cas "k" %s "" -> true\n1 4 5 get "k" -> ' % (large, large)
    many = 1_000_000
    lines = b"".join(b'%d %d %d put "%x" "v" -> ok\n' % (place % 64, place, place, place) for place in range(many))
    hundreds = b"".join(b'%d 0 1 get "%d" -> -\n' % (place, place % 100) for place in range(100_000))
    return all((
        is_told(program, "keys of all bytes", keys, b"legal calls=256 clients=1 objects=256\n"),
        is_told(program, "values of 1 MiB", values + b'""\n', b"legal calls=3 clients=2 objects=1\n"),
        is_told(program, "a wrong value of 1 MiB", values + large + b"\n", b'illegal part 3 "k"\nstuck 3 ""\n'),
        is_told(program, "a long word that is none", values + large[:-1] + b"\n", b"fault bad-reply 3\n"),
        is_told(program, "a million keys", lines, b"legal calls=%d clients=64 objects=%d\n" % (many, many)),
        is_told(program, "100,000 clients", hundreds, b"legal calls=100000 clients=100000 objects=100\n"),
        is_told(program, "a million words", b"0 0 1 get" + b" x" * many + b" -> -\n", b"fault bad-operation 1\n"),
        is_told(program, "a million empty lines", b"\n" * many, b"fault bad-call 1\n"),
        is_told(program, "each byte as a line", b"\n".join(bytes([byte]) for byte in each), b"fault bad-call 1\n"),
        is_told(program, "no line", b"", b"legal calls=0 clients=0 objects=0\n"),
        is_told(program, "a last line of a zero byte", keys + b"\0", b"fault bad-call 257\n"),
    ))


def bears_refusals(program):
    """Whether too little memory ends in a status of its own, and never in a verdict that is wrong."""
    text = b"".join(b'%d %d %d put "%x" "v" -> ok\n' % (place % 64, place, place, place) for place in range(50_000))
    right, told = b"legal calls=50000 clients=64 objects=50000\n", set()
    for mebibytes in (4, 8, 16, 24, 32, 64):
        done = subprocess.run(["bash", "-c", 'ulimit -v "$1"; exec "$0" keys', program, str(mebibytes << 10)], input=text,
                              capture_output=True, check=False)
        if (done.stdout, done.returncode) not in ((right, 0), (b"fault memory\n", STOPPED)):
            print(f"store: with {mebibytes} MiB: status {done.returncode}, {done.stdout!r} {done.stderr!r}")
            return False
        told.add(done.returncode)
    if told != {0, STOPPED}:
        print(f"store: all limits of memory ended in status {told}")
    return told == {0, STOPPED}


def bears_streams(program):
    """Whether an input that cannot be read is a named fault, and an output that cannot be written has its status."""
    text = b'0 0 1 put "a" "b" -> ok\n'
    unread = subprocess.run(["bash", "-c", 'exec "$0" keys < /', program], capture_output=True, check=False)
    unwritten = subprocess.run(["bash", "-c", 'exec "$0" keys > /dev/full', program], input=text, capture_output=True,
                               check=False)
    right = (unread.stdout, unread.returncode, unwritten.returncode) == (b"fault read\n", STOPPED, STOPPED)
    if not right:
        print(f"store: {unread.stdout!r}, status {unread.returncode}, and status {unwritten.returncode}")
    return right


def bears_long_searches(program):
    """Whether a search that needs more steps than there are is undecided, with a status of its own, and reports its
    progress if it is asked to."""
    calls = [b'%d 0 9 append "k" "%x" -> ok\n' % (client, client) for client in range(16)]
    text = b"".join(calls) + b'16 10 11 get "k" -> "none"\n'
    for words, told in ((["--steps", "99999"], b""), (["--progress"], rb"(placed [0-9]+ steps [0-9]+\n)+")):
        done = subprocess.run([program, "keys", *words], input=text, capture_output=True, check=False)
        right = (done.stdout, done.returncode) == (b"undecided 16\n", STATUSES[b"undecided"])
        if not right or not re.fullmatch(told, done.stderr):
            print(f"store: a long search: {done.stdout!r} {done.stderr[:80]!r}, status {done.returncode}")
            return False
    return True


def overlapping(random, clients, calls):
    """The lines of a legal history of one key with many calls at a time, in the order in which they ended: each call
    takes effect at a moment between its begin and its end."""
    now, held, lines, running, idle = 0, None, [], [], list(range(1, clients + 1))
    while running or len(lines) < calls:
        now += random.randint(1, 9)
        begun = [call for call in running if call[3] is None]
        done = [call for call in running if call[3] is not None]
        kinds = [("begin", idle if len(lines) < calls else []), ("do", begun), ("end", done)]
        turn = random.choice([kind for kind, some in kinds if some])
        if turn == "begin":
            name = random.choice([b"get", b"put", b"cas", b"get-and-set"])
            count = {b"get": 0, b"cas": 2}.get(name, 1)
            values = [b"v%d" % random.randrange(8) for _ in range(count)]
            running.append([idle.pop(random.randrange(len(idle))), now, (name, values), None])
        elif turn == "do":
            call = random.choice(begun)
            held, call[3] = step(held, *call[2])
        else:
            call = running.pop(running.index(random.choice(done)))
            words = b" ".join([call[2][0], quoted(b"k"), *map(quoted, call[2][1])])
            lines.append(b"%d %d %d %s -> %s" % (call[0], call[1], now, words, call[3]))
            idle.append(call[0])
    return lines


def bears_overlaps(program):
    """Whether histories of 16 clients that use one key at a time are decided, with a reply that no order gives too."""
    for seed in range(4):
        lines = overlapping(random.Random(seed), 16, 1000)
        place = next(place for place in range(700, 1000) if b" get " in lines[place])
        wrong = lines[place][:lines[place].index(b"->")] + b'-> "w"'
        for want, text in ((b"legal", lines), (b"illegal part", [*lines[:place], wrong, *lines[place + 1:]])):
            got, status, memory = told_of(program, b"\n".join(text) + b"\n")
            if not got.startswith(want) or status != status_of(want) or memory > MOST_SEARCH:
                print(f"store: calls that overlap, seed {seed}: expected {want}, got {got}, status {status}, {memory} bytes")
                return False
    return True


def bears_classes(program):
    """Whether a store of many classes of keys is judged class by class, and a wrong one names its class."""
    lines, last = [], 2000
    for place in range(last):
        key, begin = b"%04d" % (last - place), 3 * place
        lines.append(b'%d %d %d txn if "%sx" - then "%sy" "v" then "%sx" "w" -> true\n'
                     % (2 * place, begin, begin + 9, key, key, key))
        lines.append(b'%d %d %d get "%sy" -> "v"\n' % (2 * place + 1, begin + 2, begin + 3, key))
    right = b"".join(lines)
    wrong = right + b'1 90000 90001 get "0007x" -> "v"\n'
    chain = b"".join(b'0 %d %d txn if "%d" - if "%d" - -> true\n'
                     % (2 * place, 2 * place + 1, last - place, last - place - 1) for place in range(last))
    texts = ((right, b"legal calls=4000 clients=4000 objects=2000\n", 0),
             (wrong, b'illegal part 4001 "0007x"\nstuck 4001 "w"\n', 1),
             (chain, b"legal calls=2000 clients=1 objects=1\n", 0))
    for text, want, status in texts:
        done = subprocess.run([program, "keys", "--whole"], input=text, capture_output=True, timeout=60, check=False)
        if (done.stdout, done.returncode) != (want, status):
            print(f"store: classes: expected {want!r}, got {done.stdout[:80]!r}, status {done.returncode}")
            return False
    return True


def draws_are_right(program, begins, wanted, whole=False, level=LINEARIZABLE):
    """Whether the verdicts on drawn histories are right, which begin with first values or not, and each kind came up
    that is wanted."""
    draw = random.Random(f"{begins} {whole} {level}")
    kinds = {}
    for _ in range(HISTORIES // 2 if whole or level != LINEARIZABLE else HISTORIES):
        text, firsts = drawn_whole(draw, begins) if whole else drawn_history(draw, begins)
        start = start_text(draw, firsts) if begins else None
        if draw.random() < 0.3:
            if begins and draw.random() < 0.7:
                start = damaged(draw, start)
            else:
                text = damaged(draw, text)
        right, want, got = is_right(program, text, start, whole, level)
        kind = b" ".join(want.split(b" ")[:2 if want[:1] in b"fi" else 1])
        kinds[kind] = kinds.get(kind, 0) + 1
        if not right:
            print(f"store: {level}: expected {want!r}, got {got!r} for:\n{text!r}\nand the start file {start!r}")
            return False
    told = ", ".join(f"{kind.decode()} {count}" for kind, count in sorted(kinds.items()))
    what = f"{' on whole stores' if whole else ''}{' with first values' if begins else ''}"
    what += "" if level == LINEARIZABLE else f" ({level})"
    print(f"store: {sum(kinds.values())} verdicts{what} are right: {told}")
    if wanted - set(kinds):
        print(f"store: never drawn: {wanted - set(kinds)}")
    return not wanted - set(kinds)


def main():
    """Status 0: all verdicts are right and each kind came up."""
    vacation = sys.argv[1] if len(sys.argv) > 1 else f"{HERE}/../crates/vacation/out/vacation"
    crates = os.path.dirname(os.path.dirname(os.path.dirname(os.path.abspath(vacation))))
    program = f"{crates}/judge/out/judge"
    if not os.access(program, os.X_OK):
        print(f"store: {program} is missing: build judge first")
        return 1
    wanted = {b"legal", b"touching", b"illegal client", b"illegal part", b"fault bad-call", b"fault bad-number",
              b"fault bad-operation", b"fault bad-reply", b"fault half-call"}
    begun = {b"legal", b"illegal part", b"fault bad-start", b"fault missing-value", b"fault key-twice"}
    if not (draws_are_right(program, False, wanted) and draws_are_right(program, True, begun)):
        return 1
    both = {b"legal", b"illegal client", b"illegal part", b"fault bad-operation", b"fault bad-reply"}
    if not (draws_are_right(program, False, both, True) and draws_are_right(program, True, begun, True)):
        return 1
    below = {b"legal", b"illegal part"}
    if not (draws_are_right(program, False, below, True, SEQUENTIAL) and
            draws_are_right(program, True, below, True, SERIALIZABLE) and
            draws_are_right(program, False, below, False, SERIALIZABLE)):
        return 1
    bears = (bears_cuts, bears_cut_starts, bears_usage, bears_size, bears_refusals, bears_streams, bears_long_searches,
             bears_overlaps, bears_classes)
    if not all(one(program) for one in bears):
        return 1
    print("store: verdicts on cut, long and many words are right, also with little memory and few steps; streams that "
          "fail and command lines that are refused are named")
    return 0


if __name__ == "__main__":
    sys.exit(main())
