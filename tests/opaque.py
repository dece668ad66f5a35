#!/usr/bin/env python3
"""Compares `vacation opaque` with a naive judge that stands here, written from the words of opacity
and the lines in docs/CHECK-STM.md, apart from the program: over random attempts of a few clients at a
few words, in an order that is opaque and in one that is damaged in one place. For each attempt it
looks through all lines before it, and keeps no words. With --place, if the program has that option,
it compares drawn logs of up to six attempts with a search through all orders. Its argument is the
program; with none it is the one that the last build left."""

import random
import subprocess
import sys

import built

TEXTS, MOST, MOST_CLIENT = 400, (1 << 64) - 1, (1 << 32) - 1
# Lines that are no attempt, with their fault, at 5 words.
BAD = {
    "": "bad-count", "0 0 0": "bad-count", "0 0 0 commit ": "bad-count", "0 0 0 abort r 1": "bad-count",
    "0 0 0 abort r 1 1 w": "bad-count", "a b c": "bad-count", "a b c d e": "bad-number", "0  0 0 commit": "bad-number",
    "4294967296 0 0 commit": "bad-number", "0 18446744073709551616 0 commit": "bad-number",
    "0 0 - commit": "bad-number", "0 0 0 Commit": "bad-command", "0 0 0 committed": "bad-command",
    "0 0 0 abort x 1 1": "bad-kind", "0 0 0 abort rr 1 1": "bad-kind", "0 0 0 abort r 5 0": "bad-number",
    "0 0 0 abort w 0 18446744073709551616": "bad-number", "0 0 0 abort w -1 0": "bad-number",
    "0 0 0 commit\t": "bad-byte", "0 0 0 commit\x7f": "bad-byte",
    "0 0 0 commit" + " w 1 1" * 11_184_809: "long-line",
}
WORDS = 5
# The most bytes of a line.
LONGEST = 67_108_864


def digits(text, most_digits, most):
    """The number of a word of decimal digits, or None."""
    fits = 1 <= len(text) <= most_digits and all(letter in "0123456789" for letter in text)
    return int(text) if fits and int(text) <= most else None


def parse(line):
    """The attempt of a line, or the name of its fault."""
    if len(line) > LONGEST:
        return "long-line"
    if any(not " " <= letter <= "~" for letter in line):
        return "bad-byte"
    parts = line.split(" ")
    if len(parts) < 4:
        return "bad-count"
    numbers = [digits(parts[0], 10, MOST_CLIENT), digits(parts[1], 20, MOST), digits(parts[2], 20, MOST)]
    if None in numbers:
        return "bad-number"
    if parts[3] not in ("commit", "abort"):
        return "bad-command"
    accesses = []
    for at in range(4, len(parts), 3):
        three = parts[at:at + 3]
        if len(three) < 3:
            return "bad-count"
        word, value = digits(three[1], 20, WORDS - 1), digits(three[2], 20, MOST)
        if three[0] not in ("r", "w"):
            return "bad-kind"
        if word is None or value is None:
            return "bad-number"
        accesses.append((three[0], word, value))
    return (*numbers, parts[3] == "commit", accesses)


def expected(before, own, word):
    """What a read of a word is to give: the last write before it, of its own or of a committed one."""
    seen = [access for attempt in before if attempt[3] for access in attempt[4]] + own
    return next((value for kind, at, value in reversed(seen) if kind == "w" and at == word), 0)


def judge(text):
    """The verdict on a text of attempts."""
    lines = text.split("\n")
    lines = lines if lines[-1] else lines[:-1]
    before = []
    for number, line in enumerate(lines, 1):
        attempt = parse(line)
        if isinstance(attempt, str):
            return f"fault {attempt} {number}\n"
        client, begin, end, _, accesses = attempt
        if end < begin or any(other[0] == client and begin < other[2] for other in before):
            return f"illegal client {number}\n"
        if any(end < other[1] for other in before):
            return f"illegal time {number}\n"
        for at, (kind, word, value) in enumerate(accesses):
            if kind == "r" and value != expected(before, accesses[:at], word):
                return f"illegal read {number} {word} {expected(before, accesses[:at], word)}\n"
        before.append(attempt)
    done = sum(attempt[3] for attempt in before)
    return f"opaque attempts={len(before)} committed={done} clients={len({one[0] for one in before})}\n"


def draw(chance):
    """Random attempts whose order is opaque, as lists of their words."""
    words, free, now, attempts = [0] * WORDS, {}, chance.choice([0, 5, MOST - 400]), []
    for _ in range(chance.randrange(0, 25)):
        client = chance.choice([0, 1, 2, MOST_CLIENT])
        begin = max(free.get(client, 0), now - chance.randrange(0, 5), 0)
        end = now = max(now, begin) + chance.randrange(0, 3)
        free[client], commits, mine, accesses = end, chance.random() < 0.6, list(words), []
        for _ in range(chance.randrange(0, 7)):
            word = chance.randrange(WORDS)
            if chance.random() < 0.5:
                mine[word] = chance.choice([mine[word], 0, 1, chance.randrange(1 << 64), MOST])
                accesses.append(["w", str(word), str(mine[word])])
            else:
                accesses.append(["r", str(word), str(mine[word])])
        words = mine if commits else words
        attempts.append([str(client), str(begin), str(end), "commit" if commits else "abort", accesses])
    return attempts


def damage(attempts, chance):
    """Changes one place of one attempt, or the order of two."""
    attempt = chance.choice(attempts)
    kind = chance.randrange(5)
    if kind == 0 and attempt[4]:
        chance.choice(attempt[4])[2] = str(chance.randrange(3))
    elif kind == 1 and attempt[4]:
        chance.choice(attempt[4])[0] = chance.choice("rw")
    elif kind == 2:
        attempt[3] = "commit" if attempt[3] == "abort" else "abort"
    elif kind == 3:
        attempt[chance.choice([1, 2])] = str(chance.randrange(0, 40))
    else:
        at, other = chance.randrange(len(attempts)), chance.randrange(len(attempts))
        attempts[at], attempts[other] = attempts[other], attempts[at]


def as_text(attempts, chance):
    """The lines of attempts, sometimes with one that is none or with no end."""
    lines = [" ".join([*one[:4], *(part for access in one[4] for part in access)]) for one in attempts]
    if chance.random() < 0.15:
        lines.insert(chance.randrange(len(lines) + 1), chance.choice(list(BAD)))
    text = "".join(line + "\n" for line in lines)
    return text[:-1] if text and chance.random() < 0.2 else text


def run(program, text, options=()):
    """Returns what the program writes, its status, and its errors, without the warning about texts that show little."""
    command = [program, "attempts", "--words", str(WORDS), *options]
    ran = subprocess.run(command, input=text.encode(), capture_output=True, timeout=60, check=False)
    errors = ran.stderr.decode().splitlines(keepends=True)
    return ran.stdout.decode(), ran.returncode, "".join(line for line in errors if not line.startswith("warning: "))


def fits(before, attempt):
    """True if the attempt is right after the attempts before it."""
    client, begin, end, _, accesses = attempt
    if end < begin or any(other[0] == client and begin < other[2] or end < other[1] for other in before):
        return False
    return all(kind == "w" or value == expected(before, accesses[:at], word)
               for at, (kind, word, value) in enumerate(accesses))


def is_writer(attempt):
    """True if the attempt committed and wrote a word."""
    return attempt[3] and any(access[0] == "w" for access in attempt[4])


def has_order(before, left):
    """True if the attempts that are left can follow in some order that keeps that of the writers. All orders are tried."""
    if not left:
        return True
    first = next((at for at, attempt in enumerate(left) if is_writer(attempt)), None)
    return any(fits(before, attempt) and has_order(before + [attempt], left[:at] + left[at + 1:])
               for at, attempt in enumerate(left) if at == first or not is_writer(attempt))


def place(text):
    """The verdict on a text of attempts of which only the committed writers have places."""
    lines = text.split("\n")
    lines = lines if lines[-1] else lines[:-1]
    attempts = [parse(line) for line in lines]
    for number, attempt in enumerate(attempts, 1):
        if isinstance(attempt, str):
            return f"fault {attempt} {number}\n"
    if not has_order([], attempts):
        return "illegal places\n"
    done = sum(attempt[3] for attempt in attempts)
    return f"opaque attempts={len(attempts)} committed={done} clients={len({one[0] for one in attempts})}\n"


def draw_places(chance):
    """A few random attempts, as lists of their words: the writers in their order, and others that read what some writers
    left, mostly in their time, at any line."""
    clock, images, attempts, free = 0, [[0] * 3], [], {}
    for _ in range(chance.randrange(0, 7)):
        client, clock = chance.randrange(3), clock + chance.randrange(0, 3)
        begin = max(free.get(client, 0), clock - chance.randrange(0, 6))
        end = max(begin, clock)
        free[client], kind, accesses = end, chance.randrange(3), []
        mine = list(images[-1] if kind == 0 else chance.choice(images[-3:]))
        for _ in range(chance.randrange(1, 4)):
            word = chance.randrange(3)
            if kind != 2 and chance.random() < 0.4:
                mine[word] = chance.randrange(3)
                accesses.append(["w", str(word), str(mine[word])])
            else:
                value = mine[word] if chance.random() < 0.95 else chance.randrange(3)
                accesses.append(["r", str(word), str(value)])
        if kind == 0:
            images.append(mine)
        attempts.append([str(client), str(begin), str(end), "abort" if kind == 1 else "commit", accesses])
    for _ in range(chance.randrange(0, 4)):
        free_lines = [at for at, one in enumerate(attempts)
                      if one[3] == "abort" or all(access[0] == "r" for access in one[4])]
        if free_lines:
            attempts.insert(chance.randrange(len(attempts)), attempts.pop(chance.choice(free_lines)))
    if attempts and chance.random() < 0.1:
        damage(attempts, chance)
    return attempts


def compare(program, text, wanted, options=()):
    """Judges a text, and returns 1 if the verdict is not the wanted one, otherwise 0."""
    got = run(program, text, options)
    if got == (wanted, 0 if wanted.startswith("opaque") else 1, ""):
        return 0
    print(f"opaque: of {text[:400]!r} with {list(options)}: wanted {wanted!r}, got {got}")
    return 1


def drawn_texts():
    """Texts to be judged in their order: lines that are no attempt, and drawn ones, some of them damaged."""
    texts = [line + "\n" for line in BAD]
    for seed in range(TEXTS):
        chance = random.Random(seed)
        attempts = draw(chance)
        if attempts and seed % 3:
            damage(attempts, chance)
        texts.append(as_text(attempts, chance))
    return texts


def place_texts():
    """Texts of which only the committed writers have places."""
    texts = []
    for seed in range(TEXTS):
        chance = random.Random(seed)
        texts.append(as_text(draw_places(chance), chance))
    return texts


def longest_texts():
    """A line of the most bytes and one of a byte more, with their verdicts: leading zeros fill up the last value."""
    for size, wanted in ((LONGEST, "opaque attempts=1 committed=0 clients=1\n"), (LONGEST + 1, "fault long-line 1\n")):
        line = "0 0 0 abort" + " w 4 1" * ((size - 18) // 6) + " r 4 "
        yield line + "1".rjust(size - len(line), "0"), wanted


def name_of(verdict):
    """The first words of a verdict."""
    return " ".join(word for word in verdict.split()[:2] if "=" not in word)


def main():
    program = built.judge()
    wrong, found, texts = 0, {}, drawn_texts()
    for text in texts:
        wanted = judge(text)
        found[name_of(wanted)] = found.get(name_of(wanted), 0) + 1
        wrong += compare(program, text, wanted)
    for text, wanted in longest_texts():
        wrong += compare(program, text, wanted)
    places = place_texts()
    for text in places:
        wanted = place(text)
        found[name_of(wanted)] = found.get(name_of(wanted), 0) + 1
        wrong += compare(program, text, wanted, ("--place",))
    for line, fault in BAD.items():
        if parse(line) != fault:
            wrong += 1
            print(f"opaque: the judge here says {parse(line)} of {line[:60]!r}, and not {fault}")
    seen = {"opaque", "illegal client", "illegal time", "illegal read"} | {"illegal places"}
    if not seen <= set(found):
        wrong += 1
        print(f"opaque: no text has the verdicts {sorted(seen - set(found))}")
    print(f"opaque: {len(texts) + len(places)} texts, {wrong} wrong; verdicts {dict(sorted(found.items()))}")
    sys.exit(1 if wrong else 0)


main()
