#!/usr/bin/env python3
"""A second program: vets and fills method texts from the rules under docs/, independently of the proved crates.

    tools/reference.py < TEXT                 prints what the program trial must print
    tools/reference.py compare PROGRAM N SEED  holds PROGRAM against N random texts
"""
import random
import re
import subprocess
import sys

MAX_TEXT = 8192


class Refused(Exception):
    pass


def refuse(number, first=0, second=0):
    raise Refused(f"refused={number}:{first},{second}")


# --- text ---------------------------------------------------------------

NUMERAL = r"(?:0|[1-9][0-9]*)"
CONSTANT = r"(?:-[1-9][0-9]*|" + NUMERAL + ")"
OPERAND = r"(?:[lt]" + NUMERAL + "|#" + CONSTANT + ")"
PLACE = r"[lt]" + NUMERAL
SHAPES = {
    "R": rf"R {OPERAND}",
    "J": rf"J {NUMERAL}",
    "F": rf"F {OPERAND} {NUMERAL}",
    "L": rf"L {OPERAND}(?: {NUMERAL}){{1,8}}",
    "V": rf"V {PLACE} {OPERAND} {NUMERAL}(?: {OPERAND}){{0,7}}",
}
LIST = rf"(?:{NUMERAL}(?:,{NUMERAL})*)?"


class Reader:
    def __init__(self, text):
        self.text, self.at = text, 0

    def begins(self, word):
        return self.text.startswith(word + "=", self.at)

    def line(self, word):
        """The value of the next line and its place."""
        end = self.text.find("\n", self.at)
        if end < 0 or not self.begins(word):
            refuse(1, self.at)
        place = self.at + len(word) + 1
        self.at = end + 1
        return self.text[place:end], place


def ranged(pairs, place):
    """Numbers with their maxima, found from left to right in one value."""
    for at, low, number, high in pairs:
        if not low <= number <= high:
            refuse(3, place + at)


def number_line(reader, word, high):
    value, place = reader.line(word)
    if not re.fullmatch(NUMERAL, value):
        refuse(2, place)
    ranged([(0, 0, int(value), high)], place)
    return int(value)


def numbers(value, offset=0):
    found, at = [], offset
    for part in value.split(",") if value else []:
        found.append((at, 0, int(part), 63))
        at += len(part) + 1
    return found


def list_line(reader):
    value, place = reader.line("args")
    if not re.fullmatch(LIST, value) or len(numbers(value)) > 7:
        refuse(2, place)
    ranged(numbers(value), place)
    return [n for _, _, n, _ in numbers(value)]


def label_line(reader, temps):
    value, place = reader.line("label")
    match = re.fullmatch(rf"({NUMERAL}):({LIST})", value)
    if not match or len(numbers(match.group(2))) != temps:
        refuse(2, place)
    point, row = match.groups()
    ranged([(0, 0, int(point), 63)] + numbers(row, len(point) + 1), place)
    return int(point), [n for _, _, n, _ in numbers(row)]


def operand(word):
    return word[0], int(word[1:])


def op_line(reader):
    value, place = reader.line("op")
    shape = SHAPES.get(value[:1])
    if shape is None or not re.fullmatch(shape, value):
        refuse(2, place)
    letter, *words = value.split(" ")
    tests, at, operands = [], 2, []
    for index, word in enumerate(words):
        if word[0] == "#":
            tests.append((at + 1, -(2**31), int(word[1:]), 2**31 - 1))
        elif word[0] in "lt":
            tests.append((at + 1, 0, int(word[1:]), 63))
        else:
            tests.append((at, 0, int(word), 255 if letter == "V" else 63))
        operands.append(operand(word) if word[0] in "lt#" else ("n", int(word)))
        at += len(word) + 1
    ranged(tests, place)
    return letter, operands


def read(text):
    reader = Reader(text)
    method = {"class": number_line(reader, "class", 63), "name": number_line(reader, "name", 255), "args": list_line(reader)}
    method["result"] = number_line(reader, "result", 63)
    method["temps"] = number_line(reader, "temps", 8)
    labels, code = [], []
    while reader.begins("label"):
        if len(labels) == 16:
            refuse(1, reader.at)
        labels.append(label_line(reader, method["temps"]))
    while not code or reader.at < len(text):
        if len(code) == 64:
            refuse(1, reader.at)
        code.append(op_line(reader))
    method["labels"], method["code"] = labels, code
    return method


# --- form ---------------------------------------------------------------

def leaves(operation):
    return operation[0] in "RJ"


def named(operation):
    """Which of the operands are labels."""
    letter, operands = operation
    return {"J": [0], "F": [1], "L": list(range(1, len(operands)))}.get(letter, [])


def form(method):
    points = [point for point, _ in method["labels"]]
    for i, point in enumerate(points):
        if point >= len(method["code"]) or (i and point <= points[i - 1]):
            refuse(4, i)
    counts = {"l": len(method["args"]) + 1, "t": method["temps"]}
    for p, operation in enumerate(method["code"]):
        for k, (kind, n) in enumerate(operation[1]):
            if k in named(operation):
                if n >= len(points):
                    refuse(5, p, k)
            elif kind in counts and n >= counts[kind]:
                refuse(5, p, k)
    for p, operation in enumerate(method["code"]):
        last = p + 1 == len(method["code"])
        if leaves(operation) != last and (last or p + 1 not in points):
            refuse(6, p)


# --- classes and rows ----------------------------------------------------

class Card:
    def __init__(self, parents, rows):
        self.parents, self.rows = parents, rows

    def line(self, c):
        found = []
        while c < len(self.parents):
            found.append(c)
            if c == 0:
                return found
            c = self.parents[c]
        return []

    def fits(self, a, b):
        return b < len(self.parents) and b in self.line(a)

    def join(self, a, b):
        return next((c for c in self.line(a) if self.fits(b, c)), 0)

    def lookup(self, c, name):
        for above in self.line(c):
            for row in self.rows:
                if row[:2] == (above, name):
                    return row
        return None


TRIAL = Card([0, 0, 0, 0], [(2, 0, (), 2), (2, 2, (2,), 2), (2, 5, (2,), 1)])


def new_row(card, method):
    classes = [method["class"], *method["args"], method["result"]]
    for place, c in enumerate(classes):
        if c >= len(card.parents):
            refuse(8, place)
    row = (method["class"], method["name"], tuple(method["args"]), method["result"])
    if any(other[:2] == row[:2] for other in card.rows):
        refuse(10)
    for i, other in enumerate(card.rows):
        related = card.fits(other[0], row[0]) or card.fits(row[0], other[0])
        if other[1] == row[1] and related and other[2:] != row[2:]:
            refuse(11, i)
    return Card(card.parents, card.rows + [row])


# --- filling --------------------------------------------------------------

def tests(card, method, p, row, operation):
    """The operation's own tests at the row; answers the row behind it."""
    letter, operands = operation
    locals_ = [method["class"], *method["args"]]

    def class_of(o):
        return {"l": lambda n: locals_[n], "t": lambda n: row[n], "#": lambda n: 2}[o[0]](o[1])

    if letter == "R" and not card.fits(class_of(operands[0]), method["result"]):
        refuse(14, p, 0)
    if letter in "FL" and not card.fits(class_of(operands[0]), 1 if letter == "F" else 2):
        refuse(15, p, 0)
    if letter != "V":
        return row
    d, a, m, *bs = operands
    found = card.lookup(class_of(a), m[1])
    if found is None:
        refuse(12, p, 1)
    if len(bs) != len(found[2]):
        refuse(13, p, 2)
    for i, (b, c) in enumerate(zip(bs, found[2])):
        if not card.fits(class_of(b), c):
            refuse(13, p, 3 + i)
    if d[0] == "l":
        if not card.fits(found[3], locals_[d[1]]):
            refuse(14, p, 0)
        return row
    return row[: d[1]] + [found[3]] + row[d[1] + 1 :]


def sweep(card, method, table):
    altered, missed, current = False, None, [0] * method["temps"]
    at_point = {point: i for i, (point, _) in enumerate(method["labels"])}

    def comes(n, row):
        nonlocal altered
        new = row if table[n] is None else [card.join(a, b) for a, b in zip(table[n], row)]
        altered = altered or new != table[n]
        table[n] = list(new)

    for p, operation in enumerate(method["code"]):
        if p in at_point:
            if current is not None:
                comes(at_point[p], current)
            current = table[at_point[p]]
        if current is None:
            missed = p if missed is None else missed
            continue
        row = list(current)
        behind = tests(card, method, p, row, operation)
        for k in named(operation):
            comes(operation[1][k][1], row)
        current = None if leaves(operation) else behind
    return altered, missed


def fill(card, method):
    table, sweeps, altered = [None] * len(method["labels"]), 0, True
    while altered:
        altered, missed = sweep(card, method, table)
        sweeps += 1
    if missed is not None:
        refuse(17, missed)
    method["labels"] = [(point, row) for (point, _), row in zip(method["labels"], table)]
    return sweeps


def written(method):
    commas = lambda ns: ",".join(map(str, ns))
    word = lambda o: str(o[1]) if o[0] == "n" else o[0] + str(o[1])
    lines = [f"class={method['class']}", f"name={method['name']}", f"args={commas(method['args'])}"]
    lines += [f"result={method['result']}", f"temps={method['temps']}"]
    lines += [f"label={point}:{commas(row)}" for point, row in method["labels"]]
    lines += ["op=" + " ".join([letter, *map(word, operands)]) for letter, operands in method["code"]]
    return "".join(line + "\n" for line in lines)


def trial(data):
    try:
        method = read(data[:MAX_TEXT].decode("latin-1"))
        form(method)
        fill(new_row(TRIAL, method), method)
        return written(method).encode()
    except Refused as refusal:
        return f"{refusal}\n".encode()


# --- random texts ---------------------------------------------------------

def random_operand(rng, args, temps):
    kind = rng.choice("ltt#")
    if kind == "l":
        return f"l{rng.randrange(args + 1)}"
    if kind == "t" and temps:
        return f"t{rng.randrange(temps)}"
    return f"#{rng.choice([0, 1, -1, 4, 2**31 - 1, -2**31, rng.randrange(-99, 99)])}"


def random_text(rng):
    """A text that is mostly well formed, sometimes damaged."""
    args, temps = rng.randrange(4), rng.randrange(4)
    points = rng.randrange(1, 12)
    labels = sorted(rng.sample(range(points), rng.randrange(min(points, 5) + 1)))
    lines = [f"class={rng.choice([0, 1, 2, 3, 3, 3, 4])}", f"name={rng.choice([0, 2, 5, 7, 200, 255])}"]
    lines.append("args=" + ",".join(str(rng.choice([0, 1, 2, 3])) for _ in range(args)))
    lines += [f"result={rng.choice([0, 0, 1, 2, 3])}", f"temps={temps}"]
    lines += [f"label={p}:" + ",".join(str(rng.randrange(4)) for _ in range(temps)) for p in labels]
    for p in range(points):
        letters = "RJ" if p + 1 == points else ("VVVFLRJ" if p + 1 in labels else "VVVFL")
        if not labels:
            letters = letters.replace("J", "").replace("F", "").replace("L", "") or "R"
        letter = rng.choice(letters)
        o = lambda: random_operand(rng, args, temps)
        n = lambda: str(rng.randrange(len(labels))) if labels else "0"
        d = f"t{rng.randrange(temps)}" if temps and rng.random() < 0.8 else f"l{rng.randrange(args + 1)}"
        name = rng.choice([0, 2, 5])
        call = ["0"] if name == 0 else [str(name), o()]
        if rng.random() < 0.1:
            call = [str(rng.choice([7, 200])), *[o() for _ in range(rng.randrange(3))]]
        words = {"R": [o()], "J": [n()], "F": [o(), n()], "L": [o(), *[n() for _ in range(rng.randrange(1, 4))]], "V": [d, o(), *call]}[letter]
        lines.append("op=" + " ".join([letter, *words]))
    text = "".join(line + "\n" for line in lines)
    if rng.random() < 0.3:
        at = rng.randrange(len(text))
        text = text[:at] + rng.choice(["", "0", "-", ",", " ", "\n", "=", "64", "999999999999", "l", "#", ":"]) + text[at + rng.randrange(2) :]
    if rng.random() < 0.03:
        text = text[: rng.randrange(len(text) + 1)]
    return text.encode()


def compare(program, count, seed):
    rng, differ, refusals = random.Random(seed), 0, {}
    for i in range(count):
        data = random_text(rng)
        expected = trial(data)
        given = subprocess.run([program], input=data, capture_output=True).stdout
        kind = expected.split(b":")[0].decode() if expected.startswith(b"refused") else "filled"
        refusals[kind] = refusals.get(kind, 0) + 1
        if given != expected:
            differ += 1
            print(f"case {i}: {data!r}\n  expected {expected!r}\n  given {given!r}")
    print(f"{count} texts, {differ} differ: {refusals}")
    return 1 if differ else 0


if __name__ == "__main__":
    if len(sys.argv) > 1 and sys.argv[1] == "compare":
        sys.exit(compare(sys.argv[2], int(sys.argv[3]), int(sys.argv[4])))
    sys.stdout.buffer.write(trial(sys.stdin.buffer.read(MAX_TEXT)))
