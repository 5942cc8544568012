#!/usr/bin/env python3
"""A second program for sessions: plays console commands from the rules under docs/, independently of the proved crates.

    tools/reference_console.py < SESSION                prints what the program console must print
    tools/reference_console.py compare PROGRAM N SEED   holds PROGRAM against N random sessions
"""
import random
import re
import subprocess
import sys

from reference import Card, Refused, fill, form, leaves, named, new_row, random_text, read, refuse, tests, written

INT, BOOL = 2, 1
LOW, HIGH = -(2**31), 2**31 - 1
MAX_FRAMES, MAX_ROWS, MAX_POINTS, MAX_CLASSES, MAX_DEPTH, MAX_STEPS = 8, 64, 1024, 64, 7, 65535


# --- hosts: ask(question) answers a value (class, number) or a cause ---------

def shaped(q, arguments, c, answer):
    if len(q["arguments"]) != arguments:
        return 2
    if q["wanted"] not in (0, c):
        return 3
    return answer()


def ranged(x):
    return (INT, x) if LOW <= x <= HIGH else 5


class Numbers:
    def ask(self, q):
        x, arguments = q["receiver"][1], q["arguments"]
        y = lambda: arguments[0][1]
        quotient = lambda: abs(x) // abs(y()) * (1 if (x < 0) == (y() < 0) else -1)
        ops = {
            0: (0, INT, lambda: (INT, x)),
            1: (1, INT, lambda: ranged(x + y())),
            2: (1, INT, lambda: ranged(x - y())),
            3: (1, INT, lambda: ranged(x * y())),
            4: (1, INT, lambda: ranged(quotient()) if y() else 5),
            5: (1, BOOL, lambda: (BOOL, int(x <= y()))),
            6: (1, BOOL, lambda: (BOOL, int(x == y()))),
        }
        return shaped(q, *ops[q["name"]]) if q["name"] in ops else 1


class Cells:
    def __init__(self):
        self.cells = [0] * 64

    def ask(self, q):
        n = q["receiver"][1]
        if q["name"] not in (128, 129):
            return 1

        def held():
            if not 0 <= n < 64:
                return 4
            former = self.cells[n]
            if q["name"] == 129:
                self.cells[n] = q["arguments"][0][1]
            return (INT, former)

        return shaped(q, q["name"] - 128, INT, held)


class Script:
    def __init__(self, cues):
        self.cues = list(cues)

    def ask(self, q):
        if not self.cues:
            return 6
        if self.cues[0][0] != q["name"]:
            return 7
        return self.cues.pop(0)[1]


class Switch:
    def __init__(self, first, second):
        self.first, self.second = first, second

    def ask(self, q):
        return (self.first if q["name"] < 128 else self.second).ask(q)


# --- the card ----------------------------------------------------------------

class Broken(Exception):
    """An ending of a go: what it prints, and where."""

    def __init__(self, what, frame):
        super().__init__(what)
        self.what, self.row, self.point = what, frame["row"], frame["point"]


class FullCard:
    def __init__(self, issue):
        self.issue, self.frames = issue, []
        self.table, self.methods = Card([0, 0, 0], []), []

    def add_class(self, parent):
        parents = self.table.parents
        if parent >= len(parents):
            refuse(8)
        if len(parents) >= MAX_CLASSES:
            refuse(9, 0)
        if len(self.table.line(parent)) > MAX_DEPTH:
            refuse(9, 1)
        self.table = Card(parents + [parent], self.table.rows)
        return len(parents)

    def room(self, points):
        if len(self.methods) >= MAX_ROWS:
            refuse(9, 2)
        if points + sum(len(m["code"]) for m in self.methods if m) > MAX_POINTS:
            refuse(9, 3)

    def native(self, c, name, args, result):
        if max([c, result, *args]) > 63 or name > 255 or len(args) > 7:
            refuse(3)
        grown = new_row(self.table, {"class": c, "name": name, "args": args, "result": result})
        self.room(0)
        self.table = grown
        self.methods.append(None)
        return len(self.methods) - 1

    def load(self, text):
        method = read(text)
        form(method)
        signature = 2 + len(method["args"])
        cells = [c for _, row in method["labels"] for c in row]
        absent = [i for i, c in enumerate([method["class"], *method["args"], method["result"], *cells]) if c >= len(self.table.parents)]
        if absent and absent[0] >= signature:
            refuse(8, absent[0])
        grown = new_row(self.table, method)
        self.room(len(method["code"]))
        if self.issue:
            check(grown, method)
        self.table = grown
        self.methods.append(method)
        return len(self.methods) - 1

    def fill(self, text, room):
        method = read(text)
        form(method)
        sweeps = fill(new_row(self.table, method), method)
        text = written(method)
        if len(text) > room:
            refuse(7, len(text))
        return text, sweeps

    def write(self, row, room):
        if row >= len(self.methods):
            refuse(22)
        if self.methods[row] is None:
            refuse(20)
        text = written(self.methods[row])
        if len(text) > room:
            refuse(7, len(text))
        return text

    def start(self, receiver, name, arguments):
        if self.frames:
            refuse(18)
        values = [receiver, *arguments]
        if any(c > 63 or not LOW <= x <= HIGH for c, x in values) or name > 255 or len(arguments) > 7:
            refuse(3)
        for place, (c, _) in enumerate(values):
            if c >= len(self.table.parents):
                refuse(8, place)
        found = self.table.lookup(receiver[0], name)
        if found is None:
            refuse(12, 0, 1)
        row = self.table.rows.index(found)
        if self.methods[row] is None:
            refuse(20)
        self.takes(found, arguments, lambda k: refuse(13, 0, k))
        self.open(row, receiver, arguments)

    def takes(self, found, arguments, misfit):
        if len(arguments) != len(found[2]):
            misfit(2)
        for i, ((c, _), wanted) in enumerate(zip(arguments, found[2])):
            if not self.table.fits(c, wanted):
                misfit(3 + i)

    def open(self, row, receiver, arguments):
        temps = [(0, 0)] * self.methods[row]["temps"]
        self.frames.append({"row": row, "point": 0, "l": [receiver, *arguments], "t": temps})

    def go(self, host, n):
        if n > MAX_STEPS:
            refuse(3)
        if not self.frames:
            refuse(19)
        for taken in range(1, n + 1):
            try:
                self.step(host)
            except Broken as end:
                self.frames = []
                return f"{end.what} steps={taken} row={end.row} point={end.point}"
        top = self.frames[-1]
        return f"steps-taken steps={n} row={top['row']} point={top['point']}"

    def row_fits(self, values, row):
        return all(self.table.fits(v[0], c) for v, c in zip(values, row))

    def step(self, host):
        f = self.frames[-1]
        method = self.methods[f["row"]]
        letter, operands = method["code"][f["point"]]
        value = lambda o: (INT, o[1]) if o[0] == "#" else f[o[0]][o[1]]
        demand = lambda holds, n, k: holds or broken(f, n, k)
        for point, row in method["labels"]:
            if point == f["point"]:
                demand(self.row_fits(f["t"], row), 16, 15)
        a = value(operands[1 if letter == "V" else 0]) if letter != "J" else None
        if letter == "R":
            demand(self.table.fits(a[0], method["result"]), 14, 0)
            self.frames.pop()
            if not self.frames:
                raise Broken(f"returned={a[0]}:{a[1]}", f)
            return self.put(self.frames[-1], a)
        if letter in "FL":
            demand(self.table.fits(a[0], BOOL if letter == "F" else INT), 15, 0)
        if letter == "V":
            return self.call(host, f, operands, a, [value(b) for b in operands[3:]])
        for k in named((letter, operands)):
            demand(self.row_fits(f["t"], method["labels"][operands[k][1]][1]), 16, k)
        targets = [n for kind, n in operands if kind == "n"]
        if letter == "F":
            taken = targets[0] if a[1] != 0 else None
        elif letter == "L":
            taken = targets[a[1]] if 0 <= a[1] < len(targets) else None
        else:
            taken = targets[0]
        f["point"] = f["point"] + 1 if taken is None else method["labels"][taken][0]

    def call(self, host, f, operands, receiver, arguments):
        found = self.table.lookup(receiver[0], operands[2][1])
        if found is None:
            broken(f, 12, 1)
        self.takes(found, arguments, lambda k: broken(f, 13, k))
        row = self.table.rows.index(found)
        if self.methods[row] is not None:
            if len(self.frames) == MAX_FRAMES:
                raise Broken("frames-full", f)
            return self.open(row, receiver, arguments)
        c, name, _, wanted = found
        answer = host.ask({"name": name, "class": c, "wanted": wanted, "receiver": receiver, "arguments": arguments})
        if isinstance(answer, int):
            raise Broken(f"no-answer={answer}", f)
        if not self.table.fits(answer[0], wanted):
            broken(f, 21, 0)
        self.put(f, answer)

    def put(self, f, v):
        """The value for the invocation at which the frame stands."""
        method = self.methods[f["row"]]
        kind, n = method["code"][f["point"]][1][0]
        if kind == "l" and not self.table.fits(v[0], [method["class"], *method["args"]][n]):
            broken(f, 14, 0)
        f[kind] = f[kind][:n] + [v] + f[kind][n + 1 :]
        f["point"] += 1


def broken(frame, number, operand):
    raise Broken(f"broken-off={number}:{operand}", frame)


def check(card, method):
    at_point = dict(method["labels"])
    current = [0] * method["temps"]
    row_fits = lambda row, other: all(card.fits(a, b) for a, b in zip(row, other))
    for p, operation in enumerate(method["code"]):
        if p in at_point:
            if current is not None and not row_fits(current, at_point[p]):
                refuse(16, p, 15)
            current = at_point[p]
        row = list(current)
        behind = tests(card, method, p, row, operation)
        for k in named(operation):
            if not row_fits(row, method["labels"][operation[1][k][1]][1]):
                refuse(16, p, k)
        current = None if leaves(operation) else behind


# --- the console ---------------------------------------------------------------

def layer(call, refusal):
    number = int(re.match(r"refused=(\d+)", refusal).group(1))
    if number == 3 and call in ("native", "start", "go"):
        return "form"
    if number in (12, 13) and call == "start":
        return "run"
    return next(name for name, last in (("text", 3), ("form", 7), ("card", 11), ("check", 17), ("run", 22)) if number <= last)


NUMERAL = re.compile(r"0|[1-9][0-9]*")


def numeral(word, high=2**32 - 1):
    if not NUMERAL.fullmatch(word) or int(word) > high:
        raise ValueError
    return int(word)


def value(word):
    c, x = word.split(":")
    if not re.fullmatch(r"-?[0-9]+", x) or not -(2**63) <= int(x) < 2**63:
        raise ValueError
    return numeral(c), int(x)


def cue(word):
    name, c, x = word.split(":")
    return numeral(name, 255), (numeral(c, 255), int(x))


def make_host(words):
    if words == ["number"]:
        return Numbers()
    if words == ["cell"]:
        return Cells()
    if words[:1] == ["script"]:
        return Script(map(cue, words[1:]))
    if words[:1] == ["switch"] and words[2:3] in (["cell"], ["script"]):
        return Switch(make_host(words[1:2]), make_host(words[2:]))
    raise ValueError


class Session:
    def __init__(self):
        self.card, self.host = FullCard(True), Switch(Numbers(), Cells())

    def command(self, words, block):
        """The answer to one command; block() gives the text of the lines behind it."""
        call, rest = words[0], words[1:]
        if call == "card":
            kind, table = rest
            if kind not in ("issue", "bench") or table not in ("climbing", "masks"):
                raise ValueError
            self.card = FullCard(kind == "issue")
            return ""
        if call == "host":
            self.host = make_host(rest)
            return ""
        if call == "class":
            (parent,) = map(numeral, rest)
            return f"class={self.card.add_class(parent)}\n"
        if call == "native":
            c, name, args, result = rest
            args = [] if args == "-" else [numeral(a) for a in args.split(",")]
            return f"row={self.card.native(numeral(c), numeral(name), args, numeral(result))}\n"
        if call in ("load", "loadhex"):
            text = block() if call == "load" else hexed(*rest)
            return f"row={self.card.load(text)}\n"
        if call in ("fill", "fillhex"):
            room = numeral(rest[0], 65535)
            text, sweeps = self.card.fill(block() if call == "fill" else hexed(*rest[1:]), room)
            return f"length={len(text)} sweeps={sweeps}\n{text}"
        if call == "start":
            receiver, name, *arguments = rest
            self.card.start(value(receiver), numeral(name), [value(v) for v in arguments])
            return "started\n"
        if call == "go":
            (n,) = map(numeral, rest)
            return self.card.go(self.host, n) + "\n"
        if call == "write":
            row, room = rest
            text = self.card.write(numeral(row), numeral(room, 65535))
            return f"length={len(text)}\n{text}"
        if call in ("fits", "join"):
            a, b = map(numeral, rest)
            table = self.card.table
            return ("fits\n" if table.fits(a, b) else "fits-not\n") if call == "fits" else f"join={table.join(a, b)}\n"
        raise ValueError


def hexed(word):
    return "" if word == "-" else bytes.fromhex(word).decode("latin-1")


def play(session):
    lines, out, at, state = session.split("\n"), [], 0, Session()
    while at < len(lines):
        line, number = lines[at], at + 1
        at += 1

        def block():
            nonlocal at
            text = ""
            while at < len(lines) and lines[at] != ".":
                text += lines[at] + "\n"
                at += 1
            at += 1
            return text

        if line == "" or line.startswith("--"):
            continue
        try:
            out.append(state.command(line.split(" "), block))
        except Refused as refusal:
            call = line.split(" ")[0]
            out.append(f"{refusal} layer={layer(call, str(refusal))}\n")
        except ValueError:
            out.append(f"line {number}: not understood\n")
    return "".join(out)


# --- random sessions --------------------------------------------------------------

NATIVES = ["0 - 2", "1 2 2", "2 2 2", "3 2 2", "4 2 2", "5 2 1", "6 2 1", "128 - 2", "129 2 2"]


def random_body(rng, shadow):
    """A method text, on most tries one that can be filled on the card as it stands."""
    text = random_text(rng)
    if rng.random() < 0.15:
        return text.decode("latin-1")
    for _ in range(60):
        text = random_text(rng).decode("latin-1").replace("name=0", "name=210").replace("name=2\n", "name=211\n")
        try:
            filled, _ = shadow.card.fill(text, 8192)
            return filled if rng.random() < 0.8 else text
        except Refused:
            pass
    return text


def random_start(rng, shadow, value):
    coded = [row for row, method in zip(shadow.card.table.rows, shadow.card.methods) if method]
    if not coded or rng.random() < 0.1:
        return " ".join([f"start {value()} {rng.choice([0, 2, 200, 256])}", *[value() for _ in range(rng.randrange(4))]])
    c, name, args, _ = rng.choice(coded)
    below = lambda c: rng.choice([k for k in range(len(shadow.card.table.parents)) if shadow.card.table.fits(k, c)])
    number = lambda: rng.choice([0, 1, 2, 3, 10, 50, -1, 2**31 - 1])
    return " ".join([f"start {below(c)}:{number()} {name}", *[f"{below(a)}:{number()}" for a in args]])


def random_session(rng):
    shadow, lines = Session(), []

    def say(line):
        lines.append(line)
        block = lambda: line.split("\n", 1)[1][:-1]
        try:
            shadow.command(line.split("\n")[0].split(" "), block)
        except (Refused, ValueError):
            pass

    say(f"card {rng.choice(['issue', 'issue', 'bench'])} {rng.choice(['climbing', 'masks'])}")
    cues = " ".join(f"{rng.choice([0, 1, 2, 5, 128, 200])}:{rng.choice([0, 1, 2, 2, 2, 3, 70])}:{rng.randrange(-9, 9)}" for _ in range(rng.randrange(9)))
    hosts = ["number", "number", "cell", "switch number cell", f"script {cues}".strip(), f"switch number script {cues}".strip()]
    say(f"host {rng.choice(hosts)}")
    number = lambda: rng.choice([0, 1, -1, 2, 3, 7, 63, 64, 2**31 - 1, -(2**31), 2**31, rng.randrange(-99, 99)])
    value = lambda: f"{rng.choice([0, 1, 2, 2, 2, 3, 3, 4, 64])}:{number()}"
    for _ in range(rng.randrange(1, 4)):
        say(f"class {rng.choice([0, 0, 2, 3])}")
    for native in rng.sample(NATIVES, rng.randrange(4, 10)):
        say(f"native {rng.choice([2, 2, 2, 2, 2, 0, 3])} {native}")
    for _ in range(rng.randrange(10, 60)):
        kind = rng.choice("cnllllffssssggggggwtj")
        if kind == "c":
            say(f"class {rng.choice([0, 0, 1, 2, 3, 3, 4, 5, 9, 63, 64, 2**32 - 1])}")
        elif kind == "n":
            say(f"native {rng.randrange(5)} {rng.choice([0, 2, 5, 7, 200, 256])} {rng.choice(['-', '2', '0,1', '0,0,0,0,0,0,0,0'])} {rng.randrange(4)}")
        elif kind in "lf":
            text = random_body(rng, shadow)
            room = f" {rng.choice([8192, 8192, 60])}" if kind == "f" else ""
            word = "load" if kind == "l" else "fill"
            if text.endswith("\n") and "\n.\n" not in text and not text.startswith(".\n"):
                say(f"{word}{room}\n{text}.")
            else:
                say(f"{word}hex{room} {text.encode('latin-1').hex() or '-'}")
        elif kind == "s":
            say(random_start(rng, shadow, value))
        elif kind == "g":
            say(f"go {rng.choice([0, 1, 1, 2, 3, 5, 10, 100, 1000, 65535, 65536])}")
        elif kind == "w":
            say(f"write {rng.randrange(14)} {rng.choice([8192, 20])}")
        else:
            say(f"{'fits' if kind == 't' else 'join'} {rng.randrange(8)} {rng.randrange(8)}")
    return "".join(line + "\n" for line in lines)


def compare(program, count, seed):
    rng, differ, kinds = random.Random(seed), 0, {}
    for i in range(count):
        session = random_session(rng)
        expected = play(session)
        given = subprocess.run([program], input=session.encode("latin-1"), capture_output=True).stdout.decode("latin-1")
        for line in expected.splitlines():
            kind = re.match(r"refused=\d+|broken-off=\d+|[a-z-]+", line)
            if kind and not line.startswith(("op=", "label=", "args=", "temps=", "name=", "result=")):
                kinds[kind.group(0)] = kinds.get(kind.group(0), 0) + 1
        if given != expected:
            differ += 1
            print(f"session {i} differs:\n{session}--- expected\n{expected}--- given\n{given}")
    print(f"{count} sessions, {differ} differ: {dict(sorted(kinds.items()))}")
    return 1 if differ else 0


if __name__ == "__main__":
    if len(sys.argv) > 1 and sys.argv[1] == "compare":
        sys.exit(compare(sys.argv[2], int(sys.argv[3]), int(sys.argv[4])))
    sys.stdout.buffer.write(play(sys.stdin.buffer.read().decode("latin-1")).encode("latin-1"))
