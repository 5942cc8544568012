#!/usr/bin/env python3
"""Measures the console: tools/bench.py PROGRAM [LUA]

One turn of Countdown's loop (two V, F and J, every test made) beside the same loop by function calls in Lua, and how load and fill
grow with the points of a method, the rows of a card and its classes. Each figure is the difference between a long and a short session,
the best of five.
"""
import subprocess
import sys
import time

LUA = "lua5.4"
COUNTDOWN = "class=3\nname=200\nargs=2\nresult=2\ntemps=2\nlabel=1:2,0\nlabel=5:2,1\nop=V t0 l1 0\nop=V t1 t0 5 #0\nop=F t1 1\nop=V t0 t0 2 #4\nop=J 0\nop=R t0\n"
STEPS, PORTIONS = 65535, 200


def seconds(command, data=b""):
    best = None
    for _ in range(5):
        begin = time.perf_counter()
        subprocess.run(command, input=data, stdout=subprocess.DEVNULL, check=True)
        took = time.perf_counter() - begin
        best = took if best is None else min(best, took)
    return best


def session(table, extra_classes=0, extra_rows=0):
    lines = [f"card issue {table}", "host number", "class 0", *["class 0"] * extra_classes]
    lines += ["native 2 0 - 2", "native 2 2 2 2", "native 2 5 2 1"]
    lines += [f"native 3 {100 + i} - 2" for i in range(extra_rows)]
    return "\n".join(lines) + "\n"


def turn(program, table, extra_rows):
    begin = session(table, 0, extra_rows) + f"load\n{COUNTDOWN}.\nstart 3:0 200 2:2147483647\n"
    run = lambda portions: seconds([program], (begin + f"go {STEPS}\n" * portions).encode())
    return (run(PORTIONS) - run(1)) / ((PORTIONS - 1) * STEPS / 4)


def lua_turn(lua):
    turns = PORTIONS * STEPS // 4
    run = lambda n: seconds([lua, __file__.replace("bench.py", "countdown.lua"), str(n)])
    return (run(turns) - run(1)) / (turns - 1)


def method(points, result):
    """A loop of that many points; with result class 1 its last point does not pass."""
    code = ["op=V t0 l1 0", *["op=V t0 t0 2 #1"] * (points - 4), "op=V t1 t0 5 #0", "op=F t1 0", "op=R t0"]
    return f"class=3\nname=200\nargs=2\nresult={result}\ntemps=2\nlabel=1:2,0\n" + "".join(line + "\n" for line in code)


def call(program, word, table, points, classes, rows):
    begin = session(table, classes, rows)
    # a load that is refused at the last point makes the whole check and leaves the card as it was
    text = method(points, 1 if word == "load" else 2)
    block = f"load\n{text}.\n" if word == "load" else f"fill 8192\n{text}.\n"
    run = lambda n: seconds([program], (begin + block * n).encode())
    return (run(400) - run(1)) / 399


def main():
    program, lua = sys.argv[1], (sys.argv[2:] or [LUA])[0]
    print(f"one turn in Lua: {lua_turn(lua) * 1e9:.0f} ns")
    for table in ("climbing", "masks"):
        for rows in (0, 56):
            print(f"one turn, {table}, {4 + rows} rows: {turn(program, table, rows) * 1e9:.0f} ns")
    for table in ("climbing", "masks"):
        for word in ("load", "fill"):
            for points, classes, rows in ((8, 0, 0), (16, 0, 0), (32, 0, 0), (64, 0, 0), (64, 60, 0), (64, 0, 56)):
                took = call(program, word, table, points, classes, rows)
                print(f"{word}, {table}, {points} points, {4 + classes} classes, {3 + rows} rows: {took * 1e6:.1f} us")


if __name__ == "__main__":
    main()
