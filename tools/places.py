#!/usr/bin/env python3
"""Lists places of older forms in src/ at a commit: places.py COMMIT [--list]

For each kind of place a pattern and its count; a place is only one to look at.
The page docs/DESIGN-PASS.md says what became of each.
"""

import collections
import re
import subprocess
import sys

LINES = {
    "1 flag in a struct": r"^\s*(pub(\(crate\))? )?\w+: bool,",
    "1 flag answered by a change": r"fn \w+\(&mut self.*\) -> bool",
    "1 match that hands a case on": r"None => (return )?(Err\(|Answer::None|None\b|false|true|0\b)|Err\(\w*\) => Err\(|Ok\(\(?\w*\)?\) => Ok\(|Ok\(\w+\) => Response|Err\(refusal\) => Response",
    "1 refusal behind a missing value": r"^\s*let Some\(.*else \{$",
    "3 loop over numbers": r"for \w+ in [\w.]+\.\.",
    "3 loop with a test": r"\bwhile (?!let)|\bloop \{",
    "3 item behind a test of its place": r"if !?\(?\w+ (<|>=) [\w.]*(len\(\)|count|self\.next)\b",
    "4 impl by hand": r"^impl.*\b(Clone|PartialEq|Eq|Ord|Display|Debug|From<.*>|TryFrom<.*>) for",
    "4 cast": r" as (u8|u16|u32|u64|i32|i64|usize|char)\b",
    "6 array in a struct": r"^\s*(pub )?\w+: \[[\w]+; \w+\],",
    "6 count in a struct": r"^\s*(pub )?(count|depth|len|next): (usize|u8),",
    "7 function value": r"\bdyn \b|\bBox<|: fn\(",
}

GROUPS = [
    ("table", "entries"), ("entries", "bodies"), ("buffer", "at"), ("method", "row"),
    ("lines", "desk"), ("heap", "words"), ("receiver", "arguments"),
    ("class", "name", "arguments"), ("method", "operation"),
]


def files(commit):
    names = subprocess.check_output(["git", "ls-tree", "-r", "--name-only", commit, "crates"], text=True)
    for name in names.split():
        if re.match(r"crates/\w+/src/.*\.rt$", name) and "cases" not in name:
            yield name, subprocess.check_output(["git", "show", f"{commit}:{name}"], text=True)


def functions(text):
    """Each function with its signature, its clauses and its body."""
    for m in re.finditer(r"^( *)(?:pub(?:\(crate\))? )?(?:final )?(?:const )?fn (\w+)", text, re.M):
        end = re.search(rf"^{m.group(1)}\}}$", text[m.start():], re.M)
        whole = text[m.start(): m.start() + end.end()] if end else text[m.start():]
        cut = re.search(rf"^{m.group(1)}\{{$|\{{$", whole, re.M)
        head, body = (whole[: cut.start()], whole[cut.start():]) if cut else (whole, "")
        yield m.group(2), head, body


def shape(body):
    words = re.findall(r"\w+|[^\w\s]", re.sub(r"//.*", "", body))
    keep = {"for", "in", "if", "let", "mut", "return", "match", "while", "Ok", "Err", "Some", "None", "self", "else"}
    return tuple(w if w in keep or not re.match(r"\w", w) else "_" for w in words)


def main():
    commit = sys.argv[1]
    listed = "--list" in sys.argv
    found = collections.OrderedDict((k, []) for k in LINES)
    enums, shapes, groups, requires = [], collections.defaultdict(list), collections.defaultdict(list), collections.defaultdict(list)
    for name, text in files(commit):
        for number, line in enumerate(text.split("\n"), 1):
            if line.lstrip().startswith(("//", "ghost", "ensures", "requires")):
                continue
            for kind, pattern in LINES.items():
                if re.search(pattern, line):
                    found[kind].append(f"{name}:{number}: {line.strip()}")
        for m in re.finditer(r"enum (\w+)(?:<[^>]*>)? \{\n(.*?)^\}", text, re.M | re.S):
            cases = re.findall(r"^    ([A-Z]\w*)", m.group(2), re.M)
            if len(cases) == 2:
                enums.append(f"{name}: {m.group(1)} {{ {', '.join(cases)} }}")
        for fn, head, body in functions(text):
            parts = shape(body)
            if len(parts) > 24:
                shapes[parts].append(f"{name}: {fn}")
            signature = head.split("requires")[0].split("ensures")[0]
            for group in GROUPS:
                if all(re.search(rf"\b{p}: ", signature) for p in group):
                    groups[group].append(f"{name}: {fn}")
            for clause in re.findall(r"requires[^{]*\{ (.*) \}", head):
                for part in clause.split(" × "):
                    requires[re.sub(r"[()]|self\.(old|now)\.?", "", part)].append(f"{name}: {fn}")
    rows = [("1 own enum of two cases", enums)] + list(found.items())
    rows += [("2 functions of one shape", [" ~ ".join(v) for v in shapes.values() if len(v) > 1])]
    rows += [("5 parameters together: " + ", ".join(g), v) for g, v in groups.items() if len(v) > 2]
    rows += [("5 one fact asked in three or more: " + c, v) for c, v in requires.items() if len(v) > 2]
    for kind, places in sorted(rows, key=lambda r: r[0]):
        print(f"{len(places):4}  {kind}")
        if listed:
            for place in places:
                print(f"        {place}")


main()
