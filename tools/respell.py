#!/usr/bin/env python3
"""Respells the repository's own definitions and lemmas: words in snake case, types and facts in camel case.

usage: tools/respell.py [--list]      at the top of the repository, once, after the port script

A name counts as the repository's own if an .antt file of specs/ or proofs/ declares it: a definition, a lemma, a field, a constructor.
Names that the checker makes (goals, steps of `c` and `l`), names of the library, and names of src/ stay, and so do strings.
With --list nothing is written, and the pairs and the names that would fall together are printed.
"""
import os
import re
import sys

# a name that would fall together with another gets one of its own
APART = {
    "FillsLawfully": "TextFillsLawfully",
    "arguments-fit": "arguments_fit_lem",
    "at-row": "at_row_lem",
    "at_label": "at_label_lem",
    "bit-and": "bit_and_lem",
    "body-at": "body_at_lem",
    "class-line": "class_line_lem",
    "code-at": "code_at_lem",
    "ends-at": "ends_at_lem",
    "first-label": "to_first_label",
    "given_back": "given_back_lem",
    "in-hand": "in_hand_lem",
    "label-here": "label_here_lem",
    "label-line": "label_line_lem",
    "label-row": "label_row_lem",
    "labels-fit": "labels_fit_lem",
    "line-in": "line_in_lem",
    "load_after": "load_after_lem",
    "method-text": "method_text_lem",
    "misfit-told": "misfit_told_lem",
    "name-line": "name_line_lem",
    "native-row": "native_row_lem",
    "new-mask": "new_mask_lem",
    "no_code": "no_code_lem",
    "ones-in": "ones_within",
    "op-at": "op_at_lem",
    "opened-on": "opened_on_lem",
    "point-of": "point_of_lem",
    "put-all": "put_all_lem",
    "result-line": "result_line_lem",
    "row-in": "row_in_lem",
    "row-there": "row_there_lem",
    "same-list": "same_list_lem",
    "same_signature": "same_signature_lem",
    "value_in": "value_in_lem",
}

# names that also stand in src/ or in paths of modules: only the lemma in proofs/ is meant
IN_PROOFS = {"at_label", "given_back", "load_after", "no_code", "same_signature", "value_in"}

WORD = r"[^\s(){}\[\]:;,.λ→×|«»]+"
TOKEN = re.compile(r"«?" + WORD + r"»?")


def files(root):
    for folder, dirs, names in os.walk(root):
        dirs[:] = sorted(d for d in dirs if d != "out")
        for n in sorted(names):
            if n.endswith((".antt", ".rt")):
                yield os.path.join(folder, n)


def read(path):
    with open(path, encoding="utf-8") as f:
        return f.read()


def declared(root):
    """The names that .antt files declare, but for answers to goals of the checker."""
    names = {}
    head = re.compile(r"^\s*(?:(?:pub|abbrev|unfoldable|data|record) )*(" + WORD + r")(?: [({].*)? : *(.*)$")
    for path in files(root):
        if not path.endswith(".antt"):
            continue
        for line in read(path).splitlines():
            if line.lstrip().startswith(("--", "use ", "let ")):
                continue
            m = head.match(line)
            if not m or m[2].startswith("goal."):
                continue
            names.setdefault(m[1], []).append(path)
    return names


def respelled(name):
    if name in APART:
        return APART[name]
    if not re.fullmatch(r"[A-Za-zℕ0-9_'-]+", name):
        return name
    if name[0].isupper():
        if "-" not in name:
            return name
        return "".join(p[:1].upper() + p[1:] for p in name.split("-"))
    words = re.sub(r"(?<=[a-z0-9])([A-Z])", lambda m: "_" + m[1].lower(), name)
    return words.replace("-", "_")


def pairs(root):
    return {n: respelled(n) for n in declared(root) if respelled(n) != n}


def turn(text, table, rust):
    out = []
    i = 0
    lexer = re.compile(r'"(?:[^"\\\n]|\\.)*"|' + TOKEN.pattern + r"|.|\n", re.S) if rust else re.compile(TOKEN.pattern + r"|.|\n", re.S)
    while i < len(text):
        m = lexer.match(text, i)
        t = m[0]
        i = m.end()
        behind = out[-1] if out else ""
        step = behind == "." and len(out) >= 2 and out[-2] in ("c", "l", "w", "goal", "g")
        if t in table and not step and not (t in IN_PROOFS and (rust or behind == ".")):
            t = table[t]
        out.append(t)
    return "".join(out)


def main(argv):
    root = "crates"
    table = pairs(root)
    if argv == ["--list"]:
        whole = declared(root)
        back = {}
        for old, new in sorted(table.items()):
            back.setdefault(new, []).append(old)
        for new, olds in sorted(back.items()):
            if len(olds) > 1 or new in whole:
                print("together:", new, olds, [whole[o][0] for o in olds], whole.get(new, [])[:2])
        for old, new in sorted(table.items()):
            print(old, "->", new)
        return 0
    for path in files(root):
        text = read(path)
        new = turn(text, table, path.endswith(".rt"))
        if new != text:
            with open(path, "w", encoding="utf-8") as f:
                f.write(new)
    return 0


if __name__ == "__main__":
    raise SystemExit(main(sys.argv[1:]))
