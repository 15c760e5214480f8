#!/usr/bin/env python3
"""Brings the texts of the must-fail edits to today's spelling, once, after tools/respell.py: the same wrong meanings.

    python3 tools/respell_edits.py        at the top of the repository

An edit whose old text stands once in its file is left. Otherwise names, projections and the parameter that was called
`result` are spelled as the file spells them now, in the old and in the new text alike. What still does not fit is
listed, to be brought over by hand.
"""
import glob
import re

WORD = re.compile(r"[^\s(){}.;,@\"«»`\[\]\\]+")
NAMES = {"getD": "get_or"}


def snake(word):
    if word in NAMES:
        return NAMES[word]
    if re.match(r"[a-z]", word):
        word = re.sub(r"(?<=[a-z0-9])([A-Z])", lambda m: "_" + m.group(1).lower(), word)
    return word


def spelled(text, source):
    text = re.sub(r"\((\w+) \.(\w+)\)", r"\1.\2", text)
    text = re.sub(r"(?<=\w) \.(?=[a-z])", ".", text)
    if source:
        return re.sub(r"\bresult\b", "res", text)
    return WORD.sub(lambda m: snake(m.group(0)), text)


def dashed(text):
    return re.sub(r"(?<=pub )([\w]+)-([\w]+)", r"\1_\2", text)


for path in sorted(glob.glob("crates/*/must-fail/*.edit")):
    crate = path.split("/")[1]
    out, file, pair, fits = [], None, None, True
    texts = {}
    for line in open(path, encoding="utf-8").read().split("\n"):
        if line.startswith("file: "):
            file = line[6:].strip()
            if file not in texts:
                texts[file] = open(f"crates/{crate}/{file}", encoding="utf-8").read()
        if line.startswith("old: "):
            old = line[5:]
            turn = next(
                (t for t in (lambda x: x, lambda x: spelled(x, file.endswith(".rt")), lambda x: dashed(spelled(x, False)))
                 if texts[file].count(t(old)) == 1),
                None,
            )
            if turn is None:
                fits, turn = False, (lambda x: x)
            pair = turn
            out.append("old: " + turn(old))
        elif line.startswith("new: "):
            out.append("new: " + pair(line[5:]))
            texts[file] = texts[file].replace(out[-2][5:], out[-1][5:], 1)
        else:
            out.append(line)
    if fits:
        open(path, "w", encoding="utf-8").write("\n".join(out))
    else:
        print("by hand:", path)
