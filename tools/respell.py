#!/usr/bin/env python3
"""Brings this repository's own definitions and lemmas to the spelling of today's library, once, after the kit's port.py.

    python3 tools/respell.py [--check]        at the top of the repository

- a name that begins with a small letter is in snake case: firstFault -> first_fault
- a dash stands behind the definition that a lemma is about, and plain words are joined by _: coefficientAt-only ->
  coefficient_at-only, inverse-of-two-components -> inverse-of_two_components, call-is -> call_is
- a record's field and a constructor have no dash: n-low -> n_low
- x→y -> x_to_y
Names of functions of src/, strings and what the checker makes keep their spelling. A name whose new spelling is taken
in a file that uses it keeps its old one, and is listed ('kept:'); so is each name that the new spelling may hide.
It goes by text: rt check decides. --check writes nothing.
"""
import collections
import glob
import re
import sys

W = r"[^\s(){}.;,@\"«»`\[\]\\]+"
TOKEN = re.compile(r"\"(?:[^\"\\]|\\.)*\"|" + W)
SIGNATURE = re.compile(r"^(\s*)((?:(?:unfoldable|abbrev|pub|mutual|data|record) )*)(" + W + r")((?: (?:\{[^}]*\}|\([^)]*\)|" + W + r"))*?)\s+:(?:\s|$)")


# Names that would fall together with another name in its new spelling.
OWN = {
    "sum_over": "sum_at-over",
    "all_finished": "all_finished_parts",
    "same_at": "same_here",
    "below_code": "below_code_is",
    "length-by-order": "length-by_order_whole",
    "work-words": "work_words_lem",
    "table-in": "table_here",
    "map-in": "map_within",
    "source-entries": "source_entries_are",
    "map-check": "map_check_passed",
    "constant-check": "constant_check_passed",
    "all-terms": "all_terms_low",
}


def snake(word):
    """firstFault -> first_fault; C1 and IsSeries stay."""
    if not re.match(r"[a-z]", word):
        return word
    return re.sub(r"(?<=[a-z0-9])([A-Z])", lambda m: "_" + m.group(1).lower(), word)


def lemma_files():
    for pattern in ("crates/*/specs/**/*.antt", "crates/*/proofs/**/*.antt"):
        for path in sorted(glob.glob(pattern, recursive=True)):
            if path.split("/")[-1] not in ("Proof.antt", "Answers.antt", "Invariants.antt"):
                yield path


def declared():
    """Each declared name with what it is: 'definition', 'lemma', 'field' or 'constructor'."""
    kinds = collections.defaultdict(set)
    for path in lemma_files():
        block = None  # inside a record or data declaration
        for line in open(path, encoding="utf-8"):
            if line.lstrip().startswith("--") or not line.strip():
                continue
            head = re.match(r"^(\s*)(?:pub )?(record|data) (" + W + ")", line)
            if head:
                block = (len(head.group(1)), head.group(2))
                kinds[head.group(3)].add("type")
                continue
            indent = len(line) - len(line.lstrip())
            if block and indent <= block[0]:
                block = None
            found = SIGNATURE.match(line)
            if not found:
                continue
            name, words = found.group(3), found.group(2).split()
            if name in ("use", "module", "where", "let", "in", "λ", "→", "×") or name.startswith("--") or "◌" in name:
                continue
            if block:
                kinds[name].add("field" if block[1] == "record" else "constructor")
            elif "unfoldable" in words or "abbrev" in words or "/specs/" in path:
                kinds[name].add("definition")
            else:
                kinds[name].add("lemma")
    return kinds


def mapping(kinds):
    known = {n for n, k in kinds.items() if k & {"definition", "type"}} | {snake(n) for n, k in kinds.items() if k & {"definition", "type"}}
    known |= {"length", "take", "drop", "map", "replicate", "get_or", "append", "reverse", "order", "mul", "add", "sub", "mod", "div", "eq", "le", "lt", "suc", "zero", "nil", "cons", "snoc", "member", "concat", "not"}
    to = {}
    for name, k in kinds.items():
        new = name
        new = re.sub(r"(?<=[\w'-])→(?=[\w'-])", "_to_", new)
        new = re.sub(r"(?<=\w)≢(?=\w)", "_not_", new)
        parts = [snake(p) for p in new.split("-")] if re.match(r"[a-z]", new) or "-" in new else [new]
        if k & {"field", "constructor"}:
            new = "_".join(parts)
        else:
            out = parts[0]
            for k, (x, y) in enumerate(zip(parts, parts[1:])):
                sign = re.search(r"[^\w']", x + y)
                out += ("-" if sign or (k == 0 and x in known) else "_") + y
            new = out
        if re.match(r"^[a-z]", name) and "-" not in name and "→" not in name:
            new = snake(new)
        if new != name:
            to[name] = new
    return to


def of_the_library(texts):
    """The names that some file takes from the library."""
    own = "|".join(sorted(p.split("/")[1] for p in glob.glob("crates/*/src")))
    found = set()
    for text in texts.values():
        for m in re.finditer(r"use ([^\s{;]+)\.\{([^}]*)\}", text):
            if not re.match(rf"Rattle\.(?:{own})\.", m.group(1)):
                found |= {w for part in m.group(2).split(",") for w in part.split()}
        found |= set(re.findall(r"\b(?:Nat|Bool|Path|List|Omega|Dec|Rules|Common|Prelude|Modulo|Division)\.([^\s(){},;]+)", text))
    return found


def clauses(text):
    """The parts of a .rt file that are antt: ghost use items, clauses; as spans. Comments count too."""
    spans = []
    for m in re.finditer(r"ghost use [^;]*;|//[^\n]*", text):
        spans.append(m.span())
    for m in re.finditer(r"\b(?:requires|ensures|ghost)\*?(?: \w+)?:? \{", text):
        depth, at = 1, m.end()
        while depth and at < len(text):
            depth += {"{": 1, "}": -1}.get(text[at], 0)
            at += 1
        spans.append((m.start(), at))
    return sorted(spans)


def turned(text, to):
    def one(m):
        w = m.group(0)
        if w.startswith('"'):
            return w
        return to.get(w, w)

    return TOKEN.sub(one, text)


def turn_rt(text, to):
    out, at = [], 0
    for a, b in clauses(text):
        if a < at:
            continue
        out.append(text[at:a])
        out.append(turned(text[a:b], to))
        at = b
    out.append(text[at:])
    return "".join(out)


def words(text):
    return {m.group(0) for m in TOKEN.finditer(text)}


def main():
    check = "--check" in sys.argv[1:]
    kinds = declared()
    to = mapping(kinds)
    files = [p for pat in ("crates/*/specs/**/*.antt", "crates/*/proofs/**/*.antt") for p in sorted(glob.glob(pat, recursive=True))]
    sources = sorted(glob.glob("crates/*/src/**/*.rt", recursive=True))
    texts = {p: open(p, encoding="utf-8").read() for p in files + sources}
    tokens = {p: words(re.sub(r"--[^\n]*", "", t) if p.endswith(".antt") else t) for p, t in texts.items()}
    for old in sorted(of_the_library(texts) & to.keys()):
        print(f"kept: {old} is the library's too")
        del to[old]
    to |= {old: new for old, new in OWN.items() if old in kinds or any(old in ws for ws in tokens.values())}
    back = collections.defaultdict(set)
    for old, new in to.items():
        back[new].add(old)
    for new, olds in list(back.items()):  # two names that fall together
        if len(olds) > 1 or (new in kinds and new not in OWN):
            # a definition goes before a lemma
            ranked = sorted(olds, key=lambda o: (not (kinds[o] & {"definition"}), o))
            for o in ranked[0 if new in kinds and new not in OWN else 1:]:
                print(f"kept: {o}: {new} is taken ({', '.join(sorted(kinds.get(new, olds)))})")
                del to[o]
    for p, ws in tokens.items():
        for old in sorted(ws & to.keys()):
            if to[old] in ws:
                print(f"look: {p}: {old} -> {to[old]}, which the file has")
    for old, new in sorted(to.items()):
        if check:
            print(f"{old} -> {new}")
    if check:
        return
    for p, t in texts.items():
        new = turned(t, to) if p.endswith(".antt") else turn_rt(t, to)
        if new != t:
            open(p, "w", encoding="utf-8").write(new)


main()
