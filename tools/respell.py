#!/usr/bin/env python3
"""Spells this repository's own definitions and laws as today's Rattle spells names: snake case, and upper camel case for what is a type.

usage: respell.py [--list] [TOP]

It was run once, after the kit's port.py. A name is turned if specs/*.antt or proofs/*.antt of a crate declares it; goals that Rattle names stay.
Whole words turn, in .antt, .rt, .edit and .py files, and in code spans of .md files and of comments. --list prints the table and writes nothing.
"""
import collections
import glob
import os
import re
import sys

# Laws of this repository that have the name of one of the library's, which keeps its spelling.
STD = {"length-append", "append-nil", "drop-cons", "drop-length", "not-true", "or-true", "not-false"}
WORD = re.compile(r'[^\s(){}.;,@"«»`]+')
DECLARED = re.compile(r"^( *)((?:(?:pattern|unfoldable|abbrev|axiom|pub|record|data|module) )*)([^\s(){}.;,@\"«»`:=]+)((?: [^\n]*?)?) :(?: |$)([^\n]*)", re.M)
COMMENT = re.compile(r"--[^\n]*")
SPAN = re.compile(r"`[^`\n]*`")


def snake(name):
    words = re.sub(r"(?<=[a-z0-9])[A-Z]", lambda m: "_" + m[0].lower(), name)
    return words.replace("-", "_")


def camel(name):
    return "".join(w[:1].upper() + w[1:] for w in re.split("[-_]", name))


def signature(text, start):
    """The lines of the signature that begins at start."""
    line = text.rfind("\n", 0, start) + 1
    indent = len(text[line:]) - len(text[line:].lstrip(" "))
    out = []
    for k, row in enumerate(text[line:].split("\n")):
        if k and (not row.strip() or len(row) - len(row.lstrip(" ")) <= indent):
            break
        out.append(COMMENT.sub("", row))
    return " ".join(out).rstrip()


def table(top):
    names, types, kept = set(), set(), set()
    for path in glob.glob(f"{top}/crates/*/specs/*.antt") + glob.glob(f"{top}/crates/*/proofs/*.antt"):
        text = open(path, encoding="utf-8").read()
        for m in DECLARED.finditer(COMMENT.sub(lambda c: " " * len(c[0]), text)):
            name = m[3]
            if not re.match(r"[a-zA-Z]", name) or name in ("use", "open", "let", "where", "in"):
                continue
            names.add(name)
            if re.search(r"(?:→|:) Type(?: \d+)?$", signature(text, m.start())):
                types.add(name)
    for path in glob.glob(f"{top}/crates/*/src/*.rt"):
        text = open(path, encoding="utf-8").read()
        kept.update(re.findall(r"\b(?:const|static|struct|enum|type|trait|fn|mod) (\w+)", text))
    return names, types, kept


def main():
    args = [a for a in sys.argv[1:] if a != "--list"]
    top = args[0] if args else os.path.dirname(os.path.dirname(os.path.abspath(__file__)))
    names, types, kept = table(top)
    new = {}
    for name in names:
        if name in STD:
            continue
        if name in types and name[0].islower() and re.search("[A-Z]", name):
            to = camel(name)
        elif "-" in name or name[0].islower() and re.search("[A-Z]", name):
            to = snake(name)
            to = to[0].lower() + to[1:] if name not in types else to
        else:
            continue
        if to != name:
            new[name] = to
    paths = [p for kind in ("specs/**/*.antt", "proofs/**/*.antt", "src/*.rt", "must-fail/*.edit") for p in glob.glob(f"{top}/crates/*/{kind}", recursive=True)]
    # A law that would fall together with a definition ends in _lem; a definition that would with another name, in _is.
    texts = {path: set(WORD.findall(open(path, encoding="utf-8").read())) for path in paths}
    antt = set().union(*(words for path, words in texts.items() if path.endswith(".antt") and not path.endswith("Proof.antt")))
    groups = collections.defaultdict(set)
    for old, to in new.items():
        groups[to].add(old)
    for to, olds in sorted(groups.items()):
        taken = to in antt
        for old in sorted(olds, key=lambda old: "-" in old):
            if taken:
                new[old] = to + ("_lem" if "-" in old else "_is")
            taken = True
    seen = collections.defaultdict(set)
    for path, words in texts.items():
        for w in words & set(new):
            if new[w] in words or sum(new.get(v) == new[w] for v in words) > 1:
                seen[w].add(path)
    if "--list" in sys.argv:
        for old in sorted(new):
            print(old, new[old], "TYPE" if old in types else "", "MEETS " + " ".join(sorted(seen[old]))[:200] if seen[old] else "")
        return
    turn = lambda s: WORD.sub(lambda m: new.get(m[0], m[0]), s)

    def turned(text, comment):
        out, at = [], 0
        for c in comment.finditer(text):
            out.append(turn(text[at : c.start()]))
            words = SPAN.sub(lambda m: turn(m[0]), c[0])
            out.append(WORD.sub(lambda m: new.get(m[0], m[0]) if re.fullmatch("[a-z]+[A-Z]\\w*", m[0]) else m[0], words))
            at = c.end()
        out.append(turn(text[at:]))
        return "".join(out)

    for path in paths:
        text = open(path, encoding="utf-8").read()
        after = turned(text, re.compile(r"//[^\n]*" if path.endswith(".rt") else r"--[^\n]*" if path.endswith(".antt") else r"\Z."))
        if after != text:
            open(path, "w", encoding="utf-8").write(after)
    for path in glob.glob(f"{top}/*.md") + glob.glob(f"{top}/docs/*.md") + glob.glob(f"{top}/oracle/*.md"):
        text = open(path, encoding="utf-8").read()
        after = SPAN.sub(lambda m: turn(m[0]), text)
        if after != text:
            open(path, "w", encoding="utf-8").write(after)
    for path in glob.glob(f"{top}/tools/*walk*.py"):
        text = open(path, encoding="utf-8").read()
        after = re.sub(r'"[^"\n]*"', lambda m: turn(m[0]), text)
        if after != text:
            open(path, "w", encoding="utf-8").write(after)


if __name__ == "__main__":
    main()
