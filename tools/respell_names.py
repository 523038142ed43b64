#!/usr/bin/env python3
"""Brings the names of this repository's definitions and lemmas to the spelling of today's Rattle.

usage: python3 tools/respell_names.py [--dry]      at the top of the repository, once, after the toolchain's own port.py

A name with a dash that specs/ or proofs/ declare (a definition, lemma, record, field, constructor or alias) gets
underscores, and a type camel case. Names that Rattle makes (goals, labels of a proof) and names of the library stay, and so
do the code of src/, strings, inputs and outputs. It prints each name that falls together with another.
"""
import os
import re
import sys

TOKEN = re.compile(r"[A-Za-z_«][A-Za-z0-9_'₀-₉»-]*")
SIGNED = re.compile(r"(?m)^[ \t]*(?:unfoldable +|abbrev +|pub +|opaque +)*([A-Za-z_][A-Za-z0-9_'-]*)[ \t]*:(?!:)[ \t]*(\S+)")
SHAPED = re.compile(r"(?m)^[ \t]*(?:pub +)*(?:record|data)[ \t]+(?:pub +)?([A-Za-z_][A-Za-z0-9_'-]*)")
ALIAS = re.compile(r"[A-Za-z0-9_'-]+ as ([A-Z][A-Za-z0-9_']*-[A-Za-z0-9_'-]*)(?=[,}])")
# Facts, which are types, that were spelled as values, and a fact that would have its struct's name.
FACTS = {"trade-fits": "TradeFits", "all_most": "AllMost", "File-run": "IsFileRun"}
# English words of comments.
PLAIN = {"step-up"}


def texts(root):
    for folder, dirs, files in os.walk(os.path.join(root, "crates")):
        dirs[:] = sorted(d for d in dirs if d != "out")
        for name in sorted(files):
            if name.endswith((".antt", ".rt")):
                yield os.path.join(folder, name)


def bare(text):
    return re.sub(r"--[^\n]*", "", text)


def declared(root):
    names = set()
    for path in texts(root):
        if not path.endswith(".antt"):
            continue
        text = bare(open(path, encoding="utf-8").read())
        for m in SIGNED.finditer(text):
            if not m.group(2).startswith("goal."):
                names.add(m.group(1))
        names.update(m.group(1) for m in SHAPED.finditer(text))
        names.update(m.group(1) for m in ALIAS.finditer(text))
    return {n for n in names if "-" in n or n in FACTS}


def respelled(name):
    if name in FACTS:
        return FACTS[name]
    if name[0].isupper():
        return "".join(part[0].upper() + part[1:] for part in name.split("-"))
    return name.replace("-", "_")


def turned(text, names, antt):
    def one(part, comment):
        def word(m):
            w = m.group(0)
            return names[w] if w in names and not (comment and w in PLAIN) else w
        return TOKEN.sub(word, part)

    mark = "--" if antt else "//"
    lines = []
    for line in text.split("\n"):
        at = line.find(mark)
        if antt:
            code, note = (line, "") if at < 0 else (line[:at], line[at:])
            lines.append(one(code, False) + one(note, True))
        elif at < 0 and ('"' not in line or "{" in line and "ensures" in line):
            lines.append(one(line, False))
        elif at >= 0 and '"' not in line:
            lines.append(one(line[:at], False) + one(line[at:], True))
        else:
            lines.append(line)
    return "\n".join(lines)


def main(argv):
    root = "."
    names = {n: respelled(n) for n in declared(root)}
    seen = {}
    for path in texts(root):
        text = open(path, encoding="utf-8").read()
        for m in TOKEN.finditer(bare(text) if path.endswith(".antt") else text):
            seen.setdefault(m.group(0), set()).add(path)
    for old, new in sorted(names.items()):
        if new in seen:
            both = seen[new] & seen.get(old, set())
            print(f"falls together: {old} -> {new}: {len(seen[new])} files, {len(both)} of them with both: {' '.join(sorted(both)[:3])}")
    if "--dry" in argv:
        print(len(names), "names")
        return 0
    changed = 0
    for path in texts(root):
        old = open(path, encoding="utf-8").read()
        new = turned(old, names, path.endswith(".antt"))
        # a record's own flag, which port.py took for a row's value
        new = new.replace(".own_val", ".own")
        if new != old:
            open(path, "w", encoding="utf-8").write(new)
            changed += 1
    print(len(names), "names,", changed, "files changed")
    return 0


if __name__ == "__main__":
    raise SystemExit(main(sys.argv[1:]))
