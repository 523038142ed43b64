#!/usr/bin/env python3
"""Looks up every name that docs/PROOFS.md mentions, and every heading that it links to.

usage: python3 tools/check_proofs_page.py      at the top of the repository

The page says in its section 2 how names are written. Each one that is not there is printed, and the run ends with status 1.
So are files of specs/ with public definitions that the page does not mention; they are no error.
"""
import glob
import os
import re
import sys

PAGE = "docs/PROOFS.md"
SPEC = re.compile(r"^([a-z_]+)/([A-Z]\w*)(?:: (.+))?$")
PROOF = re.compile(r"^([a-z_]+)/proofs/([\w/]+)(?:: (.+))?$")
ITEM = re.compile(r"^([a-z_]+(?:::\w+)+)(?: \(([\w, ]+)\))?$")
FILE = re.compile(r"^[a-z_]+/src/[\w/]+\.rt$")
HEADING = re.compile(r"(?m)^#+ +(.*)$")


def text_of(path):
    with open(path) as file:
        return file.read()


def declares(text, name):
    """Whether a theory declares the name, or the record of `Record.field` with that field."""
    record, _, field = name.partition(".")
    line = rf"(?m)^ *(?:abbrev |unfoldable )?(?:pub )?(?:record |data )?(?:pub )?{re.escape(record)}(?= )(?:.*:|$)"
    if not field:
        return re.search(line, text) is not None
    block = re.search(rf"(?ms)^pub record {record} .*?(?=^\S(?!ub record {record} )|\Z)", text)
    return block is not None and re.search(rf"(?m)^  pub {field} :", block.group()) is not None


def item_fault(path, clauses):
    """What is wrong with a function, method or type, written by its path."""
    *modules, last = path.split("::")
    owner = modules.pop() if modules[-1][0].isupper() else None
    file = os.path.join("crates", modules[0], "src", *(modules[1:] or ["lib"])) + ".rt"
    if not os.path.exists(file):
        return f"no {file}"
    text = text_of(file)
    if last[0].isupper():
        return None if re.search(rf"\b(?:struct|enum|trait) {last}\b", text) else f"no type in {file}"
    if owner:
        start = re.search(rf"(?m)^impl\b[^{{\n]*\b{owner}\b.*\{{$", text)
        if not start:
            return f"no impl of {owner} in {file}"
        text = text[start.start() :]
    head = re.search(rf"(?ms)^ *(?:pub[^\n]*)?\bfn {last}\b.*?^ *\{{\}}?\n", text)
    if not head:
        return f"no function in {file}"
    named = re.findall(r"(?m)^ *ensures (\w+)? ?\{", head.group())
    if clauses is None:
        return None if named else "no clause"
    missing = [name for name in clauses if name not in named]
    return f"no clause {', '.join(missing)}" if missing else None


def name_fault(token, seen):
    """What is wrong with a name in back quotes; None if nothing is, or if it is no name of this page's kinds."""
    if match := PROOF.match(token):
        path = f"crates/{match[1]}/proofs/{match[2]}.antt"
    elif match := SPEC.match(token):
        path = f"crates/{match[1]}/specs/{match[2]}.antt"
        seen.add(path)
    elif match := ITEM.match(token):
        return item_fault(match[1], match[2].split(", ") if match[2] else None)
    elif FILE.match(token):
        return None if os.path.exists(f"crates/{token}") else f"no crates/{token}"
    else:
        return "in no form of the page's section 2" if "::" in token or ": " in token else None
    if not os.path.exists(path):
        return f"no {path}"
    text = text_of(path)
    missing = [name for name in (match[3] or "").split(", ") if name and not declares(text, name)]
    return f"no {', '.join(missing)} in {path}" if missing else None


def anchors(path):
    marks = [re.sub(r"[^\w\- ]", "", heading.lower()).replace(" ", "-") for heading in HEADING.findall(text_of(path))]
    return set(marks)


def main():
    page = text_of(PAGE)
    seen, faults = set(), []
    tokens = sorted(set(re.findall(r"`([^`\n]+)`", page)))
    for token in tokens:
        if fault := name_fault(token, seen):
            faults.append(f"{token}: {fault}")
    for path, anchor in set(re.findall(r"\]\(([\w.]*)#([\w-]+)\)", page)):
        if anchor not in anchors(os.path.join("docs", path) if path else PAGE):
            faults.append(f"{path}#{anchor}: no heading")
    for path in sorted(glob.glob("crates/*/specs/*.antt")):
        if path not in seen and re.search(r"(?m)^ *(abbrev |unfoldable )?pub (?!mod)", text_of(path)):
            print(f"not mentioned: {path}")
    for fault in faults:
        print(fault)
    print(f"{len(tokens)} names in back quotes, {len(faults)} of them or of the headings not there")
    sys.exit(1 if faults else 0)


main()
