#!/usr/bin/env python3
"""Brings the names of definitions and lemmas to the kit's spelling: words in snake case, facts and types in camel case.

usage: python3 tools/snake_names.py [--list]    at the top of the repository, once, after the kit's own scripts

A name is one of the repository's if a line of specs/ or of a file directly in proofs/ declares it. Only names with a dash
change. They are replaced as whole words in specs/, proofs/, the clauses and imports of src/ and the edits of must-fail/;
strings and comments stay as they are.
"""
import os
import re
import sys

WORD = r"[^\W\d][\w'*+]*(?:-[\w'*+]+)+"
TOKEN = re.compile(r"(?<![\w'-])" + WORD + r"(?![\w'-])")
DECLARED = re.compile(r"^\s*(?:(?:abbrev|unfoldable|pub|record|data)\s+)*(" + WORD + r")(?=[\s:({])[^=]*?:", re.M)
# binders of specs/ that no line declares
BINDERS = ["fills-row", "free-now"]
# facts: what they say is a type, whatever their first letter was
SKIPPED = re.compile(r'"(?:[^"\\\n]|\\.)*"|//[^\n]*|--[^\n]*')


def files(ending):
    for top, dirs, names in os.walk("crates"):
        dirs[:] = sorted(d for d in dirs if d != "out")
        for name in sorted(names):
            if name.endswith(ending):
                yield os.path.join(top, name)


def declares(path):
    return "/specs/" in path or re.fullmatch(r"crates/[^/]+/proofs/[^/]+\.antt", path)


def respelled(name, facts):
    if name[0].isupper() or name in facts:
        return "".join(part[0].upper() + part[1:] for part in name.split("-"))
    return name.replace("-", "_")


def found():
    names, facts = set(BINDERS), set()
    for path in files(".antt"):
        if not declares(path):
            continue
        with open(path, encoding="utf-8") as it:
            text = re.sub(r"--[^\n]*", "", it.read())
        names |= set(DECLARED.findall(text))
        for name in re.findall(r"^(?:abbrev |unfoldable )?pub (" + WORD + r") :[^\n]*→ Type 0$", text, re.M):
            facts.add(name)
    return {name: respelled(name, facts) for name in names}


def turned(text, names):
    out, at = [], 0
    for kept in SKIPPED.finditer(text):
        out.append(TOKEN.sub(lambda m: names.get(m.group(), m.group()), text[at:kept.start()]))
        out.append(kept.group())
        at = kept.end()
    out.append(TOKEN.sub(lambda m: names.get(m.group(), m.group()), text[at:]))
    return "".join(out)


def main(argv):
    names = found()
    if argv == ["--list"]:
        for old in sorted(names):
            print(old, names[old])
        return 0
    changed = 0
    for path in list(files(".antt")) + list(files(".rt")) + list(files(".edit")):
        with open(path, encoding="utf-8") as it:
            text = it.read()
        new = turned(text, names)
        if new != text:
            changed += 1
            with open(path, "w", encoding="utf-8") as it:
                it.write(new)
    print(f"{len(names)} names, {changed} files changed")
    return 0


if __name__ == "__main__":
    raise SystemExit(main(sys.argv[1:]))
