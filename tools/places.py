#!/usr/bin/env python3
"""Counts the places in the sources that an older language shows through, by the points of docs/DESIGN-PASS.md.

usage: python3 tools/places.py [-v]    at the top of the repository; -v prints every place

What it finds is found by text: a place to look at, and no verdict.
"""
import collections
import os
import re
import sys

# the points, and in each the searches by line
SEARCHES = [
    ("1 nothing", "a variant that stands for nothing", r"^\s+(Nothing|Nobody|Absent|Empty|Unset),"),
    ("1 codes", "a table from kinds to numbers or back", r"^\s+[\w:&|(), _{}]+ => \(?[0-9]+[,)]|^\s+(_|[0-9]+) => [A-Z]\w+(::\w+)+\(?"),
    ("1 fields", "a number for a kind, or a flag with its value beside", r"^\s+(pub )?(kind|phase|loaded|placed|refusal|size|column|closed|any|taken): (u8|bool),"),
    ("1 sentinel", "a number that stands for none", r"(== 16\b|!= 0\b|== 0 \{|=> 16,)"),
    ("3 loops", "a loop by an index, or a loop with no bound in its head", r"^\s*(while |loop \{|for \w+ in [^{]*\.\.)"),
    ("4 by hand", "a function that compares, converts or prints by hand",
     r"fn (same|told|bit|words|digit|joined|decimal|decimal_digit|put_digit|put_hex|put_two|put_four|put_right|is_\w+|ends\w*|stops_all|from_\w+|\w+_code|cursor_format|burst_size|size)\b"),
    ("4 matches", "an arm that only answers yes or no", r"=> (true|false),"),
    ("4 impls", "an impl of equality, order, copying, conversion or printing", r"^\s*impl.*\b(PartialEq|Eq|PartialOrd|Ord|Clone|Copy|Default|Display|Debug|From<.*|TryFrom<.*) for "),
    ("6 arrays", "an array in a value", r"^\s+(pub )?\w+: \[[^\]]*; [^\]]+\],"),
    ("7 steps", "a function as a value", r"\b(dyn |impl Fn|fn\()"),
]
HEAD = re.compile(r"^\s*(?:pub(?:\([a-z]+\))? )?(?:extern \"C\" )?fn (\w+)")
CLAUSE = re.compile(r"\b(requires|ensures)\*?\s*(\w+)?\s*\{")


def sources():
    for top, dirs, names in os.walk("crates"):
        dirs[:] = sorted(d for d in dirs if d != "out")
        for name in sorted(names):
            if name.endswith(".rt") and "/src" in top:
                yield os.path.join(top, name)


def braces(text, at):
    depth = 0
    for i in range(at, len(text)):
        depth += (text[i] == "{") - (text[i] == "}")
        if depth == 0:
            return i + 1
    return len(text)


def functions(path):
    """The functions of a file: name, line, the parameters, and the clauses."""
    text = open(path).read()
    lines = text.split("\n")
    starts = [i for i, line in enumerate(lines) if HEAD.match(line)]
    for k, i in enumerate(starts):
        end = starts[k + 1] if k + 1 < len(starts) else len(lines)
        part = "\n".join(lines[i:end])
        inside = part[part.index("(") + 1 :]
        parameters = re.findall(r"\b(\w+): ([&\w<>\[\](), ']+?)(?:,\s|,$|\)|$)", inside.split(") ->")[0].split("{")[0].split("\n    requires")[0].split("\n    ensures")[0], re.M)
        clauses = []
        for m in CLAUSE.finditer(part):
            body = part[m.end() - 1 : braces(part, m.end() - 1)]
            clauses.append(m.group(1) + " " + " ".join(body.split()))
        yield HEAD.match(lines[i]).group(1), i + 1, [p for p in parameters if p[0] != "self"], clauses


def by_line():
    found = collections.defaultdict(list)
    for path in sources():
        for i, line in enumerate(open(path), 1):
            if line.lstrip().startswith(("//", "ghost use", "use ")):
                continue
            for key, _, pattern in SEARCHES:
                if re.search(pattern, line):
                    found[key].append(f"{path}:{i}: {line.strip()}")
    return found


def by_function(found):
    names = collections.defaultdict(list)
    clauses = collections.defaultdict(list)
    together = collections.defaultdict(list)
    for path in sources():
        crate = path.split("/")[1]
        for name, line, parameters, said in functions(path):
            names[name].append(f"{path}:{line}")
            for clause in set(said):
                if clause.startswith("requires") or "new" in clause or "old" in clause:
                    clauses[crate, clause].append(f"{path}:{line}")
            words = sorted({p[0] for p in parameters} - {"out", "row"})
            for a in range(len(words)):
                for b in range(a + 1, len(words)):
                    together[crate, words[a], words[b]].append(f"{path}:{line}")
    for name, places in sorted(names.items()):
        if len({p.split("/")[1] for p in places}) > 1 and name not in ("main", "run", "new", "fmt", "from", "make"):
            found["2 names"].append(f"{name}: {' '.join(places)}")
    for (crate, clause), places in sorted(clauses.items()):
        if len(places) > 2:
            found["5 clauses"].append(f"{crate}: {clause}: {' '.join(places)}")
    for (crate, a, b), places in sorted(together.items()):
        if len(places) > 3:
            found["5 parameters"].append(f"{crate}: {a}, {b}: {' '.join(places)}")


def main():
    found = by_line()
    by_function(found)
    titles = {key: title for key, title, _ in SEARCHES}
    titles["2 names"] = "functions of one name in several crates"
    titles["5 clauses"] = "a clause that stands in three contracts of a crate or more"
    titles["5 parameters"] = "two parameters that go together in four functions of a crate or more"
    for key in sorted(titles):
        print(f"{len(found[key]):4}  {key:14} {titles[key]}")
        if "-v" in sys.argv[1:]:
            for place in found[key]:
                print(f"          {place}")


main()
