#!/usr/bin/env python3
"""Brings this repository's own definitions and lemmas to the library's spelling.

Run once, at the top, after the toolchain's port script:  python3 tools/respell.py

Words are in snake case, types and facts in camel case. Only names that the
repository's specs/ and proofs/ define are turned (definitions, lemmas, fields,
constructors, let-bound facts), wherever they stand: in specs/, proofs/, clauses, imports and
edits, and in docs/ between backticks. Names of the library, of goals and of src/ are left,
and so are comments and strings.
It prints each name, and stops where two names would fall together.
"""
import collections
import glob
import re
import sys

TOKEN = r"[^\s(){};,.«»\"`]+"
SIGNATURE = re.compile(
    r"^\s*(?:\{)?\s*(?:(?:pub|abbrev|unfoldable|data|record|let)\s+)*((?:%s\s+)*?%s)\s+:\s" % (TOKEN, TOKEN))
HEAD = re.compile(r"^\s*(?:pub\s+)?(?:data|record)\s+(%s)\s" % TOKEN)
SETTLED = {"A-r": "a_r", "B-s": "b_s"}
# Names that an import or a module's head gives.
GIVEN = ["most-points", "heads-of", "cell-here", "cell-onward", "cell-step-in"]


def antt_files():
    return sorted(glob.glob("crates/*/specs/**/*.antt", recursive=True)
                  + glob.glob("crates/*/proofs/**/*.antt", recursive=True))


def rt_files():
    return sorted(glob.glob("crates/*/src/**/*.rt", recursive=True))


def is_note(line):
    return line.lstrip().startswith("--") or line.lstrip().startswith("use ")


def defined():
    """The names that signatures give, each with the places, and those that name types."""
    names, types, goals, fields = collections.defaultdict(set), set(), set(), set()
    for path in antt_files():
        kind = None
        for number, line in enumerate(open(path, encoding="utf-8"), 1):
            if is_note(line) or not line.strip():
                continue
            head = HEAD.match(line)
            if head:
                kind = re.match(r"^\s*", line).group(), "pub record" in line or line.lstrip().startswith("record")
                names[head.group(1)].add("%s:%d" % (path, number))
                types.add(head.group(1))
                continue
            m = SIGNATURE.match(line)
            if not m:
                continue
            if kind and len(re.match(r"^\s*", line).group()) <= len(kind[0]):
                kind = None
            for name in m.group(1).split():
                if "goal." in line or "given." in line:
                    goals.add(name)
                    continue
                names[name].add("%s:%d" % (path, number))
                if kind:
                    fields.add(name)
                if re.search(r"(→|:)\s*Type 0\s*$", line):
                    types.add(name)
    return names, types, goals, fields


def respelled(name, types):
    if name in SETTLED:
        return SETTLED[name]
    name = name.replace("′", "'").replace("getD", "get_or")
    if name in types or name[0].isupper() and "-" in name:
        return "".join(part[0].upper() + part[1:] for part in name.split("-"))
    return name.replace("-", "_")


def imported():
    """Names taken from outside this repository."""
    found = set()
    own = {path.split("/")[1] for path in glob.glob("crates/*/src")}
    for path in antt_files() + rt_files():
        for line in open(path, encoding="utf-8"):
            m = re.match(r"\s*(?:ghost )?use ([\w.]+)\.\{(.*)\}", line)
            if m and not (m.group(1).startswith("Rattle.") and m.group(1).split(".")[1] in own):
                for item in m.group(2).split(","):
                    if " as " not in item:
                        found.add(item.strip())
    return found


def turn(text, table, fields):
    """The text with each whole token of the table turned; behind a dot only fields are."""
    def one(m):
        token, start = m.group(0), m.start()
        behind_dot = start > 0 and text[start - 1] == "."
        if token not in table or behind_dot and token not in fields:
            return token
        return table[token]
    return re.sub(TOKEN, one, text)


def turn_code(line, table, fields, mark):
    """A line's text before its comment, its strings left."""
    cut = line.find(mark)
    while cut > 0 and line[:cut].count('"') % 2:
        cut = line.find(mark, cut + 1)
    code, rest = (line, "") if cut < 0 else (line[:cut], line[cut:])
    parts = re.split(r'("(?:[^"\\]|\\.)*")', code)
    return "".join(p if p.startswith('"') else turn(p, table, fields) for p in parts) + rest


def main():
    names, types, goals, fields = defined()
    for name in GIVEN:
        names[name].add("given")
    table = {n: respelled(n, types) for n in names}
    table = {n: m for n, m in table.items() if n != m}
    outside = imported()
    clash = False
    for name in sorted(table):
        if name in outside or name in goals:
            print("left, named elsewhere too:", name)
            del table[name]
    fallen = collections.defaultdict(set)
    for name in list(names) + sorted(outside) + sorted(goals):
        fallen[table.get(name, name)].add(name)
    for new, olds in sorted(fallen.items()):
        if len(olds) > 1 and any(o in table for o in olds):
            print("falls together:", new, sorted(olds), [sorted(names.get(o, []))[:2] for o in sorted(olds)])
            clash = True
    for old, new in sorted(table.items()):
        print("%s -> %s" % (old, new))
    if clash and "--anyway" not in sys.argv:
        sys.exit("two names would fall together")
    for path in antt_files() + rt_files():
        mark = "--" if path.endswith(".antt") else "//"
        text = open(path, encoding="utf-8").read()
        new = "".join(turn_code(l, table, fields, mark) for l in text.splitlines(True))
        if new != text:
            open(path, "w", encoding="utf-8").write(new)
    for path in sorted(glob.glob("docs/*.md")) + ["README.md"]:
        text = open(path, encoding="utf-8").read()
        new = re.sub(r"`[^`\n]+`", lambda m: turn(m.group(0), table, fields), text)
        if new != text:
            open(path, "w", encoding="utf-8").write(new)
    for path in sorted(glob.glob("crates/*/must-fail/*.edit")):
        text = open(path, encoding="utf-8").read()
        new = "".join(l if l.startswith("file:") else turn(l, table, fields) for l in text.splitlines(True))
        if new != text:
            print("edit:", path)
            open(path, "w", encoding="utf-8").write(new)


main()
