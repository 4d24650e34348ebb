#!/usr/bin/env python3
"""Brings the names of this repository's own definitions and lemmas to snake case.

usage: tools/respell.py [-n]      at the top of the repository, after /opt/rattle/port/port.py; -n only says what it would do

Each dash becomes `_`, as in `put_answer`, and a type's words are joined, as in `LostAt`. Names of the library, and names that
Rattle makes (goals, labels), stay as they are. Text of comments and of strings stays.
"""

import collections
import os
import re
import sys

OWN = re.compile(r"Rattle\.(values|stores|banks_tests|table|journal|banks|protocol|records|relay|runs|worked)\.")
NAME = r"[^\W\d][\w'ℕ≡+*≤-]*"
TOKEN = re.compile(r"(?<![\w'-])(" + NAME + r"-[\w'ℕ≡+*≤-]*)")
DEF = re.compile(r"\s*((?:abbrev |unfoldable |pub |record |data )*)([^\s:(){}λ⌜]+) ?((?:\([^)]*\) |\{[^}]*\} )*): (.*)")


def walk():
    for folder, dirs, files in os.walk("crates"):
        dirs[:] = sorted(d for d in dirs if d != "out")
        for f in sorted(files):
            yield os.path.join(folder, f)


def code(line):
    """The code and the comment of a line of antt."""
    k = line.find("--")
    return (line, "") if k < 0 else (line[:k], line[k:])


def gather():
    """The own names with a dash, all own names, and the names of the library that files import."""
    dashed, own, library, goals = set(), set(), set(), set()
    for p in walk():
        if not p.endswith(".antt"):
            continue
        text = open(p, encoding="utf-8").read()
        for m in re.finditer(r"^\s*(?:pub )?use ([^\n{]*)\{([^}]*)\}", text, re.M):
            if not OWN.match(m.group(1)):
                library.update(n.split(" as ")[0].strip() for n in m.group(2).split(","))
        for line in text.split("\n"):
            line, _ = code(line)
            m = DEF.match(line)
            if m:
                name, rest = m.group(2), m.group(4)
                if re.match(r"(goal|need)\.", rest):
                    goals.add(name)
                    continue
                own.add(name)
                if "-" in name:
                    dashed.add(name)
            m = re.match(r"(?:pub )?(?:record|data) (" + NAME + r") ", line)
            if m:
                own.add(m.group(1))
                if "-" in m.group(1):
                    dashed.add(m.group(1))
            for m in re.finditer(r"[({]((?:" + NAME + r" )+): ", line):
                for n in m.group(1).split():
                    if "-" in n:
                        dashed.add(n)
            for m in re.finditer(r"\blet (" + NAME + r")", line):
                if "-" in m.group(1):
                    dashed.add(m.group(1))
            for m in re.finditer(r"λ ((?:" + NAME + r" )*" + NAME + r")\.", line):
                for n in m.group(1).split():
                    if "-" in n:
                        dashed.add(n)
            m = re.match(r"\s+pub (" + NAME + r") : ", line)
            if m and "-" in m.group(1):
                dashed.add(m.group(1))
    return dashed - library - goals, own, library


def snake(name):
    """`_` for each dash; a type's words are joined."""
    if name[0].isupper():
        return "".join(w[0].upper() + w[1:] for w in name.split("-"))
    return name.replace("getD-", "get_or-").replace("-putMid", "-put_mid").replace("-", "_")


def main(argv):
    dashed, own, library = gather()
    table = {n: snake(n) for n in dashed}
    back = collections.defaultdict(set)
    for n in own | library | set(table):
        back[table.get(n, n)].add(n)
    together = {b: sorted(a) for b, a in back.items() if len(a) > 1}
    if together:
        print("fall together:", together)
    if "-n" in argv:
        for a in sorted(table):
            print(a, "->", table[a])
        return 0
    n = 0
    for p in walk():
        if not p.endswith((".antt", ".rt")):
            continue
        text = open(p, encoding="utf-8").read()
        lines = []
        for line in text.split("\n"):
            if p.endswith(".antt"):
                it, comment = code(line)
            else:
                it, comment = (line, "") if '"' not in line and not line.lstrip().startswith("//") else ("", line)
            lines.append(TOKEN.sub(lambda m: table.get(m.group(1), m.group(1)), it) + comment)
        new = "\n".join(lines)
        if new != text:
            open(p, "w", encoding="utf-8").write(new)
            n += 1
    print(len(table), "names,", n, "files")
    return 0


if __name__ == "__main__":
    raise SystemExit(main(sys.argv[1:]))
