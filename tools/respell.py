#!/usr/bin/env python3
"""Brings this repository's own definitions, fields and lemmas to snake case: a dash in their names becomes an underscore.

usage: python3 tools/respell.py [FOLDER] [--list]     rewrites the .rt and .antt files below FOLDER/crates in place

Names that the toolchain makes (goals, and the steps of a proof that stand right after `c.`, `w.` or `l.`) stay as they are,
and so do functions of src/ and strings. It says how many names it turned, or with --list which; names that would fall together it
leaves as they are, and says so.
"""
import os
import re
import sys

DEF = re.compile(r"^(\s*)(?:pub )?(?:abbrev pub |abbrev |unfoldable pub |unfoldable |pub )?([^\s(){}\[\];,.«»\"|=:]+) :(?: |$)")
TOKEN = re.compile(r"[^\s(){}\[\];,.«»\"|]+")


def files(root):
    for folder, dirs, names in os.walk(os.path.join(root, "crates")):
        dirs[:] = sorted(d for d in dirs if d not in ("out", "must-fail"))
        for f in sorted(names):
            if f.endswith((".rt", ".antt")):
                yield os.path.join(folder, f)


def snake(name):
    return name.replace("-", "_").lower()


def defined(path, text):
    """The names that a file defines, but for answers to goals."""
    found = set()
    for line in text.split("\n"):
        m = DEF.match(line)
        if not m or line.lstrip().startswith("--"):
            continue
        name = m.group(2)
        if re.search(re.escape(name) + r" : (goal|need|given)\.", line):
            continue
        found.add(name)
    return found


def turn(text, names):
    out, last = [], 0
    for m in TOKEN.finditer(text):
        name = m.group(0)
        if name in names and not re.search(r"(?<![^\s(){}\[\];,])[cwl]\.$", text[max(0, m.start() - 3): m.start()]):
            out.append(text[last: m.start()])
            out.append(names[name])
            last = m.end()
    out.append(text[last:])
    return "".join(out)


def main(argv):
    root = next((a for a in argv if not a.startswith("--")), ".")
    texts = {p: open(p, encoding="utf-8").read() for p in files(root)}
    own, goals = set(), set()
    for p, t in texts.items():
        if p.endswith(".antt"):
            own |= defined(p, t)
            goals |= set(re.findall(r"(?<=\bgoal\.)[^\s(){}\[\];,.]+", t))
    names = {n: snake(n) for n in sorted(own) if "-" in n.strip("-") and n not in goals and re.fullmatch(r"[A-Za-z][\w'-]*", n)}
    bad = {}
    for n, s in names.items():
        bad.setdefault(s, []).append(n)
    for s, ns in bad.items():
        if len(ns) > 1 or s in own:
            print("falls together:", s, ns, "defined" if s in own else "")
            for n in ns:
                del names[n]
    if "--list" in argv:
        print("\n".join(f"{n} {s}" for n, s in names.items()))
        return 0
    for p, t in texts.items():
        new = turn(t, names)
        if new != t:
            open(p, "w", encoding="utf-8").write(new)
    print(len(names), "names turned")
    return 0


if __name__ == "__main__":
    raise SystemExit(main(sys.argv[1:]))
