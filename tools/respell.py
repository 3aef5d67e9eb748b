#!/usr/bin/env python3
"""Brings the repository's own definitions and lemmas to snake case, and its facts to camel case.

usage: python3 tools/respell.py --list   writes tools/respelled.txt: each old name and its new one
       python3 tools/respell.py          renames by that list, in crates/

A name is renamed wherever it stands as a whole word in .rt, .antt and .edit files, but not in a string of Rust. Names without a dash that are facts
in lower case are renamed only in files that declare or import them.
"""

import os
import re
import sys

LIST = os.path.join(os.path.dirname(os.path.abspath(__file__)), "respelled.txt")
BY_RATTLE = ("Answers.antt", "Invariants.antt", "Proof.antt")
WORD = r"[^\s(){}\[\],;.:\"|]+"
DECLARED = re.compile(r"^(\s*)((?:(?:abbrev|unfoldable|pub|data|record)\s+)*)(" + WORD + r")((?:\s+[({].*)?)\s*:(\s.*)?$")
KEPT = {"pub", "abbrev", "use"}


def texts(*ends):
    for folder, dirs, files in os.walk("crates"):
        dirs[:] = sorted(d for d in dirs if d not in ("out", "target"))
        for f in sorted(files):
            if f.endswith(ends):
                yield os.path.join(folder, f)


def read(p):
    with open(p, encoding="utf-8") as f:
        return f.read()


def camel(name):
    return "".join(part[:1].upper() + part[1:] for part in re.split(r"[-_]", name))


def declarations():
    """Each declared name with the whole types that it is declared at, outside the files whose names are Rattle's."""
    found = {}
    for p in texts(".antt"):
        if os.path.basename(p) in BY_RATTLE:
            continue
        lines = read(p).split("\n")
        for i, line in enumerate(lines):
            m = DECLARED.match(line)
            if not m or m.group(3) in KEPT:
                continue
            kind, j = m.group(5) or "", i + 1
            while j < len(lines) and len(lines[j]) - len(lines[j].lstrip()) > len(m.group(1)):
                kind += " " + lines[j].strip()
                j += 1
            found.setdefault(m.group(3), []).append((p, bool(m.group(2).strip()) and not m.group(1), kind.strip()))
    return found


def is_fact(places):
    return all(top and re.search(r"Type \d$", kind) for _, top, kind in places)


def new_names():
    found = declarations()
    antt = {p: read(p) for p in texts(".antt")}
    made, said = {}, []
    for name, places in sorted(found.items()):
        if "-" in name.strip("-") and re.match(r"[A-Za-z]", name):
            if name[0].isupper() or is_fact(places):
                made[name] = camel(name)
            else:
                made[name] = name.replace("-", "_")
        elif name[0].islower() and name.isascii() and is_fact(places):
            made[name] = camel(name)
    words = {}
    for p in list(texts(".antt")):
        for dot, w in re.findall(r"(\.?)(" + WORD + r")", re.sub(r"--.*", "", antt[p])):
            if not dot:
                words.setdefault(w, set()).add(p)
    news = {}
    for old, new in list(made.items()):
        if new in words or new in news:
            said.append(f"kept: {old}: {new} is there already")
            if "-" not in old:
                del made[old]
            continue
        news[new] = old
    for old in [o for o in made if "-" not in o]:
        for p in sorted(words.get(old, ())):
            text = antt[p]
            here = any(q == p for q, _, _ in found[old]) or re.search(r"use Rattle\.(law|line|protocol|calls)\.\S*\{[^}]*(?<![\w'-])" + old + r"(?![\w'-])", text)
            if not here or re.search(r"\." + old + r"(?![\w'-])", text):
                said.append(f"kept: {old}: a word of {p} that may be another")
                del made[old]
                break
    return made, said


def apply(pairs, text):
    for old, new in pairs:
        text = re.sub(r"(?<![\w'\-])" + re.escape(old) + r"(?![\w'\-])", new, text)
    return text


def outside_strings(change, text):
    parts = re.split(r'("(?:[^"\\\n]|\\.)*")', text)
    return "".join(part if k % 2 else change(part) for k, part in enumerate(parts))


def main():
    if "--list" in sys.argv:
        made, said = new_names()
        with open(LIST, "w", encoding="utf-8") as f:
            f.writelines(f"{o} {n}\n" for o, n in sorted(made.items()))
        print("\n".join(said))
        print(len(made), "names")
        return
    with open(LIST, encoding="utf-8") as f:
        pairs = [line.split() for line in f if line.strip()]
    dashed = {o: n for o, n in pairs if "-" in o}
    one = re.compile(r"(?<![\w'\-])(" + "|".join(sorted(map(re.escape, dashed), key=len, reverse=True)) + r")(?![\w'\-])")
    plain = [(o, n) for o, n in pairs if "-" not in o]
    for p in texts(".rt", ".antt", ".edit"):
        text = was = read(p)
        change = lambda t: one.sub(lambda m: dashed[m.group(1)], t)
        text = outside_strings(change, text) if p.endswith(".rt") else change(text)
        if p.endswith(".antt"):
            mine = [(o, n) for o, n in plain if re.search(r"(?<![\w'\-])" + re.escape(o) + r"(?![\w'\-])", text)]
            text = apply(mine, text)
        if text != was:
            with open(p, "w", encoding="utf-8") as f:
                f.write(text)


main()
