#!/usr/bin/env python3
"""Spells the repository's own definitions and lemmas in snake case.

usage: snake_names.py [--check]      at the top of the repository

Run once, after the toolchain's own script for older repositories. A camel-case name becomes snake case, part by part between
dashes: `kindOf-code` is `kind_of-code`. A name that specs/ declares loses its dashes as well. Of .rt files strings stay as
they are, and of .md files only what stands in backticks changes. Where two names would become one, nothing is written. A file
that has the new name already is listed to be read: a function of src/ or a record's field may have it beside a definition.
--check lists the names and writes nothing.
"""

import os
import re
import sys

WORD = re.compile(r"(?<![\w'\u2019-])[A-Za-z_][\w']*(?:-[\w']+)*")
CAMEL = re.compile(r"^[a-z][a-z0-9]*[A-Z]")
DECLARED = re.compile(r"^\s*(?:(?:abbrev|unfoldable|pub|record|data|opaque)\s+)*([a-z][\w']*(?:-[\w']+)+) :", re.M)
# The library's word for a part of a lemma's name.
PARTS = {"getD": "get_or"}
STRING = re.compile(r'b?"(?:[^"\\]|\\.)*"')
TICKS = re.compile(r"`[^`\n]*`|^    .*$", re.M)


def snake(part):
    if part in PARTS:
        return PARTS[part]
    if not CAMEL.match(part):
        return part
    return re.sub(r"(?<=[a-z0-9])([A-Z])", lambda m: "_" + m.group(1).lower(), part)


def files(top):
    for folder, dirs, names in os.walk(top):
        dirs[:] = sorted(d for d in dirs if d not in ("out", "target", ".git", "compare"))
        for name in sorted(names):
            if name.endswith((".rt", ".antt", ".edit", ".md")):
                yield os.path.join(folder, name)


def turned(word, declared):
    new = "-".join(snake(p) for p in word.split("-"))
    return new.replace("-", "_") if word in declared else new


def rename(path, text, declared):
    def word(m):
        return turned(m.group(0), declared)

    if path.endswith(".md"):
        return TICKS.sub(lambda m: WORD.sub(word, m.group(0)), text)
    if not path.endswith(".rt"):
        return WORD.sub(word, text)
    out, at = [], 0
    for m in STRING.finditer(text):
        out += [WORD.sub(word, text[at : m.start()]), m.group(0)]
        at = m.end()
    return "".join(out + [WORD.sub(word, text[at:])])


def main(check):
    texts = {}
    for path in files("."):
        with open(path, encoding="utf-8") as f:
            texts[path] = f.read()
    declared = {n for p, t in texts.items() if "/specs/" in p for n in DECLARED.findall(t)}
    names, seen = {}, set()
    for path, text in texts.items():
        if not path.endswith((".rt", ".antt")):
            continue
        words = set(WORD.findall(text))
        for w in words:
            new = turned(w, declared)
            if new != w:
                names[w] = new
                if new in words:
                    seen.add(f"{path}: {w} -> {new}")
    back = {}
    for old, new in names.items():
        back.setdefault(new, []).append(old)
    clashes = {f"{new}: {' and '.join(sorted(olds))}" for new, olds in back.items() if len(olds) > 1}
    for old in sorted(names):
        print(f"{old} -> {names[old]}")
    for place in sorted(seen):
        print("read: " + place)
    for clash in sorted(clashes):
        print("clash: " + clash)
    if check or clashes:
        return 1
    for path, text in texts.items():
        new = rename(path, text, declared)
        if new != text:
            with open(path, "w", encoding="utf-8") as f:
                f.write(new)
    print(f"{len(names)} names")
    return 0


if __name__ == "__main__":
    sys.exit(main("--check" in sys.argv[1:]))
