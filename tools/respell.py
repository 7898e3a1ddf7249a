#!/usr/bin/env python3
"""Brings this repository's own definitions and lemmas to the kit's spelling: words in snake case.

Run once at the top, after the kit's own port script. It renames what specs/ and proofs/ define with a dash or a capital
inside a lower-case name: definitions, lemmas and fields of records. It leaves alone: types (upper camel case), names that
a proof file answers or chooses for a function (a goal's name is the check's own), strings and comments, and all names of
functions in src/. It stops, and changes nothing, where two names would fall together.
"""
import os
import re
import sys

ROOT = os.path.join(os.path.dirname(os.path.abspath(__file__)), "..", "crates")
NAME = r"[a-z][A-Za-z0-9_'-]*"
TOP = re.compile(rf"^ *(?:unfoldable |abbrev )?(?:pub )?(?:unfoldable |abbrev )?({NAME}) :(?!=)")
ANSWER = re.compile(rf"^(?:abbrev )?(?:pub )?({NAME}) : goal\.")
KEPT_TEXT = re.compile(r'"[^"\n]*"|--[^\n]*$|//[^\n]*$', re.M)


def files(ending):
    for folder, _, names in os.walk(ROOT):
        if "/out" in folder:
            continue
        for name in sorted(names):
            if name.endswith(ending):
                yield os.path.join(folder, name)


def snake(name):
    name = re.sub(r"(?<=[a-z0-9])([A-Z])", lambda m: "_" + m.group(1).lower(), name)
    return name.replace("-", "_")


def defined(text):
    """The names that a proof or definition file defines, without those that answer a goal."""
    answers = {m.group(1) for line in text.split("\n") for m in [ANSWER.match(line)] if m}
    names = set()
    for line in text.split("\n"):
        m = TOP.match(line)
        if m and m.group(1) not in answers:
            names.add(m.group(1))
    return names


def main():
    names, texts = set(), {}
    for path in files(".antt"):
        with open(path) as f:
            texts[path] = f.read()
        names |= defined(texts[path])
    for path in files(".rt"):
        with open(path) as f:
            texts[path] = f.read()
    new = {name: snake(name) for name in names if snake(name) != name}
    words = set()
    for text in texts.values():
        words |= set(re.findall(r"[A-Za-z][A-Za-z0-9_'-]*", KEPT_TEXT.sub("", text)))
    taken = {}
    wrong = []
    for old, now in sorted(new.items()):
        if now in taken:
            wrong.append(f"{old} and {taken[now]} would both be {now}")
        taken[now] = old
        if now in words:
            wrong.append(f"{old} would be {now}, which is in use")
    fixed = {}
    here = os.path.join(os.path.dirname(os.path.abspath(__file__)), "respell.txt")
    if os.path.exists(here):
        with open(here) as f:
            fixed = dict(line.split() for line in f if line.strip() and not line.startswith("#"))
    wrong = [w for w in wrong if w.split()[0] not in fixed]
    new.update({old: now for old, now in fixed.items() if old in names})
    if wrong:
        print("\n".join(wrong))
        sys.exit(1)
    if not new:
        print("no name is left to turn")
        return
    pattern = re.compile(
        r"(?<![A-Za-z0-9_'-])(" + "|".join(sorted(map(re.escape, new), key=len, reverse=True)) + r")(?![A-Za-z0-9_'-])"
    )

    def turned(text):
        parts, last = [], 0
        for kept in KEPT_TEXT.finditer(text):
            parts.append(pattern.sub(lambda m: new[m.group(1)], text[last : kept.start()]))
            parts.append(kept.group(0))
            last = kept.end()
        parts.append(pattern.sub(lambda m: new[m.group(1)], text[last:]))
        return "".join(parts)

    for path, text in texts.items():
        text = turned(text)
        if text != texts[path]:
            with open(path, "w") as f:
                f.write(text)
    print(f"{len(new)} names")


if __name__ == "__main__":
    main()
