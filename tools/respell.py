#!/usr/bin/env python3
"""Brings the repository's own definitions and lemmas to the spelling of today's Rattle.

usage: python3 tools/respell.py        at the top of the repository, once, after the kit's own scripts

A name of specs/ or proofs/ with a dash becomes snake case; one that begins with a capital, as types and
records do, becomes camel case. Names that Rattle makes (goals, steps) and names of its library stay.
Code, strings, inputs and outputs have no such names. It prints names that fall together.
"""
import os
import re

NAME = r"[A-Za-z_][A-Za-z0-9_'\-]*"
# a letter of a name: what may not stand beside a name that is replaced
LETTER = r"A-Za-z0-9_'\-\u25cc\u2115\u2124\u00b7"
MARKS = r"(?:abbrev |unfoldable |pub |package |record |data )*"
SIGNATURE = re.compile(r"^\s*" + MARKS + "(" + NAME + r")((?:\s+[({].*?[)}])*)\s*:(?:\s|$)(.*)$")
BINDER = re.compile(r"[({]((?:" + NAME + r"\s+)*" + NAME + r")\s*:\s")
IMPORT = re.compile(r"use\s+([A-Za-z_.+'\-0-9]+)\.\{([^}]*)\}")


def files(*endings):
    for folder, folders, names in os.walk("crates"):
        folders[:] = sorted(f for f in folders if f != "out")
        for name in sorted(names):
            if name.endswith(endings):
                yield os.path.join(folder, name)


def read(path):
    with open(path, encoding="utf-8") as f:
        return f.read()


def wanted(name):
    """The name in today's spelling."""
    parts = [p for p in re.split("[-_]", name) if p]
    if name[0].isupper():
        return "".join(p[0].upper() + p[1:] for p in parts)
    return "_".join(parts).lower() if "-" in name else name


def found():
    """The names that the repository defines, and those that it imports from the library."""
    own, imported, crates = set(), set(), set(os.listdir("crates"))
    for path in files(".antt", ".rt"):
        text = read(path)
        for module, names in IMPORT.findall(text):
            parts = module.split(".")
            for item in names.split(","):
                name, _, other = item.strip().partition(" as ")
                if other:
                    own.add(other.strip())
                if parts[0] != "Rattle" or parts[1] not in crates:
                    imported.add(name)
        if path.endswith(".rt"):
            continue
        for line in text.split("\n"):
            line = re.sub(r"--.*", "", line)
            m = SIGNATURE.match(line)
            if m and not re.match(r"\s*(goal|need|given)\.", m.group(3)):
                own.add(m.group(1))
            for names in BINDER.findall(line):
                own.update(names.split())
    return own, imported


def main():
    own, imported = found()
    turned = {n: wanted(n) for n in own if wanted(n) != n and n not in imported}
    made = {}
    for old, new in sorted(turned.items()):
        if new in own or new in imported or new in made:
            print(f"falls together: {old} -> {new}")
        made[new] = old
    old_names = re.compile(r"(?<![" + LETTER + r"])(" + "|".join(map(re.escape, sorted(turned, key=len, reverse=True))) + r")(?![" + LETTER + r"])")
    docs = [os.path.join("docs", f) for f in sorted(os.listdir("docs")) if f.endswith(".md")] + ["README.md"]
    changed = 0
    for path in list(files(".antt", ".rt")) + docs:
        text = read(path)
        if path.endswith(".md"):
            new = re.sub(r"`[^`\n]+`", lambda q: old_names.sub(lambda m: turned[m.group(1)], q.group(0)), text)
        else:
            new = old_names.sub(lambda m: turned[m.group(1)], text)
        if new != text:
            with open(path, "w", encoding="utf-8") as f:
                f.write(new)
            changed += 1
    print(f"{len(turned)} names, {changed} files")


if __name__ == "__main__":
    main()
