#!/usr/bin/env python3
"""Brings this repository's own definitions and lemmas to today's spelling of names.

usage: python3 tools/respell.py [TOP]     once, after the kit's port.py, at the top of a checkout (or of the checkout TOP)

Words are in snake case (`sectorAt` is `sector_at`, `takeMax-few` is `take_max-few`), types in camel case (`Insert-puts` is `InsertPuts`).
Each crate is then laid out by `rt fmt`. Names of Rust code, strings, file names and names that the library gives stay. In pages only names between backquotes are turned.
"""

import os
import re
import subprocess
import sys

TOKEN = re.compile(r"[^\s(){}\[\].,;:|@\"`]+")
STRING = re.compile(r'b?"(?:[^"\\]|\\.)*"')
CAMEL = re.compile(r"[a-z][a-z0-9']*[A-Z]")
HUMP = re.compile(r"(?<=[a-z0-9'])(?=[A-Z])")

# Types whose parts were joined by dashes.
TYPES = """
Delete-balances Delete-changes Delete-frees Delete-keeps Delete-loses Delete-most Delete-stores Delete-takes
Empty-good Good-apart
Insert-again Insert-balances Insert-changes Insert-frees Insert-gains Insert-keeps Insert-levels Insert-path Insert-puts Insert-rises
Insert-six Insert-stores Insert-within
Kept-or-full Lacks-name Lookup-finds Replace-balances Replace-frees Replace-stores Restart-forgets Seek-looks Spots-stand
Stay-together Stays-proper Stays-sane Under-root
""".split()
SPELT = {t: "".join(part[0].upper() + part[1:] for part in t.split("-")) for t in TYPES}
# A function whose parts were joined by a dash, and a type that was spelt as a function.
SPELT |= {"kept-or": "kept_or", "leavesIn": "LeavesIn"}
# Plain words that name types, in the crates given.
WORDS = {"tree": {"turns": "Turns", "inserting": "Inserting", "deleting": "Deleting", "child": "Child", "named": "Named"}}


def part(word):
    return HUMP.sub("_", word).lower() if CAMEL.match(word) else word


def name(word, words):
    if word in SPELT:
        return SPELT[word]
    if word in words:
        return words[word]
    return "-".join(part(x) for x in word.split("-"))


def code(text, words):
    """One line without its comment or strings."""
    return TOKEN.sub(lambda m: name(m.group(0), words), text)


def line(text, mark, words):
    at = -1
    inside = [m.span() for m in STRING.finditer(text)] if mark == "//" else []
    for m in re.finditer(re.escape(mark), text):
        before = text[: m.start()]
        alone = mark == "//" or not before or before[-1].isspace()
        if alone and not any(a <= m.start() < b for a, b in inside):
            at = m.start()
            break
    head, tail = (text, "") if at < 0 else (text[:at], text[at:])
    done, last = "", 0
    for a, b in inside:
        if b <= len(head):
            done += code(head[last:a], words) + head[a:b]
            last = b
    return done + code(head[last:], words) + code(tail, {})


def turn(path, words):
    with open(path, encoding="utf-8") as f:
        old = f.read()
    if path.endswith(".md"):
        new = re.sub(r"`[^`\n]+`", lambda m: m.group(0) if "/" in m.group(0) or "." in m.group(0) else code(m.group(0), {}), old)
    else:
        mark = "//" if path.endswith(".rt") else "--"
        new = "\n".join(line(l, mark, words) for l in old.split("\n"))
    if new != old:
        with open(path, "w", encoding="utf-8") as f:
            f.write(new)
    return new != old


def main(top):
    changed = 0
    for folder, dirs, files in os.walk(os.path.join(top, "crates")):
        dirs[:] = sorted(d for d in dirs if d not in ("out", "must-fail", "data"))
        crate = os.path.relpath(folder, os.path.join(top, "crates")).split(os.sep)[0]
        for f in sorted(files):
            if f.endswith((".rt", ".antt")):
                changed += turn(os.path.join(folder, f), WORDS.get(crate, {}))
    pages = [os.path.join(top, "README.md")] + [os.path.join(top, "docs", f) for f in sorted(os.listdir(os.path.join(top, "docs")))]
    changed += sum(turn(p, {}) for p in pages if p.endswith(".md"))
    for crate in sorted(os.listdir(os.path.join(top, "crates"))):
        subprocess.run(["rt", "fmt"], cwd=os.path.join(top, "crates", crate), check=True, stdout=subprocess.DEVNULL)
    print(f"respell: {changed} files changed, and laid out")
    return 0


if __name__ == "__main__":
    sys.exit(main(sys.argv[1] if len(sys.argv) > 1 else "."))
