#!/usr/bin/env python3
"""Brings this repository's own definitions and lemmas to the spelling that the library has: words in snake case, types and
facts in upper camel case. Run once, at the top, after the kit's port script. The table is fixed, so the outcome for a file
depends on that file alone."""
import os, re, sys, json

HERE = os.path.dirname(os.path.realpath(__file__))
with open(os.path.join(HERE, "respell.json"), encoding="utf-8") as f:
    said = json.load(f)
TABLE, FIELDS = said["names"], set(said["fields"])
WORD = re.compile(r"(?<![\w'\-])([^\W\d][\w']*(?:-[\w']+)*)(?![\w'\-])")
# strings, char literals and comments stay as they are
SKIP = {
    ".antt": re.compile(r'"(?:[^"\\]|\\.)*"|--[^\n]*'),
    ".rt": re.compile(r'b?"(?:[^"\\]|\\.)*"|//[^\n]*|b?\'(?:[^\'\\]|\\.)\''),
}
SKIP[".edit"] = SKIP[".rt"]

def respell(text, kind):
    def word(m):
        name, start = m.group(1), m.start()
        if name not in TABLE:
            return name
        if start and m.string[start - 1] == ".":
            # behind a dot stand modules' names, and fields; steps of a generated proof keep theirs
            base = re.search(r"([\w'\-]+(?:\.[\w'\-]+)*)\.$", m.string[:start])
            first = base.group(1).split(".")[0] if base else ""
            if first in ("c", "w", "l") and name not in FIELDS:
                return name
            if first in ("goal", "need", "given"):
                return name
        return TABLE[name]

    def part(t):
        return WORD.sub(word, t)

    out, at = [], 0
    for m in SKIP[kind].finditer(text):
        kept = m.group(0)
        if kept.startswith(("--", "//")):
            kept = kept.replace("half_up", "half-up")
        out += [part(text[at:m.start()]), kept]
        at = m.end()
    return "".join(out) + part(text[at:])

def main():
    changed = 0
    for folder, dirs, files in os.walk("crates"):
        dirs[:] = sorted(d for d in dirs if d != "out")
        for f in sorted(files):
            kind = os.path.splitext(f)[1]
            if kind not in SKIP:
                continue
            path = os.path.join(folder, f)
            with open(path, encoding="utf-8") as h:
                old = h.read()
            new = respell(old, kind)
            # the library's `All` goes by index today; the one that these files mean has a name of its own
            if re.search(r"AllByRecursion as All(?![\w'\-])", new):
                new = new.replace("AllByRecursion as All", "AllByRecursion")
                new = re.sub(r"(?<![\w'\-])All(?![\w'\-])", "AllByRecursion", new)
            if new != old:
                with open(path, "w", encoding="utf-8") as h:
                    h.write(new)
                changed += 1
    print(f"respell: {changed} files changed")

main()
