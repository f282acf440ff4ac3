#!/usr/bin/env python3
"""Brings the repository's own definitions and lemmas to the spelling that port.py leaves to a repository: snake case, with get_or for getD.

usage: tools/respell.py        in the repository, once, right after port.py

It turns whole words of crates/ (.rt, .antt, must-fail/*.edit), of tests/edits and of the pages of docs/. It goes by spelling and proves nothing.
"""

import os
import re
import sys

# Names that would fall together with another: a lemma with its definition, or the two that one name would stand for.
APART = {
    "byValue": "value_handed_back",
    "inPlace": "value_in_place",
    "no_cells": "length-no_cells",
    "line_ok": "line_ok_lem",
    "flag_at": "flag_at_lem",
    "by_tests": "by_tests_lem",
}
WORD = re.compile(r"[^\s(){}.;,@\"«»\[\]`:/|*]+")
CAMEL = re.compile(r"(?<=[a-z0-9])([A-Z])")


def turned(word):
    if word in APART:
        return APART[word]
    word = re.sub(r"^get_d_", "get_or-", word)
    parts = []
    for part in word.split("-"):
        if part == "getD":
            part = "get_or"
        elif re.fullmatch(r"[a-z][a-z0-9]*([A-Z][A-Za-z0-9]*)+'*", part):
            part = CAMEL.sub(lambda m: "_" + m.group(1).lower(), part)
        parts.append(part)
    return "-".join(parts)


def files(root):
    for top in ("crates", "tests/edits", "docs", "README.md", "CONTRIBUTING.md"):
        top = os.path.join(root, top)
        if os.path.isfile(top):
            yield top
        for folder, dirs, names in os.walk(top):
            dirs[:] = sorted(d for d in dirs if d != "out")
            for name in sorted(names):
                if name.endswith((".rt", ".antt", ".edit", ".md")):
                    yield os.path.join(folder, name)


def main():
    for path in files(os.getcwd()):
        with open(path, encoding="utf-8") as f:
            old = f.read()
        new = WORD.sub(lambda m: turned(m.group(0)), old)
        if new != old:
            with open(path, "w", encoding="utf-8") as f:
                f.write(new)


if __name__ == "__main__":
    sys.exit(main())
