#!/usr/bin/env python3
"""Spells the names that port.py respelled in the pages too: between backquotes, a name that the crates no longer have, but have in snake case.

usage: respell_pages.py    at the top of the repository, after respell.py --pages
"""

import os
import re

from respell import CRATES, TOKEN, snake

PAGES = ["README.md", "CONTRIBUTING.md", "docs/ARCHITECTURE.md", "docs/DECISIONS.md", "docs/TRACE.md"]


def known():
    names = set()
    for folder, dirs, found in os.walk(CRATES):
        dirs[:] = [d for d in dirs if d != "out"]
        for name in found:
            if name.endswith((".antt", ".rt")):
                with open(os.path.join(folder, name), encoding="utf-8") as f:
                    names |= set(TOKEN.findall(f.read()))
    return names


def main():
    names = known()
    pages = PAGES + [os.path.join("docs/changes", n) for n in os.listdir("docs/changes")]
    new = lambda w: snake(w.group()) if w.group() not in names and snake(w.group()) in names else w.group()
    for path in sorted(pages):
        with open(path, encoding="utf-8") as f:
            text = f.read()
        out = re.sub(r"`[^`\n]+`", lambda m: re.sub(r"(?<![\w'-])[a-z][\w'-]*(?![\w'-])", new, m.group()), text)
        if out != text:
            print(path)
            with open(path, "w", encoding="utf-8") as f:
                f.write(out)


if __name__ == "__main__":
    main()
