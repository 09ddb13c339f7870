#!/usr/bin/env python3
"""Spells the names that this repository's specs/ and proofs/ declare as today's Rattle does: words in snake case.

usage: respell.py           at the top of the repository, once, after port.py: spells the names of respell.tsv, beside this file, anew
       respell.py --pages   spells them anew in README.md, CONTRIBUTING.md and docs/, between backquotes
       respell.py --list    prints the old and new names, as respell.tsv has them, and changes nothing

A definition, lemma or record field in camel case or with hyphens gets underscores. Where a Rust name of src/ is spelled
so already as a parameter, a definition that a clause there cites gets the ending `_of`; a lemma that would meet a definition gets `_law`.
A name that a file imports from a library stays in it. (`_law`: the lemma on that definition.)
"""

import os
import re
import sys

CRATES = "crates"
TOKEN = re.compile(r"[^\s(){}.;,@\"«»`]+")
DECL = re.compile(r"^\s*(?:(?:abbrev|unfoldable|pub|record|data)\s+)*([^\s:({;]+)(?:\s+\{[^}]*\}\s*)?\s*:(?!:)")
LET = re.compile(r"\blet\s+([^\s:=({;]+)\s*[:=]")


def files(*endings):
    for folder, dirs, names in os.walk(CRATES):
        dirs[:] = sorted(d for d in dirs if d not in ("out", "data"))
        for name in sorted(names):
            if name.endswith(endings):
                yield os.path.join(folder, name)


def walk(path):
    """A file of one function's proof, which names goals of the kit."""
    parts = path.split(os.sep)
    return "proofs" in parts and len(parts) > parts.index("proofs") + 2


def snake(name):
    name = re.sub(r"(?<=[a-z0-9])([A-Z]+)", lambda m: "_" + m.group(1).lower(), name) if re.match(r"[a-z]", name) else name
    return name.replace("-", "_")


def turns(name):
    return bool(re.match(r"[a-z]", name)) and bool(re.search(r"[A-Z]|-", name)) and not re.search(r"[^\w'-]", name)


def declared():
    of_specs, others = set(), set()
    for path in files(".antt"):
        with open(path, encoding="utf-8") as f:
            for line in f:
                found = [m.group(1) for m in [DECL.match(line)] if m]
                if walk(path):
                    found = [n for n in found if n.endswith("-spec")]
                else:
                    found += LET.findall(line)
                (of_specs if os.sep + "specs" + os.sep in path else others).update(found)
    return of_specs, others


def parameters(old):
    """The new spellings that a parameter has in a file that imports the old name."""
    names = set()
    for path in files(".rt"):
        with open(path, encoding="utf-8") as f:
            text = re.sub(r"//.*", "", f.read())
        cited = {n.strip() for it in re.findall(r"ghost use [\w.]+\.\{([^}]*)\}", text) for n in it.split(",")}
        text = re.sub(r"ghost use[^;]*;", "", text)
        held = set(re.findall(r"\b([a-z_]\w*)\s*:(?!:)", text))
        names |= {n for n in cited & old if snake(n) in held}
    return names


def table():
    of_specs, others = declared()
    held = parameters(of_specs)
    new, taken = {}, set()
    order = lambda n: (turns(n) + 2 * ("-" in n), n)
    for name in sorted(of_specs, key=order) + sorted(others - of_specs, key=lambda n: (turns(n) and "-" in n, not turns(n), n)):
        to = snake(name) if turns(name) else name
        if name in held and turns(name):
            to += "_of"
        if to in taken:
            to += "_law"
        taken.add(to)
        if to != name:
            new[name] = to
    return new


def library_names(text):
    """What a file imports from a module that is not the repository's own."""
    own = set(os.listdir(CRATES))
    found = set()
    for path, names in re.findall(r"\buse ([\w.'+-]+)\.\{([^}]*)\}", text):
        first = path.split(".")
        if not (first[0] == "Rattle" and len(first) > 1 and first[1] in own):
            found |= {n.strip().split(" as ")[-1] for n in names.split(",")}
    return found


def pages(new):
    found = ["README.md", "CONTRIBUTING.md"] + [os.path.join(d, n) for d, _, names in os.walk("docs") for n in names]
    for path in sorted(found):
        if path.endswith(".md") and os.path.basename(path) != "PORT.md":
            with open(path, encoding="utf-8") as f:
                text = f.read()
            spelled = lambda m: TOKEN.sub(lambda t: new.get(t.group(), t.group()), m.group())
            out = re.sub(r"`[^`\n]+`", spelled, text)
            if out != text:
                print(path)
                with open(path, "w", encoding="utf-8") as f:
                    f.write(out)
    return 0


def main(argv):
    if "--list" in argv:
        for name, to in table().items():
            print(name, to, sep="\t")
        return 0
    with open(os.path.join(os.path.dirname(os.path.realpath(__file__)), "respell.tsv"), encoding="utf-8") as f:
        new = dict(line.rstrip("\n").split("\t") for line in f)
    if "--pages" in argv:
        return pages(new)
    changed = 0
    for path in files(".antt", ".rt", ".edit"):
        with open(path, encoding="utf-8") as f:
            text = f.read()
        # In src/ a name that has its spelling already is a function's, not a lemma's.
        kept = library_names(text) | ({n for n in new if not turns(n)} if path.endswith(".rt") else set())
        out = TOKEN.sub(lambda m: new[m.group()] if m.group() in new and m.group() not in kept else m.group(), text)
        if out != text:
            changed += 1
            with open(path, "w", encoding="utf-8") as f:
                f.write(out)
    print(f"respell: {len(new)} names, {changed} files")
    return 0


if __name__ == "__main__":
    raise SystemExit(main(sys.argv[1:]))
