#!/usr/bin/env python3
"""Brings this repository's own definitions and lemmas to one spelling: words in snake case, types and facts in upper camel case.

usage: python3 tools/respell.py [ROOT]          rewrites crates/**/*.antt, crates/**/*.rt, crates/*/must-fail/*.edit and the pages below ROOT
       python3 tools/respell.py --names [ROOT]  prints each name and its new spelling, and changes nothing

It was run once, right after the toolchain's own script. A name is renamed where a file of specs/ or proofs/ declares it; the names of
goals and steps, which the toolchain makes from the code, are no declarations and stay. It stops where two names would fall together.
"""

import os
import re
import sys

WORD = re.compile(r"(?<![\w'-])[A-Za-z][\w']*(?:-[\w']+)*(?![\w'-])")
MODIFIERS = r"(?:(?:abbrev|unfoldable|private|pub|record|data|ruleset)\s+)*"
BINDERS = r"(?:\s*[({][^(){}]*[)}])*"
DECLARED = re.compile(r"^\s*" + MODIFIERS + r"([A-Za-z][\w'-]*)" + BINDERS + r"\s*:(?:\s|$)")
KEYWORDS = {"use", "pub", "mod", "let", "in", "where", "unfolding", "elim", "rw"}
# The toolchain names goals and steps by these; a declaration of such a name answers a goal.
MADE = re.compile(
    r"^(returns|loop-|overflow_|bounds|invariant|decreases|slice_bounds|offset_bounds|nonzero_|prove-|in-[A-Z]|in_ok|in_err|if-|then-|else-|index-|type_inv)"
)


def texts(root, *ends):
    for folder, dirs, files in os.walk(os.path.join(root, "crates")):
        dirs[:] = sorted(d for d in dirs if d != "out")
        for f in sorted(files):
            if f.endswith(ends):
                yield os.path.join(folder, f)


def is_made(name):
    return bool(MADE.match(name)) or "-requires" in name or name.endswith(("-smaller", "-preserved", "-init"))


def snake(name):
    """`sameSide` and `same-side` are `same_side`; a part with a capital of its own, as `All`, keeps it."""
    parts = re.sub(r"([a-z0-9'])([A-Z])", lambda m: m.group(1) + "_" + m.group(2).lower(), name)
    return parts.replace("-", "_")


def camel(name):
    """`Edges-hold` is `EdgesHold`."""
    return "".join(p[:1].upper() + p[1:] for p in name.split("-"))


def declared(root):
    found = {}
    for path in texts(root, ".antt"):
        for line in open(path, encoding="utf-8"):
            m = DECLARED.match(line)
            if not m or m.group(1) in KEYWORDS:
                continue
            name = m.group(1)
            if is_made(name) or ": goal." in line:
                continue
            found.setdefault(name, set()).add(os.path.relpath(path, root))
    return found


def standing(name, files):
    """Which of the names that fall together keeps the word: a definition, since a lemma of its function's name ends in `_lem`."""
    if re.search(r"[a-z][A-Z]", name):
        return 0
    if "-" not in name and any("/specs/" in f for f in files):
        return 1
    return 2


def renames(root):
    found = declared(root)
    sources = {}
    for name in found:
        to = camel(name) if name[0].isupper() else snake(name)
        sources.setdefault(to, []).append(name)
    new = {}
    for to, names in sources.items():
        names.sort(key=lambda n: (standing(n, found[n]), n))
        for i, name in enumerate(names):
            spelled = to if i == 0 else to + "_lem"
            if spelled != name:
                new[name] = spelled
    return found, new


def clashes(root, found, new):
    """Names that would still fall together: as declarations, or as words of one file. A function's own folder is named as its theorem."""
    back = {}
    for name in found:
        back.setdefault(new.get(name, name), set()).add(name)
    said = []
    for to, names in sorted(back.items()):
        if len(names) > 1:
            said.append("%s: %s" % (to, "; ".join("%s in %s" % (n, ", ".join(sorted(found[n]))) for n in sorted(names))))
    words = {}
    for path in texts(root, ".antt"):
        words[path] = set(WORD.findall(open(path, encoding="utf-8").read()))
    for name, to in sorted(new.items()):
        for path, has in words.items():
            if name in has and to in has and to not in new and to not in path.split(os.sep):
                said.append("%s has both %s and %s" % (os.path.relpath(path, root), name, to))
    return said


def respell(text, new):
    text = WORD.sub(lambda m: new.get(m.group(0), m.group(0)), text)
    return re.sub(r"\b(overflow|nonzero|slice|offset)-(add|sub|mul|shl|shr|cast|div|rem|bounds)-", r"\1_\2-", text)


def respell_source(text, new):
    """Strings keep their text. A name in snake case stays, since it may be a function of src/, which keeps its name."""
    new = {name: to for name, to in new.items() if "-" in name or name != name.lower()}
    out = []
    for line in text.split("\n"):
        pieces = re.split(r'("(?:[^"\\]|\\.)*")', line)
        out.append("".join(p if p.startswith('"') and len(p) > 1 else respell(p, new) for p in pieces))
    return "\n".join(out)


def respell_page(text, new):
    """In a page, only what stands between backticks is a name."""
    return re.sub(r"`[^`\n]+`", lambda m: respell_source(m.group(0), new), text)


def pages(root):
    found = [os.path.join(root, "README.md")]
    docs = os.path.join(root, "docs")
    if os.path.isdir(docs):
        found += [os.path.join(docs, f) for f in sorted(os.listdir(docs)) if f.endswith(".md")]
    return [p for p in found if os.path.isfile(p)]


def main(argv):
    only = "--names" in argv
    args = [a for a in argv if a != "--names"]
    root = args[0] if args else "."
    found, new = renames(root)
    if only:
        for name in sorted(new):
            print(name, new[name])
        return 0
    said = clashes(root, found, new)
    if said:
        print("\n".join(said))
        return 1
    count = 0
    for path in [*texts(root, ".antt", ".rt", ".edit"), *pages(root)]:
        before = open(path, encoding="utf-8").read()
        turn = respell if path.endswith(".antt") else respell_page if path.endswith(".md") else respell_source
        after = turn(before, new)
        if after != before:
            open(path, "w", encoding="utf-8").write(after)
            count += 1
    print("respell: %d names, %d files" % (len(new), count))
    return 0


if __name__ == "__main__":
    raise SystemExit(main(sys.argv[1:]))
