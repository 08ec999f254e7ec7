#!/usr/bin/env python3
"""Lists, for each kind of older form, the places of src/ that have it.

    python3 tools/design_counts.py [FOLDER]      FOLDER: the top of a checkout (here by default)

It goes by text, so it lists candidates: docs/DESIGN-PASS.md says of each whether it changed or why it stays.
"""
import glob
import os
import re
import sys
from collections import defaultdict

TOP = sys.argv[1] if len(sys.argv) > 1 else "."
SOURCES = sorted(
    p for p in glob.glob(os.path.join(TOP, "crates/*/src/**/*.rt"), recursive=True)
)


def short(path):
    return os.path.relpath(path, os.path.join(TOP, "crates"))


def text_of(path):
    """The code without comments, tests and ghost imports."""
    text = open(path, encoding="utf-8").read()
    text = re.sub(r"#\[cfg\(test\)\]\nmod tests \{.*?\n\}\n", "", text, flags=re.S)
    text = re.sub(r"//[^\n]*", "", text)
    return re.sub(r"ghost use [^;]*;", "", text)


CODE = {p: text_of(p) for p in SOURCES}


def functions(path):
    """(name, parameters, clauses, body) of each function that has a body."""
    code, found = CODE[path], []
    for m in re.finditer(r"\bfn (\w+)", code):
        at = code.index("(", m.end())
        depth, i = 0, at
        while True:
            depth += code[i] in "([{"
            depth -= code[i] in ")]}"
            i += 1
            if depth == 0:
                break
        params = code[at + 1 : i - 1]
        head = re.compile(r"\n *\{\n|\{\}|;\n| \{\n").search(code, i)
        rest = code[i:]
        body_at = re.search(r"(?m)^ *\{$|\{\}$| \{$", rest)
        if head is None or body_at is None:
            continue
        clauses = rest[: body_at.start()]
        j = i + body_at.start()
        j = code.index("{", j)
        depth, k = 0, j
        while True:
            depth += code[k] == "{"
            depth -= code[k] == "}"
            k += 1
            if depth == 0:
                break
        found.append((m.group(1), params, clauses, code[j:k]))
    return found


FUNCTIONS = [(p,) + f for p in SOURCES for f in functions(p)]


def title(text):
    print("\n" + text)


def grep(pattern, flags=0):
    return [
        (short(p), m.group(0))
        for p in SOURCES
        for m in re.finditer(pattern, CODE[p], flags)
    ]


def show(found):
    for place, what in found:
        print("   ", place, "|", " ".join(what.split())[:110])
    print("    =", len(found))


def enums():
    found = []
    for p in SOURCES:
        for m in re.finditer(r"enum (\w+)[^{]*\{(.*?)\n\}", CODE[p], re.S):
            body = re.sub(r"\{[^{}]*\}", "{}", m.group(2))
            variants = [v.strip() for v in re.split(r",\s*\n", body) if v.strip()]
            loaded = [v for v in variants if "(" in v or "{" in v]
            if len(variants) == 2 and 1 <= len(loaded):
                found.append((short(p), m.group(1) + ": " + ", ".join(variants)))
    return found


def twins():
    groups = defaultdict(list)
    for p, name, _params, _clauses, body in FUNCTIONS:
        tokens = re.findall(r"\w+|[^\w\s]", body)
        if len(tokens) < 14:
            continue
        names, shape = {}, []
        for t in tokens:
            if re.match(r"[A-Za-z_]", t):
                shape.append(t if t in {"if", "else", "match", "for", "while", "let", "return", "Some", "None", "Ok", "Err", "self"} else names.setdefault(t, f"n{len(names)}"))
            elif t.isdigit():
                shape.append("0")
            else:
                shape.append(t)
        groups[" ".join(shape)].append(f"{short(p)}::{name}")
    return [("", ", ".join(g)) for g in groups.values() if len(g) > 1]


def index_loops():
    found = []
    for p, name, _params, _clauses, body in FUNCTIONS:
        for m in re.finditer(r"for (\w+) in [^{]*\.\.[^{]*\{|while [^{]*\{", body):
            var = m.group(1)
            after = body[m.end() :]
            if var and (re.search(r"\[[^\]]*\b" + var + r"\b", after) or var == "_"):
                found.append((f"{short(p)}::{name}", m.group(0)))
            elif not var and "let " not in m.group(0) and re.search(r"[+-]= 1|[<>]", m.group(0) + after):
                found.append((f"{short(p)}::{name}", m.group(0)))
    return found


def together():
    """Groups of three or more parameters that three or more functions share."""
    having = defaultdict(set)
    for p, name, params, _clauses, _body in FUNCTIONS:
        items = re.findall(r"(\w+): ([^,]+(?:<[^>]*>)?)", params)
        names = sorted({a for a, _ in items})
        for i, a in enumerate(names):
            for j in range(i + 1, len(names)):
                for k in range(j + 1, len(names)):
                    having[(a, names[j], names[k])].add(f"{short(p)}::{name}")
    best = defaultdict(set)
    for group, where in having.items():
        if len(where) >= 3:
            best[tuple(sorted(where))].update(group)
    return [("", f"{', '.join(sorted(g))} in {len(w)}: {', '.join(x.split('::')[-1] for x in w)}") for w, g in best.items()]


def facts():
    """Facts asked for in three or more contracts."""
    having = defaultdict(set)
    for p, name, _params, clauses, _body in FUNCTIONS:
        for m in re.finditer(r"requires(?: \w+)? \{ (.*?) \}\n", clauses + "\n"):
            fact = re.sub(r"\b(\w+)\.(old|now)\b", r"\1", m.group(1))
            having[fact].add(f"{short(p)}::{name}")
    return [("", f"{fact} in {len(w)}: {', '.join(sorted(x.split('::')[-1] for x in w))}") for fact, w in having.items() if len(w) >= 3]


print("checkout:", os.path.abspath(TOP), "files:", len(SOURCES), "functions:", len(FUNCTIONS))
title("1a  enums of two variants, of which one or both hold something")
show(enums())
title("1b  a refusal in an Option, and 0 for a number that is not given")
show(grep(r"-> Option<Refusal>|Ok\(0\)"))
title("1c  flags among the fields of a type")
show(grep(r"(?m)^ +(?:pub )?\w+: bool,"))
title("1d  Option and Result taken apart by hand: else return None, Some .. else None, None => ..")
show(grep(r"else \{\s*return (?:None|Err\([^)]*\))?;?\s*\}|Some\([^{}]*\)\s*\} else \{\s*None\s*\}|None => (?:None|false|true|Some\([^)]*\)|\w+::\w+\b|0)[^\n]*"))
title("1e  filler values: a row, entry, series or price that stands for none")
show(grep(r"let (?:none|no_\w+) = [^{]*\{|\(Kind::Call, 0\)|None => 0\b"))
title("2   functions whose bodies differ in names and numbers alone")
show(twins())
title("3   loops that count")
show(index_loops())
title("4   comparison, conversion and text by hand")
show(grep(r"match \((?:a|item\.side|self\.side|\w+), (?:b|self\.side|\w+)\) \{\s*\((?:Side|Standing)::[^}]*\}|fn (?:is_(?:same_\w+|day|market|mine|bid_first)|\w*_word|word|number|to_\w+|from_\w+|of_letter|letter|reaching|close_of)\b|series\.series as u8"))
title("5a  parameters that travel together")
show(together())
title("5b  facts asked for in three or more contracts")
show(facts())
title("6   an array or slice with a count, a start or another array beside it")
show(grep(r"(?:\w+: (?:&'?\w* ?(?:mut )?)?\[[^\n]*,\n[^}]*?\b(?:count|start|len)\b: \w+,)", re.S) + grep(r"(?m)^ +of: \[[^\n]*"))
title("6b  a slice and a count as parameters")
show([(f"{short(p)}::{n}", ps) for p, n, ps, _c, _b in FUNCTIONS if re.search(r"\[", ps) and re.search(r"\bcount: usize|\bend: usize|\bbefore: usize", ps)])
title("7   traits of one function with three or more implementors, and matches whose arms each call a step")
impls = defaultdict(list)
for place, what in grep(r"impl(?:<[^>]*>)? (\w+)(?:<[^>]*>)? for [^{]*"):
    impls[re.search(r"impl(?:<[^>]*>)? (?:fmt::)?(\w+)", what).group(1)].append((place, what))
show([x for t, xs in impls.items() if len(xs) >= 3 for x in xs])
show(grep(r"(?m)^ *(?:b'\w'|\w+::\w+(?:\([^)]*\)| \{[^}]*\})?) => (?:self\.)?\w+\([^\n]*,$"))
