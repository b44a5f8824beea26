#!/usr/bin/env python3
"""Respells the names that this repository's own specs/ and proofs/ declare: words in snake case, types and facts in
upper camel case. Usage: python3 tools/respell.py [--list], once, at the top, after the toolchain's own scripts.

A name with a dash or with a capital inside becomes: upper camel case where it is a record, a `data`, or a definition
whose result is a type; else snake case, with `_lem` after it where a file that has it imports that very name from the
library. The names of goals, invariants and measures, which Rattle makes, stay, and so do functions of src/, strings
and comments of code. It says where two names fall together."""

import collections
import os
import re
import sys

NAME = r"[^\s(){}\[\],;.:\"«»]+"
TOKEN = re.compile(NAME)
HEAD = re.compile(r"^(\s*)((?:abbrev |unfoldable |pub )*)(data |record )?(" + NAME + r")((?:\s*\{[^}]*\}|\s*\([^()]*(?:\([^()]*\)[^()]*)*\))*)\s*:(.*)$")
ODD = re.compile(r"-|[a-z0-9][A-Z]")


def files(root, endings):
    for folder, dirs, names in os.walk(os.path.join(root, "crates")):
        dirs[:] = sorted(d for d in dirs if d not in ("out", ".git"))
        for n in sorted(names):
            if n.endswith(endings):
                yield os.path.join(folder, n)


def signatures(text):
    """(indent, keyword, name, type) of each declaration; a type may go on over indented lines."""
    lines = text.split("\n")
    for i, l in enumerate(lines):
        if l.lstrip().startswith("--"):
            continue
        m = HEAD.match(l)
        if not m or m[4] in ("λ", "let", "in", "elim", "use", "where", "module"):
            continue
        of = m[6]
        j = i + 1
        while j < len(lines) and lines[j].startswith(m[1] + "  ") and lines[j].strip() and not lines[j].lstrip().startswith("--"):
            of += " " + lines[j].strip()
            j += 1
        yield m[1], m[3], m[4], of.split(" = ")[0].strip()


def is_type(keyword, of):
    return bool(keyword) or bool(re.search(r"(^|→\s*)Type\b[^→]*$", of))


def parts(name):
    out = []
    for p in name.split("-"):
        out += re.findall(r"[A-Z]?[^A-Z]+|[A-Z]+(?![^A-Z'])'*|[A-Z]'*", p) or [p]
    return [p for p in out if p]


def camel(name):
    return "".join(p[:1].upper() + p[1:] for p in parts(name))


def snake(name):
    if "-" not in name:  # camel case
        return "_".join(p.lower() for p in parts(name))
    words = [p for p in name.split("-") if p]
    return "_".join("_".join(w.lower() for w in parts(p)) if re.search("[a-z][A-Z]", p) else p for p in words)


def main(argv):
    root = "."
    types, words = collections.defaultdict(set), collections.defaultdict(set)
    declared = collections.defaultdict(set)
    made = set()
    for p in files(root, (".antt",)):
        with open(p, encoding="utf-8") as f:
            text = f.read()
        for indent, keyword, name, of in signatures(text):
            if re.match(r"(goal|given)\b", of):
                made.add(name)
                continue
            declared[name].add(p)
            if not ODD.search(name):
                continue
            (types if is_type(keyword, of) else words)[name].add(p)
    turn = {}
    for n in set(types) | set(words):
        if n in made:
            print(f"kept: {n} is also a goal's name")
            continue
        if n in types and n in words:
            print(f"look: {n} is a type in {sorted(types[n])[0]} and a word in {sorted(words[n])[0]}")
        if n in types and "-" in n:
            turn[n] = camel(n)
        elif n in types and n[0].isupper():
            continue
        elif n in types:
            turn[n] = camel(n)
        else:
            turn[n] = snake(n)
    own = os.listdir(os.path.join(root, "crates"))
    for p in files(root, (".antt", ".rt")):
        with open(p, encoding="utf-8") as f:
            text = f.read()
        library = set()
        for m in re.finditer(r"use ([\w.]+)\.\{([^}]*)\}", text):
            if not (m[1].startswith("Rattle.") and m[1].split(".")[1] in own):
                library |= {n.strip() for n in m[2].split(",")}
        for a in set(TOKEN.findall(text)):
            if a in turn and turn[a] in library:
                print(f"library: {a} becomes {turn[a]}_lem, since {p} imports {turn[a]}")
                turn[a] += "_lem"
    back = collections.defaultdict(set)
    for a, b in turn.items():
        back[b].add(a)
    for b, olds in sorted(back.items()):
        if len(olds) > 1 or b in declared:
            print(f"together: {b} from {sorted(olds)}{' and ' + b + ' of ' + sorted(declared[b])[0] if b in declared else ''}")
    if "--list" in argv:
        for a in sorted(turn):
            print(f"{a} {turn[a]}")
        return 0
    changed = 0
    for p in files(root, (".antt", ".rt")):
        with open(p, encoding="utf-8") as f:
            text = f.read()
        lines = []
        for l in text.split("\n"):
            if p.endswith(".rt") and l.lstrip().startswith("//"):
                lines.append(l)
                continue
            pieces = re.split(r'(b?"(?:[^"\\]|\\.)*")', l) if p.endswith(".rt") else [l]
            lines.append("".join(x if i % 2 else TOKEN.sub(lambda m: turn.get(m[0], m[0]), x) for i, x in enumerate(pieces)))
        new = "\n".join(lines)
        if new != text:
            seen = set(TOKEN.findall(text))
            for a in sorted(seen):
                if a in turn and turn[a] in seen:
                    print(f"look: {p}: {a} becomes {turn[a]}, which stands there already")
            with open(p, "w", encoding="utf-8") as f:
                f.write(new)
            changed += 1
    print(f"respell: {len(turn)} names, {changed} files")
    return 0


if __name__ == "__main__":
    raise SystemExit(main(sys.argv[1:]))
