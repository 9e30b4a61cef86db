#!/usr/bin/env python3
"""Brings the repository's own names in specs/, proofs/ and clauses to the spelling of rattle-kit-13f (docs/PORT.md).

usage: python3 tools/respell.py            at the top of the repository, once, right after the kit's port.py
       python3 tools/respell.py --list     prints old and new name, one pair a line, and changes nothing

Definitions, lemmas and fields in camel case become snake case (areaOf: area_of); a dash becomes an underscore (num-drop: num_drop), but for
one behind a type's name (Chunk-left). A lemma that would then have a definition's or another's name gets _lem. Functions of src/, exported
names, strings, comments' English, inputs and outputs stay.
"""
import collections
import glob
import os
import re
import sys

TOKEN = re.compile(r"[^\s(){}\[\];,.@\"]+")
HEAD = re.compile(r"^(\s*)((?:(?:pub|abbrev|unfoldable|opaque|private) )*)((?:record|data) )?([^\s:(){}\[\];,.@\"]+)((?:\s+[({][^\n]*?[)}])*)\s*:(?!\S)(.*)$")
WORDS = {"use", "let", "open", "module", "in", "import", "λ", "where", "record", "data", "mod", "elim", "pub", "unfolding"}


def snake(name):
    name = re.sub(r"(?<=[a-z0-9₀-₉])(?=[A-Z])", "_", name)
    return name.lower() if "_" in name or name != name.lower() else name


def files(pattern):
    return sorted(p for p in glob.glob(pattern, recursive=True) if "/out/" not in p)


def declared():
    """Own names: those of the top level and of `module _` blocks, fields and constructors; where each stands."""
    where = collections.defaultdict(set)
    fields = set()
    for p in files("crates/*/specs/**/*.antt") + files("crates/*/proofs/**/*.antt"):
        inside = module = False
        for line in open(p, encoding="utf-8"):
            m = HEAD.match(line.rstrip("\n"))
            if re.match(r"^(?:(?:pub|abbrev|unfoldable) )*(record|data) ", line):
                inside = True
            elif line.strip() and not line[0].isspace() and not line.startswith("--"):
                inside = False
                module = line.startswith("module ")
            if not m or m.group(4) in WORDS or m.group(4).startswith("--"):
                continue
            indent, mods, kind, name = m.group(1), m.group(2), m.group(3), m.group(4)
            if "◌" in name or m.group(6).strip().startswith("goal."):
                continue
            if indent and not mods and not inside and not (module and indent == "  "):
                continue
            where[name].add(p)
            if inside and indent:
                fields.add(name)
    return where, fields


def mapping():
    where, fields = declared()
    used = collections.defaultdict(set)
    for p in files("crates/*/specs/**/*.antt") + files("crates/*/proofs/**/*.antt") + files("crates/*/src/**/*.rt"):
        rust = p.endswith(".rt")
        for line in open(p, encoding="utf-8"):
            line = re.sub(r"(^|\s)(--|//).*", "", line)
            for m in TOKEN.finditer(line):
                before, after = line[m.start() - 1:m.start()], line[m.end():m.end() + 1]
                # parts of a path, projections, and functions of Rust are in no one's way; variables and parameters are
                if before == "." or after == "." and not rust or rust and (after in "(<" or line[max(0, m.start() - 3):m.start()] == "fn " or before == ":" and line[m.start() - 2:m.start()] == "::"):
                    continue
                used[m.group(0)].add(p)
    new = {}
    for name in sorted(where):
        first = name.lstrip("+")[:1]
        if first.isupper():
            continue
        to = name
        if re.search(r"[a-z0-9][A-Z]", to):
            to = snake(to)
        to = to.replace("-", "_")
        if to != name:
            new[name] = to
    taken = {n: "own" for n in where if n not in new}
    in_specs = {n for n in where if any("/specs/" in p for p in where[n])}
    # definitions first, so that a lemma gives way
    for name in sorted(list(new), key=lambda n: (n not in in_specs, n)):
        to = new[name]
        if name in in_specs and taken.get(to) == "own" and to not in in_specs and not used[to + "_lem"]:
            # a lemma that has the definition's new name already gives way
            new[to] = to + "_lem"
            taken[to + "_lem"] = to
            del taken[to]
        while to in taken or (used[to] & used[name] and to not in where):
            to += "_lem" if name not in in_specs else "_of"
        new[name] = to
        taken[to] = name
    return new, fields


def aliases(text):
    """the names under which a file has modules of this repository's proofs and specs"""
    return {m.group(2) or m.group(1).split(".")[-1] for m in re.finditer(r"^(?:pub )?use (Rattle\.\S+)(?: as (\S+))?$", text, re.M) if not re.search(r"\.(Tie|Statement|Met|Reads|Kinds|Lts\S*)$", m.group(1))}


def turn_code(text, new, fields, rust, modules=()):
    out, at = [], 0
    for m in TOKEN.finditer(text):
        t = m.group(0)
        if t not in new:
            continue
        if rust and "-" in t:
            # in .rt a dash may be a minus: only names that a clause or a ghost use names
            if t not in rust:
                continue
        if rust is not None and not re.search(r"[a-z0-9][A-Z]|-", t):
            continue
        before = text[m.start() - 1] if m.start() else ""
        if before == "." and text[m.end():m.end() + 1] == "." and t not in fields:
            continue
        if before == "." and t not in fields and not text[max(0, m.start() - 60):m.start()].rstrip(".").split()[-1:][0:1] == []:
            word = re.search(r"(\S+)\.$", text[:m.start()])
            # a projection of a generated name stays; a member of a module of this repository is turned, and camel case is always ours
            if not re.search(r"[a-z0-9][A-Z]", t) and not (word and (re.match(r"[(\[{]*Rattle\.", word.group(1)) or word.group(1).lstrip("([{") in modules)):
                continue
        out.append(text[at:m.start()])
        out.append(new[t])
        at = m.end()
    out.append(text[at:])
    return "".join(out)


def turn(text, new, fields, mark, rust=None):
    lines = []
    modules = aliases(text)
    for line in text.split("\n"):
        cut = line.find(mark)
        if cut >= 0 and (cut == 0 or line[cut - 1].isspace()) and line.count('"', 0, cut) % 2 == 0:
            code, comment = line[:cut], line[cut:]
        else:
            code, comment = line, ""
        if rust is not None:
            parts = re.split(r'("(?:[^"\\]|\\.)*")', code)
            code = "".join(x if i % 2 else turn_code(x, new, fields, rust) for i, x in enumerate(parts))
        else:
            code = turn_code(code, new, fields, None, modules)
        if comment:
            comment = TOKEN.sub(lambda m: new[m.group(0)] if m.group(0) in new and re.search(r"[a-z0-9][A-Z]", m.group(0)) else m.group(0), comment)
        lines.append(code + comment)
    return "\n".join(lines)


def main():
    new, fields = mapping()
    if "--list" in sys.argv:
        for a in sorted(new):
            print(a, new[a])
        return
    specs = {n for n in new if "-" in n}
    n = 0
    for p in files("crates/*/specs/**/*.antt") + files("crates/*/proofs/**/*.antt"):
        old = open(p, encoding="utf-8").read()
        text = turn(old, new, fields, "--")
        if text != old:
            open(p, "w", encoding="utf-8").write(text)
            n += 1
    for p in files("crates/*/src/**/*.rt"):
        old = open(p, encoding="utf-8").read()
        text = turn(old, new, fields, "//", rust=specs)
        if text != old:
            open(p, "w", encoding="utf-8").write(text)
            n += 1
    print(f"respell: {len(new)} names, {n} files")


if __name__ == "__main__":
    main()
