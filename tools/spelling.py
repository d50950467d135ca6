#!/usr/bin/env python3
"""Brings the repository's own definitions and lemmas to today's spelling: words in snake case, types and facts in camel case.

usage: tools/spelling.py [--list]      at the top of the repository, once, after port.py

A name with a capital inside a word, as rowOf, becomes row_of; a dash becomes an underscore. Where a lemma would fall together
with a definition, it gets _lem. A name that begins with a capital is a fact or a type and keeps its letters. Names of src/,
exported names, strings, inputs and outputs stay.
"""
import os
import re
import sys

TOKEN = re.compile(r"[^\s(){}\[\],;.:«»\"]+")
# A signature at the head of a definition. Indented ones stand in a parametrised module or under where.
SIGNATURE = re.compile(r"^( *)(?:(?:abbrev|unfoldable|pub|data|record) )*([^\s(){}\[\],;.:«»\"=λ→×]+) (?::|\(|\{)")
WORDS = {"use", "module", "unfolding", "mod", "where", "let", "in", "elim", "open"}


def files(suffix, parts):
    for folder, dirs, names in os.walk("crates"):
        dirs[:] = sorted(d for d in dirs if d != "out")
        for name in sorted(names):
            path = os.path.join(folder, name)
            if name.endswith(suffix) and path.split(os.sep)[2] in parts:
                yield path


def snake(name):
    first = name.lstrip("_")
    if first[:1].isupper():
        return name.replace("-", "_")
    out = re.sub(r"([a-z0-9])([A-Z])", lambda m: m[1] + "_" + m[2].lower(), name)
    out = re.sub(r"([A-Z])", lambda m: m[1].lower(), out)
    return out.replace("-", "_")


def declared():
    """Own names, by kind: those of specs/, and those of proofs/ but for a function's own file."""
    specs, lemmas = {}, {}
    for path in files(".antt", ("specs", "proofs")):
        if os.path.basename(path) == "Proof.antt":
            continue
        kind = specs if path.split(os.sep)[2] == "specs" else lemmas
        with open(path, encoding="utf-8") as f:
            for line in f:
                m = SIGNATURE.match(line)
                if m and m[2] not in WORDS and re.search(r" : |:$", line):
                    if len(m[1]) > 6:
                        continue
                    kind.setdefault(m[2], path)
    return specs, lemmas


def main():
    specs, lemmas = declared()
    fixed = {n for n in list(specs) + list(lemmas) if snake(n) == n}
    new = {}
    taken = set(fixed)
    # definitions first, then what is written as a definition in proofs/, then lemmas, whose names have dashes
    for names in (specs, [n for n in lemmas if "-" not in n], [n for n in lemmas if "-" in n]):
        for name in sorted(names):
            if name in new or name in fixed:
                continue
            to = snake(name)
            if to in fixed and to in lemmas and to not in specs and name in specs:
                new[to] = to + "_lem"
                taken.add(to + "_lem")
            elif to in taken:
                to += "_lem"
                if to in taken:
                    sys.exit(f"{name} and another name fall together")
            taken.add(to)
            new[name] = to
    if "--list" in sys.argv:
        for name in sorted(new):
            print(name, new[name], (specs.get(name) or lemmas.get(name)))
        return
    changed = 0
    for path in list(files(".antt", ("specs", "proofs"))) + list(files(".rt", ("src",))):
        with open(path, encoding="utf-8") as f:
            text = f.read()
        source = path.endswith(".rt")
        lines = []
        within = 0
        for line in text.split("\n"):
            code = line
            note = ""
            cut = re.search(r"(^|\s)(//|--)(\s|$)" if source else r"(^|\s)--(\s|$)", line)
            if cut:
                code, note = line[: cut.start()], line[cut.start() :]
            # of a source file, clauses and imports alone
            if source:
                ghost = within > 0 or re.search(r"^\s*(ghost|requires|ensures)\b", code)
                if ghost:
                    within += code.count("{") - code.count("}")
                    if code.startswith("ghost use"):
                        within = 0
                if not ghost:
                    lines.append(line)
                    continue
            note = re.sub(r"`([^`]+)`", lambda m: "`" + TOKEN.sub(lambda t: new.get(t[0], t[0]), m[1]) + "`", note)
            lines.append(TOKEN.sub(lambda t: new.get(t[0], t[0]), code) + note)
        made = "\n".join(lines)
        if made != text:
            changed += 1
            with open(path, "w", encoding="utf-8") as f:
                f.write(made)
    print(f"{len(new)} names, {changed} files")


main()
