#!/usr/bin/env python3
"""Brings the names of specs/ and proofs/ to one spelling.

usage: python3 tools/respell.py          at the top of the repository; rewrites files in place
       python3 tools/respell.py --list   only prints each name, old and new

Definitions, members and constructors go to snake case, types and facts to camel case.
A lemma keeps the dashes between its parts; a definition named in it gets the definition's new spelling.
Names of src/, strings, inputs and outputs stay.
"""

import os
import re
import sys

# One word, as antt reads it.
WORD = re.compile(r"[^\s(){}\[\];,.◌\"`⌜⌝]+")
# Names that the rules would make equal to another name in scope.
BY_HAND = {"get-or": "value_or", "view-size": "size_of_view"}
# What a part of a lemma's name is called in today's library.
LIBRARY = {"getD": "get_or"}
# In a comment these are plain words.
PLAIN = {"breadth-first", "one-to-one", "in-flight", "looked-at", "in-cycle", "turned-away", "lists-of-calls"}
# Rattle now makes a module `specs.contracts`.
MOVED = {"Contracts": "Promises"}


def files(top, ends):
    for folder, dirs, names in os.walk(top):
        dirs[:] = sorted(d for d in dirs if d not in ("out", ".git", "data"))
        for n in sorted(names):
            if n.endswith(ends):
                yield os.path.join(folder, n)


def declared(path):
    """What a file declares: (name, 'type' or 'member' or 'def')."""
    inside = None
    with open(path, encoding="utf-8") as f:
        for line in f:
            s = line.rstrip("\n")
            for name in re.findall(r"\sas ([^\s(){}\[\];,.:◌λ]+)", s) if s.startswith("use ") or re.match(r"^  [^=:]*,$", s) else ():
                if name[:1].islower():
                    yield name, "alias"
            if not s.strip() or s.strip().startswith(("--", "use ")):
                continue
            m = re.match(r"^(\s*)(?:(?:abbrev|unfoldable)\s+)?(?:pub\s+)?(?:data|record)\s+([^\s{]\S*)", s)
            if m:
                inside = len(m.group(1))
                yield m.group(2), "type"
                continue
            m = re.match(r"^(\s+)(?:pub\s+)?([^\s(){}\[\];,.:◌λ=→]+)$", s)
            if m and inside is not None and len(m.group(1)) == inside + 2:
                yield m.group(2), "member"
                continue
            m = re.match(r"^(\s+)((?:[^\s(){}\[\];,.:◌λ]+\s+){2,}):\s", s)
            if m and inside is not None and len(m.group(1)) > inside:
                for name in m.group(2).split():
                    yield name, "member"
                continue
            m = re.match(r"^(\s*)((?:abbrev\s+|unfoldable\s+)?(?:pub\s+)?)([^\s(){}\[\];,.:◌λ]+)\s+:\s(.*)$", s)
            if m and inside is not None and len(m.group(1)) > inside:
                yield m.group(3), "member"
            elif m and (len(m.group(1)) <= 2 or m.group(2)):
                inside = None
                yield m.group(3), "type" if re.search(r"Type \d$", m.group(4)) else "def"
            elif not s[0].isspace():
                inside = None


def two_words(name):
    return re.search(r"-|[a-z0-9][A-Z]", name)


def snake(name):
    name = name[:1].lower() + name[1:]
    name = re.sub(r"(?<=[a-z0-9])([A-Z])", lambda m: "_" + m.group(1).lower(), name)
    return name.replace("-", "_")


def camel(name):
    return "".join(p[:1].upper() + p[1:] for p in re.split(r"[-_]", name))


def new_names(top):
    kinds = {}
    for path in files(top, ".antt"):
        area = path.split(os.sep + "crates" + os.sep, 1)[-1].split(os.sep)[1:]
        where = "specs" if area[0] == "specs" else "proofs" if len(area) == 2 else "walk"
        for name, kind in declared(path):
            kinds.setdefault(name, set()).add((kind, where))
    made = {}
    for name, ks in kinds.items():
        shared = {(k, w) for k, w in ks if w != "walk"}
        shared -= {("alias", "proofs")}
        if any(k == "type" for k, w in shared):
            made[name] = camel(name)
        elif any(k == "member" or w == "specs" for k, w in shared):
            made[name] = snake(name)
    made.update(BY_HAND)
    words = {n: t for n, t in made.items() if n != t and two_words(n)}
    for name, ks in kinds.items():
        if name not in made and any(w == "proofs" and k != "alias" for k, w in ks):
            made[name] = parts(name, words)
    # A plain word stays: it may be a variable of src/ or stand in a sentence.
    return {n: t for n, t in made.items() if n != t and two_words(n)}


def parts(name, words):
    """A lemma's name, with the definitions in it respelled."""
    ps, out, i = name.split("-"), [], 0
    while i < len(ps):
        for j in range(len(ps), i, -1):
            w = "-".join(ps[i:j])
            if w in words or j == i + 1:
                out.append(words.get(w, LIBRARY.get(w, w)))
                i = j
                break
    return "-".join(out)


def respell(text, names):
    return WORD.sub(lambda m: names.get(m.group(), m.group()), text)


def by_lines(text, names):
    """Code and comments: strings and plain words of comments stay."""
    spoken = {n: t for n, t in names.items() if n not in PLAIN}
    out = []
    for line in text.split("\n"):
        for i, p in enumerate(re.split(r"(\"(?:[^\"\\]|\\.)*\")", line)):
            code, mark, said = re.match(r"(.*?)((?:(?<!\S)--(?!\S)|//).*|)()$", p, re.S).groups()
            out.append(p if i % 2 else respell(code, names) + respell(mark, spoken))
        out.append("\n")
    text = "".join(out[:-1])
    for old, new in MOVED.items():
        text = re.sub(rf"(\.specs\.|^pub mod ){old}\b", rf"\g<1>{new}", text, flags=re.M)
    return text


def in_ticks(text, names):
    """A page: only what stands between backticks."""
    return re.sub(r"`[^`\n]+`", lambda m: respell(m.group(), names), text)


def main():
    top = os.getcwd()
    names = new_names(os.path.join(top, "crates"))
    if "--list" in sys.argv:
        for n in sorted(names):
            print(n, names[n])
        return
    for path in list(files(os.path.join(top, "crates"), ".antt")):
        folder, name = os.path.split(path)
        if os.path.basename(folder) == "specs" and name[:-5] in MOVED:
            os.rename(path, os.path.join(folder, MOVED[name[:-5]] + ".antt"))
    jobs = [(p, by_lines) for p in files(os.path.join(top, "crates"), (".antt", ".rt", ".edit"))]
    jobs += [(p, in_ticks) for p in files(os.path.join(top, "docs"), ".md")] + [(os.path.join(top, "README.md"), in_ticks)]
    for path, how in jobs:
        with open(path, encoding="utf-8") as f:
            old = f.read()
        both = {}
        for w in WORD.findall(old):
            both.setdefault(names.get(w, w), set()).add(w)
        for t, ws in both.items():
            if len(ws) > 1 and not path.endswith(".md"):
                print(f"fall together in {os.path.relpath(path, top)}: {' '.join(sorted(ws))} -> {t}")
        new = how(old, names)
        if new != old:
            with open(path, "w", encoding="utf-8") as f:
                f.write(new)


if __name__ == "__main__":
    main()
