#!/usr/bin/env python3
"""Brings the names of specs/ and proofs/ to today's spelling: python3 tools/respell.py, once, at the top, after port.py.

A definition, a lemma, a field or a constructor of specs/ or proofs/ that was written in camel case or with dashes gets
underscores; a fact that began with a small letter gets a capital; a prime is an apostrophe. Names of src/ stay, and so do the
names that the checker makes of them (goals, in a file Proof.antt). The documents follow where they quote a name, also one that
port.py has turned. Says which names fall together, and changes nothing then.
"""
import os
import re
import sys

FACTS = {"fits_by": "FitsBy"}
TOP = os.path.dirname(os.path.dirname(os.path.abspath(__file__)))
BREAK = r"\s(){}\[\],;.\"`#|«»"
TOKEN = re.compile(rf"[^{BREAK}]+")
SIGNATURE = re.compile(r"^(?:  ){0,3}(?:(?:abbrev|unfoldable|pub|axiom) )*(?P<name>[^\s(){}:.]+) :(?= |$)")
MEMBER = re.compile(r"^ +(?:pub )?(?P<name>[^\s(){}:.=]+) :(?= |$)")


def files(*endings):
    for folder, dirs, names in os.walk(TOP):
        dirs[:] = sorted(d for d in dirs if d not in (".git", "out", "target"))
        for name in sorted(names):
            if name.endswith(endings):
                yield os.path.join(folder, name)


def read(path):
    with open(path, encoding="utf-8") as file:
        return file.read()


def declared():
    """Each name that a file of specs/ or proofs/ declares, with the files that do; not the goals' names in a function's proof."""
    found = {}
    for path in files(".antt"):
        below = path.split("/proofs/")[-1] if "/proofs/" in path else ""
        of_function = "/" in below
        if of_function and not path.endswith("/Proof.antt"):
            continue
        inside = False
        for line in read(path).split("\n"):
            if line.startswith("--") or line.startswith("use "):
                continue
            if re.match(r"^(pub )?(record|data) [A-Z]", line):
                inside = True
                continue
            if line and not line[0].isspace():
                inside = False
            match = MEMBER.match(line) if inside else SIGNATURE.match(line)
            if match and not (of_function and re.search(rf": (\{{.*\}} → )?(tie\.|statement )|^decreases-|^invariant-", line)):
                found.setdefault(match["name"], set()).add(path)
    return found


def snake(name):
    if name in FACTS:
        return FACTS[name]
    name = name.replace("′", "'")
    if not name[0].islower():
        return name
    name = re.sub(r"(?<=[a-z0-9])([A-Z])", lambda m: "_" + m[1].lower(), name)
    return re.sub(r"(?<=[a-z0-9'])-(?=[a-z0-9])", "_", name)


def respelled(text, new, known, ending):
    """In the code a word with a dash is a sum; in a document only what it quotes is a name."""
    def turned(match):
        word = match[0]
        if ending == ".rt" and "-" in word:
            return word
        if ending == ".md" and word not in new and snake(word) in known:
            return snake(word)
        return new.get(word, word)

    if ending != ".md":
        return TOKEN.sub(turned, text)
    parts = text.split("`")
    parts[1::2] = [part if "\n" in part else TOKEN.sub(turned, part) for part in parts[1::2]]
    return "`".join(parts)


def main():
    names = declared()
    new = {name: snake(name) for name in names if snake(name) != name}
    by_new = {}
    for name in names:
        by_new.setdefault(new.get(name, name), []).append(name)
    # a lemma that would have its definition's name is told apart by _lem
    for n, olds in list(by_new.items()):
        for old in olds:
            if len(olds) > 1 and "-" in old:
                new[old] = n + "_lem"
                by_new.setdefault(n + "_lem", []).append(old)
        by_new[n] = [old for old in olds if len(olds) == 1 or "-" not in old]
    together = {n: olds for n, olds in by_new.items() if len(olds) > 1}
    bad = 0
    for path in files(".antt"):
        if os.path.basename(path) == "Proof.antt":
            continue
        words = set(TOKEN.findall(re.sub(r"--.*", "", read(path))))
        for n, olds in together.items():
            here = [o for o in olds if o in words]
            if len(here) > 1:
                print(f"fall together in {os.path.relpath(path, TOP)}: {' '.join(here)} -> {n}")
                bad += 1
    for path in files(".antt"):
        if os.path.basename(path) == "Proof.antt":
            continue
        text = re.sub(r"--.*", "", read(path))
        # words that stand alone, not parts of a path
        words = set(re.findall(rf"(?<![^\s(){{}}\[\],;]){TOKEN.pattern}(?![.])", text))
        for old, n in new.items():
            if n in words and old in words and n not in names:
                print(f"taken in {os.path.relpath(path, TOP)}: {old} -> {n}")
                bad += 1
    if "--dry" in sys.argv:
        print(len(new), "names", bad, "clashes")
        return
    if bad:
        sys.exit(1)
    known = {new.get(name, name) for name in names}
    for path in files(".antt", ".md", ".rt"):
        if path.startswith(os.path.join(TOP, "tests")):
            continue
        text = read(path)
        turned = respelled(text, new, known, os.path.splitext(path)[1])
        if turned != text:
            with open(path, "w", encoding="utf-8") as file:
                file.write(turned)


main()
