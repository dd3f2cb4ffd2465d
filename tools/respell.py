#!/usr/bin/env python3
"""Brings the repository's own names of definitions, facts, lemmas and fields to one spelling.

    python3 tools/respell.py          at the top of the repository: rewrites the files in place
    python3 tools/respell.py --list   prints the new name of each, and changes nothing

A word is written in snake case, a type or a fact in upper camel case; `dateOf` becomes `date_of`, `Exact-limits`
becomes `ExactLimits`. Only names that are declared in specs/ or as lemmas in proofs/ are touched, and only where they
stand in antt: .antt files (in comments only what stands between backticks), and in .rt files the `ghost use` lines,
the clauses and the ghost members. Functions, exported names, strings, inputs and outputs keep their names.
"""
import glob
import os
import re
import sys

NAME = r"[A-Za-z_][A-Za-z0-9_'-]*"
TOKEN = re.compile(r"[^\s(){}.,;:=\[\]\"`@λ∷◌+*/%^<≤>&|!]+")
MODIFIERS = r"(?:(?:abbrev|unfoldable|pub|opaque)\s+)*"

# names that would fall together with another one, or that speak of a word which std spells otherwise today
BY_HAND = {
    "day-at": "day_at_is",
    "natAbs-most": "unsigned_abs_most",
    "natAbs-signed": "unsigned_abs_signed",
}


def respelled(name):
    if name in BY_HAND:
        return BY_HAND[name]
    if name[0].isupper():
        return "".join(part[0].upper() + part[1:] for part in name.split("-"))
    return re.sub(r"(?<=[a-z0-9])([A-Z])", lambda m: "_" + m.group(1).lower(), name).replace("-", "_")


def declared():
    """Every name that a file of specs/ or a lemma file of proofs/ declares, and every lemma beside the answers to
    goals, whose own names, all of them `pub`, are not ours to choose."""
    names = set()
    for path in glob.glob("crates/*/specs/*.antt") + glob.glob("crates/*/proofs/*.antt"):
        for line in open(path, encoding="utf-8"):
            found = (
                re.match(MODIFIERS + r"record\s+(" + NAME + ")", line)
                or re.match(MODIFIERS + r"data\s+(" + NAME + ")", line)
                or re.match(r"\s*" + MODIFIERS + r"(" + NAME + r")\s*:\s", line)
            )
            if found:
                names.add(found.group(1))
    for path in glob.glob("crates/*/proofs/*/**/*.antt", recursive=True):
        for line in open(path, encoding="utf-8"):
            found = re.match(r"(?:abbrev\s+)?(" + NAME + r")\s*:\s", line)
            if found:
                names.add(found.group(1))
    return names


def turn_antt(text, new):
    """The names of a text in antt, outside its strings; in its comments those between backticks."""
    lines = []
    for line in text.split("\n"):
        code, comment = line, ""
        cut = re.search(r"(^|\s)--(\s|$)", line)
        if cut:
            at = cut.start() + len(cut.group(1))
            code, comment = line[:at], line[at:]
        parts = re.split(r'("[^"]*")', code)
        for i in range(0, len(parts), 2):
            parts[i] = TOKEN.sub(lambda m: new.get(m.group(0), m.group(0)), parts[i])
        comment = re.sub(r"`[^`]*`", lambda m: TOKEN.sub(lambda n: new.get(n.group(0), n.group(0)), m.group(0)), comment)
        lines.append("".join(parts) + comment)
    return "\n".join(lines)


def turn_rt(text, new):
    """The same in a .rt file: `ghost use` lines, and what stands between the braces of clauses and ghost members."""
    out, at = [], 0
    head = re.compile(
        r"^[ \t]*(?:pub )?(?:ghost use [^;]*;"
        r"|(?:requires|ensures)\*?(?: [a-z_0-9]+)? \{"
        r"|ghost [a-z_0-9 ]+(?::|=) \{"
        r"|ghost [a-z_0-9 ]+\{)",
        re.M,
    )
    while True:
        found = head.search(text, at)
        if not found:
            out.append(text[at:])
            return "".join(out)
        out.append(text[at : found.start()])
        if found.group(0).endswith(";"):
            end = found.end()
        else:
            depth, end = 1, found.end()
            while depth:
                depth += {"{": 1, "}": -1}.get(text[end], 0)
                end += 1
        out.append(turn_antt(text[found.start() : end], new))
        at = end


def main():
    names = declared()
    new = {name: respelled(name) for name in names if respelled(name) != name}
    kept = {name for name in names if name not in new}
    taken = {}
    for old, name in new.items():
        if name in kept or name in taken:
            sys.exit(f"{old} and another name both become {name}: say what it becomes in BY_HAND")
        taken[name] = old
    if "--list" in sys.argv[1:]:
        for old in sorted(new):
            print(old, new[old])
        return
    for path in sorted(glob.glob("crates/**/*.antt", recursive=True) + glob.glob("crates/**/*.rt", recursive=True)):
        if "/out/" in path:
            continue
        with open(path, encoding="utf-8") as file:
            text = file.read()
        turned = turn_rt(text, new) if path.endswith(".rt") else turn_antt(text, new)
        if turned != text:
            with open(path, "w", encoding="utf-8") as file:
                file.write(turned)


main()
