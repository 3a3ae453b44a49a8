#!/usr/bin/env python3
"""Respells this repository's own definitions and lemmas as today's Rattle spells them.

usage: python3 tools/respell_names.py     once, at the top of the checkout, right after port.py

Words are in snake case: `gapAt` is `gap_at`. A dash joins two names: it stays in `drop-blocks`, where both sides
name a definition, a type or a function; before or after a plain word it is `_`, as in `rank_keeps`. The proof of a
function `f` is `f_spec`. Names that begin with a capital (types, modules, and facts in a lemma's name) keep it.
Functions of src/, exported C names, strings, inputs and outputs keep their names: only whole tokens that specs/ or
proofs/ declare are turned, in .antt and .rt files, must-fail edits and pages. A new name that something else has
already gets `_lem` where it is a lemma's, or stays as it was; both are printed. The map is tools/respelled.tsv.
"""
import collections
import os
import re

TOKEN = re.compile(r"[^\s(){}\[\],;.:λ«»⌜⌝|`\"!?&*#/\\←]+")
DECLARED = re.compile(r"^\s*(?:(?:abbrev|unfoldable|pub)\s+)*([^\s(){}\[\],;.:]+)\s*:\s")
RECORD = re.compile(r"^\s*(?:pub\s+)?(?:record|data)\s+(?:pub\s+)?([^\s(){}\[\],;.:]+)")
FUNCTION = re.compile(r"\bfn\s+(\w+)")
# names that files give an import
ALIASES = {"askedTerms": "asked_terms", "noDocid": "no_docid", "noTerms": "no_terms", "storedIn": "stored_in"}
# lemmas that would have a definition's name
LEMMAS = {"all_right", "body_bytes", "counts_of", "kept_on", "opens_by", "start_left"}


def files(*ends):
    for top in ("crates", "docs", "."):
        for folder, dirs, names in os.walk(top):
            dirs[:] = sorted(d for d in dirs if d not in ("out", ".git", "target")) if top != "." else []
            for f in sorted(names):
                if f.endswith(ends):
                    yield os.path.join(folder, f)


def text(p):
    with open(p, encoding="utf-8") as f:
        return f.read()


def snake(name):
    return re.sub(r"(?<=[a-z0-9])[A-Z]", lambda m: "_" + m.group(0).lower(), name)


def own(module):
    return module.startswith("Rattle.") and module.split(".")[1] not in ("std", "core", "io", "libc", "os")


def names():
    """The declared names, those of them that are defined in specs/, the goals of proofs, and the names of others."""
    declared, defined, goals, others = set(), set(), set(), set()
    for p in files(".antt", ".rt"):
        for line in text(p).splitlines():
            use = re.match(r"(?:ghost )?use ([^{\s]+)\.\{(.*)\}", line.strip())
            if use and not own(use.group(1)):
                others |= {n.strip().split(" as ")[0] for n in use.group(2).split(",")}
            if p.endswith(".rt"):
                defined |= set(FUNCTION.findall(line))
                continue
            if use or line.lstrip().startswith("--"):
                continue
            record = RECORD.match(line)
            if record:
                declared.add(record.group(1))
                defined.add(record.group(1))
                continue
            found = DECLARED.match(line)
            if not found or found.group(1) in ("let", "="):
                continue
            if ": tie." in line:
                goals.add(found.group(1))
                continue
            declared.add(found.group(1))
            if "/specs/" in p:
                defined.add(found.group(1))
    return declared, defined, goals, others


def respelled(name, words):
    """The name as it is to be spelt."""
    if name.endswith("-spec"):
        return snake(name).replace("-", "_")
    parts = name.split("-")
    spelt = snake(parts[0]) if parts[0][:1].islower() else parts[0]
    for before, part in zip(parts, parts[1:]):
        spelt += ("-" if before in words and part in words else "_") + (snake(part) if part[:1].islower() else part)
    return spelt


def main():
    declared, defined, goals, others = names()
    words = defined | others
    taken = collections.Counter()
    for p in files(".antt"):
        for line in text(p).splitlines():
            taken.update(TOKEN.findall(re.sub(r"(^|\s)--(\s.*|$)", "", line)))
    new = {}
    for n in sorted(declared):
        if n in others or n in goals or not re.match(r"[A-Za-z]", n) or "◌" in n:
            continue
        if not (re.search(r"[a-z0-9][A-Z]", n) and n[:1].islower()) and "-" not in n:
            continue
        s = respelled(n, words)
        if s != n:
            new[n] = s
    lemmas = {n: n + "_lem" for n in LEMMAS}
    clash = collections.defaultdict(set)
    for n, s in new.items():
        clash[s].add(n)
    functions = {f for p in files(".rt") for f in FUNCTION.findall(text(p))}
    for s, ns in sorted(clash.items()):
        met = taken[s] and s not in LEMMAS and s not in functions
        if len(ns) > 1 or met:
            for n in sorted(ns):
                if "-" in n:
                    print(f"falls together: {n} stays, as {s} is there" if met else f"fall together at {s}: {n} stays")
                    del new[n]
                elif met:
                    print(f"look: {n} becomes {s}, which is there")
    new |= lemmas | ALIASES
    with open("tools/respelled.tsv", "w", encoding="utf-8") as f:
        f.write("".join(f"{n}\t{s}\n" for n, s in sorted(new.items())))
    turned = 0
    for p in files(".antt", ".rt", ".edit", ".md"):
        old = text(p)

        def turn(m):
            n = m.group(0)
            at = m.start()
            if old[max(0, at - 4):at] == "tie.":
                return n
            if p.endswith((".rt", ".edit", ".md")) and n in LEMMAS and n in functions:
                return n
            return new.get(n, n)

        now = TOKEN.sub(turn, old)
        if now != old:
            with open(p, "w", encoding="utf-8") as f:
                f.write(now)
            turned += 1
    print(f"{len(new)} names respelt, in {turned} files")


main()
