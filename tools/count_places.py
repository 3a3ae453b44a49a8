#!/usr/bin/env python3
"""Counts the places of docs/DESIGN-PASS.md in crates/*/src, by text alone: `python3 tools/count_places.py [ROOT] [--list]`.

A row is a kind of place and how many there are; --list names each with its file and line. It finds places to look at, and judges nothing.
"""
import collections
import pathlib
import re
import sys

FUNCTION = re.compile(r"^([ ]*)(?:pub(?:\([a-z]+\))? )?(?:const )?(?:extern \"C\" )?fn (\w+)", re.M)
WORD = re.compile(r"[A-Za-z_]\w*|\d+|[^\s\w]")
KEPT_WORDS = {"fn", "let", "mut", "if", "else", "while", "for", "in", "loop", "match", "return", "break", "self", "as", "len", "Some", "None", "Ok", "Err", "ensures", "requires"}


def sources(root):
    for path in sorted(root.glob("crates/*/src/**/*.rt")):
        yield path.relative_to(root), path.read_text(encoding="utf-8")


def line_of(text, at):
    return text.count("\n", 0, at) + 1


def functions(text):
    """Name, line, parameters, clauses and body of each function that has a body."""
    for found in FUNCTION.finditer(text):
        opened = text.index("(", found.end())
        at, deep = opened, 0
        while True:
            deep += {"(": 1, ")": -1}.get(text[at], 0)
            at += 1
            if deep == 0:
                break
        parameters = text[opened + 1 : at - 1]
        end = text.find("\n" + found.group(1) + "}", at)
        head = re.search(r"^" + found.group(1) + r"\{", text[at:end], re.M)
        between = text[at : at + head.start()] if head else text[at : text.find("{", at)]
        body = text[at + (head.start() if head else 0) : end]
        yield found.group(2), line_of(text, found.start()), parameters, between, body


def lines_like(pattern):
    compiled = re.compile(pattern)

    def count(root):
        for path, text in sources(root):
            for number, line in enumerate(text.split("\n"), 1):
                if compiled.search(line.split("//")[0]):
                    yield f"{path}:{number}: {line.strip()}"

    return count


def counted_loops(root):
    """A `while` with a comparison in whose body a number grows or falls by one."""
    for path, text in sources(root):
        for found in re.finditer(r"^([ ]*)while (?!let\b)(.*)\{$", text, re.M):
            end = text.index("\n" + found.group(1) + "}", found.end())
            if re.search(r"(\w+) (?:\+= 1|-= 1|= \1 [+-] 1);", text[found.end() : end]):
                yield f"{path}:{line_of(text, found.start())}: while {found.group(2)}"


def twins(root):
    """Functions of six lines or more whose bodies are the same but for names, numbers and types."""
    shapes = collections.defaultdict(list)
    for path, text in sources(root):
        for name, line, parameters, between, body in functions(text):
            if body.count("\n") < 6:
                continue
            shape = tuple(word if not word[0].isalnum() or word in KEPT_WORDS else "x" for word in WORD.findall(body))
            shapes[shape].append(f"{path}:{line}: {name}")
    for group in shapes.values():
        if len(group) > 1:
            yield " = ".join(group)


def many_parameters(root):
    for path, text in sources(root):
        for name, line, parameters, between, body in functions(text):
            count = len([part for part in re.split(r",(?![^<\[(]*[>\])])", parameters) if part.strip()])
            if count > 6:
                yield f"{path}:{line}: {name} ({count})"


def repeated_facts(root):
    """A part of a `requires` (cut at the ×) that three functions or more state."""
    facts = collections.defaultdict(set)
    for path, text in sources(root):
        for name, line, parameters, between, body in functions(text):
            for clause in re.findall(r"requires[^{]*\{(.*?)\}\s*$", between, re.M):
                for fact in clause.split("×"):
                    facts[" ".join(fact.strip(" ()").split()[:1] + fact.strip(" ()").split()[1:2])].add(f"{path}:{line}")
    for fact, places in sorted(facts.items(), key=lambda item: -len(item[1])):
        if len(places) >= 3:
            yield f"{fact}: {len(places)} functions"


def side_by_side(root):
    """Functions that take two runs or more whose elements belong together, by docids beside scores or the gathered blocks' runs."""
    pairs = re.compile(r"\b(?:docs|docids|los|ends)\b.*\b(?:scores|his|tops|counts)\b", re.S)
    for path, text in sources(root):
        for name, line, parameters, between, body in functions(text):
            if pairs.search(parameters):
                yield f"{path}:{line}: {name}"


ROWS = (
    ("1  enums of this repository", lines_like(r"^\s*(pub(\(crate\))? )?enum ")),
    ("1  numbers that stand for refusals", lines_like(r"(Refused|Fault|Bad|Not|NoSummary|NoBody)\((u8|k|n|number|[0-9]+), |refuse\([0-9a-z]+, |u8, usize\)")),
    ("1  truth values kept in a struct", lines_like(r"^\s*(pub(\(crate\))? )?\w+: bool,")),
    ("1  a number that stands for none", lines_like(r"\b(GAP|END)\b")),
    ("2  functions that differ in names, numbers or types alone", twins),
    ("3  `while` that counts by one", counted_loops),
    ("3  `while`, all but `while let`", lines_like(r"^\s*while (?!let)")),
    ("3  `loop`", lines_like(r"^\s*loop \{")),
    ("4  a field named again for its value", lines_like(r"^\s*([a-z_]+): \1,$")),
    ("4  conversions by `as`", lines_like(r" as (u8|u16|u32|u64|usize)\b")),
    ("4  functions that print into bytes", lines_like(r"\bfn (put|print|tell)_?\w*\(.*out: &mut \[u8\]|\bfn put_\w+\(")),
    ("5  functions of more than six parameters", many_parameters),
    ("5  facts that three functions or more ask for", repeated_facts),
    ("6  functions over runs that belong together", side_by_side),
    ("7  tables of functions, boxed closures, `dyn`", lines_like(r"\bdyn \b|\bBox<|: fn\(|\[fn\(")),
)


def main(words):
    listed = "--list" in words
    root = pathlib.Path(next((word for word in words if not word.startswith("--")), "."))
    for name, count in ROWS:
        found = list(count(root))
        print(f"{len(found):5}  {name}")
        if listed:
            for place in found:
                print(f"         {place}")


if __name__ == "__main__":
    main(sys.argv[1:])
