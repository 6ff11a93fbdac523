#!/usr/bin/env python3
"""Counts the places in src/ that docs/DESIGN-PASS.md speaks of: `python3 tests/forms.py [FOLDER] [--list]`.

FOLDER is a checkout of this repository, this one where none is given. With --list each place is named.
"""
import pathlib
import re
import sys

ROOT = pathlib.Path(__file__).resolve().parent.parent
ARGUMENTS = [a for a in sys.argv[1:] if a != "--list"]
TOP = pathlib.Path(ARGUMENTS[0]) if ARGUMENTS else ROOT
LISTED = "--list" in sys.argv


def bare(text):
    """The text without its comments, and with the strings emptied."""
    text = re.sub(r'b?"(\\.|[^"\\])*"', '""', text)
    return re.sub(r"//[^\n]*", "", text)


def braced(text, at):
    """What stands between the brace at a place and the one that closes it."""
    depth = 0
    for i in range(at, len(text)):
        depth += {"{": 1, "}": -1}.get(text[i], 0)
        if depth == 0:
            return text[at + 1 : i]
    return text[at + 1 :]


def parts(text):
    """The parts of a list, cut at the commas that stand in no bracket."""
    depth, start, found = 0, 0, []
    for i, c in enumerate(text):
        depth += {"(": 1, "{": 1, "[": 1, "<": 1, ")": -1, "}": -1, "]": -1, ">": -1}.get(c, 0)
        if c == "," and depth == 0:
            found.append(text[start:i].strip())
            start = i + 1
    return [p for p in found + [text[start:].strip()] if p]


def functions(text):
    """Each function: its name, its parameters, its body."""
    for m in re.finditer(r"\bfn (\w+)[^(]*\(", text):
        depth, i = 1, m.end()
        while depth and i < len(text):
            depth += {"(": 1, ")": -1}.get(text[i], 0)
            i += 1
        given = text[m.end() : i - 1]
        while i < len(text):
            clause = re.match(r"\s*(->[^{]*?)?\s*(where [^{]*?)?\s*((requires|ensures)( \w+)? )", text[i:])
            if clause:
                i += clause.end()
                i += len(braced(text, text.index("{", i - 1))) + 2
                continue
            break
        at = text.find("{", i)
        if at < 0:
            continue
        yield m.group(1), given, braced(text, at)


def shape(body):
    """A body with its names, its types and its numbers taken for one another."""
    names = {}
    words = re.findall(r"\w+|[^\w\s]", body)
    keywords = "if else match return let mut for in while loop as true false".split()
    return " ".join(w if w in keywords or not re.match(r"\w", w) else names.setdefault(w, f"n{len(names)}") for w in words)


FOUND = {}


def place(point, where, what):
    FOUND.setdefault(point, []).append(f"{where}: {what}")


TWINS = {}
PAIRS = [("mapping", "permissions"), ("kinds", "pages"), ("count", "lines"), ("flags", "uid"), ("zeros", "ones"), ("used", "page")]
BY_HAND = r"\b(both|either|wide|wide16|least|least_of|lesser|greater|one_if|count_if|words_if|same_text|agree_words|agree_bytes|word_or_none|word_of|is_marked)\("
POINTS = [
    ("1a", "enums of the shape of Option or Result"),
    ("1b", "structs with a flag beside values"),
    ("1c", "errors that are a bare number"),
    ("1d", "tests of a number against 0 for 'refused'"),
    ("2", "functions whose bodies differ in names, types and constants alone"),
    ("3", "loops that count an index by hand"),
    ("4", "calls of equality, order, conversion and logic written by hand"),
    ("5", "functions whose parameters hold a pair that travels together"),
    ("6", "buffers with a length beside them"),
    ("7", "enums and tables that say which step to run"),
    ("8", "answers in proofs/"),
]

for path in sorted(TOP.glob("crates/*/src/**/*.rt")):
    crate = path.relative_to(TOP).parts[1]
    text = bare(path.read_text())
    where = f"{crate}/{path.name}"
    for m in re.finditer(r"\benum (\w+)[^{]*", text):
        variants = parts(re.sub(r"#\[[^\]]*\]", "", braced(text, m.end())))
        holding = [v for v in variants if "(" in v or "{" in v]
        empty = [v for v in variants if v in ("Nothing", "Nobody", "Nowhere")]
        if len(variants) == 2 and holding or empty:
            place("1a", where, f"enum {m.group(1)}")
        if m.group(1) == "Step":
            place("7", where, "enum Step")
    for m in re.finditer(r"\bstruct (\w+)[^{;(]*\{", text):
        fields = parts(braced(text, m.end() - 1))
        named = [f.split(":")[0].replace("pub ", "").strip() for f in fields]
        kinds = {n: f.split(":", 1)[1].strip() for n, f in zip(named, fields)}
        if any(n in ("refusal", "stop", "error", "negative") for n in named) and len(named) > 1:
            place("1b", where, f"struct {m.group(1)}")
        if any(n in ("length", "count", "n") for n in named) and any(k.startswith("[") for k in kinds.values()):
            place("6", where, f"struct {m.group(1)}")
    for m in re.finditer(r"Result<[^<>]*, u\d+>", text):
        place("1c", where, m.group(0))
    for m in re.finditer(r"\b(number|error) [!=]= 0\b", text):
        place("1d", where, m.group(0))
    for m in re.finditer(BY_HAND, text):
        place("4", where, m.group(1))
    for m in re.finditer(r"\[fn\(|: fn\(", text):
        place("7", where, m.group(0))
    for name, given, body in functions(text):
        for m in re.finditer(r"\bwhile (?!let )[^{]*\{", body):
            if re.search(r"\b\w+ (\+|-)= 1;", braced(body, m.end() - 1)):
                place("3", where, f"{name}: {m.group(0)[:-2]}")
        words = [p.split(":")[0].replace("mut ", "").strip() for p in parts(given)]
        for pair in PAIRS:
            if set(pair) <= set(words):
                place("5", where, f"{name}: {' and '.join(pair)}")
                break
        for p in parts(given):
            if re.match(r"lines: \[", p):
                place("6", where, f"{name}: {p}")
        if len(re.findall(r"\w+|[^\w\s]", body)) > 24:
            TWINS.setdefault(shape(body), []).append((where, name))

for same in TWINS.values():
    if len(same) > 1:
        for where, name in same:
            place("2", where, f"{name}, as {', '.join(f'{w} {n}' for w, n in same if (w, n) != (where, name))}")

for path in sorted(TOP.glob("crates/*/proofs/**/Answers.antt")):
    crate = path.relative_to(TOP).parts[1]
    for m in re.finditer(r"^pub (\S+) : goal\.", path.read_text(), re.M):
        place("8", crate, m.group(1))

for point, what in POINTS:
    print(f"{point:3} {len(FOUND.get(point, [])):5}  {what}")
    if LISTED and point != "8":
        for line in FOUND.get(point, []):
            print("      ", line)
