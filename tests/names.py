#!/usr/bin/env python3
"""Checks that what the documents name is there.

    tests/names.py

In README.md and docs/, `crate/File.name` must be a name in crates/crate/specs/File.antt (in proofs/ for File in Theorems/), `crate/File` such a file, `crate::name` a function,
type or constant of the crate's source, `crate/edit` a must-fail edit, and a path of the repository must exist. Words in backquotes of any
other form are not looked at. The last line counts; the exit status is 1 if something is not there."""
import pathlib, re, sys

ROOT = pathlib.Path(__file__).resolve().parent.parent
CRATES = {p.name for p in (ROOT / "crates").iterdir() if p.is_dir()}
KIT = {"io", "os", "libc", "bytes", "check", "std"}


def text_of(*parts):
    path = ROOT.joinpath(*parts)
    return path.read_text() if path.is_file() else None


def spec_is_there(crate, inside):
    parts, _, name = inside.partition(".")
    folder = "proofs" if parts.split("/")[0] == "Theorems" else "specs"
    specs = ROOT / "crates" / crate / folder
    text = text_of("crates", crate, folder, parts + ".antt")
    if text is None:
        return (specs / parts).is_dir() and not name
    return not name or all(re.search(rf"(?<![\w-]){re.escape(n)}(?![\w-])", text) for n in name.split("."))


def is_there(word):
    if m := re.fullmatch(r"(\w+)::(\w+)(?:\(.*\))?", word):
        if m[1] in KIT or m[1] not in CRATES:
            return True
        sources = "\n".join(p.read_text() for p in (ROOT / "crates" / m[1] / "src").glob("*.rt"))
        return bool(re.search(rf"\b(?:fn|struct|enum|const|mod) {m[2]}\b", sources)) or bool(re.search(rf"\bpub use [\w:]*::{m[2]};", sources))
    if m := re.fullmatch(r"([a-z_]+)/([A-Z][\w/]*(?:\.[\w·«»-]+)*)", word):
        return m[1] not in CRATES or spec_is_there(m[1], m[2])
    if m := re.fullmatch(r"([a-z_]+)/([a-z0-9_]+)", word):
        if m[1] in CRATES:
            return (ROOT / "crates" / m[1] / "must-fail" / (m[2] + ".edit")).is_file() or (ROOT / "crates" / m[1] / m[2]).exists()
    if re.fullmatch(r"(?:crates|docs|tests|second|bench|examples|include)/[\w./-]+", word) and not re.search(r"CRATE|NAME|crates/crate", word):
        return (ROOT / word).exists()
    return True


def main():
    # PORT.md and DESIGN-PASS.md name what stood under older names, too.
    documents = [ROOT / "README.md", *(p for p in sorted((ROOT / "docs").glob("**/*.md")) if p.name not in ("PORT.md", "DESIGN-PASS.md"))]
    total = wrong = 0
    for document in documents:
        for word in re.findall(r"`([^`\s]+)`", document.read_text()):
            total += 1
            if not is_there(word):
                wrong += 1
                print(f"{document.relative_to(ROOT)}: {word}")
    print(f"names: {total} words in {len(documents)} documents, {wrong} not there")
    return 1 if wrong or not total else 0


sys.exit(main())
