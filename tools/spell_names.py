#!/usr/bin/env python3
"""Spells the repository's own definitions, lemmas, fields and constructors as today's Rattle does: words in snake case, facts in upper camel case.

usage: spell_names.py ROOT [--check]

Run once, after port.py. A name that is declared in specs/ or proofs/ (proofs of functions aside) turns everywhere: in .antt files, in the clauses and
comments of .rt files, and in must-fail edits. A name that a library has too stays. Names that would fall together are listed, and stay.
"""

import os
import re
import sys

TOKEN = re.compile(r"[^\s(){}\[\].;,@\"«»`]+")
RUST_TOKEN = re.compile(r"[A-Za-z_][A-Za-z0-9_']*(?:-[A-Za-z0-9_']+)*")
DECLARED = re.compile(r"^(\s*)((?:abbrev |unfoldable |opaque |pub |data |record |ruleset )*)([^\s(){}\[\].;,@\"«»]+)((?: \([^()]*\)| \{[^{}]*\})*) (:|=|where\b)")
LIBRARY = re.compile(r"\buse (?!Rattle\.(?:%s)\.)([\w.'-]+)\.\{([^}]*)\}")


def files(root):
    for folder, dirs, names in os.walk(os.path.join(root, "crates")):
        dirs[:] = sorted(d for d in dirs if d not in ("out", "data"))
        for n in sorted(names):
            if n.endswith((".antt", ".rt", ".edit")):
                yield os.path.join(folder, n)


def snake(name):
    words = re.sub(r"(?<=[a-z0-9])([A-Z])", lambda m: "_" + m[1].lower(), name)
    return words.replace("-", "_")


def own(root):
    """Each declared name, with whether its declaration says that it is a fact."""
    found = {}
    for path in files(root):
        if not path.endswith(".antt") or os.path.basename(path) in ("Proof.antt", "Answers.antt", "Invariants.antt"):
            continue
        with open(path, encoding="utf-8") as f:
            text = f.read()
        lines = text.split("\n")
        for i, line in enumerate(lines):
            if line.lstrip().startswith("--"):
                continue
            m = DECLARED.match(line)
            if not m:
                continue
            name, words = m[3], m[2]
            if words.strip().startswith(("ruleset", "pub ruleset")):
                found.setdefault(name, set()).add("ruleset")
                continue
            if m[5] != ":":
                if words.strip():
                    found.setdefault(name, set()).add("other")
                continue
            rest = line[m.end():]
            k = i
            while k + 1 < len(lines) and lines[k + 1].startswith(m[1] + "    ") and not rest.rstrip().endswith("="):
                k += 1
                rest += " " + lines[k].strip()
            if " where" in rest and ("data" in words or "record" in words):
                fact = True
            else:
                fact = bool(re.search(r"(?:^|→ )\s*Type(?: \d| \w+)?\s*$", rest.strip()))
            found.setdefault(name, set()).add("fact" if fact else "value")
    return found


def seen(path, name):
    """How a file has a name, other than as a part of a path or as a Rust function: the lines."""
    out = set()
    with open(path, encoding="utf-8") as f:
        for line in f:
            for m in re.finditer(r"(?<![\w'.-])" + re.escape(name) + r"(?![\w'-])", line):
                if path.endswith(".rt"):
                    after = line[m.end():m.end() + 1]
                    before = line[:m.start()].rstrip()
                    if after == "(" or before.endswith("fn") or line.lstrip().startswith(("use ", "//")):
                        continue
                out.add(line.strip())
    return out


def main(argv):
    root = argv[0]
    check = "--check" in argv
    crates = "|".join(sorted(os.listdir(os.path.join(root, "crates"))))
    names = own(root)
    library = set()
    tokens = {}
    for path in files(root):
        with open(path, encoding="utf-8") as f:
            text = f.read()
        for m in re.finditer(LIBRARY.pattern % crates, text):
            for it in m[2].split(","):
                it = it.strip().split(" as ")
                library.update(x.strip("«» ") for x in it)
        tokens[path] = set(TOKEN.findall(text)) if path.endswith(".antt") else set(RUST_TOKEN.findall(text))
    turned = {}
    for name, kinds in sorted(names.items()):
        if name in library or not re.search(r"[A-Za-z]", name):
            continue
        if re.fullmatch(r"[A-Z][A-Z0-9_]*", name):
            continue
        if kinds == {"fact"}:
            new = name if name[0].isupper() else "".join(w[:1].upper() + w[1:] for w in re.split(r"[-_]", name))
        elif name[0].isupper() and "-" not in name:
            continue
        elif name[0].isupper():
            new = name  # a fact with a lemma's word: Nearer-wf
        else:
            new = snake(name)
        if new != name:
            turned[name] = new
    # names that fall together
    bad = {}
    back = {}
    for old, new in turned.items():
        back.setdefault(new, []).append(old)
    for new, olds in back.items():
        if len(olds) > 1:
            for o in olds:
                bad.setdefault(o, []).append(f"with {olds}")
        for o in olds:
            if new in library:
                bad.setdefault(o, []).append("library has " + new)
            for path, has in tokens.items():
                if o in has and new in has and seen(path, new):
                    bad.setdefault(o, []).append(os.path.relpath(path, root) + " " + "; ".join(sorted(seen(path, new)))[:90])
    for o in sorted(bad):
        print("meets:", o, turned[o], bad[o][:6])
    # A lemma whose new name a definition has gets the ending that CONTRACT_STYLE gives it.
    for old in sorted(bad):
        if "-" in old and old in turned:
            turned[old] += "_lem"
    turned.update(SPECIAL)
    met = [f"{o} -> {turned[o]}: {why}" for o, why in bad.items() if "-" not in o and not any(w.startswith("with") for w in why)]
    print(len(turned), "names turn")
    if check:
        print("\n".join(met))
        return 0
    for path in files(root):
        with open(path, encoding="utf-8", newline="") as f:
            text = f.read()
        new = turn(path, text, turned)
        if new != text:
            with open(path, "w", encoding="utf-8", newline="") as f:
                f.write(new)
    return 0


# Lemmas that port.py gave the name that a definition gets here, and one name that a library has.
SPECIAL = {"partIn": "part_in"}
LEMMAS = {
    "canon": ["bin_word"],
    "sums": ["by_bytes"],
    "direct": ["in_window"],
    "flash": ["row_word"],
    "report": ["too_long"],
}


def turn(path, text, turned):
    crate = path.split("/crates/")[1].split("/")[0]
    proof = os.path.basename(path) == "Proof.antt"
    lemmas = LEMMAS.get(crate, []) if path.endswith(".antt") else []
    out = []
    for line in text.split("\n"):
        use = line.lstrip().startswith(("use ", "pub use ", "ghost use "))

        def one(m):
            word = m[0]
            ends = ""
            if word not in turned and word.rstrip("'") in turned:
                word, ends = word.rstrip("'"), word[len(word.rstrip("'")):]
            after_dot = m.start() > 0 and line[m.start() - 1] == "."
            if word in lemmas and not after_dot:
                return word + "_lem" + ends
            if word not in turned or (proof and after_dot and "-" in word and not use):
                return m[0]
            return turned[word] + ends

        out.append((RUST_TOKEN if path.endswith(".rt") else TOKEN).sub(one, line))
    return "\n".join(out)


if __name__ == "__main__":
    sys.exit(main(sys.argv[1:]))
