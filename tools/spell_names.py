#!/usr/bin/env python3
"""Spells the repository's own definitions, fields and lemmas as today's Rattle does: words in snake case, types in camel case, a prime as an apostrophe.

usage: spell_names.py [--check] [ROOT]

A lemma keeps the dashes between the calls of its left side, as std's own `sum_by-append`: its words are in snake case. A name of specs/ that is no lemma has none.
It goes through specs/, proofs/, the clauses and ghost use lines of src/, the edits that must fail, and what stands in backticks in the pages. Functions of src/, exported
names, strings, inputs and outputs keep theirs. It stops, and writes nothing, where two names would fall together. Run once, after port.py; a second run changes nothing.
"""
import collections
import glob
import os
import re
import sys

W = r"[^\s(){}.;,@\"«»\[\]\\⌜⌝`:|]+"
MODS = r"(?:(?:abbrev|unfoldable|pub|mutual) )*"
DECLARES = re.compile(r"^\s*" + MODS + r"(?:record |data )?(" + W + r")((?: (?:\([^()]*(?:\([^()]*\)[^()]*)*\)|\{[^}]*\}))*) :(?: |$)")
USE = re.compile(r"\s*(?:pub |ghost )?use (\S+?)\.\{(.*)\}")
CAMEL = re.compile(r"(?:^|[-_])[a-zα-ω][A-Za-zα-ω0-9'′₀-₉]*[A-Z]")


# Names that would fall together in one file.
OTHERWISE = {"keptOn": "kept_of"}

# A field of a record and a law of the same name, which is what the field is given.
FIELDS = {"taken_none"}


def read(path):
    with open(path, encoding="utf-8") as f:
        return f.read()


def snake(name, dashes):
    name = name.replace("′", "'")
    if not dashes:
        name = name.replace("-", "_")
    name = re.sub(r"(?<=[a-zα-ω0-9])(?=[A-Z])|(?<=[A-Z])(?=[A-Z][a-z])", "_", name)
    return re.sub(r"(?<=[_a-z0-9])[A-Z]", lambda m: m.group(0).lower(), name)


def sources(root):
    found = glob.glob(os.path.join(root, "crates", "*", "**", "*.antt"), recursive=True)
    return sorted(f for f in found if "/out/" not in f)


def names(root):
    """The names that change, and those of the library."""
    declared, library = collections.defaultdict(set), set()
    for path in sources(root):
        text = read(path)
        goals = set()
        if path.endswith("/Proof.antt") and "tie.spec" in text:
            goals = set(re.findall(W, text.split("tie.spec", 1)[1]))
        for line in text.split("\n"):
            line = line.split("--")[0]
            use = USE.match(line)
            if use:
                if not use.group(1).startswith("Rattle"):
                    library |= {n.strip().split(" as ")[0] for n in use.group(2).split(",")}
                continue
            found = DECLARES.match(line)
            if found and found.group(1) not in goals:
                declared[found.group(1)].add(path)
    turned = {}
    for name, where in declared.items():
        if name in library or not re.match(r"[a-zα-ω]", name):
            continue
        lemma = all("/proofs/" in p for p in where)
        if CAMEL.search(name) or "′" in name or ("-" in name and not lemma):
            turned[name] = OTHERWISE.get(name) or snake(name, lemma)
    return turned, declared, library


def stop_where_together(turned, declared, library, root):
    bad = []
    back = collections.defaultdict(list)
    for old, new in turned.items():
        back[new].append(old)
    for path in sources(root):
        if os.path.basename(path) in ("Proof.antt", "Answers.antt", "Invariants.antt"):
            continue
        lines = (line.split("--")[0] for line in read(path).split("\n"))
        here = set(re.findall(W, "\n".join(re.sub(r"\b(use|mod) [^{]*", "", line) for line in lines)))
        for new, olds in back.items():
            both = [n for n in olds + [new] if n in here]
            if len(both) > 1 and new not in FIELDS:
                bad.append(f"{path}: {' and '.join(both)} would be {new}")
    for path in sorted(glob.glob(os.path.join(root, "crates", "*", "src", "**", "*.rt"), recursive=True)):
        for fn in re.finditer(r"fn (\w+)(?:<[^>]*>)?\(([^{]*?)\)(?: -> [^{]*?)?\s*((?:(?:ghost|requires|ensures)[\s\S]*?)?)\n\{", read(path)):
            parameters = set(re.findall(r"(\w+):", fn.group(2)))
            for token in set(re.findall(r"(?<![.\w])" + W + r"(?! =)", fn.group(3))):
                if turned.get(token) in parameters:
                    bad.append(f"{path}: {fn.group(1)} has a parameter {turned[token]}, and its clauses cite {token}")
        for field in re.finditer(r"^    pub (\w+):", read(path), re.M):
            if field.group(1) in back:
                bad.append(f"{path}: a field {field.group(1)}, and a definition {back[field.group(1)]}")
    return bad


def turn_text(text, turned):
    return re.sub(W, lambda m: turned.get(m.group(0), m.group(0)), text)


def turn_source(text, turned):
    """Ghost use lines, clauses and comments of a .rt file: no name of the code itself has a capital within."""
    out = []
    for part in re.split(r'("(?:[^"\\]|\\.)*")', text):
        out.append(part if part.startswith('"') else turn_text(part, turned))
    return "".join(out)


def main(argv):
    check = "--check" in argv
    rest = [a for a in argv if a != "--check"]
    root = rest[0] if rest else "."
    turned, declared, library = names(root)
    bad = stop_where_together(turned, declared, library, root)
    for line in bad:
        print(line)
    print(f"{len(declared)} names, {len(turned)} to turn")
    if check:
        for old in sorted(turned):
            print(old, turned[old])
        return 1 if bad else 0
    if bad:
        return 1
    for path in sources(root):
        text = read(path)
        write(path, text, turn_text(text, turned))
    for path in glob.glob(os.path.join(root, "crates", "*", "src", "**", "*.rt"), recursive=True):
        text = read(path)
        write(path, text, turn_source(text, turned))
    for path in glob.glob(os.path.join(root, "crates", "*", "must-fail", "*.edit")):
        text = read(path)
        write(path, text, turn_text(text, turned))
    pages = glob.glob(os.path.join(root, "*.md")) + glob.glob(os.path.join(root, "docs", "**", "*.md"), recursive=True) + glob.glob(os.path.join(root, "office", "*.md")) + [os.path.join(root, "NOTICE")]
    for path in pages:
        if os.path.basename(path).startswith("PORT"):
            continue
        text = read(path)
        write(path, text, re.sub(r"`[^`\n]+`", lambda m: turn_text(m.group(0), turned), text))
    outward = os.path.join(root, ".ci", "outward")
    if os.path.exists(outward):
        text = read(outward)
        write(outward, text, turn_text(text, turned))
    return 0


def write(path, old, new):
    if old != new:
        with open(path, "w", encoding="utf-8") as f:
            f.write(new)


if __name__ == "__main__":
    raise SystemExit(main(sys.argv[1:]))
