#!/usr/bin/env python3
"""Counts the older forms in src/, a heading for each point of docs/DESIGN-PASS.md.

    python3 tools/forms.py            the files as they lie here
    python3 tools/forms.py COMMIT     the files of a commit
    python3 tools/forms.py --list ..  each place too
"""
import re
import subprocess
import sys
from collections import Counter, defaultdict


# The pairs beside those of plain and marked numbers: what reading found. A new one is written here.
PAIRS = [
    ("gain_one", "gain_two"),
    ("first_turned", "second_turned"),
    ("effects_of", "groups_of"),
    ("larger_size", "smaller_size"),
    ("three_at", "six_at"),
    ("not_all_finite", "not_all_finite_marked"),
    ("plus_cells", "minus_cells"),
    ("times_number", "over_number"),
    ("scaled_up", "scaled_down"),
    ("call", "call_with"),
    ("archive", "archive_with"),
    ("test", "test_with"),
]


def files(commit):
    """Each .rt file of crates/*/src, with its text."""
    if commit:
        names = subprocess.run(["git", "ls-tree", "-r", "--name-only", commit, "crates"], capture_output=True, text=True, check=True).stdout.split()
    else:
        names = subprocess.run(["git", "ls-files", "crates"], capture_output=True, text=True, check=True).stdout.split()
    for name in sorted(names):
        if not re.match(r"crates/[a-z_0-9]+/src/.*\.rt$", name):
            continue
        if commit:
            yield name, subprocess.run(["git", "show", f"{commit}:{name}"], capture_output=True, text=True, check=True).stdout
        else:
            with open(name, encoding="utf-8") as f:
                yield name, f.read()


HEAD = re.compile(r"^( *)(?:pub(?:\([a-z ]+\))? )?(?:const )?(?:final )?fn (\w+)(<(?:[^()\n]|\([^()\n]*\))*?>)?\(", re.M)


def functions(text):
    """Each function: name, parameters, clauses, body, and the number of its first line."""
    for m in HEAD.finditer(text):
        at = m.end()
        depth = 1
        while depth:
            depth += {"(": 1, ")": -1}.get(text[at], 0)
            at += 1
        parameters = [p.strip() for p in split(text[m.end() : at - 1]) if p.strip()]
        opening = re.compile(rf"^{m.group(1)}\{{$|[^\n]*?(\{{)$|[^\n{{]*;$", re.M).search(text, at)
        stop = re.compile(rf"^{m.group(1)}\}}$", re.M).search(text, opening.end()) if opening and text[opening.end() - 1] == "{" else None
        clauses = text[at : opening.start()] if opening else ""
        if opening and text[at : opening.end()].count("\n") == 0:
            clauses = text[at : opening.end()].rstrip("{")
        body = text[opening.end() - 1 : stop.end()] if stop else ""
        yield m.group(2), parameters, clauses, body, text.count("\n", 0, m.start()) + 1


def split(text):
    """Parameters, parted by the commas outside brackets."""
    part, depth = "", 0
    for c in text:
        depth += {"(": 1, "[": 1, "<": 1, ")": -1, "]": -1, ">": -1}.get(c, 0)
        if c == "," and depth == 0:
            yield part
            part = ""
        else:
            part += c
    yield part


def conjuncts(clauses):
    """The facts of a function's `requires`, parted by the `×` outside brackets."""
    for m in re.finditer(r"requires (?:\w+ )?\{ (.*?) \}\n", clauses + "\n", re.S):
        part, depth = "", 0
        for c in m.group(1):
            depth += {"(": 1, ")": -1}.get(c, 0)
            if c == "×" and depth == 0:
                yield part.strip().strip("()")
                part = ""
            else:
                part += c
        yield part.strip().strip("()")


def loops(body):
    """The loops over a range: the name that counts, and what is under it."""
    lines = body.split("\n")
    for i, line in enumerate(lines):
        m = re.match(r"( *)for (\w+) in [^{]*\.\.[^{]*\{$", line)
        if not m:
            continue
        under = []
        for other in lines[i + 1 :]:
            if other.startswith(m.group(1) + "}"):
                break
            under.append(other)
        yield i, m.group(2), "\n".join(under)


def main():
    arguments = sys.argv[1:]
    listed = "--list" in arguments
    commit = next((a for a in arguments if not a.startswith("--")), None)
    places = defaultdict(list)
    names = defaultdict(set)
    facts = defaultdict(list)
    tuples = Counter()
    for name, text in files(commit):
        crate = name.split("/")[1]
        exported = crate in ("panel", "panel_c")
        code = re.sub(r"//[^\n]*", lambda m: " " * len(m.group()), text)
        for m in re.finditer(r"^(?:pub )?enum (\w+) \{\n(.*?)^\}", text, re.M | re.S):
            variants = re.findall(r"^    (\w+)", m.group(2), re.M)
            if len(variants) == 2 and ("None" in variants or "Err" in variants):
                places["1 own enums of the shape of Option or Result"].append(f"{name} {m.group(1)}")
        for m in re.finditer(r"^pub const (KIND_\w+): usize", code, re.M):
            places["1 numbers for kinds, as constants"].append(f"{name} {m.group(1)}")
        for f, parameters, clauses, body, line in functions(code):
            here = f"{name}:{line} {f}"
            names[f].add(crate)
            if not exported and re.match(r" *-> u32\b", clauses.split("\n")[0]) and re.search(r"refus|number|return|written|bad|told", clauses):
                places["1 functions that answer a refusal's number"].append(here)
            for p in parameters:
                if not exported and re.search(r"&mut (u32|bool)$", p):
                    places["1 a flag or a refusal's number written beside what is answered (&mut bool, &mut u32)"].append(f"{here} {p}")
                if re.match(r"(weighted|hypothesis|given): bool$", p):
                    places["1 a flag beside the value that it speaks of (weighted: bool)"].append(f"{here} {p}")
                if re.search(r"&mut (usize|\[\[+f64[^&]*\]|\[\[\[f64.*)$", p):
                    places["5 an answer written through a parameter (&mut usize, &mut of a matrix)"].append(f"{here} {p}")
            for m in re.finditer(r"\breturn (\d+);", body):
                if int(m.group(1)) in range(1, 20) and re.match(r" *-> u32\b", clauses.split("\n")[0]):
                    places["1 a bare refusal number in the code (return 2;)"].append(f"{here} {m.group()}")
            for m in re.finditer(r"\bput_refusal\([^()]*, \d+\)|\*told = [1-9]\d*;", body):
                places["1 a bare refusal number in the code (return 2;)"].append(f"{here} {m.group()}")
            for m in re.finditer(r"\bwhile\b", body):
                places["3 loops by while"].append(here)
            for m in re.finditer(r"^ *(\w+) (\+= 1|= \1 \+ 1);", body, re.M):
                if re.search(rf"while [^{{]*\b{m.group(1)}\b", body):
                    places["3 of these, loops that count an index by hand"].append(here)
            for i, counted, under in loops(body):
                uses = re.findall(rf"[^\n]*\b{counted}\b[^\n]*", under)
                indexed = set(re.findall(rf"(\w+)\[(?:\d+ \+ )?{counted}\]", under))
                others = re.sub(rf"\w+\[(?:\d+ \+ )?{counted}\]", "", under)
                if uses and len(indexed) == 1 and not re.search(rf"\b{counted}\b", others) and not re.search(rf"\w+\[{counted}\](?:\[[^\]]*\])* =[^=]", under):
                    places["3 loops over a range that only read one slice or array by it"].append(here)
                if not re.search(r"\bfor\b", under) and re.search(r"if .*\{\s*return (true|false);\s*\}", under):
                    places["3 searches written as a loop (if ..  return true)"].append(here)
            if re.search(r"while [^{]*\{\s*if .*\{\s*return (true|false);", body):
                places["3 searches written as a loop (if ..  return true)"].append(here)
            if re.fullmatch(r"\s*\{\s*if (\w+) < (\w+) \{\s*(return )?\w+;?\s*\}( else \{)?\s*\w+\s*\}?\s*\}\s*", body):
                places["4 the larger or smaller of two by hand"].append(here)
            if re.search(r"\{\s*if \w+ \{ 1 \} else \{ 0 \}\s*\}", body):
                places["4 a flag as a number by hand"].append(here)
            for m in re.finditer(r"\bas (u64|usize|u8|f64|u32)\b", re.sub(r"RecordKind::\w+ as", "", body)):
                places["4 conversions by `as`, but for a kind's own number"].append(here)
            if len(parameters) >= 7 and not exported:
                places["5 functions of seven parameters or more"].append(f"{here} ({len(parameters)})")
            for fact in set(conjuncts(clauses)):
                facts[re.sub(r"\s+", " ", fact)].append(here)
            if any(re.match(r"blocks: \[", p) for p in parameters) and any(p == "count: usize" for p in parameters):
                places["6 a buffer with its length beside it (blocks and count)"].append(here)
            if len(re.findall(r"\bif \w+(?:\[\d\])? == (?:[0-9]+|b'.')", body)) >= 3:
                places["7 switches on a number or a letter"].append(here)
    for fact, users in facts.items():
        if len(users) >= 3:
            places["5 facts that stand in the requires of three functions or more"].append(f"{fact}: {len(users)}")
    for f, crates in sorted(names.items()):
        for crate in sorted(crates):
            if crate.endswith("_marked") or crate == "algebra_jacobi_marked":
                base = {crate[: -len("_marked")], "algebra_rotation"}
                if base & crates:
                    places["2 functions written for plain numbers and again for marked ones"].append(f"{crate}::{f}")
    for a, b in PAIRS:
        for crate in sorted(names.get(a, set()) & names.get(b, set())):
            places["2 other pairs of functions that differ in a name, a number or a step"].append(f"{crate}: {a}, {b}")
    for heading in sorted(places):
        print(f"{len(places[heading]):5d}  {heading}")
        if listed:
            for place in places[heading]:
                print(f"           {place}")


main()
