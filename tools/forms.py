#!/usr/bin/env python3
"""Counts the places in crates/*/src where an older form of code may stand, and names them.

    python3 tools/forms.py [--places] [COMMIT]

It goes by text: a place is one to look at. Without COMMIT it reads the working tree.
"""
import difflib
import re
import subprocess
import sys
from collections import defaultdict

PLACES = "--places" in sys.argv
COMMIT = next((a for a in sys.argv[1:] if not a.startswith("--")), None)


def run(*args):
    return subprocess.run(args, capture_output=True, text=True, check=True).stdout


def sources():
    """Every source file with its text."""
    if COMMIT:
        names = run("git", "ls-tree", "-r", "--name-only", COMMIT, "crates").split("\n")
        read = lambda name: run("git", "show", f"{COMMIT}:{name}")
    else:
        names = run("git", "ls-files", "-co", "--exclude-standard", "crates").split("\n")
        read = lambda name: open(name, encoding="utf-8").read()
    return {n: read(n) for n in names if re.fullmatch(r"crates/\w+/src/.*\.rt", n)}


SOURCES = sources()
CODE = {n: re.sub(r"//[^\n]*", "", t) for n, t in SOURCES.items()}


def matches(pattern, flags=re.M):
    for name, text in CODE.items():
        for m in re.finditer(pattern, text, flags):
            yield f"{name}:{text.count(chr(10), 0, m.start()) + 1}: {' '.join(m.group(0).split())[:110]}"


def functions():
    """Each function: its file, name, parameters, clauses and body."""
    for name, text in CODE.items():
        for m in re.finditer(r"\bfn (\w+)(<[^(]*>)?\(([^{]*?)\)( ->[^{\n]*)?\n?((?:\s*(?:requires|ensures)[^\n]*\n|\s*where[^\n]*\n)*)\s*\{", text):
            depth, end = 1, m.end()
            while depth and end < len(text):
                depth += {"{": 1, "}": -1}.get(text[end], 0)
                end += 1
            yield name, m.group(1), m.group(3), m.group(5), text[m.end():end - 1]


FUNCTIONS = list(functions())


def clauses():
    """Clauses that stand in the contracts of three or more functions, without their labels."""
    seen = defaultdict(set)
    for name, f, _, contract, _ in FUNCTIONS:
        for m in re.finditer(r"(requires|ensures)\s*\w*\s*\{(.*)\}", contract):
            seen[m.group(1), " ".join(m.group(2).split())].add(f"{name} {f}")
    for (kind, text), where in seen.items():
        if len(where) > 2:
            yield f"{len(where)} functions: {kind} {{ {text} }}"


def travelling():
    """Neighbouring parameters that stand in the signatures of three or more functions."""
    seen = defaultdict(set)
    for name, f, parameters, _, _ in FUNCTIONS:
        parts = [p.strip() for p in re.split(r",(?![^<(]*[>)])", parameters) if p.strip() and "self" not in p]
        for a, b in zip(parts, parts[1:]):
            seen[a, b].add(f"{name} {f}")
    for (a, b), where in seen.items():
        if len(where) > 2:
            yield f"{len(where)} functions: ({a}, {b})"


def twins():
    """Pairs of functions whose bodies are alike but for a few words."""
    words = [(n, f, re.findall(r"\w+|[^\w\s]", body)) for n, f, _, _, body in FUNCTIONS]
    long = [w for w in words if len(w[2]) >= 14]
    for i, (n, f, a) in enumerate(long):
        for m, g, b in long[i + 1:]:
            if abs(len(a) - len(b)) <= 4 and difflib.SequenceMatcher(None, a, b, False).ratio() > 0.8:
                yield f"{n} {f}, {m} {g}"


POINTS = [
    ("1 numbers for kinds, refusals and strata", [
        r"^pub fn \w+\(\) -> u8$", r"\bkind: u16\b[^\n]*", r"=> \d+,", r"fn (?:stratum|home)\(.*-> u8", r"\(u8, u8\), Refusal"]),
    ("1 matches and early returns that a combinator or ? says", [
        r"None => (?:Err\(.*\)|None|false|true|unreachable\(\)),?", r"Err\((?:_|refusal)\) => (?:Err\(.*\)|unreachable\(\)),?",
        r"Some\(_\) => \{?$", r"else \{\s*return (?:Err\(|None)[^;]*;\s*\}", r"_ => false,", r"Some\(\w+\) => Some\([^)]*\),"]),
    ("1 answers in band", [r"return at;", r"b'\?'"]),
    ("3 loops that count an index", [r"for \w+ in [^{\n]*\.\.[^{\n]*\{", r"\bwhile [^{\n]*\{", r"^\s*\w+ \+= 1;"]),
    ("4 equality, copying and numbers by hand", [
        r"^impl[^\n]*\b(?:PartialEq|Eq|PartialOrd|Ord|Hash|Clone|Copy|Display|Debug)\b[^\n]* for [^\n]*", r"fn same\w*\(", r"fn number\(self\)", r"\bas (?:u16|u32|u64|usize)\b"]),
    ("6 buffers with a length, flattened tables", [
        r"^\s*(?:pub )?\w+: \[\w+; \w+\],", r"let (?:mut )?\w+ = \[[^\]]*; \w+\];", r"\bat: usize", r"\* 11\b"]),
    ("7 switches and tables of functions", [r"match self \{(?:\s*\w+::\w+\(\w+\) => [^\n]*\.\w+\([^\n]*){2,}"]),
]

for title, patterns in POINTS:
    found = sorted({p for pattern in patterns for p in matches(pattern)})
    print(f"{title}: {len(found)}")
    if PLACES:
        print("".join(f"    {p}\n" for p in found), end="")
for title, found in [
    ("2 twins", list(twins())),
    ("5 facts in three contracts or more", list(clauses())),
    ("5 parameters that travel together", list(travelling())),
]:
    print(f"{title}: {len(found)}")
    if PLACES:
        print("".join(f"    {p}\n" for p in found), end="")
proofs = run("git", "ls-tree", "-r", "--name-only", COMMIT or "HEAD", "crates").split("\n")
answers = [p for p in proofs if re.search(r"/proofs/.*/(Answers|Invariants)\.antt$", p)]
print(f"8 files of answers and invariants: {len(answers)}")
