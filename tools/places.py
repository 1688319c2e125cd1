#!/usr/bin/env python3
"""Lists the places that docs/DESIGN-PASS.md counts: lines of crates/*/src by pattern, clauses that stand in many contracts,
parameters that travel together, and how much proof there is.

    python3 tools/places.py [FOLDER]

FOLDER is a checkout, by default this one. Tests are left out. A line is a place to look at, not a verdict."""
import pathlib
import re
import subprocess
import sys
from collections import defaultdict

top = pathlib.Path(sys.argv[1] if len(sys.argv) > 1 else ".")

LINES = {
    "1a own enums": r"^(pub )?enum ",
    "1b answers by bool or Option": r"-> (io::Result<)?(bool|Option<(Fault|u64|usize))",
    "1c flags": r"full: bool|mut later",
    "1d numbers for kinds and for nothing": r"const KIND|fn kind|as u32 \+ 1;|links\[row - 1\]|self\.at > ",
    "1e answers taken apart by hand": r"(Some|Ok|Err)\([^)]*\)+ => (return )?(Ok|Err|Answer|refused|writeln)|None => (Err|\{\})"
                                      r"|=> return refused|Err\(fault\) => (return|Err|\{$)",
    "3a loops with an index or a cursor": r"^ *(while |for [a-z_]+ in [^{]*\.\.|for .* in .*enumerate)",
    "3b other loops": r"^ *for ((?!\.\.|enumerate).)*\{$",
    "4 conversions, equality and printing": r"\bfn (eq|part|number|from_number|kind|fold|only_row|row|show|read)\b"
                                            r".*(self|number|front|row|word|other|round)",
    "7 steps chosen by a predicate or a word": r'fn is_(many|lone)|b?"[a-z]+" =>|match (verb|list|held)',
    "8 functions without code": r"^ *\{\}$",
}
FN = re.compile(r"\bfn (\w+)[^(]*\(")


def tracked(pattern):
    names = subprocess.run(["git", "-C", top, "ls-files", pattern], capture_output=True, text=True, check=True).stdout
    return [top / name for name in names.split("\n") if name]


def closed(text, at, opening, closing):
    """The offset behind the bracket that closes the one at `at`."""
    depth = 0
    for i in range(at, len(text)):
        depth += (text[i] == opening) - (text[i] == closing)
        if depth == 0:
            return i + 1
    return len(text)


def functions(text):
    """Name, parameters and clauses of each function."""
    text = re.sub(r"//.*", "", text)
    for m in FN.finditer(text):
        end = closed(text, m.end() - 1, "(", ")")
        params = re.findall(r"(?:^|,)\s*(?:mut )?(\w+):", text[m.end():end - 1])
        clauses, at = [], end
        while True:
            c = re.compile(r"[^{};]*?\b(requires|ensures)\s*(\w*)\s*\{").match(text, at)
            if not c:
                break
            stop = closed(text, c.end() - 1, "{", "}")
            clauses.append((c.group(1), " ".join(text[c.end():stop - 1].split())))
            at = stop
        yield m.group(1), params, clauses


sources = [path for path in tracked("crates/*/src/*.rt") if path.name != "tests.rt"]
for title, pattern in LINES.items():
    found = []
    for path in sources:
        for number, line in enumerate(path.read_text().split("\n"), 1):
            if re.search(pattern, line) and not line.lstrip().startswith(("//", "ghost use")):
                found.append(f"{path.relative_to(top)}:{number}: {line.strip()}")
    print(f"== {title}: {len(found)} lines")
    print("\n".join(found))

clauses, signatures = defaultdict(list), []
for path in sources:
    crate = path.relative_to(top).parts[1]
    for name, params, found in functions(path.read_text()):
        signatures.append((f"{crate}:{name}", frozenset(params)))
        for kind, body in found:
            if kind == "requires":
                # The same fact is spelled with the struct that a method has.
                plain = re.sub(r"\b(self|chains)\.(now|old)\.(columns\.)?", "", body)
                for part in plain.split(" × "):
                    clauses[part.strip("() ")].append(f"{crate}:{name}")

often = [(len(where), body, where) for body, where in clauses.items() if len(where) >= 3]
print(f"== 5a facts that three or more contracts require: {len(often)}, of {len(signatures)} functions")
for count, body, where in sorted(often, reverse=True):
    print(count, "|", body, "|", " ".join(where))

# Every set of three or more names that is all that some functions have in common.
common = set()
for _, params in signatures:
    common |= {params & other for other in common} | {params}
    common = {c for c in common if len(c) >= 3}
rows = []
for group in common:
    where = [name for name, params in signatures if group <= params]
    if len(where) >= 3:
        rows.append((-len(where), sorted(group), where))
print(f"== 5b sets of three or more parameters that three or more functions share: {len(rows)}")
for count, group, where in sorted(rows):
    print(-count, "|", ", ".join(group), "|", " ".join(where))

proofs = tracked("crates/*/proofs/*.antt")
answers = "".join(path.read_text() for path in proofs if path.name == "Answers.antt")
print("== 8 proofs:", sum(path.name == "Answers.antt" for path in proofs), "files of answers with",
      len(re.findall(r"(?m)^pub ", answers)), "answers in", answers.count("\n"), "lines;",
      sum(path.name == "Invariants.antt" for path in proofs), "files of invariants;",
      sum(path.read_text().count("\n") for path in proofs), "lines in proofs/,",
      sum(path.read_text().count("\n") for path in tracked("crates/*/specs/*.antt")), "in specs/,",
      sum(path.read_text().count("\n") for path in sources), "in src/")
