#!/usr/bin/env python3
"""Lists the places in src/ that keep an older form, by the points of docs/DESIGN-PASS.md.

    tools/forms.py [--list] [ROOT]

A line for each kind of place with its count; with --list each place behind it. It reads text, and finds candidates alone:
which of them stay, and why, docs/DESIGN-PASS.md says.
"""
import re
import sys
from collections import defaultdict
from pathlib import Path

LIST = "--list" in sys.argv
ROOT = Path(next((a for a in sys.argv[1:] if a != "--list"), "."))
found = defaultdict(list)


def functions(text):
    """Name, head and body of each function, by its indentation."""
    lines = text.split("\n")
    i = 0
    while i < len(lines):
        m = re.match(r"^( *)(?:pub )?fn (\w+)", lines[i])
        if m:
            start = i
            while i < len(lines) and lines[i] != m[1] + "{" and not (i == start and lines[i].endswith("{")):
                if i > start and re.match(r"^ *(?:pub )?fn \w+", lines[i]) or lines[i].endswith(";") and i == start:
                    break
                i += 1
                if i < len(lines) and lines[i - 1].endswith(" {") and not re.match(r"^ *(requires|ensures)", lines[i - 1]):
                    i -= 1
                    break
            body = i + 1
            while i < len(lines) and lines[i] != m[1] + "}":
                i += 1
            yield m[2], start + 1, "\n".join(lines[start:body]), "\n".join(lines[body:i])
        i += 1


TOKEN = re.compile(r"[A-Za-z_]\w*|\d\w*|[^\s\w]")
shapes = defaultdict(list)
for path in sorted(ROOT.glob("crates/*/src/**/*.rt")):
    text = path.read_text()
    name = str(path.relative_to(ROOT))

    def put(kind, offset, what=""):
        found[kind].append(f"{name}:{text[:offset].count(chr(10)) + 1} {what}")

    for m in re.finditer(r"enum (\w+) \{(.*?)\n\}", text, re.S):
        if re.search(r"\b(Some|None|Nothing|At|Refused|Ok|Err)\b", re.sub(r"//.*", "", m[2])):
            put("1 own enums with a case of Option or Result", m.start(), m[1])
    for fn, line, head, body in functions(text):
        result = re.search(r"-> (\S+)", head)
        result = result[1] if result else ""
        if result == "u64" and re.search(r"\brefusal::[A-Z]|_refusal\(|lock_table::|::refusal\(", body):
            found["1 functions that give a refusal as a number"].append(f"{name}:{line} {fn}")
        if len(re.findall(r"\b(?:read|write|kernel|user): &(?:mut )?\[u8\]", head)) == 4:
            found["5 functions that take the four permission maps one by one"].append(f"{name}:{line} {fn}")
        if re.search(r"pages: &(?:mut )?\[u64\]", head) and re.search(r"\b(?:count|n|used): u64", head):
            found["6 functions that take pages and how many are in use"].append(f"{name}:{line} {fn}")
        if result == "bool" and not re.search(r"^ +(?:for|while) ", body, re.M):
            arms = re.findall(r"=> (.*),\n", body)
            written = len(re.findall(r"return false;\n|else \{\s*false\s*\}", body))
            written += len(arms) if set(arms) == {"true", "false"} else 0
            found["4 truth by branches, outside loops"] += [f"{name}:{line} {fn}"] * written
        tokens = TOKEN.findall(re.sub(r"//.*", "", body))
        if len(tokens) >= 24:
            names = {}
            shape = tuple(t if not re.match(r"[A-Za-z_0-9]", t) else names.setdefault(t, len(names)) for t in tokens)
            shapes[shape].append(f"{name}:{line} {fn}")
    for m in re.finditer(r"\bif (?:\w+|looked\.\w+) != 0 \{\n", text):
        put("1 tests of a number for none", m.start(), m[0].strip())
    for m in re.finditer(r"^ +while (.*)\{", text, re.M):
        put("3 while loops", m.start(), m[1])
    for m in re.finditer(r"if (\w+) \{ 1 \} else \{ 0 \}|if (\w+) == (\w+::)?\w+ \{\n +return \w+::\w+;", text):
        put("4 conversions by branches", m.start())
    for m in re.finditer(r"\b(\w+): \1,\n", text):
        put("4 fields given by a variable of their name", m.start(), m[1])
    for m in re.finditer(r"private: private\.len\(\) as u64", text):
        put("5 lengths of the six maps written out", m.start())
    for m in re.finditer(r"\bmatch (phase|stage)\b", text):
        put("7 matches on a phase or stage", m.start(), m[1])
    for m in re.finditer(r"if c\.kind (==|<)", text):
        put("7 tests of a kind's number", m.start())
for shape, places in shapes.items():
    if len(places) > 1:
        found["2 functions of one shape"] += [" = ".join(places)]
for path in sorted(ROOT.glob("crates/*/proofs/**/Answers.antt")):
    if "/out/" not in str(path):
        found["8 functions with answers"].append(str(path.relative_to(ROOT).parent))
        found["8 lines of answers"] += [""] * path.read_text().count("\n")
for kind in sorted(found):
    print(f"{len(found[kind]):5} {kind}")
    if LIST and not kind.startswith("8"):
        for place in found[kind]:
            print("        " + place)
