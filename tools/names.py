#!/usr/bin/env python3
"""Spells the repository's own definitions and lemmas as today's Rattle does: words in snake case (`written_from`, not `writtenFrom` or `written-from`).

usage: tools/names.py [--dry]     at the top of the repository, once, right after port.py

It turns the names that specs/ and proofs/ declare, wherever .antt files, the clauses and comments of .rt files, the must-fail edits and the pages in backquotes
cite them. Names of src/, of the libraries and of what the checker makes stay. A name that would fall together with another gets `_lem`.
"""
import collections
import glob
import os
import re
import sys

WORD = re.compile(r"[^\s(){}\[\];,.:\"`«»|λ&!]+")
KEYWORDS = {"use", "pub", "abbrev", "unfoldable", "let", "in", "where", "record", "data", "module", "rw", "simp", "search", "omega", "grind", "elim", "subst"}
# A field has the plain name of the first; the second is a crate's.
CHOSEN = {"refCount": "ref_count_limit", "visibilitySteps": "steps_of_visibility", "lookIn": "look_value"}
# Arguments that fill a field of their name.
FILLS = {"span-start", "span-end", "edge-start", "edge-end", "node-start", "node-end"}


def own_crates():
    return {line.split(":")[0].split()[0] for line in open("crates.txt") if ":" in line and not line.startswith("#")}


def strip(line):
    """A line without its comment."""
    return re.sub(r"(^|\s)--(\s.*|$)", "", line)


def imports(text):
    for m in re.finditer(r"^(?:pub )?use ([^\s{;]+?)(?:\.\{([^}]*)\})?(?: as ([\w-]+))?$", text, re.M):
        yield m[1].split("."), [n.strip() for n in (m[2] or "").split(",") if n.strip()], m[3]


def is_old(word):
    if word.startswith(("-", "◌", "'")) or word.endswith("-") or word in KEYWORDS or "Need-" in word:
        return False
    return bool(re.match(r"[a-z][\w'₀-₉]*[a-z0-9][A-Z]", word) or re.match(r"[A-Za-z]\d*[\w'₀-₉≤<≡≢]*-", word))


def turned(word):
    if re.match(r"[A-Z][a-z]", word):
        return word  # a type, and what is joined to it
    word = re.sub(r"([a-z0-9])([A-Z])", r"\1_\2", word)
    return word.replace("-", "_").lower()


def files(*patterns):
    return sorted(f for p in patterns for f in glob.glob(p, recursive=True) if os.path.isfile(f))


def library_words(paths, own):
    words = set()
    for path in paths:
        for parts, names, _ in imports(open(path).read()):
            if not (parts[0] == "Rattle" and len(parts) > 1 and parts[1] in own):
                words |= {re.sub(r" as .*", "", n) for n in names}
    return words


def words_of(path):
    return [w for line in open(path).read().split("\n") for w in WORD.findall(strip(line))]


def choose(laws, library):
    """The new name of each word, and which files hold it."""
    held, all_words, defined = collections.defaultdict(set), collections.defaultdict(set), collections.defaultdict(set)
    for path in laws:
        text = open(path).read()
        for w in words_of(path):
            all_words[w].add(path)
            if is_old(w) and w not in library:
                held[w].add(path)
        for m in re.finditer(r"^\s*((?:abbrev |unfoldable |pub )*)([^\s:(){}.,;=]+(?: [^\s:(){}.,;=]+)*) :\s", text, re.M):
            for w in m[2].split():
                defined[w].add(path)
    new, takers = {}, collections.defaultdict(list)
    for w in held:
        takers[turned(w)].append(w)
        t = turned(w)
        # a definition takes the name of a law that has it already
        if re.search(r"[a-z0-9][A-Z]", w) and w in defined and w not in CHOSEN and t in defined and t not in library and all("/proofs/" in f for f in defined[t]):
            new[t] = t + "_lem"
            for path in all_words.pop(t):
                all_words[t + "_lem"].add(path)
            defined[t + "_lem"] = defined.pop(t)
    for name, old in sorted(takers.items()):
        old.sort(key=lambda w: (not re.search(r"[a-z0-9][A-Z]", w), w))  # a definition before its lemma
        for k, w in enumerate(old):
            t = CHOSEN.get(w, name)
            while t != w and w not in FILLS and (any(t == v for v in new.values()) or t in library or all_words[t] & held[w] or (t in defined and w in defined)):
                t += "_lem"
            new[w] = t
    return {w: t for w, t in new.items() if w != t}


def rewrite_antt(text, new, fields=None):
    out = []
    for line in text.split("\n"):
        code = strip(line)
        rest = line[len(code):]

        def put(m):
            w = m[0]
            if w not in new:
                return w
            if fields is not None and m.start() and code[m.start() - 1] == "." and not code.startswith("use ") and w not in fields:
                return w  # a step of the walk
            return new[w]

        out.append(WORD.sub(put, code) + re.sub(WORD, lambda m: new.get(m[0], m[0]) if re.search(r"[a-z0-9][A-Z]", m[0]) else m[0], rest))
    return "\n".join(out)


def rewrite_rt(text, new):
    """Clauses and comments: a word in camel case or with a dash between letters is none of the code's own."""
    def put(m):
        return new.get(m[0], m[0]) if is_old(m[0]) else m[0]
    return "\n".join(WORD.sub(put, line) if '"' not in line else line for line in text.split("\n"))


def rewrite_page(text, new):
    def span(m):
        return "`" + WORD.sub(lambda w: new.get(w[0], w[0]) if is_old(w[0]) else w[0], m[1]) + "`"
    return re.sub(r"`([^`\n]+)`", span, text)


def main():
    own = own_crates()
    laws = files("crates/*/specs/*.antt", "crates/*/proofs/*.antt")
    walks = files("crates/*/proofs/*/**/*.antt")
    library = library_words(laws + walks, own)
    new = choose(laws, library)
    fields = set()
    for path in laws:
        fields |= set(re.findall(r"^  (?:pub )?([^\s:(){}]+) :\s", open(path).read(), re.M))
    # a walk's own lemmas
    dry = "--dry" in sys.argv
    todo = {}
    for path in laws:
        todo[path] = rewrite_antt(open(path).read(), new)
    for path in walks:
        text = open(path).read()
        local = dict(new)
        needs = set(re.findall(r"^(?:pub )?(\S+) : tie\.", text, re.M))
        for w in set(re.findall(r"^(?:pub )?(\S+) :\s", text, re.M)) - needs:
            if is_old(w) and w not in library and not w.endswith("-spec"):
                local.setdefault(w, turned(w))
        for w in needs:
            local.pop(w, None)
        todo[path] = rewrite_antt(text, local, fields)
    for path in files("crates/*/src/**/*.rt", "crates/*/must-fail/*.edit"):
        todo[path] = rewrite_rt(open(path).read(), new)
    for path in files("README.md", "docs/*.md"):
        todo[path] = rewrite_page(open(path).read(), new)
    changed = 0
    for path, text in todo.items():
        if text != open(path).read():
            changed += 1
            if not dry:
                open(path, "w").write(text)
    lem = {w: t for w, t in new.items() if t.endswith("_lem")}
    print(f"names: {len(new)} names, {changed} files; with _lem: {lem}")
    if dry:
        for w, t in sorted(new.items()):
            print(w, t)


main()
