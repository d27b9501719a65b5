#!/usr/bin/env python3
"""Spells the repository's own definitions, lemmas and modules as today's Rattle spells words: snake case for words,
camel case for modules. Run once, at the top, after Rattle's port.py.

usage: rename_words.py [--check]      --check writes nothing, and prints what would change

A word is one that a file of specs/ or proofs/ declares, but for those that a Proof.antt alone declares: those follow
names that Rattle makes. `someWord` and `some-word` become `some_word`. Where two words would fall together, or a word
would meet one that the texts have already, the one with dashes keeps them. What was kept is printed.
"""

import collections
import os
import re
import subprocess
import sys

WORD = re.compile(r'[^\s(){}.;,@"«»`]+')
MODULES = {"inner": "Inner", "further": "Further", "examples": "Examples"}
DECLARED = re.compile(
    r"^[ ]*(?:pub |abbrev |unfoldable |record |data |private )*"
    r"(?P<n>[^\s(){}.;,@\"«»]+)(?:\s+(?:\([^()]*\)|\{[^{}]*\}))*\s*:(?!\S)", re.M)
FIELDS = re.compile(r"^[ ]*(?:pub )?(?P<n>[^\s(){}.;,@\"«»]+) :", re.M)
# Lemmas that port.py gave the name that a definition takes here, by file.
MET = {
    "crates/successors/proofs/Tables.antt": {"held_by": "held_by_lem"},
    "crates/successors/proofs/Fired.antt": {"some_below": "some_below_lem"},
    "crates/reader/proofs/Valid.antt": {"no_name": "no_name_lem"},
    "crates/demands/proofs/WriteCases.antt": {"row_written": "row_written_lem"},
    "crates/demands/proofs/Cases.antt": {"row_written": "row_written_lem"},
}
KEYWORDS = {"let", "in", "where", "module", "use", "mod", "elim", "λ"}


def texts(ending):
    for folder, dirs, files in os.walk("crates"):
        dirs[:] = sorted(d for d in dirs if d != "out")
        for f in sorted(files):
            if f.endswith(ending):
                yield os.path.join(folder, f)


def read(path):
    with open(path, encoding="utf-8") as f:
        return f.read()


def in_snake_case(name):
    words = re.sub(r"(?<=[a-z0-9])[A-Z]", lambda m: "_" + m[0].lower(), name)
    return words.replace("-", "_")


def declared():
    where = collections.defaultdict(set)
    for path in list(texts(".antt")):
        code = re.sub(r"(?<!\S)--[^\n]*", "", read(path))
        for m in DECLARED.finditer(code):
            where[m["n"]].add(path)
        # several constructors in one line
        for m in "/specs/" in path and re.finditer(r"^[ ]+([a-z][\w'-]*(?: [a-z][\w'-]*)+) : ", code, re.M) or ():
            for name in m[1].split():
                if name not in KEYWORDS | {"pub", "abbrev", "unfoldable", "record", "data"}:
                    where[name].add(path)
    return where


def table():
    where = declared()
    asked = {}
    for name, paths in where.items():
        if name in KEYWORDS or not re.match(r"[a-z]", name):
            continue
        if all(os.path.basename(p) == "Proof.antt" or "/Proof/" in p for p in paths):
            continue
        new = in_snake_case(name)
        if new != name:
            asked[name] = new
    # the words that the texts have already: in antt those behind no dot, and in Rust the parameters, whose names hide a
    # word in the clauses
    had = collections.defaultdict(set)
    for path in list(texts(".antt")):
        code = re.sub(r"(?<!\S)--[^\n]*", "", read(path))
        for w in re.findall(r"(?<![^\s(){};,@«»])" + WORD.pattern, code):
            had[w].add(path)
    for path in list(texts(".rt")):
        code = re.sub(r"//[^\n]*", "", read(path))
        for w in WORD.findall(code):
            if w in asked:
                had[w].add(path)
        for head in re.findall(r"\bfn \w+(?:<[^>]*>)?\(([^)]*)\)", code):
            for w in re.findall(r"(\w+):", head):
                had[w].add(path)
    # Where a word would meet another in some file, a lemma gets `_lem` at its end.
    kept = {}
    news = collections.defaultdict(list)
    for name, new in asked.items():
        news[new].append(name)
    for new, names in news.items():
        plain = [n for n in names if "-" not in n]
        for n in names:
            others = [m for m in names if m != n and had[m] & had[n]]
            if had[n] & had[new] or (others and (plain and n not in plain)) or (others and not plain and n != min(names)):
                kept[n] = new
    for n, new in kept.items():
        asked[n] = new + "_lem" if "-" in n else new
    return asked, kept


def of_library(text):
    """The words that a file imports from another's library: they stay in that file."""
    stay = set()
    for m in re.finditer(r"\buse ([\w.]+)\.\{([^}]*)\}", text):
        steps = m[1].split(".")
        if steps[0] != "Rattle" or not os.path.isdir(os.path.join("crates", steps[1])):
            for item in m[2].split(","):
                stay.update(item.split())
    return stay


def fields_of(code):
    """The fields that the records of a text declare."""
    fields, inside = set(), None
    for line in code.split("\n"):
        if not line.strip():
            continue
        indent = len(line) - len(line.lstrip())
        if inside is not None and indent <= inside:
            inside = None
        if re.match(r"\s*(?:pub )?record\b", line):
            inside = indent
        elif inside is not None:
            m = FIELDS.match(line)
            if m:
                fields.add(m["n"])
    return fields


FIELD = set()


def turn_words(text, names):
    """Each word behind no dot, or behind a module, and each declared field behind a value: what else is behind a value is
    a name that Rattle makes."""

    def one(m):
        word = m[0]
        if word not in names:
            return word
        before = text[: m.start()]
        if before.endswith(".") and word not in FIELD:
            head = re.search(r'([^\s(){}.;,@"«»`]*)\.$', before)[1]
            if not re.match(r"[A-Z]", head):
                return word
        return names[word]

    return WORD.sub(one, text)


def turn_modules(text):
    for old, new in MODULES.items():
        text = re.sub(rf"(Rattle\.\w+\.specs|\bspecs)([./]){old}\b(?!\.edit)", rf"\1\g<2>{new}", text)
        text = re.sub(rf"\bpub mod {old}\b", f"pub mod {new}", text)
    return text


def turn_spans(text, names):
    return re.sub(r"`[^`\n]+`", lambda m: turn_words(m[0], names), text)


def turn_antt(text, names):
    out = []
    for part in re.split(r"((?<!\S)--[^\n]*)", text):
        out.append(turn_spans(part, names) if part.startswith("--") else turn_words(part, names))
    return turn_modules("".join(out))


def turn_rt(text, names):
    out = []
    for part in re.split(r'(//[^\n]*|b?"(?:\\.|[^"\\])*")', text):
        if part.startswith("//"):
            out.append(turn_spans(part, names))
        elif part.startswith(('"', 'b"')):
            out.append(part)
        else:
            out.append(turn_words(part, names))
    return turn_modules("".join(out))


def turn_md(text, names):
    """A page also follows the words that port.py turned."""
    names = dict(names)
    known = set(declared())
    for word in WORD.findall(text):
        new = in_snake_case(word)
        if word not in known and word not in names and new != word and new in known and re.match(r"[a-z]", word):
            names[word] = new
    out, fenced = [], False
    for line in text.split("\n"):
        if line.startswith("```"):
            fenced = not fenced
            out.append(line)
        elif fenced or line.startswith("    "):
            out.append(turn_words(line, names))
        else:
            out.append(turn_spans(line, names))
    return turn_modules("\n".join(out))


def main(argv):
    check = "--check" in argv
    names, kept = table()
    for n in sorted(kept):
        print(f"kept: {n}, since {kept[n]} is another word" + (f"; now {names[n]}" if n in names else ""))
    print(f"{len(names)} words")
    if check:
        for n in sorted(names):
            print(f"{n}\t{names[n]}")
        return
    for path in texts(".antt"):
        FIELD.update(fields_of(re.sub(r"(?<!\S)--[^\n]*", "", read(path))))
    changes = []
    for path in texts(".antt"):
        changes.append((path, turn_antt))
    for path in texts(".rt"):
        changes.append((path, turn_rt))
    for path in texts(".edit"):
        changes.append((path, turn_rt))
    for folder, dirs, files in os.walk("."):
        dirs[:] = [d for d in dirs if d not in (".git", "crates", "out", "target")]
        changes += [(os.path.join(folder, f), turn_md) for f in files if f.endswith(".md")]
    for path, turn in changes:
        old = read(path)
        stay = of_library(old)
        new = turn(old, {n: to for n, to in {**names, **MET.get(path, {})}.items() if n not in stay})
        if new != old:
            with open(path, "w", encoding="utf-8") as f:
                f.write(new)
    for folder, dirs, files in list(os.walk("crates")):
        if os.path.basename(folder) != "specs":
            continue
        for old, new in MODULES.items():
            for ending in ("", ".antt"):
                path = os.path.join(folder, old + ending)
                if os.path.exists(path):
                    subprocess.run(["git", "mv", path, os.path.join(folder, new + ending)], check=True)


if __name__ == "__main__":
    main(sys.argv[1:])
