#!/usr/bin/env python3
"""Spells this repository's own definitions and lemmas in snake case, and names the crate `log` `redolog`, since the toolchain has a library `log`.

usage: tools/respell.py [--say] [--words FILE]        at the top of the repository, once, after the toolchain's port.py

Names that begin with a capital (types, modules) stay; so do the names of functions, fields and constants of src/, and what a function's own
folder of proofs/ declares. In pages (.md) and edits a name is respelled where it stands in backquotes or behind `old:` and `new:`.
--say writes nothing and says which names would fall together. --words FILE writes the table, old and new, that other scripts can take.
"""
import collections
import glob
import os
import re
import sys

CRATE = ("log", "redolog")
DECLARED = re.compile(r"^( *)((?:(?:abbrev|unfoldable|pub|axiom|ruleset|record|data) )*)([^\s(){};,.]+)(?: \{[^}]*\})* :(?= |$)")
NAME = re.compile(r"[^\s(){};,@«»\"]+")
# What a file takes from the toolchain's libraries keeps its name there.
LIBRARY = re.compile(r"(?m)^(?:pub )?use (?!Rattle\.(?!std\b|core\b))[^\s{]+\.\{(.*)\}")
CLAUSE = re.compile(r"^\s*(?:pub )?(?:ghost|requires|ensures)\b")


def snake(name):
    name = re.sub(r"(?<=[a-z0-9])[A-Z]", lambda m: "_" + m[0].lower(), name)
    name = name.replace("→", "_to_")
    return re.sub(r"(?<=[^\W_])-(?=\w)", "_", name)


def files(*patterns):
    return sorted(p for it in patterns for p in glob.glob(it, recursive=True) if "/out/" not in p)


def of_a_function(path):
    return bool(re.search(r"/proofs/.+/[^/]+\.antt$", path))


def read(path):
    with open(path, encoding="utf-8") as f:
        return f.read()


def table():
    """Old name to new, and which of them are fields or local names."""
    names, fields, declared = {}, set(), set()
    for path in files("crates/*/specs/**/*.antt", "crates/*/proofs/*.antt"):
        for line in read(path).split("\n"):
            found = DECLARED.match(line)
            if not found or found[3][0].isupper() or found[3][0] in "◌_?":
                continue
            old = found[3]
            declared.add(old)
            if snake(old) != old:
                names[old] = snake(old)
            if found[1]:
                fields.add(old)
    return apart(names, declared), fields


def apart(names, declared):
    """Where a definition and a lemma fall together, the lemma gets `_lem`, as the toolchain's own do."""
    for old, new in list(names.items()):
        if "-" in old and (new in declared or any(it != old and "-" not in it and to == new for it, to in names.items())):
            names[old] = new + "_lem"
        elif "-" not in old and new in declared:
            names[new] = new + "_lem"
    return names


class Speller:
    def __init__(self):
        self.names, self.fields = table()

    def part(self, word, head, first, keep):
        if word not in self.names or word in keep:
            return word
        if first or head[:1].isupper() or word in self.fields:
            return self.names[word]
        return word

    def word(self, token, keep=frozenset()):
        parts = token.split(".")
        if "Rattle" in parts[0] and len(parts) > 1 and parts[1] == CRATE[0]:
            parts[1] = CRATE[1]
        return ".".join(self.part(it, parts[0], i == 0, keep) for i, it in enumerate(parts))

    def text(self, text, keep=frozenset()):
        return NAME.sub(lambda m: self.word(m[0], keep), text)

    def path_of(self, line, keep=frozenset()):
        """The names of a `use` line's braces stand without a head."""
        found = re.match(r"^(.*\buse (Rattle\S*?)\.\{)(.*)(\};?.*)$", line)
        if not found:
            return self.text(line, keep)
        inner = NAME.sub(lambda m: self.names.get(m[0], m[0]) if m[0] not in keep else m[0], found[3])
        return self.text(found[1], keep) + inner + found[4]


def in_rust(line):
    line = re.sub(r"\buse log(?=::)", "use " + CRATE[1], line)
    return re.sub(r"(?<![\w:.])log(?=::)", CRATE[1], line)


def respelled(path, spell):
    text = read(path)
    if path.endswith(".antt"):
        keep = frozenset(m[3] for m in map(DECLARED.match, text.split("\n")) if m) if of_a_function(path) else frozenset()
        keep |= frozenset(word for m in LIBRARY.finditer(text) for word in NAME.findall(m[1]))
        return "\n".join(spell.path_of(line, keep) for line in text.split("\n"))
    if path.endswith(".rt"):
        return "\n".join(in_rust(spell.path_of(line) if CLAUSE.match(line) else line) for line in text.split("\n"))
    if path.endswith(".edit"):
        return "\n".join(in_rust(spell.text(line)) if re.match("(old|new):", line) else line for line in text.split("\n"))
    return re.sub(r"`[^`\n]+`", lambda m: spell.text(m[0][1:-1]).join("``"), text)


def together(spell):
    """Names that would fall together, and new names that a file has already."""
    new = collections.defaultdict(set)
    for old, to in spell.names.items():
        new[to].add(old)
    for to, olds in sorted(new.items()):
        if len(olds) > 1:
            print("together:", to, *sorted(olds))
    for path in files("crates/**/*.antt", "crates/**/*.rt"):
        words = {part for m in NAME.finditer(read(path)) for part in m[0].split(".")}
        for old in words & spell.names.keys():
            if spell.names[old] in words:
                print("there already:", path, old, spell.names[old])


def move_crate():
    """The folders of the crate and of its edits, and its name in crates.txt."""
    for folder in ("crates", "tests/edits"):
        if os.path.isdir(f"{folder}/{CRATE[0]}"):
            os.rename(f"{folder}/{CRATE[0]}", f"{folder}/{CRATE[1]}")
    lines = read("crates.txt").split("\n")
    with open("crates.txt", "w", encoding="utf-8") as f:
        f.write("\n".join(line if line.startswith("#") else re.sub(rf"\b{CRATE[0]}\b", CRATE[1], line) for line in lines))


def main():
    spell = Speller()
    if "--words" in sys.argv:
        with open(sys.argv[sys.argv.index("--words") + 1], "w", encoding="utf-8") as f:
            f.writelines(f"{old}\t{new}\n" for old, new in sorted(spell.names.items()))
    if "--say" in sys.argv:
        together(spell)
        return
    for path in files("crates/**/*.antt", "crates/**/*.rt", "crates/*/must-fail/*.edit", "tests/edits/**/*", "*.md", "docs/**/*.md"):
        try:
            text = read(path)
        except (IsADirectoryError, UnicodeDecodeError):
            continue
        new = respelled(path, spell)
        if new != text:
            with open(path, "w", encoding="utf-8") as f:
                f.write(new)
    move_crate()


if __name__ == "__main__":
    main()
