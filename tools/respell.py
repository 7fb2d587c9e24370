#!/usr/bin/env python3
"""Brings the repository's own names to today's spelling, once, after the kit's port script.

usage: tools/respell.py            at the top of the repository

- Words are in snake case: `beginOf` becomes `begin_of`, in definitions, lemmas, fields and variables, and in the clauses that cite them. Types, facts and
  modules keep their capitals, a dash still joins the two names of a lemma.
- A definition or field of specs/ that had a dash gets `_` in its place (DASHES).
- A lemma whose name would fall together with that of a definition that it is about gets `_lem` (LEMMAS).
- The crate `log` has the name of a library of the kit: it is `block_log` now.
Strings, functions of src/, exported names, inputs and outputs keep their names. Pages, wrong edits, traps and tests get the same names.
"""
import os
import pathlib
import re
import subprocess
import sys

ROOT = pathlib.Path(".")
NAME = r"[^\s(){}.;,@\"«»]+"
CAMEL = re.compile(r"(?<![\w'])[a-z][a-z0-9_]*[A-Z][\w']*")
# A lemma that would get the name of its definition, with the new one. Its files are those that declare it or import it.
LEMMAS = {name: name + "_lem" for name in "is_known one_on in_image first_edge new_word is_digit on_chain step_in live_at".split()} | {"turned_down": "turned_away"}
# Names that Rattle or the kit makes, with a capital inside: they stay.
STAY = re.compile(r".*_[A-Z]")


def snake(word):
    if STAY.match(word):
        return word
    return re.sub(r"(?<=[a-z0-9])[A-Z]", lambda m: "_" + m[0].lower(), word)


class Spelling(dict):
    """The new names, and the snake case of any other word where the crates have that."""

    def __init__(self, names, words):
        super().__init__(names)
        self.words = words

    def get(self, word, otherwise=None):
        return self[word] if word in self else snake(word) if snake(word) in self.words else otherwise


def files(*ends, below="crates"):
    for folder, dirs, names in os.walk(ROOT / below):
        dirs[:] = sorted(d for d in dirs if d not in ("out", "target", ".git", "__pycache__"))
        for name in sorted(names):
            if name.endswith(ends):
                yield pathlib.Path(folder) / name


def write(path, before, after):
    if before != after:
        path.write_text(after, encoding="utf-8")


def declared_dashes():
    """The names with a dash that stand as definitions or fields in specs/."""
    found = set()
    for path in files(".antt"):
        if "specs" in path.parts:
            for m in re.finditer(r"(?m)^ *(?:(?:unfoldable|abbrev|pub) +)*([a-z][\w']*(?:-[\w']+)+) +:", path.read_text(encoding="utf-8")):
                found.add(m[1])
    return found


def lemmas(text, path):
    """Renames each lemma of LEMMAS in a file that declares it, imports it by name or takes it from a record."""
    walk = path.name == "Proof.antt"
    for old, new in LEMMAS.items():
        declares = not walk and re.search(rf"(?m)^ *(?:(?:unfoldable|abbrev|pub|let) +)*{old} +:", text)
        imports = re.search(rf"(?m)^(?:pub )?use [^\n]*\{{[^}}]*(?<![\w'-]){old}(?![\w'-])", text)
        takes = not walk and re.search(rf"(?:\.|; |record {{ ){old}(?![\w'-])", text)
        if declares or imports or takes:
            # A path keeps the name of the function that it goes to.
            full = re.compile(rf"(?<![^\s(){{}}.;,@\"«»]){old}(?![^\s(){{}};,@\"«»])(?!\.[A-Z])")
            text = full.sub(new, text)
    return text


def camel_names():
    """Every word of specs/ and proofs/ with a capital inside, with its new spelling."""
    names = {}
    for path in files(".antt"):
        for m in CAMEL.finditer(path.read_text(encoding="utf-8")):
            if snake(m[0]) != m[0]:
                names[m[0]] = snake(m[0])
    return names


def main():
    if not (ROOT / "crates.txt").is_file():
        sys.exit("run it at the top of the repository")
    dashes = {name: name.replace("-", "_") for name in declared_dashes()}
    for path in files(".antt"):
        text = path.read_text(encoding="utf-8")
        write(path, text, lemmas(text, path))
    names = camel_names()
    # In a proof that walks the code these are names that Rattle made.
    made = {"reply-is", "shared-is"}
    by_word = re.compile(r"(?<![\w'-])(" + "|".join(sorted(map(re.escape, dashes), key=len, reverse=True)) + r")(?![\w'-])") if dashes else None

    def turned(text, names=names, walk=False):
        text = CAMEL.sub(lambda m: names.get(m[0], m[0]), text)
        return by_word.sub(lambda m: m[0] if walk and m[0] in made else dashes[m[0]], text) if by_word else text

    def crate_paths(text):
        text = re.sub(r"\bRattle\.log\.", "Rattle.block_log.", text)
        text = re.sub(r"(?<![\w:.])log::", "block_log::", text)
        text = re.sub(r"\b(crates|tests/edits)/log\b", r"\1/block_log", text)
        return re.sub(r"(?<![\w/])log/(src|specs|proofs|must-fail)\b", r"block_log/\1", text)

    for path in files(".antt", ".rt", ".edit"):
        text = path.read_text(encoding="utf-8")
        # Names of functions in src/ have no capital; strings keep their words.
        parts = re.split(r'(b?"(?:[^"\\\n]|\\.)*")', text) if path.suffix == ".rt" else [text]
        write(path, text, "".join(part if i % 2 else crate_paths(turned(part, walk=path.name == "Proof.antt")) for i, part in enumerate(parts)))

    # The pages have names that the port script turned in the crates, too.
    words = set()
    for path in files(".antt"):
        words |= set(re.findall(r"[\w']+", path.read_text(encoding="utf-8")))
    everywhere = Spelling(names, words)

    pages = [p for p in (ROOT / "README.md", ROOT / "crates.txt") if p.is_file()]
    pages += [p for p in files(".md", below="docs") if p.name not in ("PORT.md", "DESIGN-PASS.md")]
    pages += list(files(".edit", ".trap", below="tests"))
    pages += [p for p in files("", below="tests") if p.suffix in ("", ".py", ".sh", ".md") and "second" not in p.parts]
    for path in dict.fromkeys(pages):
        text = path.read_text(encoding="utf-8")
        write(path, text, crate_paths(turned(text, everywhere)))

    crates = (ROOT / "crates.txt").read_text(encoding="utf-8")
    write(ROOT / "crates.txt", crates, "".join(re.sub(r"(?<![\w])log(?![\w])", "block_log", line) for line in crates.splitlines(keepends=True)))
    for old in ("crates/log", "tests/edits/log"):
        if (ROOT / old).is_dir():
            subprocess.run(["git", "mv", old, old.replace("log", "block_log")], check=True)


main()
