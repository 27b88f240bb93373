#!/usr/bin/env python3
"""Brings the names of definitions, fields and laws to one spelling: snake case for words, camel case for types and modules.

usage: python3 tools/spell_names.py      at the top of the repository

It goes over the sources, definitions, proofs and edits of every crate, and over the names that the documents cite. A name in camel
case with a small first letter is turned (`lowestBroken` to `lowest_broken`); the dash of a record's field, of a constructor or of a
definition becomes `_` (`report-size` to `report_size`); the dashes of a law's name stay. Strings in the sources keep their text, and
so do functions, which have this spelling already. Where a turned name would fall together with a law that is used beside it, the law
takes `_lem` at its end; two definitions take another word. A second run changes nothing.
"""

import os
import re
import subprocess

TOKEN = re.compile(r"(?<![\w'′])[^\W\d][\w'₀-₉]*(?:-[\w'₀-₉]+)*")
# a law of these files would fall together with a definition that is used beside it
LAWS = ["as_lent", "back_to", "copy_step", "held_kept", "in_window", "move_step", "no_length", "run_on", "step_in", "written_over"]
# what the documents cite of the tools, no name of the crates
COMMANDS = ["move-image"]
OTHER = {"placeIs": "place_in_spot", "oneMore": "one_more_of"}


def snake(word):
    return re.sub(r"(?<=[a-z0-9])([A-Z])", lambda m: "_" + m.group(1).lower(), word)


def tracked(*patterns):
    return [f for f in subprocess.run(["git", "ls-files", *patterns], capture_output=True, text=True, check=True).stdout.split("\n") if f]


def read(path):
    with open(path, encoding="utf-8") as f:
        return f.read()


def write(path, text):
    if read(path) != text:
        with open(path, "w", encoding="utf-8") as f:
            f.write(text)


def is_camel(word):
    return word[0].islower() and any(c.isupper() for c in word) and not re.fullmatch(r"x[0-9A-F]+", word)


def dashed_members(files):
    """The fields, constructors and transparent definitions whose names have a dash."""
    found = set()
    for path in files:
        if not path.endswith(".antt") or re.search(r"/(Proof|Answers|Invariants)\.antt$", path):
            continue
        block = False
        for line in read(path).split("\n"):
            if re.match(r"\S", line):
                block = bool(re.match(r"(pub )?(record|data) ", line))
                named = re.match(r"(?:abbrev |unfoldable )(?:pub )?([a-z][^\s:]*) :", line)
                if named and "-" in named.group(1):
                    found.add(named.group(1))
            elif block:
                named = re.match(r"\s+(?:pub )?([^\s:({]+(?: [^\s:({]+)*) :", line)
                if named:
                    found |= {n for n in named.group(1).split() if "-" in n}
    return found


def laws_apart(files, names):
    """Gives `_lem` to each law of LAWS, where a definition of that name is used in the same file, and where it is imported from there."""
    texts = {p: read(p) for p in files if p.endswith(".antt")}
    for law in LAWS:
        bare = re.compile(r"(?<![\w'.-])" + law + r"(?![\w'-])")
        camels = [n for n in names if is_camel(n) and snake(n) == law]
        homes = set()
        for path, text in texts.items():
            beside = any(re.search(r"(?<![\w'-])" + c + r"(?![\w'-])", text) for c in camels)
            if beside and bare.search(text):
                homes.add(path)
        for path in sorted(homes):
            module = "Rattle." + path[len("crates/"):-len(".antt")].replace("/", ".")
            for other, text in texts.items():
                if other in homes or re.search(r"use " + re.escape(module) + r"\.\{[^}]*(?<![\w'-])" + law + r"(?![\w'-])", text):
                    texts[other] = bare.sub(law + "_lem", text)
    for path, text in texts.items():
        write(path, text)


def turned(text, names):
    return TOKEN.sub(lambda m: names.get(m.group(0), m.group(0)) if m.group(0) in names else joined(m.group(0), names), text)


def joined(word, names):
    """A law's name keeps its dashes; each part that is a definition's name is turned."""
    if "-" not in word:
        return word
    return "-".join(names.get(part, part) if is_camel(part) else part for part in word.split("-"))


def outside_strings(text, names):
    parts = re.split(r'("(?:[^"\\]|\\.)*")', text)
    return "".join(p if i % 2 else turned(p, names) for i, p in enumerate(parts))


def key(word):
    return re.sub(r"[-_]", "", word).lower()


def cited(path, known, by_key):
    """The names in backquotes of a document, as the crates now have them."""

    def one(m):
        word = m.group(0)
        if word in known or word in COMMANDS or not (is_camel(word) or "-" in word):
            return word
        if snake(word) in known:
            return snake(word)
        fits = {k for k in by_key.get(key(word), set()) if k[0].isupper() == word[0].isupper()}
        return fits.pop() if len(fits) == 1 else word

    text = read(path)
    write(path, re.sub(r"`[^`\n]+`", lambda m: TOKEN.sub(one, m.group(0)), text))


def main():
    files = [f for f in tracked("crates") if f.endswith((".antt", ".rt", ".edit"))]
    words = set()
    for path in files:
        words |= set(TOKEN.findall(read(path)))
    names = {w: snake(w) for w in words if is_camel(w) and "-" not in w}
    names.update(OTHER)
    names.update({w: snake(w.replace("-", "_")) for w in dashed_members(files)})
    laws_apart(files, names)
    for path in files:
        text = read(path)
        write(path, outside_strings(text, names) if path.endswith(".rt") else turned(text, names))
    known = set()
    for path in files:
        known |= set(TOKEN.findall(read(path)))
    by_key = {}
    for word in known:
        by_key.setdefault(key(word), set()).add(word)
    for path in tracked("README.md", "docs/*.md", "docs/changes/*.md"):
        cited(path, known, by_key)


if __name__ == "__main__":
    os.chdir(subprocess.run(["git", "rev-parse", "--show-toplevel"], capture_output=True, text=True, check=True).stdout.strip())
    main()
