#!/usr/bin/env python3
"""Checks that a word of the definitions which is declared in two crates stands in the tables of docs/WORDS.md.

    tests/words.py               checks: each such word has a row with exactly its crates, and each row has such words
    tests/words.py WORD..        prints where each word is declared, with the comment above it

A word is a definition that public clauses may cite, as tests/statement.py reads them, or a ghost member of a public
trait. Fields of records are none, nor is what only inner functions cite. Prints one line a problem.
"""

import re
import sys
from pathlib import Path

import statement

WORDS = Path(__file__).resolve().parent.parent / "docs" / "WORDS.md"

TRAIT = re.compile(r"^pub trait \w+.*?^}", re.MULTILINE | re.DOTALL)
MEMBER = re.compile(r"^    ghost (\w+): \{", re.MULTILINE)
QUOTED = re.compile(r"`([^`]+)`")


def members(crate):
    """The ghost members of a crate's public traits: each with its file."""
    for file in sorted((statement.CRATES / crate / "src").rglob("*.rt")):
        for trait in TRAIT.findall(file.read_text(encoding="utf-8")):
            for name in MEMBER.findall(trait):
                yield file, name


def declared():
    """Each word, with its crates from below, and in each of them the places: a file, and the words above it."""
    places = {}
    lines = (statement.CRATES.parent / "crates.txt").read_text(encoding="utf-8").splitlines()
    for crate in (line.split(":")[0].strip() for line in lines if line.strip()):
        for file, (names, comment) in statement.table(crate):
            for name in names:
                places.setdefault(name, {}).setdefault(crate, []).append((file, comment))
        for file, name in members(crate):
            places.setdefault(name, {}).setdefault(crate, []).append((file, "a trait's ghost member"))
    return places


def rows():
    """The rows of the tables: the line, the words, the crates and what is meant."""
    for number, line in enumerate(WORDS.read_text(encoding="utf-8").splitlines(), 1):
        cells = [cell.strip() for cell in line.strip().strip("|").split("|")]
        if line.startswith("| `") and len(cells) == 3:
            yield number, QUOTED.findall(cells[0]), QUOTED.findall(cells[1]), cells[2]


def problems(places):
    listed = set()
    for number, words, crates, meaning in rows():
        if not meaning:
            yield f"docs/WORDS.md:{number}: nothing says what is meant"
        for word in words:
            found = places.get(word, {})
            if word in listed:
                yield f"docs/WORDS.md:{number}: {word} has another row"
            elif len(found) < 2:
                yield f"docs/WORDS.md:{number}: {word} is declared in {', '.join(found) or 'no crate'} alone"
            elif set(found) != set(crates):
                yield f"docs/WORDS.md:{number}: {word} is declared in {', '.join(found)}"
            listed.add(word)
    for word, found in sorted(places.items()):
        if len(found) > 1 and word not in listed:
            yield f"{word} is declared in {', '.join(found)}: rename one of them, or give it a row in docs/WORDS.md"


def check():
    places = declared()
    found = list(problems(places))
    for problem in found:
        print(problem)
    if not found:
        several = sum(len(crates) > 1 for crates in places.values())
        print(f"docs/WORDS.md: {several} of {len(places)} words stand in several crates, and it has each")
    return 1 if found else 0


def show(words):
    places = declared()
    for word in words:
        for crate, found in places.get(word, {}).items():
            for file, comment in found:
                print(f"{word} | {crate} | {file.name} | {comment}")
    return 0 if all(word in places for word in words) else 1


if __name__ == "__main__":
    sys.exit(show(sys.argv[1:]) if sys.argv[1:] else check())
