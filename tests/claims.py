#!/usr/bin/env python3
"""Checks docs/CLAIMS.md, and what all documents name, against the code.

Each row of docs/CLAIMS.md has calls with their clauses, and its definitions and must-fail edits are there. The files that
a document names are there, and the definitions that it names with their file stand in it. Prints one line a problem.
"""

import re
import sys
from pathlib import Path

ROOT = Path(__file__).resolve().parent.parent
CRATES = ROOT / "crates"
CLAIMS = ROOT / "docs" / "CLAIMS.md"

BLOCK = re.compile(r"(?:pub(?:\(crate\))? )?(impl|trait)\b")
FUNCTION = re.compile(r"( *)(pub |pub\(crate\) )?fn (\w+)")
CLAUSE = re.compile(r"\s*(ensures|requires)\s+(\w+)?\s*\{")
# one name or several, and the file that has them
DEFINITION = re.compile(r"((?:`[^`]+`, )*`[^`]+`) \(`([^`]+)`\)")
FILE = re.compile(r"`([\w.]+/[\w./]+\.\w+)`")


class Function:
    """A function of a crate: its type or trait, whether others may call it, and its clauses."""

    def __init__(self, crate, module, owner, name, public, clauses):
        self.crate, self.module, self.owner, self.name = crate, module, owner, name
        self.public = public
        self.labels = {label or "-" for _, label in clauses}
        self.ensures = any(kind == "ensures" for kind, _ in clauses)

    def path(self):
        return "::".join(part for part in (self.crate, *self.module, self.owner, self.name) if part)

    def is_named(self, path):
        """Whether the path names it; where a type is brought up to the crate, its module may be left out."""
        short = "::".join(part for part in (self.crate, self.owner, self.name) if part)
        return path in (self.path(), short)


def owner_of(header):
    """The type of an impl, or the trait that is declared."""
    while re.search(r"<[^<>]*>", header):
        header = re.sub(r"<[^<>]*>", "", header)
    words = header.split("{")[0].split(" where ")[0].replace(":", " : ").split()
    return words[words.index("trait") + 1] if "trait" in words else words[-1]


def clauses_of(lines, indent):
    """The clauses between a function's name and its body, or the end of a trait's function."""
    clauses = []
    for line in lines:
        clause = CLAUSE.match(line)
        if clause:
            clauses.append(clause.groups())
        if line in (indent + "{", indent + "{}") or line.endswith("};"):
            break
        if not clauses and line.endswith(("{", "}", ";")):
            break
    return clauses


def functions_of(crate):
    """All functions of a crate, but for those of tests."""
    found = []
    source = CRATES / crate / "src"
    for file in sorted(source.rglob("*.rt")):
        module = file.relative_to(source).with_suffix("").parts
        if "tests" in module:
            continue
        module = () if module in (("lib",), ("main",)) else module
        lines = file.read_text().splitlines()
        owner, shared = None, False
        for number, line in enumerate(lines):
            if BLOCK.match(line):
                owner, shared = owner_of(line), line.startswith("pub trait")
            elif line.startswith("}"):
                owner, shared = None, False
            function = FUNCTION.match(line)
            if function:
                indent, public, name = function.groups()
                clauses = clauses_of(lines[number:], indent)
                public = shared or public == "pub "
                found.append(Function(crate, module, owner, name, public, clauses))
    return found


def defines(file, name):
    words = r"^ *(?:(?:abbrev|unfoldable|pub|record|data) )*" + re.escape(name) + r"(?=\s)"
    return file.is_file() and re.search(words, file.read_text(), re.MULTILINE)


def definitions_in(text):
    """Each definition that is named with its file: its name and the file."""
    return [(name, file) for names, file in DEFINITION.findall(text) for name in names.strip("`").split("`, `")]


def document_problems(path, crates):
    """What a document names and is not there. A path begins with a folder of the repository, or with a crate."""
    text, problems = path.read_text(encoding="utf-8"), []
    for file in sorted(set(FILE.findall(text))):
        first = file.split("/")[0]
        place = CRATES / file if first in crates else ROOT / file
        if (first in crates or (ROOT / first).is_dir()) and not place.is_file():
            problems.append(f"{path.name}: no file {file}")
    for name, file in definitions_in(text):
        if file.endswith(".antt") and file.split("/")[0] in crates and not defines(CRATES / file, name):
            problems.append(f"{path.name}: {file} defines no {name}")
    return problems


def listed(cell):
    """What a cell lists, without its quotes."""
    return [item.strip().strip("`") for item in cell.split(",")]


def row_problems(cells, functions):
    """What is wrong with a row of the table. Each call has a clause of the row, and each clause is one of a call."""
    if len(cells) != 5:
        return ["a row has five cells"]
    calls, labels = listed(cells[1]), listed(cells[2])
    found = {call: {label for f in functions if f.is_named(call) for label in f.labels} for call in calls}
    problems = [f"no function {call}" for call in calls if not any(f.is_named(call) for f in functions)]
    problems += [f"{call} has no clause of {cells[2]}" for call in calls if not found[call].intersection(labels)]
    problems += [f"{cells[1]}: no clause {label}" for label in labels if label not in set().union(*found.values())]
    definitions = definitions_in(cells[3])
    if cells[3] != "-" and not definitions:
        problems.append(f"{cells[1]}: no definition `NAME` (`FILE`)")
    for name, file in definitions:
        if not defines(CRATES / file, name):
            problems.append(f"{cells[1]}: {file} defines no {name}")
    folders = [CRATES / call.split("::")[0] / "must-fail" for call in calls]
    for edit in listed(cells[4]):
        if edit != "-" and not any((folder / f"{edit}.edit").is_file() for folder in folders):
            problems.append(f"{cells[1]}: no must-fail edit {edit}")
    return problems


def main():
    crates = [line.split(":")[0] for line in (ROOT / "crates.txt").read_text().splitlines() if line.strip()]
    functions = [function for crate in crates for function in functions_of(crate)]
    problems, rows = [], 0
    for number, line in enumerate(CLAIMS.read_text().splitlines(), 1):
        if line.startswith("|") and not line.startswith(("| Promise ", "|---")):
            rows += 1
            cells = [cell.strip() for cell in line.strip().strip("|").split("|")]
            problems += [f"docs/CLAIMS.md:{number}: {text}" for text in row_problems(cells, functions)]
    documents = [ROOT / "README.md", *sorted((ROOT / "docs").glob("*.md"))]
    problems += [problem for path in documents for problem in document_problems(path, crates)]
    for problem in problems:
        print(problem)
    if not problems:
        print(f"docs/CLAIMS.md: {rows} rows stand in the code, and what {len(documents)} documents name is there")
    return 1 if problems else 0


if __name__ == "__main__":
    sys.exit(main())
