#!/usr/bin/env python3
"""Prints what has to be believed of a public call: its contract, and every definition that it reaches.

    tests/statement.py CRATE::MODULE::TYPE::CALL     prints the definitions, those that others stand on first
    tests/statement.py --tables [CRATE]              prints the definitions of a crate, or of all, as tables of Markdown
    tests/statement.py                               counts the lines for the calls that a user relies on

Words of std are named at the end and not printed. A table has each public definition with its file and the comment
above it; one without a comment is named beside the one before it. Without arguments it is a check: each call has
to be there, and each definition in a table has words.
"""

import re
import sys
from itertools import takewhile
from pathlib import Path

CRATES = Path(__file__).resolve().parent.parent / "crates"
RELIED_ON = [
    "resp_codec::reader::Reader::next",
    "effect_log::reader::LogReader::next",
    "restart::opening::open_log",
    "server_shell::top::modhost",
]

HEAD = re.compile(r"^( *)(?:(?:abbrev|unfoldable|pub) )*(?:(?:record|data) )?([^\s:({]+)(?= *[:({]| *$)")
OPENS = re.compile(r"^ *(?:abbrev|unfoldable|pub|record|data)\b|^ *[^\s:({]+ *(?:\{[^}]*\} *)?: ")
USE = re.compile(r"^\s*(?:ghost |pub )*use (Rattle\.[\w.]+?)(?:\.\{([^}]*)\}|\s+as\s+(\w+))?;?\s*$")
HANDED_ON = re.compile(r"^pub use (Rattle\.\w+\.specs\.[\w.]+)$", re.MULTILINE)
WORD = re.compile(r"[^\s(){}\[\],;]+")


def modules():
    """Each file of definitions, by the name that others import it under."""
    found = {}
    for crate in sorted(CRATES.iterdir()):
        for path in sorted((crate / "specs").rglob("*.antt")):
            inner = ".".join(path.relative_to(crate / "specs").with_suffix("").parts)
            found[f"Rattle.{crate.name}.specs.{inner}"] = path
    # a crate may hand on the definitions of one below it
    for crate in sorted(CRATES.iterdir()):
        lines = crate / "specs" / "Lib.antt"
        for module in HANDED_ON.findall(lines.read_text(encoding="utf-8")) if lines.is_file() else []:
            found[f"Rattle.{crate.name}.specs.{module.rsplit('.', 1)[1]}"] = found[module]
    return found


def uses(lines):
    """The names that lines import: each with the module that it comes from."""
    names, aliases = {}, {}
    for line in lines:
        use = USE.match(line)
        if not use:
            continue
        module, listed, alias = use.groups()
        for item in (listed or "").split(","):
            item = item.strip()
            if item:
                whole, _, short = item.partition(" as ")
                names[short or whole] = (module, whole)
        if alias:
            aliases[alias] = module
        elif not listed:
            aliases[module.rsplit(".", 1)[1]] = module
    return names, aliases


class Definitions:
    """The definitions of one file, in order, each with its comment and its clauses."""

    def __init__(self, path):
        lines = path.read_text(encoding="utf-8").splitlines()
        self.path, self.blocks = path, {}
        self.names, self.aliases = uses(lines)
        comment, current = [], None
        for line in lines:
            if USE.match(line) or line.lstrip().startswith(("mod ", "pub mod ", "module ", "infix")):
                comment, current = [], None
            elif not line.strip():
                comment, current = [], None
            elif line.lstrip().startswith("--"):
                (comment if current is None else self.blocks[current]).append(line)
            elif current is None and OPENS.match(line) and HEAD.match(line):
                current = HEAD.match(line).group(2)
                self.blocks[current] = comment + [line]
                comment = []
            elif current is not None:
                self.blocks[current].append(line)


class Statement:
    """What a contract reaches."""

    def __init__(self):
        self.modules, self.read, self.order, self.std = modules(), {}, [], set()

    def definitions(self, module):
        if module not in self.read and module in self.modules:
            self.read[module] = Definitions(self.modules[module])
        return self.read.get(module)

    def reach(self, text, names, aliases, own=None):
        """Adds what the words of a text name, and what that stands on."""
        for word in WORD.findall(text):
            head, _, tail = word.partition(".")
            if own and word in self.read[own].blocks:
                self.add(own, word)
            elif word in names:
                self.add(*names[word])
            elif head in aliases and tail:
                self.add(aliases[head], tail.split(".")[0])

    def add(self, module, name):
        definitions = self.definitions(module)
        if definitions and name not in definitions.blocks and name in definitions.names:
            return self.add(*definitions.names[name])
        if definitions is None or name not in definitions.blocks:
            if module.startswith("Rattle.std"):
                self.std.add(name)
            return
        if (module, name) in self.order or (module, name) in getattr(self, "open", set()):
            return
        self.open = getattr(self, "open", set()) | {(module, name)}
        body = "\n".join(line.split("--")[0] for line in definitions.blocks[name])
        self.reach(body, definitions.names, definitions.aliases, module)
        self.order.append((module, name))

    def lines(self):
        return sum(len(self.read[module].blocks[name]) for module, name in self.order)


def contract(path):
    """The clauses of a call, and the lines of its file, whose imports they use."""
    parts = path.split("::")
    crate, name = parts[0], parts[-1]
    places = [CRATES / crate / "src" / f"{part}.rt" for part in parts[1:-1]]
    for file in [place for place in places if place.is_file()] + sorted((CRATES / crate / "src").rglob("*.rt")):
        lines = file.read_text(encoding="utf-8").splitlines()
        for number, line in enumerate(lines):
            if re.match(rf"\s*pub fn {re.escape(name)}\b", line):
                clauses = []
                for after in lines[number + 1 :]:
                    if after.strip() in ("{", "{}"):
                        return "\n".join(clauses), lines
                    if clauses or re.match(r"\s*(ensures|requires)", after):
                        clauses.append(after)
    return None


def statement(path):
    found = contract(path)
    if found is None:
        return None
    clauses, lines = found
    reached = Statement()
    reached.reach(clauses, *uses(lines))
    return clauses, reached


def show(path):
    found = statement(path)
    if found is None:
        print(f"no public call {path}")
        return 1
    clauses, reached = found
    for module, name in reached.order:
        print(f"-- {module}")
        print("\n".join(reached.read[module].blocks[name]), end="\n\n")
    print(f"-- {path}\n{clauses}\n")
    print("-- of std:", ", ".join(sorted(reached.std)))
    print(f"-- {len(reached.order)} definitions of {reached.lines()} lines, {len(clauses.splitlines())} of clauses")
    return 0


def check():
    status = 0
    for path in RELIED_ON:
        found = statement(path)
        if found is None:
            print(f"tests/statement.py: no public call {path}")
            status = 1
        else:
            clauses, reached = found
            print(f"{path}: {len(reached.order)} definitions of {reached.lines()} lines, "
                  f"{len(clauses.splitlines())} of clauses")
    rows = [row for crate in crates_with_specs() for row in table(crate)]
    for file, (names, comment) in rows:
        if not comment:
            print(f"tests/statement.py: no words above {names[0]} of {file.relative_to(CRATES)}")
            status = 1
    print(f"tables: {sum(len(names) for _, (names, _) in rows)} definitions in words")
    return status


def rows_of(path):
    """The public definitions of a file in order: the one with a comment and those without behind it, and the comment.

    Where the first has none, the file's first line stands for it.
    """
    first = path.read_text(encoding="utf-8").split("\n", 1)[0]
    rows, header = [], first.lstrip("-").strip() if first.startswith("--") else ""
    for name, block in Definitions(path).blocks.items():
        above = list(takewhile(lambda line: line.lstrip().startswith("--"), block))
        comment = " ".join(line.strip().lstrip("-").strip() for line in above)
        if not re.match(r" *(?:(?:abbrev|unfoldable) )?pub ", block[len(above)]):
            continue
        if comment or not rows:
            rows.append(([name], comment or header))
        else:
            rows[-1][0].append(name)
    return rows


def table(crate):
    """What a crate's public clauses may cite, in words, by its file; what only inner functions cite is left out."""
    files = sorted((CRATES / crate / "specs").glob("*.antt"))
    return [(file, row) for file in files if file.name not in ("Lib.antt", "inner.antt") for row in rows_of(file)]


def print_table(crate):
    print(f"## `{crate}/specs`\n\n| Name | File | In words |\n|---|---|---|")
    for file, (names, comment) in table(crate):
        words = comment.replace("|", "\\|")
        beside = "; beside it " + ", ".join(f"`{name}`" for name in names[1:]) if names[1:] else ""
        print(f"| `{names[0]}` | `{file.name}` | {words}{beside} |")
    print()


def crates_with_specs():
    lines = (CRATES.parent / "crates.txt").read_text(encoding="utf-8").splitlines()
    return [crate for crate in (line.split(":")[0].strip() for line in lines) if (CRATES / crate / "specs").is_dir()]


def print_tables(asked):
    crates = crates_with_specs()
    unknown = [crate for crate in asked if crate not in crates]
    for crate in unknown:
        print(f"no definitions of a crate {crate}")
    for crate in [] if unknown else asked or crates:
        print_table(crate)
    return 1 if unknown else 0


def main(words):
    if words[:1] == ["--tables"]:
        return print_tables(words[1:])
    return show(words[0]) if words else check()


if __name__ == "__main__":
    sys.exit(main(sys.argv[1:]))
