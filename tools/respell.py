#!/usr/bin/env python3
"""Spells this repository's own definitions and laws as today's library spells its own: words in snake case, types and modules in camel case.

    tools/respell.py [FOLDER]      once, in a checkout (or FOLDER, one) that the kit's port.py has just turned

tools/respelled.tsv has each old name and its new one. A law whose new name would be that of the word it speaks of ends in _law. A name is
taken only whole, and only in definitions, laws, contracts, comments and wrong versions, and in the papers between backquotes: names of
functions, strings and files stay. Behind a dot a name is one only if it is a field of a record of specs/ or proofs/ or stands behind its module.
"""
from __future__ import annotations

import re
import sys
from pathlib import Path
from typing import Callable, Dict, Set

HERE = Path(__file__).resolve().parent
TABLE: Dict[str, str] = dict(line.rstrip("\n").split("\t") for line in (HERE / "respelled.tsv").open(encoding="utf-8"))
TOKEN = re.compile(r"(?<![\w'-])[a-z][\w'-]*(?:\u2032)?(?![\w'-])")
PAPERS = ["README.md", "CONTRIBUTING.md", "hosts/README.md", "second/README.md", "bench/README.md"]
FIELD = re.compile(r"^ +(?:pub )?([a-z][\w'-]*)(?: \{[^}]*\})* :(?!:)", re.M)


def fields(root: Path) -> Set[str]:
    found: Set[str] = set()
    for file in root.glob("crates/*/*/*.antt"):
        found |= set(FIELD.findall(file.read_text(encoding="utf-8")))
    return found


def turned(text: str, of_records: Set[str]) -> str:
    def one(m: "re.Match[str]") -> str:
        name, at = m.group(), m.start()
        if at and text[at - 1] == ".":
            module = re.search(r"(?<![\w'.-])(?:[\w-]+\.)*[A-Z]\w*\.$", text[:at][-120:])
            if not module and name not in of_records:
                return name
        return TABLE.get(name, name)

    return TOKEN.sub(one, text)


def outside(pattern: str, text: str, turn: Callable[[str], str], keep: bool) -> str:
    """Turns what lies outside (or, if keep is false, inside) of what the pattern takes."""
    out, last = [], 0
    for m in re.finditer(pattern, text):
        out += [turn(text[last : m.start()]) if keep else text[last : m.start()], m.group() if keep else turn(m.group())]
        last = m.end()
    rest = text[last:]
    return "".join(out) + (turn(rest) if keep else rest)


def main() -> None:
    root = Path(sys.argv[1] if len(sys.argv) > 1 else ".").resolve()
    of_records = fields(root)

    def turn(text: str) -> str:
        return turned(text, of_records)

    for file in sorted(root.glob("crates/**/*")):
        if not file.is_file() or "out" in file.relative_to(root).parts:
            continue
        if file.suffix not in (".antt", ".rt", ".edit"):
            continue
        text = file.read_text(encoding="utf-8")
        if file.suffix == ".antt":
            new = turn(text)
        elif file.suffix == ".rt":
            new = outside(r'"(?:[^"\\\n]|\\.)*"', text, turn, True)
        else:
            new = outside(r'(?m)^file:.*$|"(?:[^"\\\n]|\\.)*"', text, turn, True)
        if new != text:
            file.write_text(new, encoding="utf-8")
    for name in PAPERS + sorted(str(p.relative_to(root)) for p in root.glob("docs/*.md")):
        file = root / name
        if file.exists():
            text = file.read_text(encoding="utf-8")
            new = outside(r"`[^`\n]+`", text, turn, False)
            if new != text:
                file.write_text(new, encoding="utf-8")


if __name__ == "__main__":
    main()
