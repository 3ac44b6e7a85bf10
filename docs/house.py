"""What is in the repository, read from its files: the crates and what they stand on, the names that code, definitions and laws declare,
the wrong versions. docs/check and docs/lists stand on this. No crate is known here by its name."""
from __future__ import annotations

import os
import re
from dataclasses import dataclass, field
from fnmatch import fnmatchcase
from functools import lru_cache
from pathlib import Path
from typing import Dict, Iterator, List, Set, Tuple

ROOT = Path(__file__).resolve().parent.parent


@dataclass(frozen=True)
class Name:
    """Something that is declared. Its kind is function, const, struct, enum, trait, type, mod, variant (code), definition, record, data, ruleset,
    constructor (antt) or field (both); a field, a variant, a constructor or a method has its type as owner. What an impl of a trait has is not
    public: the trait speaks for it."""

    name: str
    kind: str
    owner: str
    public: bool
    promised: bool  # a function that has an `ensures`
    file: str
    line: int

    @property
    def called(self) -> str:
        """How a paper names a function: a method with its type."""
        return f"{self.owner}::{self.name}" if self.owner else self.name

    @property
    def theorem(self) -> str:
        """The theorem that says that a public function has one answer."""
        return "one_" + re.sub(r"(?<=[a-z0-9])(?=[A-Z])", "_", self.called.replace("::", "_")).lower()


@dataclass(frozen=True)
class Module:
    """A file of antt: crates/CRATE/PART/NAME.antt, or one of those in proofs/FUNCTION/ (Invariants.antt, Answers.antt), whose name is FUNCTION."""

    crate: str
    part: str  # specs or proofs
    name: str
    of_function: bool
    names: Tuple[Name, ...]

    @property
    def full_name(self) -> str:
        return f"{self.crate}.{self.part}.{self.name}"


@dataclass(frozen=True)
class Edit:
    """A wrong version: crates/CRATE/must-fail/LABEL.edit."""

    crate: str
    label: str
    breaks: str  # its comment
    file: str


@dataclass
class Crate:
    name: str
    family: str
    is_static: bool  # a static library, for C
    stands_on: List[str]  # as crates.txt has it, without the kit's crates
    direct: List[str] = field(default_factory=list)  # of these, the ones that do not follow from the others
    layer: int = 0
    code: List[Name] = field(default_factory=list)
    modules: List[Module] = field(default_factory=list)
    edits: List[Edit] = field(default_factory=list)

    @property
    def is_program(self) -> bool:
        return (ROOT / "crates" / self.name / "src" / "main.rt").exists()

    def public_functions(self) -> List[Name]:
        """What lib.rt declares `pub`, and what it hands on: all of a `pub mod`, and what a `pub use` names. A program has none."""
        if self.is_program or not (ROOT / "crates" / self.name / "src" / "lib.rt").exists():
            return []
        source = f"crates/{self.name}/src/"
        text = read(source + "lib.rt")
        open_files = {source + "lib.rt"} | {f"{source}{m}.rt" for m in re.findall(r"^pub mod (\w+);", text, re.M)}
        uses = re.findall(r"^pub use (\w+)::(?:(\w+)|\{([\w\s,]+)\});", text, re.M)
        if len(uses) != len(re.findall(r"^pub use ", text, re.M)):
            raise SystemExit(f"{source}lib.rt: a `pub use` that docs/house.py cannot read")
        handed_on = {(f"{source}{module}.rt", name) for module, one, several in uses for name in re.findall(r"\w+", one or several)}
        functions = [n for n in self.code if n.kind == "fn" and n.public]
        types = {n.name for n in self.code if n.public and n.kind in ("struct", "enum")}
        return [n for n in functions if (not n.owner or n.owner in types) and (n.file in open_files or (n.file, n.owner or n.name) in handed_on)]


def read(path: str) -> str:
    return (ROOT / path).read_text(encoding="utf-8")


def found(pattern: str) -> List[str]:
    """The files and folders of the repository that match, in a fixed order."""
    return sorted(str(p.relative_to(ROOT)) for p in ROOT.glob(pattern))


@lru_cache(maxsize=None)
def made() -> Tuple[str, ...]:
    return tuple(line.strip("/") for line in read(".gitignore").split())


def is_made(path: str) -> bool:
    """It stands in a folder that .gitignore names: a script makes it, and it may be there or not."""
    parts = path.strip("/").split("/")
    folders = ["/".join(parts[:k]) for k in range(1, len(parts) + 1)]
    return any(parts[-1] == m or any(fnmatchcase(f, m) for f in folders) for m in made())


def kept_files() -> Iterator[str]:
    """Every file and folder that git would keep."""
    for folder, folders, files in os.walk(ROOT):
        here = Path(folder).relative_to(ROOT)
        folders[:] = sorted(f for f in folders if f != ".git" and not is_made(str(here / f)))
        yield from (str(here / name) for name in folders + sorted(files))


# ---- what is declared in a file

CODE = re.compile(r'(?P<public>pub )?(?:extern "C" )?(?P<kind>fn|const|struct|enum|trait|type|mod) (?P<name>\w+)')
MEMBER = re.compile(r"    (?P<public>pub )?(?P<name>\w+)(?=[:,(])")
IMPL = re.compile(r"impl(?:<[^{]*?>)? (?P<trait>.* for )?&?(?P<name>\w+)")
METHOD = re.compile(r"    (?P<public>pub )?fn (?P<name>\w+)")


def names_of_code(file: str) -> Iterator[Name]:
    """The items of a source file, which `rt fmt` lays out: items begin a line, fields, variants and methods stand four blanks in."""
    lines = read(file).splitlines()
    owner = kind = ""
    for number, line in enumerate(lines, 1):
        item, block, member, method = CODE.match(line), IMPL.match(line), MEMBER.match(line), METHOD.match(line)
        if item:
            kind = item["kind"]
            owner = item["name"] if kind in ("struct", "enum", "trait") and line.endswith("{") else ""
            yield Name(item["name"], kind, "", bool(item["public"]), kind == "fn" and has_ensures(lines[number - 1 :], ""), file, number)
        elif block:
            kind, owner = "trait" if block["trait"] else "impl", block["name"]
        elif line.startswith("}"):
            owner = ""
        elif owner and method and kind in ("impl", "trait"):
            public = kind == "impl" and bool(method["public"])
            yield Name(method["name"], "fn", owner, public, has_ensures(lines[number - 1 :], "    "), file, number)
        elif owner and member and kind in ("struct", "enum"):
            yield Name(member["name"], "field" if kind == "struct" else "variant", owner, True, False, file, number)


def has_ensures(lines: List[str], blanks: str) -> bool:
    """Whether the function that begins here has an `ensures` before its body."""
    for line in lines:
        if line.startswith(blanks + "    ensures "):
            return True
        if line in (blanks + "{", "") or (line.endswith((" {", ";")) and not line.startswith(blanks + "    ")):
            return False
    return False


ANTT_NAME = r"(?P<name>[^\s(){}\[\];,.:`]+)"
TYPE = re.compile(r"(?P<public>pub )?(?P<kind>record|data) " + ANTT_NAME)
RULESET = re.compile(r"(?P<public>pub )?(?P<kind>ruleset) " + ANTT_NAME)
SIGNATURE = re.compile(r"(?:abbrev |unfoldable )?(?P<public>pub )?" + ANTT_NAME + r" :(?:\s|$)")


def names_of_antt(file: str) -> Iterator[Name]:
    """What a file of antt declares for others. A block (`module _ .. where`, a record, a data type) has its declarations two blanks further
    in; what stands deeper belongs to one definition."""
    blocks = [(0, "", "")]  # where the declarations of each open block stand, and the kind and name of the type that it declares
    opening = None  # a block whose `where` has not come yet
    for number, line in enumerate(read(file).splitlines(), 1):
        text = line.strip()
        if not text or text.startswith("--"):
            continue
        indent = len(line) - len(line.lstrip())
        while indent < blocks[-1][0]:
            blocks.pop()
        if indent == blocks[-1][0]:
            opening = None
            declared = TYPE.match(text) or RULESET.match(text)
            if text.startswith("module ") or (declared and declared["kind"] != "ruleset"):
                opening = (indent + 2, declared["kind"], declared["name"]) if declared else (indent + 2, "", "")
            declared = declared or SIGNATURE.match(text)
            if declared:
                yield antt_name(declared, blocks[-1], file, number)
        if opening and text.endswith("where"):
            blocks.append(opening)
            opening = None


def antt_name(declared: re.Match, block: Tuple[int, str, str], file: str, number: int) -> Name:
    within = {"record": "field", "data": "constructor"}.get(block[1])
    kind = within or declared.groupdict().get("kind") or "definition"
    return Name(declared["name"], kind, block[2], bool(declared["public"]), False, file, number)


# ---- the house


def read_house() -> Dict[str, Crate]:
    """Every crate of crates.txt by its name, in that order."""
    crates = dict(listed_crates())
    for crate in crates.values():
        crate.stands_on = [d for d in crate.stands_on if d in crates]
    below: Dict[str, Set[str]] = {}
    for crate in crates.values():
        put_in_its_layer(crate, crates, below)
        folder = f"crates/{crate.name}/"
        crate.code = [n for f in found(folder + "src/*.rt") for n in names_of_code(f)]
        crate.modules = list(modules_of(crate.name))
        crate.edits = [read_edit(crate.name, f) for f in found(folder + "must-fail/*.edit")]
    return crates


def listed_crates() -> Iterator[Tuple[str, Crate]]:
    """The lines `NAME: crates`, or `NAME staticlib: crates`, under the section `# ---- FAMILY: words` before them."""
    family = ""
    for line in read("crates.txt").splitlines():
        section = re.match(r"# ---- ([^:]+)", line)
        if section:
            family = section[1].strip()
        elif ":" in line and not line.startswith("#"):
            head, stands_on = line.split(":", 1)
            name, *kind = head.split()
            yield name, Crate(name, family, kind == ["staticlib"], stands_on.partition("#")[0].split())


def kit_crates() -> Set[str]:
    """The crates that crates.txt stands on and does not list."""
    crates = dict(listed_crates())
    return {d for c in crates.values() for d in c.stands_on if d not in crates}


def put_in_its_layer(crate: Crate, crates: Dict[str, Crate], below: Dict[str, Set[str]]) -> Set[str]:
    """Fills in the layer and what follows from nothing else; gives back all that the crate stands on."""
    if crate.name not in below:
        under = {d: put_in_its_layer(crates[d], crates, below) for d in crate.stands_on}
        below[crate.name] = set(under).union(*under.values())
        crate.layer = 1 + max((crates[d].layer for d in under), default=0)
        crate.direct = [d for d in under if not any(d in under[e] for e in under)]
    return below[crate.name]


def modules_of(crate: str) -> Iterator[Module]:
    for part in ("specs", "proofs"):
        for file in found(f"crates/{crate}/{part}/**/*.antt"):
            path = Path(file)
            of_function = path.parent.name != part
            name = path.parent.name if of_function else path.stem
            yield Module(crate, part, name, of_function, tuple(names_of_antt(file)))


def read_edit(crate: str, file: str) -> Edit:
    """Its first lines, each with a `#`, say what it breaks."""
    comment = []
    for line in read(file).splitlines():
        if not line.startswith("#"):
            break
        comment.append(line.lstrip("# ").strip())
    return Edit(crate, Path(file).stem, " ".join(comment), file)
