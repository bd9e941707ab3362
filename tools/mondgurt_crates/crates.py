"""Which crates there are, what each says of itself, and which others it names: read from crates.txt and from the crates' own files."""

from __future__ import annotations

import re
from pathlib import Path
from typing import NamedTuple

from mondgurt_layout.files import Unfit

# Who names whom.
Names = dict[str, set[str]]

COMMENT = re.compile(r"(?://|--).*")
CALLED = re.compile(r"\b([a-z]+)::")
NAMED = re.compile(r"\bRattle\.([a-z]+)")


class Crate(NamedTuple):
    """A crate: what its source says first, whether it has code, is a program, is linked by C, and whom its code calls and all of it names."""

    name: str
    says: str
    has_code: bool
    is_program: bool
    is_linked: bool
    calls: set[str]
    names: set[str]


def first_sentence(source: str) -> str:
    """The first sentence of the comment at the head of a source."""
    comment = " ".join(line[2:].strip() for line in source.splitlines() if line.startswith("//"))
    return re.split(r"(?<=\.)\s", comment)[0].rstrip(".")


def read_crate(folder: Path, known: set[str]) -> Crate:
    """A crate, from its files."""
    others = known - {folder.name}
    sources = [path.read_text(encoding="utf-8") for path in sorted(folder.glob("src/*.rt"))]
    code = "\n".join(COMMENT.sub("", source) for source in sources)
    written = "\n".join(COMMENT.sub("", path.read_text(encoding="utf-8")) for path in sorted(folder.rglob("*.antt")))
    calls = set(CALLED.findall(code)) & others
    names = set(NAMED.findall(written + "\n".join(sources))) & others
    return Crate(
        folder.name,
        first_sentence(sources[0]),
        re.search(r"\bfn ", code) is not None,
        (folder / "src/main.rt").exists(),
        "#[unsafe(no_mangle)]" in code,
        calls,
        calls | names,
    )


def read_crates(root: Path) -> list[Crate]:
    """The crates of crates.txt, in its order, each after all that it names; or Unfit, where that is not so."""
    file = root / "crates.txt"
    lines = file.read_text(encoding="utf-8").splitlines()
    # A static library has the word staticlib after its name. A line also has what its crate uses of the kit, which has no line of its own.
    listed = {head.split()[0]: rests_on for head, rests_on in (line.split(":") for line in lines if line and not line.startswith("#"))}
    crates: list[Crate] = []
    for name, rests_on in listed.items():
        crate = read_crate(root / "crates" / name, set(listed))
        for other in sorted(crate.names):
            if other not in (before.name for before in crates):
                raise Unfit(file, f"{name} names {other}, which does not stand before it")
            if other not in rests_on.split():
                raise Unfit(file, f"{name} names {other}, which its line does not have")
        crates.append(crate)
    return crates


def reached(names: Names) -> Names:
    """Whom each reaches, by one step or by several; those whom one names come before it."""
    reach: Names = {}
    for name, others in names.items():
        reach[name] = others.union(*(reach[other] for other in others))
    return reach


def direct(names: Names) -> Names:
    """The same without what is reached by way of another."""
    reach = reached(names)
    return {name: {other for other in others if not any(other in reach[via] for via in others)} for name, others in names.items()}
