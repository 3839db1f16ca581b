"""The public calls of the crates with the labels of their clauses, read from the sources.

A call is public where its crate's `lib.rt` shows it: a function, a method of a type, a call of a trait, or a call that
a type has from a trait of the repository.
"""
import re
from pathlib import Path
from typing import Iterator, NamedTuple

# What the label of a call's only clause is where it has no name.
UNNAMED = ""


class Call(NamedTuple):
    """A call, the type or trait that it is of, the labels of its clauses, the trait that the type has it from, and the
    labels that it has there."""

    owner: str
    name: str
    labels: tuple[str, ...]
    trait: str = ""
    inherited: tuple[str, ...] = ()

    def __str__(self) -> str:
        return f"{self.owner}::{self.name}" if self.owner else self.name


class Item(NamedTuple):
    """An item of a file: its attributes, its text up to its body, and its body; a `;` has none."""

    attributes: str
    head: str
    body: str


def bare(text: str) -> str:
    """The text without comments, and with nothing in its strings and characters, so that braces match."""
    pattern = re.compile(r'//[^\n]*|/\*.*?\*/|b?"(?:\\.|[^"\\])*"|b?\'(?:\\.[^\']*|[^\'\\])\'', re.S)
    return pattern.sub(lambda found: " " if found[0].startswith("/") else '""', text)


def closing(text: str, place: int) -> int:
    """The place behind the brace that closes the one at this place."""
    depth = 0
    for found in re.compile("[{}]").finditer(text, place):
        depth += 1 if found[0] == "{" else -1
        if depth == 0:
            return found.end()
    raise ValueError("a brace isn't closed")


def items(text: str) -> Iterator[Item]:
    """The items of a file or of a block, which is bare."""
    place = 0
    while True:
        start = re.compile(r"\s*((?:#!?\[[^\]]*\]\s*)*)").match(text, place)
        attributes, place = start[1], start.end()
        if place >= len(text):
            return
        end = end_of_head(text, place)
        if end == len(text):
            return
        stop = closing(text, end) if text[end] == "{" else end + 1
        yield Item(attributes, text[place:end].strip(), text[end + 1 : stop - 1])
        place = stop


def end_of_head(text: str, start: int) -> int:
    """The place of the brace that opens an item's body, or of the `;` that stands for it."""
    place = start
    while True:
        # A `;` in brackets parts an array's type from its length.
        found = re.compile(r"\[[^\[\]]*;[^\[\]]*\]|[{;]").search(text, place)
        if not found:
            return len(text)
        if found[0].startswith("["):
            place = found.end()
        elif found[0] == "{" and belongs_to_head(text[start : found.start()]):
            place = closing(text, found.start())
        else:
            return found.start()


def belongs_to_head(head: str) -> bool:
    """Whether a brace behind this text opens a clause, a ghost item or a list of names, and no body."""
    if re.match(r"(pub\s+)?use\b|ghost\b", head):
        return True
    last = head.rsplit("}", 1)[-1]
    return bool(re.search(r"\b(ensures\*?|requires\*?|decreases\*?)\s*\w*\s*$", last))


def is_test(item: Item) -> bool:
    return "cfg(test)" in item.attributes or "#[test]" in item.attributes


def labels_of(head: str) -> tuple[str, ...]:
    return tuple(found[1] for found in re.finditer(r"\bensures\*?\s*(\w*)\s*\{", head))


FUNCTION = re.compile(r"(pub(?:\([^)]*\))?\s+)?(?:const\s+|unsafe\s+|ghost\s+)*fn\s+(\w+)")


class Crate:
    """A crate's sources, module by module."""

    def __init__(self, folder: Path):
        self.folder = folder
        self.modules: dict[str, list[Item]] = {}
        root = folder / "src" / "lib.rt"
        if root.is_file():
            self.read(root, "")

    def read(self, path: Path, module: str) -> None:
        self.modules[module] = list(items(bare(path.read_text(encoding="utf-8"))))
        for item in self.modules[module]:
            found = re.fullmatch(r"(?:pub(?:\([^)]*\))?\s+)?mod\s+(\w+)", item.head)
            if not found or is_test(item) or item.body.strip():
                continue
            base = path.parent if path.name in ("lib.rt", "mod.rt") else path.parent / path.stem
            for file in (base / f"{found[1]}.rt", base / found[1] / "mod.rt"):
                if file.is_file():
                    self.read(file, f"{module}::{found[1]}".removeprefix("::"))

    def shown(self, module: str = "") -> Iterator[tuple[str, str]]:
        """The names that a module shows, each with the module where it is declared."""
        for item in self.modules.get(module, []):
            if is_test(item) or not re.match(r"pub\s", item.head):
                continue
            used = re.match(r"pub\s+use\s+(.*)", item.head, re.S)
            inner = re.fullmatch(r"pub\s+mod\s+(\w+)", item.head)
            kinds = "fn|struct|enum|trait|type|const|static"
            declared = re.match(rf"pub\s+(?:const\s+|unsafe\s+)*(?:{kinds})\s+(\w+)", item.head)
            if used:
                yield from self.used(module, used[1])
            elif inner:
                yield from self.shown(f"{module}::{inner[1]}".removeprefix("::"))
            elif declared:
                yield declared[1], module

    def used(self, module: str, path: str) -> Iterator[tuple[str, str]]:
        head, _, names = path.partition("{")
        if not names:
            head, _, names = path.rpartition("::")
        head = head.strip().removeprefix("crate::").removeprefix("self::").strip(":")
        inner = f"{module}::{head}".removeprefix("::")
        if inner not in self.modules:
            inner = head
        if inner not in self.modules:
            return
        below = dict(self.shown(inner))
        for name in re.findall(r"\w+", re.sub(r"\w+\s+as\s+", "", names)):
            yield name, below.get(name, inner)

    def calls(self) -> list[Call]:
        """The public calls, sorted by their name."""
        names = dict(self.shown())
        found = []
        for module, inside in self.modules.items():
            for item in inside:
                if not is_test(item):
                    found += self.calls_of(item, module, names)
        return sorted(found)

    def calls_of(self, item: Item, module: str, names: dict[str, str]) -> list[Call]:
        function = FUNCTION.match(item.head)
        if function:
            is_shown = function[1] == "pub " and names.get(function[2]) == module
            return [Call("", function[2], labels_of(item.head))] if is_shown else []
        trait = re.match(r"pub\s+trait\s+(\w+)", item.head)
        if trait and trait[1] in names:
            return list(methods(item, trait[1], "", False))
        block = re.match(r"impl\s*(?:<.*?>\s*)?(?:(\w+)(?:<[^>]*>)?\s+for\s+)?(\w+)", item.head)
        if block and block[2] in names:
            return list(methods(item, block[2], block[1] or "", not block[1]))
        return []


def methods(block: Item, owner: str, trait: str, wants_pub: bool) -> Iterator[Call]:
    for item in items(block.body):
        function = FUNCTION.match(item.head)
        if function and not is_test(item) and (not wants_pub or (function[1] or "").strip() == "pub"):
            yield Call(owner, function[2], labels_of(item.head), trait)


def calls_by_crate(crates: Path) -> dict[str, list[Call]]:
    """The public calls of each crate. One that a type has from a trait counts where the trait is of the repository."""
    found = {folder.name: Crate(folder).calls() for folder in sorted(crates.iterdir()) if (folder / "src").is_dir()}
    labels = {(call.owner, call.name): call.labels for calls in found.values() for call in calls if not call.trait}
    return {crate: list(with_inherited(calls, labels)) for crate, calls in found.items()}


def with_inherited(calls: list[Call], labels: dict[tuple[str, str], tuple[str, ...]]) -> Iterator[Call]:
    for call in calls:
        if not call.trait:
            yield call
        elif (call.trait, call.name) in labels:
            yield call._replace(inherited=labels[call.trait, call.name])
