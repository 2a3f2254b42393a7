"""All that is told of the lists of a source, as values: the document that `asl lists` prints (docs/CLI.md, "Lists")."""
from __future__ import annotations

import dataclasses
import json
from typing import Any, Dict, Iterable, List, Optional, Tuple, Union

from ._commands import Lock, Text, answer, lock_of

Entry = Dict[str, Any]

_LIMITS = {*map(str, range(9)), "auto"}


@dataclasses.dataclass(frozen=True)
class Place:
    """Where something stands: its function, its line from 1, its first byte and the one after its last."""

    function: str
    line: int
    start: int
    end: int


@dataclasses.dataclass(frozen=True)
class Need:
    """What a section needs at its start, as a line of an assembly text and in the words of the source, and the statements that need it."""

    text: str
    words: str
    statements: Tuple[Place, ...]


@dataclasses.dataclass(frozen=True)
class ListedLock:
    """A lock of a list: `lock` as `Lock` has it; `words`, what it is in the words of the source; `klass`, of a class lock its class and of
    an expression that of its cell, if it has one; and the needs that it covers."""

    lock: Lock
    words: str
    klass: Optional[int]
    needs: Tuple[Need, ...]

    @property
    def statements(self) -> Tuple[Place, ...]:
        """The places of the statements that need it, in the order of the text."""
        return tuple(sorted({place for need in self.needs for place in need.statements}, key=lambda place: (place.start, place.end)))


@dataclasses.dataclass(frozen=True)
class ListedSection:
    """A section with its list. `reads_cells`: evaluating it reads cells; `writes`: some lock is for writing."""

    place: Place
    locks: Tuple[ListedLock, ...]
    reads_cells: bool
    writes: bool


@dataclasses.dataclass(frozen=True)
class ClassEntry:
    """A class: the names of its globals, and where the `new` statements of its objects stand."""

    number: int
    globals: Tuple[str, ...]
    sites: Tuple[Place, ...]


@dataclasses.dataclass(frozen=True)
class FunctionEntry:
    """A function, and whether `main` reaches it, itself or through others."""

    place: Place
    reached: bool


@dataclasses.dataclass(frozen=True)
class Notice:
    """What a text may have forgotten: a function that `main` does not reach (`kind` 'unreached'), or an access by a pointer that nothing
    in the text fills ('no class')."""

    kind: str
    place: Place


@dataclasses.dataclass(frozen=True)
class Document:
    """All that is told of the lists of a source. `driver` is what was added behind it to call its entries. `text` is the document as it
    was printed."""

    k: int
    driver: str
    classes: Tuple[ClassEntry, ...]
    functions: Tuple[FunctionEntry, ...]
    sections: Tuple[ListedSection, ...]
    notices: Tuple[Notice, ...]
    text: str = dataclasses.field(compare=False, repr=False)

    @property
    def unreached(self) -> Tuple[str, ...]:
        """The functions that `main` does not reach, whose sections may get lists that are too short for another caller."""
        return tuple(notice.place.function for notice in self.notices if notice.kind == "unreached")

    def json(self, indent: Optional[int] = None) -> str:
        """The document itself (docs/lists.schema.json), laid out."""
        return json.dumps(json.loads(self.text), indent=indent)


def _place(entry: Entry, function: str = "function") -> Place:
    return Place(entry[function], entry["line"], entry["from"], entry["to"])


def _places(entries: List[Entry]) -> Tuple[Place, ...]:
    return tuple(map(_place, entries))


def _lock(entry: Entry) -> ListedLock:
    base = entry["base"]
    names = {} if base is None else {f"r{base['register']}" if "register" in base else f"g{base['global']}": base["name"]}
    needs = tuple(Need(need["text"], need["words"], _places(need["statements"])) for need in entry["needs"])
    return ListedLock(lock_of(entry["text"], names), entry["words"], entry["class"], needs)


def _section(entry: Entry) -> ListedSection:
    return ListedSection(_place(entry), tuple(map(_lock, entry["locks"])), entry["reads_cells"], entry["writes"])


def document_of(text: str) -> Document:
    """The values of a document that `asl lists` has printed."""
    entry = json.loads(text)
    return Document(
        entry["k"],
        entry["driver"],
        tuple(ClassEntry(one["class"], tuple(one["globals"]), _places(one["sites"])) for one in entry["classes"]),
        tuple(FunctionEntry(_place(one, "name"), one["reached"]) for one in entry["functions"]),
        tuple(map(_section, entry["sections"])),
        tuple(Notice(one["warning"], _place(one)) for one in entry["warnings"]),
        text)


def lists(source: Text, k: Union[int, str] = 3, entries: Union[str, Iterable[str]] = ()) -> Document:
    """All that is told of the lists of a source: `k` is 0 to 8, or 'auto' for the greatest that is accepted. Where entries are named, by one
    name or by several, the source has no `main`, and one is added behind it that calls each of them by a function of its own."""
    if str(k) not in _LIMITS:
        raise ValueError(f"k is a number from 0 to 8 or 'auto', not {k!r}")
    words = ["lists", "--k", str(k)]
    for entry in [entries] if isinstance(entries, str) else entries:
        if not isinstance(entry, str):
            raise TypeError(f"an entry is the name of a function, not {entry!r}")
        words += ["--entry", entry]
    return document_of(answer(words, source, 3 if k == "auto" else int(k)).decode())
