"""What the evaluation of a list sees, and what it asks for (docs/EMBEDDING.md, "The request of a list from C")."""
from __future__ import annotations

import ctypes
import dataclasses
from typing import Any, Iterable, List, Optional, Sequence, Tuple, Union

ROOT, CLASS, LEAF = 0, 1, 2
_KINDS = {ROOT: "root", CLASS: "class", LEAF: "leaf"}
_MODES = {1: "IS", 3: "IX", 5: "S", 7: "SIX", 15: "X"}

Cell = Tuple[int, int]


def _must_fit(value: object, bits: int, what: str) -> None:
    if not isinstance(value, int) or not 0 <= value < 1 << bits:
        raise ValueError(f"{what} is a number of {bits} bits, not {value!r}")


@dataclasses.dataclass(frozen=True)
class Address:
    """The address of a cell: the place of its object in the objects that are shown, and its place in the object."""

    object: int
    offset: int = 0

    def __post_init__(self) -> None:
        _must_fit(self.object, 16, "the object of an address")
        _must_fit(self.offset, 8, "the offset of an address")


@dataclasses.dataclass(frozen=True)
class Object:
    """An object that is shown: its class, the number under which its cells are locked, and how many cells it has."""

    klass: int
    number: int
    size: int = 1

    def __post_init__(self) -> None:
        _must_fit(self.klass, 16, "the class of an object")
        _must_fit(self.number, 16, "the number of an object")
        _must_fit(self.size, 8, "the size of an object")


@dataclasses.dataclass(frozen=True)
class Ask:
    """A node, and the mode that is asked for there. `kind` is 'root', 'class' or 'leaf', `mode` 'IS', 'IX', 'S', 'SIX' or 'X'; `klass` is of
    classes and leaves, `object`, the number of an object, and `offset` of leaves."""

    kind: str
    mode: str
    klass: Optional[int] = None
    object: Optional[int] = None
    offset: Optional[int] = None


Value = Union[Address, int, None]


class _Value(ctypes.Structure):
    _fields_ = [("kind", ctypes.c_uint8), ("offset", ctypes.c_uint8), ("object", ctypes.c_uint16)]


class _Object(ctypes.Structure):
    _fields_ = [("klass", ctypes.c_uint16), ("number", ctypes.c_uint16), ("size", ctypes.c_uint8)]


class _Cell(ctypes.Structure):
    _fields_ = [("object", ctypes.c_uint16), ("offset", ctypes.c_uint8), ("value", _Value)]


class _Ask(ctypes.Structure):
    _fields_ = [("kind", ctypes.c_uint8), ("mode", ctypes.c_uint8), ("offset", ctypes.c_uint8), ("klass", ctypes.c_uint16),
                ("object", ctypes.c_uint16)]


class Request(ctypes.Structure):
    """How many asks were written; or the cell that must be told."""

    _fields_ = [("count", ctypes.c_size_t), ("object", ctypes.c_uint16), ("offset", ctypes.c_uint8)]


def _sized(entry: Any) -> List[Any]:
    return [ctypes.POINTER(entry), ctypes.c_size_t]


ARGUMENTS = [*_sized(_Value), *_sized(_Object), *_sized(_Cell), *_sized(_Ask), ctypes.POINTER(Request)]


def _value(value: Value) -> _Value:
    """What is no address is told as none, be it an integer or None."""
    if isinstance(value, Address):
        return _Value(1, value.offset, value.object)
    if value is None or isinstance(value, int):
        return _Value(0, 0, 0)
    raise TypeError(f"a register or a cell holds an Address, an integer or None, not {value!r}")


def _array(entry: Any, values: Sequence[Any]) -> Any:
    return (entry * len(values))(*values)


class View:
    """What is shown: registers, objects, to which others may be appended, and the cells that were told."""

    def __init__(self, registers: Iterable[Value], objects: Sequence[Object]):
        self._registers = _array(_Value, [_value(value) for value in registers])
        self.registers_count = len(self._registers)
        self._objects, self._shown = objects, _array(_Object, [])
        self._cells: List[_Cell] = []

    def tell(self, cell: Cell, value: Value) -> None:
        """This is what the cell holds."""
        self._cells.append(_Cell(cell[0], cell[1], _value(value)))

    def _show(self) -> None:
        if len(self._shown) != len(self._objects):
            self._shown = _array(_Object, [_Object(one.klass, one.number, one.size) for one in self._objects])

    def words(self) -> Tuple[Any, ...]:
        """Each table as the library takes it, with its length."""
        self._show()
        tables = (self._registers, self._shown, _array(_Cell, self._cells))
        return tuple(word for table in tables for word in (table, len(table)))


def room_for(locks: int) -> Any:
    """Room for what a list of so many locks may ask for."""
    return _array(_Ask, [_Ask()] * (3 * locks))


def _ask(entry: _Ask) -> Ask:
    kind, mode = _KINDS[entry.kind], _MODES[entry.mode]
    if entry.kind == ROOT:
        return Ask(kind, mode)
    return Ask(kind, mode, entry.klass) if entry.kind == CLASS else Ask(kind, mode, entry.klass, entry.object, entry.offset)


def asks_of(entries: Any, count: int) -> Tuple[Ask, ...]:
    """The first of these as values."""
    return tuple(_ask(entries[n]) for n in range(count))
