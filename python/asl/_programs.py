"""Programs as data: what an image, an assembly text or a source has, read by number, and the requests of its lists (docs/EMBEDDING.md,
"A program as data")."""
from __future__ import annotations

import ctypes
import dataclasses
from typing import Any, Callable, Dict, Iterable, List, Mapping, Optional, Sequence, Tuple, TypeVar, Union

from . import _requests
from ._commands import Compiled, Lock, Text, answer, program_bytes
from ._errors import NEEDS_CELL, AslError, NeedsCell, ProgramError
from ._handle import HANDLE, Kept, number
from ._library import bytes_of, function_of
from ._requests import Ask, Cell, Object, Value, View

Cells = Union[Mapping[Cell, Value], Callable[[int, int], Value]]
Entry = TypeVar("Entry")

_NO_PROGRAM, _NO_SOURCE, _NO_SUCH_NUMBER, _NO_NAMES = 12, 22, 24, 25
_FOLLOW, _NO_CLASS, _LONGEST_NAME = 256, 65535, 64


@dataclasses.dataclass(frozen=True)
class Counts:
    """How many there are of each part, each numbered from 0; `start`, the function in which threads start; whether some list has a lock on
    the root; and whether the program was made of a source, so that names, and classes of expressions, are known."""

    version: int
    classes: int
    globals: int
    functions: int
    start: int
    instructions: int
    sections: int
    lists: int
    names_root: bool
    has_source: bool


@dataclasses.dataclass(frozen=True)
class ProgramGlobal:
    """A global: what the source calls it, where it is known, and its class."""

    number: int
    name: Optional[str]
    klass: int


@dataclasses.dataclass(frozen=True)
class ProgramFunction:
    """A function: what the source calls it, how many parameters it has, which are its first registers, how many registers, where its
    instructions begin in the code, and how many they are. `names` has of each register what the source calls it, or None."""

    number: int
    name: Optional[str]
    parameters: int
    registers: int
    first: int
    instructions: int
    names: Tuple[Optional[str], ...]


@dataclasses.dataclass(frozen=True)
class ProgramSection:
    """A section: the numbers of its function and of its list, and the place of its `acq` in the code."""

    number: int
    function: int
    list: int
    place: int


@dataclasses.dataclass(frozen=True)
class ProgramLock:
    """A lock of a list: `lock` as `Lock` has it; `klass`, of a class lock its class and of an expression that of its cell, where the program
    was made of a source."""

    lock: Lock
    klass: Optional[int]


@dataclasses.dataclass(frozen=True)
class ProgramList:
    """A list. `reads_cells`: evaluating it reads cells; `writes`: some lock is for writing."""

    number: int
    locks: Tuple[ProgramLock, ...]
    reads_cells: bool
    writes: bool


class _Counts(ctypes.Structure):
    _fields_ = [(name, ctypes.c_uint32) for name in
                ("version", "classes", "globals", "functions", "start", "instructions", "sections", "lists")]
    _fields_ += [("names_root", ctypes.c_bool), ("has_source", ctypes.c_bool)]


class _Function(ctypes.Structure):
    _fields_ = [("parameters", ctypes.c_uint8), ("registers", ctypes.c_uint8), ("first", ctypes.c_uint32), ("instructions", ctypes.c_uint32)]


class _Section(ctypes.Structure):
    _fields_ = [("function", ctypes.c_uint16), ("list", ctypes.c_uint16), ("place", ctypes.c_uint32)]


class _List(ctypes.Structure):
    _fields_ = [("locks", ctypes.c_size_t), ("reads_cells", ctypes.c_bool), ("writes", ctypes.c_bool)]


class _Lock(ctypes.Structure):
    _fields_ = [("kind", ctypes.c_uint8), ("writes", ctypes.c_bool), ("from_global", ctypes.c_bool), ("operations", ctypes.c_uint8),
                ("base", ctypes.c_uint16), ("klass", ctypes.c_uint16), ("path", ctypes.c_uint16 * 8)]


_NUMBER, _NAME = ctypes.c_uint32, [ctypes.c_void_p, ctypes.c_size_t, ctypes.POINTER(ctypes.c_size_t)]
_ARGUMENTS = {
    "program_open": [ctypes.c_char_p, ctypes.c_size_t, HANDLE],
    "program_compile": [ctypes.c_char_p, ctypes.c_size_t, _NUMBER, HANDLE],
    "program_close": [HANDLE],
    "program_counts": [HANDLE, ctypes.POINTER(_Counts)],
    "program_class": [HANDLE, _NUMBER, ctypes.POINTER(ctypes.c_bool)],
    "program_global": [HANDLE, _NUMBER, ctypes.POINTER(ctypes.c_uint16)],
    "program_function": [HANDLE, _NUMBER, ctypes.POINTER(_Function)],
    "program_section": [HANDLE, _NUMBER, ctypes.POINTER(_Section)],
    "program_list": [HANDLE, _NUMBER, ctypes.POINTER(_List)],
    "program_lock": [HANDLE, _NUMBER, _NUMBER, ctypes.POINTER(_Lock)],
    "program_function_name": [HANDLE, _NUMBER, *_NAME],
    "program_global_name": [HANDLE, _NUMBER, *_NAME],
    "program_register_name": [HANDLE, _NUMBER, _NUMBER, *_NAME],
    "list_request": [HANDLE, _NUMBER, *_requests.ARGUMENTS],
}


def _short(name: str) -> str:
    return name[len("program_"):] if name.startswith("program_") else name


def _why(words: Sequence[str], given: bytes, k: int = 3, assembly: Optional[bool] = False) -> Optional[AslError]:
    """What a command says that refuses the same input."""
    try:
        answer(list(words), given, k, assembly)
    except AslError as why:
        return why
    return None


def _why_no_program(given: bytes) -> Optional[AslError]:
    image = given.startswith(b"ASLM")
    return _why(["dis"], given, assembly=None) if image else _why(["asm"], given, assembly=True)


def _effect(lock: _Lock) -> str:
    return "write" if lock.writes else "read"


class Program(Kept):
    """A program as data. `Program.open` takes an image or an assembly text, `Program.compile` a source. What is refused raises
    ProgramError, and so does a number that no part has. Use it in a `with`, or close it: afterwards each call is refused. Threads may
    share it."""

    _functions = {_short(name): function_of(f"asl_{name}_nonnull", words) for name, words in _ARGUMENTS.items()}
    _refusal = ProgramError

    @classmethod
    def open(cls, program: Union[Compiled, Text]) -> Program:
        """The program of an image, or of an assembly text; of a compiled source that of its image. It has no names."""
        made, given = cls(), program_bytes(program)
        status = made._status("open", given, len(given), ctypes.byref(made._handle))
        if status == _NO_PROGRAM:
            raise ProgramError(status) from _why_no_program(given)
        return made._opened(status)

    @classmethod
    def compile(cls, source: Text, k: int = 3) -> Program:
        """The program that is inferred for a source, with paths of at most k operations, 0 to 8."""
        made, given = cls(), bytes_of(source)
        status = made._status("compile", given, len(given), number(k), ctypes.byref(made._handle))
        if status == _NO_SOURCE:
            raise ProgramError(status) from _why(["compile", "--k", str(k)], given, k)
        return made._opened(status)

    def _opened(self, status: int) -> Program:
        self._accept(status)
        self._globals = self.counts.globals
        self._named: Dict[int, int] = {}
        return self

    def _read(self, name: str, entry: Entry, *numbers: int) -> Entry:
        """What a reader writes of the part of these numbers."""
        self._call(name, *map(number, numbers), ctypes.byref(entry))  # type: ignore[arg-type]
        return entry

    def _name(self, kind: str, *numbers: int) -> Optional[str]:
        """What the source calls the part of these numbers, if it is known."""
        name, length = ctypes.create_string_buffer(_LONGEST_NAME), ctypes.c_size_t()
        status = self._status(f"{kind}_name", ctypes.byref(self._handle), *map(number, numbers), name, _LONGEST_NAME, ctypes.byref(length))
        if status in (_NO_NAMES, _NO_SUCH_NUMBER):
            return None
        self._accept(status)
        return name.raw[:length.value].decode()

    @property
    def counts(self) -> Counts:
        """How many there are of each part."""
        entry = self._read("counts", _Counts())
        return Counts(*(getattr(entry, field.name) for field in dataclasses.fields(Counts)))

    def names_class(self, klass: int) -> bool:
        """Whether some list has a lock on the class; where none has, no two requests clash there."""
        return self._read("class", ctypes.c_bool(), klass).value

    def global_(self, n: int) -> ProgramGlobal:
        """The global of this number."""
        klass = self._read("global", ctypes.c_uint16(), n).value
        return ProgramGlobal(n, self._name("global", n), klass)

    def function(self, n: int) -> ProgramFunction:
        """The function of this number."""
        entry = self._read("function", _Function(), n)
        names = tuple(self._name("register", n, register) for register in range(entry.registers))
        return ProgramFunction(n, self._name("function", n), entry.parameters, entry.registers, entry.first, entry.instructions, names)

    def section(self, n: int) -> ProgramSection:
        """The section of this number: they are numbered as their `acq`s stand in the code."""
        entry = self._read("section", _Section(), n)
        return ProgramSection(n, entry.function, entry.list, entry.place)

    def list(self, n: int) -> ProgramList:
        """The list of this number: of the program of a source, that of the section of the number."""
        entry = self._read("list", _List(), n)
        function = self.section(n).function if self.counts.has_source else None
        locks = tuple(self._lock(self._read("lock", _Lock(), n, at), function) for at in range(entry.locks))
        return ProgramList(n, locks, entry.reads_cells, entry.writes)

    def _lock(self, entry: _Lock, function: Optional[int]) -> ProgramLock:
        klass = None if entry.klass == _NO_CLASS else entry.klass
        if entry.kind == _requests.LEAF:
            return ProgramLock(self._expression(entry, function), klass)
        words = ["root"] if entry.kind == _requests.ROOT else ["class", str(klass)]
        return ProgramLock(Lock(words[0], _effect(entry), " ".join([*words, _effect(entry)]), klass=klass), klass)

    def _expression(self, entry: _Lock, function: Optional[int]) -> Lock:
        base = f"{'g' if entry.from_global else 'r'}{entry.base}"
        steps = ["*" if step == _FOLLOW else step for step in entry.path[:entry.operations]]
        text = " ".join(["expr", base, *("*" if step == "*" else f".{step}" for step in steps), _effect(entry)])
        return Lock("expr", _effect(entry), text, base, self._base_name(entry, function) or base, tuple(steps))

    def _base_name(self, entry: _Lock, function: Optional[int]) -> Optional[str]:
        """What the source calls the base of an expression of a list that this function takes."""
        if function is None:
            return None
        return self._name("global", entry.base) if entry.from_global else self._name("register", function, entry.base)

    @property
    def globals(self) -> Tuple[ProgramGlobal, ...]:
        """All globals. This and the next three read what they give anew each time."""
        return tuple(map(self.global_, range(self.counts.globals)))

    def global_objects(self) -> List[Object]:
        """The objects of the globals, each under its own number: what the objects of a request begin with."""
        return [Object(entry.klass, entry.number) for entry in self.globals]

    @property
    def functions(self) -> Tuple[ProgramFunction, ...]:
        """All functions."""
        return tuple(map(self.function, range(self.counts.functions)))

    @property
    def sections(self) -> Tuple[ProgramSection, ...]:
        """All sections."""
        return tuple(map(self.section, range(self.counts.sections)))

    @property
    def lists(self) -> Tuple[ProgramList, ...]:
        """All lists."""
        return tuple(map(self.list, range(self.counts.lists)))

    def request(self, list: int, registers: Iterable[Value], objects: Sequence[Object], cells: Cells = {}) -> Tuple[Ask, ...]:
        """What the list asks for: each node once, with its parents, in rising order.

        `registers` are those of the frame by their numbers, at least as many as the locks of the list name: nothing could be asked for one that
        is not there. `objects` are the globals by their numbers, and behind them those that registers and cells have the addresses of. `cells`
        tells what a cell holds, by the place of its object and its offset: a mapping, or a function, which may append to `objects` what it
        meets. It is asked once for each cell that the evaluation must read, and for no other. Where a mapping does not have the cell,
        NeedsCell is raised; what a function raises ends the evaluation.
        """
        entry, view = self._read("list", _List(), list), View(registers, objects)
        if len(objects) < self._globals:
            raise ValueError(f"the objects begin with those of the {self._globals} globals")
        named = self._registers_named(list, entry.locks)
        if view.registers_count < named:
            raise ValueError(f"a lock of the list names register {named - 1}, and only {view.registers_count} are given")
        asks, request = _requests.room_for(entry.locks), _requests.Request()
        while self._needs_cell(list, view, asks, request):
            view.tell((request.object, request.offset), _told(cells, request.object, request.offset))
        return _requests.asks_of(asks, request.count)

    def _registers_named(self, list: int, locks: int) -> int:
        """One more than the greatest number of a register that a lock of the list names; 0 where none does. It is looked for once."""
        if list not in self._named:
            entries = [self._read("lock", _Lock(), list, at) for at in range(locks)]
            bases = [entry.base for entry in entries if entry.kind == _requests.LEAF and not entry.from_global]
            self._named[list] = max(bases, default=-1) + 1
        return self._named[list]

    def _needs_cell(self, list: int, view: View, asks: Any, request: _requests.Request) -> bool:
        """Whether the request tells a cell that is needed, and not what the list asks for."""
        words = [number(list), *view.words(), asks, len(asks), ctypes.byref(request)]
        status = self._status("list_request", ctypes.byref(self._handle), *words)
        if status != NEEDS_CELL:
            self._accept(status)
        return status == NEEDS_CELL


def _told(cells: Cells, object: int, offset: int) -> Value:
    if callable(cells):
        return cells(object, offset)
    try:
        return cells[object, offset]
    except KeyError:
        raise NeedsCell((object, offset)) from None
