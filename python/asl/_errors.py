"""What the library refuses, as exceptions."""
from __future__ import annotations

import re
from typing import Optional, Tuple

_STATUS_NAMES = {
    2: "OutOfMemory",
    3: "BadHandle",
    4: "BadThread",
    11: "BadCount",
    12: "NoProgram",
    13: "NoSuchStep",
    14: "NotAtEnd",
    15: "JournalFull",
    16: "NullPointer",
    22: "NoSource",
    23: "BadLength",
    24: "NoSuchNumber",
    25: "NoNames",
    26: "NeedsCell",
    27: "NoRoom",
}
NEEDS_CELL = 26


class AslError(Exception):
    """Anything that this package raises."""


class LibraryError(AslError):
    """The shared library is not found, or is another one."""


class Refused(AslError):
    """An input is refused. `reason` is what the command says behind `asl: `, as `Uncovered(0, expr r1 write)`, and `name` the part before the
    bracket."""

    def __init__(self, reason: str):
        super().__init__(reason)
        self.reason = reason
        self.name = reason.split("(", 1)[0]


class SourceError(Refused):
    """A source or an assembly text is refused, at a line and a column, both from 1 and in bytes; `text` is for people to read."""

    def __init__(self, reason: str, line: int, column: int, text: str):
        super().__init__(reason)
        self.args = (text,)
        self.line = line
        self.column = column
        self.text = text


class StatusError(AslError):
    """A call of a session or of a program is refused. `name` is that of its status (include/asl.h), which `status` is."""

    def __init__(self, status: int):
        self.status = status
        self.name = _STATUS_NAMES.get(status, f"Status{status}")
        super().__init__(self.name)


class SessionError(StatusError):
    """A call of a session is refused."""


class ProgramError(StatusError):
    """A call of a program is refused. Where its bytes or its source are, the `__cause__` says why, with the place where it has one."""


class NeedsCell(ProgramError):
    """The request of a list is not known without a cell that was not told: `cell` is its object, by its place, and its offset."""

    def __init__(self, cell: Tuple[int, int]):
        super().__init__(NEEDS_CELL)
        self.args = (f"{self.name}: cell {cell[1]} of the object at place {cell[0]} was not told",)
        self.cell = cell


_DIAGNOSIS = re.compile(r"(\d+):(\d+): (\w+)")


def source_error(reason: Optional[str], diagnosis: str) -> SourceError:
    """The exception for what `asl diagnose` tells, under the name of a refusal where that is known."""
    told = _DIAGNOSIS.match(diagnosis)
    if told is None:
        raise LibraryError(f"asl diagnose told no place: {diagnosis!r}")
    return SourceError(reason or told[3], int(told[1]), int(told[2]), diagnosis.rstrip("\n"))
