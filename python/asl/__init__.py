"""Locks for atomic sections, inferred and proved: the library of `asl` for Python, with no other dependency.

    import asl

    program = asl.compile(source)               # its sections, with the locks of each, its text and its image
    for section in program.sections:
        print(section.function, section.start, section.end, [lock.text for lock in section.locks])

    asl.lists(source)                            # all that is told of them: classes, functions, statements, warnings
    asl.diagnose(source)                         # raises SourceError with line and column where the source is refused
    with asl.Session(program, threads=2) as session:
        session.step(0)
        print(session.view())
    with asl.Program.compile(source) as data:    # its tables by number, and what a list asks for over registers and objects that are shown
        print(data.request(0, registers, objects))

What is refused raises Refused; its `reason` is the name that docs/CLI.md has for it, such as `Twice(x)`.
"""
from ._commands import (
    Compiled,
    Lock,
    Section,
    check,
    compile,
    diagnose,
    explain,
    map_lines,
)
from ._errors import (
    AslError,
    LibraryError,
    NeedsCell,
    ProgramError,
    Refused,
    SessionError,
    SourceError,
    StatusError,
)
from ._library import call, library_path
from ._lists import ClassEntry, Document, FunctionEntry, ListedLock, ListedSection, Need, Notice, Place, lists
from ._programs import (
    Counts,
    Program,
    ProgramFunction,
    ProgramGlobal,
    ProgramList,
    ProgramLock,
    ProgramSection,
)
from ._requests import Address, Ask, Object
from ._session import Session

__all__ = [
    "Address",
    "Ask",
    "AslError",
    "ClassEntry",
    "Compiled",
    "Counts",
    "Document",
    "FunctionEntry",
    "LibraryError",
    "ListedLock",
    "ListedSection",
    "Lock",
    "Need",
    "NeedsCell",
    "Notice",
    "Object",
    "Place",
    "Program",
    "ProgramError",
    "ProgramFunction",
    "ProgramGlobal",
    "ProgramList",
    "ProgramLock",
    "ProgramSection",
    "Refused",
    "Section",
    "Session",
    "SessionError",
    "SourceError",
    "StatusError",
    "call",
    "check",
    "compile",
    "diagnose",
    "explain",
    "library_path",
    "lists",
    "map_lines",
]
