"""The commands over sources, with what they print as values."""
from __future__ import annotations

import dataclasses
from typing import Dict, List, Optional, Tuple, Union

from ._errors import AslError, Refused, source_error
from ._library import bytes_of, call

Text = Union[str, bytes]


@dataclasses.dataclass(frozen=True)
class Lock:
    """A lock of a list. `kind` is 'expr', 'class' or 'root', `effect` 'read' or 'write', and `text` its line in the assembly text.

    Of an expression, `base` is the register or the global where it begins, as 'r1' or 'g0', `name` what the source calls that, or else
    the same as `base`, and `path` its operations: a number of cells to go on, or '*' to follow the address in the cell. `klass` is the class
    of a class lock.
    """

    kind: str
    effect: str
    text: str
    base: Optional[str] = None
    name: Optional[str] = None
    path: Tuple[Union[int, str], ...] = ()
    klass: Optional[int] = None


@dataclasses.dataclass(frozen=True)
class Section:
    """A section: its function, its first byte in the source and the one after its last, its line from 1, and its list."""

    function: str
    line: int
    start: int
    end: int
    locks: Tuple[Lock, ...]

    @property
    def reads_cells(self) -> bool:
        """Whether evaluating the list reads cells."""
        return any("*" in lock.path for lock in self.locks)

    @property
    def writes(self) -> bool:
        """Whether some lock is for writing."""
        return any(lock.effect == "write" for lock in self.locks)


@dataclasses.dataclass(frozen=True)
class Compiled:
    """A compiled source: its image, its assembly text, and its sections in the order of the text, with their lists."""

    image: bytes
    text: str
    sections: Tuple[Section, ...]
    k: int


def program_bytes(program: Union[Compiled, Text]) -> bytes:
    """An image or an assembly text as the library reads it; of a compiled source its image."""
    return program.image if isinstance(program, Compiled) else bytes_of(program)


def _reason(errors: str) -> str:
    """The name of a refusal, by its line on standard error."""
    return errors.strip().removeprefix("asl: ")


def _fault(reason: str, source: Text, k: int, assembly: bool) -> AslError:
    """The exception for a refused text: with its place, where it has one."""
    try:
        diagnose(source, k, assembly=assembly)
    except Refused as fault:
        if fault.name == reason.split("(", 1)[0]:
            return source_error(reason, fault.args[0])
    return Refused(reason)


def answer(words: List[str], source: Text, k: int = 3, assembly: Optional[bool] = False) -> bytes:
    """The output of a command; a refusal of the source is raised with its place. `assembly` is None where the input is no text."""
    status, output, errors = call(words, source)
    if status == 0:
        return output
    if status != 1:
        raise ValueError(errors.split("\n", 1)[0].removeprefix("error: ") or f"asl {' '.join(words)}: status {status}")
    reason = _reason(errors)
    raise Refused(reason) if assembly is None else _fault(reason, source, k, assembly)


def diagnose(source: Text, k: int = 3, *, assembly: bool = False) -> None:
    """Raises SourceError, with line and column, where the source (or with `assembly` the assembly text) is refused."""
    status, output, errors = call(["diagnose", "--k", str(k)] + ["--asm"] * assembly, source)
    if status == 1:
        raise Refused(_reason(errors))
    if status:
        raise ValueError(errors.strip())
    if output:
        raise source_error(None, output.decode(errors="replace"))


def map_lines(source: Text) -> List[List[str]]:
    """The words of each line of `asl map` (docs/SOURCE.md, "The map")."""
    return [line.split() for line in answer(["map"], source).decode().splitlines()]


def lock_of(text: str, names: Dict[str, str]) -> Lock:
    """The lock of a line of a list."""
    words = text.split()
    if words[0] == "expr":
        path = tuple(word if word == "*" else int(word[1:]) for word in words[2:-1])
        return Lock("expr", words[-1], text, base=words[1], name=names.get(words[1], words[1]), path=path)
    return Lock(words[0], words[-1], text, klass=int(words[1]) if words[0] == "class" else None)


def _sections(source: bytes, lines: List[List[str]], text: str) -> Tuple[Section, ...]:
    functions = {words[1]: words[2] for words in lines if words[0] == "function"}
    globals_ = {"g" + words[1]: words[2] for words in lines if words[0] == "global"}
    lists = [part.strip().splitlines() for part in text.split("\nlist")[1:]]
    places = [words[2:] for words in lines if words[0] == "section"]
    sections = []
    for (function, start, end), locks in zip(places, lists):
        names = {"r" + words[2]: words[3] for words in lines if words[0] == "register" and words[1] == function}
        names.update(globals_)
        line = source.count(b"\n", 0, int(start)) + 1
        sections.append(
            Section(functions[function], line, int(start), int(end), tuple(lock_of(lock, names) for lock in locks)))
    return tuple(sections)


def compile(source: Text, k: int = 3) -> Compiled:
    """The program that is inferred for a source, with paths of at most k operations, 0 to 8. Raises SourceError."""
    given = bytes_of(source)
    text = answer(["compile", "--text", "--k", str(k)], given, k).decode()
    image = answer(["compile", "--k", str(k)], given, k)
    return Compiled(image, text, _sections(given, map_lines(given), text), k)


def check(source: Text, program: Union[Compiled, Text], k: int = 3) -> int:
    """How many sections were checked, where the lists of the program are enough for the source; else Refused, with the lock that is
    lacking. The program is a compiled one, an image or an assembly text, of which only the lists may be other ones."""
    given = program.text if isinstance(program, Compiled) else program
    told = answer(["check", "--k", str(k)], bytes_of(source) + b"\0" + bytes_of(given), k, None).decode()
    return int(told.split()[1])


def explain(source: Text, k: int = 3, *, all: bool = False) -> str:
    """Why each lock is there, in the words of the source (docs/ANALYSIS.md, "Explanations")."""
    return answer(["explain", "--k", str(k)] + ["--all"] * all, source, k).decode()
