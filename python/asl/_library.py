"""The shared library, as ctypes sees it, and its commands as one call."""
from __future__ import annotations

import ctypes
import os
import pathlib
from typing import Any, Iterator, List, Sequence, Tuple, Union

from ._errors import LibraryError

NAME = "libasl.so.2"
ROOM = 1 << 16


class _Answer(ctypes.Structure):
    _fields_ = [("status", ctypes.c_uint32), ("output_length", ctypes.c_size_t), ("errors_length", ctypes.c_size_t)]


def _places() -> Iterator[str]:
    """Where the library may be: as ASL_LIBRARY says, beside this file, in the repository, in a release, and where the system looks."""
    named = os.environ.get("ASL_LIBRARY")
    if named:
        yield named
        return
    here = pathlib.Path(__file__).resolve().parent
    for folder in (here, here.parent.parent / "out/lib", here.parent.parent.parent):
        if (folder / NAME).exists():
            yield str(folder / NAME)
    yield NAME


def _loaded() -> Tuple[ctypes.CDLL, str]:
    said = []
    for place in _places():
        try:
            found = ctypes.CDLL(place)
            found.asl_call.restype = None
            found.asl_call.argtypes = [ctypes.c_char_p, ctypes.c_size_t] * 2 + [ctypes.c_void_p, ctypes.c_size_t] * 2 + [
                ctypes.POINTER(_Answer)]
            return found, place
        except (OSError, AttributeError) as error:
            said.append(str(error))
    raise LibraryError(f"{NAME} is not found; tools/library makes it, and ASL_LIBRARY may name it: " + "; ".join(said))


LIBRARY, _PATH = _loaded()


def function_of(name: str, arguments: List[Any]) -> Any:
    """A function of the library that answers a status."""
    try:
        function = getattr(LIBRARY, name)
    except AttributeError as error:
        raise LibraryError(f"{_PATH} is an older library: {error}") from None
    function.restype, function.argtypes = ctypes.c_uint32, arguments
    return function


def library_path() -> str:
    """Where the library was found."""
    return _PATH


def bytes_of(text: Union[str, bytes]) -> bytes:
    """A text as the library reads it."""
    return text.encode() if isinstance(text, str) else bytes(text)


def call(words: Sequence[str], input: Union[str, bytes] = b"") -> Tuple[int, bytes, str]:
    """Does what the program does for these words and this input: its status, its output, and what it says on standard error."""
    for word in words:
        if "\n" in word:
            raise ValueError("a word has no line feed")
    listed, given = "\n".join(words).encode(), bytes_of(input)
    room, error_room = ROOM, 4096
    while True:
        output, errors, answer = ctypes.create_string_buffer(room), ctypes.create_string_buffer(error_room), _Answer()
        LIBRARY.asl_call(listed, len(listed), given, len(given), output, room, errors, error_room, ctypes.byref(answer))
        if answer.output_length <= room and answer.errors_length <= error_room:
            said = errors.raw[:answer.errors_length].decode(errors="replace")
            return answer.status, output.raw[:answer.output_length], said
        room, error_room = max(room, answer.output_length), max(error_room, answer.errors_length)
