"""Sessions: a run that is stepped, gone through to and fro, and cut (docs/EMBEDDING.md, "Sessions from C")."""
from __future__ import annotations

import ctypes
from typing import Tuple, Union

from ._commands import Compiled, program_bytes
from ._errors import SessionError
from ._handle import HANDLE, Kept, number
from ._library import ROOM, function_of


class _Place(ctypes.Structure):
    _fields_ = [("position", ctypes.c_uint32), ("events", ctypes.c_uint32)]


_TEXT = [ctypes.c_void_p, ctypes.c_size_t, ctypes.POINTER(ctypes.c_size_t)]
_ARGUMENTS = {
    "open": [ctypes.c_char_p, ctypes.c_size_t, ctypes.c_uint32, HANDLE],
    "close": [HANDLE],
    "step": [HANDLE, ctypes.c_uint32],
    "go": [HANDLE, ctypes.c_uint32],
    "cut": [HANDLE, ctypes.c_uint32],
    "place": [HANDLE, ctypes.POINTER(_Place)],
    "view": [HANDLE, *_TEXT],
    "asks": [HANDLE, *_TEXT],
    "stack": [HANDLE, *_TEXT],
    "objects": [HANDLE, *_TEXT],
    "log": [HANDLE, ctypes.c_uint32, *_TEXT],
    "run_file": [HANDLE, *_TEXT],
}


class Session(Kept):
    """So many threads of a program at their start; `program` is a compiled one, an image or an assembly text. What is refused raises
    SessionError. Use it in a `with`, or close it: afterwards each call is refused."""

    _functions = {name: function_of(f"asl_session_{name}_nonnull", _ARGUMENTS[name]) for name in _ARGUMENTS}
    _refusal = SessionError

    def __init__(self, program: Union[Compiled, str, bytes], threads: int):
        super().__init__()
        given = program_bytes(program)
        self._accept(self._status("open", given, len(given), number(threads), ctypes.byref(self._handle)))

    def _told(self, name: str, *words) -> bytes:
        room = ROOM
        while True:
            text, length = ctypes.create_string_buffer(room), ctypes.c_size_t()
            self._call(name, *words, text, room, ctypes.byref(length))
            if length.value <= room:
                return text.raw[:length.value]
            room = length.value

    def step(self, thread: int) -> None:
        """A thread makes a step at the end of the run."""
        self._call("step", number(thread))

    def go(self, position: int) -> None:
        """Goes to a position, from 0 to as many as there are events."""
        self._call("go", number(position))

    def cut(self, position: int) -> None:
        """Goes to a position, and forgets the events after it."""
        self._call("cut", number(position))

    @property
    def place(self) -> Tuple[int, int]:
        """The position, and how many events there are."""
        place = _Place()
        self._call("place", ctypes.byref(place))
        return place.position, place.events

    def view(self) -> str:
        """What `asl debug view` prints of the machine that is shown."""
        return self._told("view").decode()

    def asks(self) -> str:
        """Who asks for what, and who is in the way."""
        return self._told("asks").decode()

    def stack(self) -> str:
        """The frames of each thread."""
        return self._told("stack").decode()

    def objects(self) -> str:
        """The objects and their cells."""
        return self._told("objects").decode()

    def log(self, first: int = 0) -> str:
        """The lines of the events from this one on."""
        return self._told("log", number(first)).decode()

    def run_file(self) -> bytes:
        """The program and all events, as one file."""
        return self._told("run_file")
