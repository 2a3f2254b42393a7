"""What the library keeps for a session or a program, behind a handle: one call at a time, until it is closed."""
from __future__ import annotations

import ctypes
import threading
from typing import Any, ClassVar, Mapping, Type, TypeVar

from ._errors import StatusError

_MOST = 2 ** 32 - 1
_Self = TypeVar("_Self", bound="Kept")


class Handle(ctypes.Structure):
    """Closed where all its bytes are 0."""

    _fields_ = [("live", ctypes.c_bool), ("at", ctypes.c_void_p)]


HANDLE = ctypes.POINTER(Handle)


def number(n: object) -> int:
    """What is no number of 32 bits is given as the greatest one, which no thread, position, count or part of a program is."""
    return n if isinstance(n, int) and 0 <= n <= _MOST else _MOST


class Kept:
    """A handle with the functions that take it. Threads may share it: they call one after the other. Use it in a `with`, or close it:
    afterwards each call is refused."""

    _functions: ClassVar[Mapping[str, Any]]
    _refusal: ClassVar[Type[StatusError]]

    def __init__(self) -> None:
        self._turn = threading.RLock()
        self._handle = Handle()

    def _status(self, name: str, *words: Any) -> int:
        with self._turn:
            return self._functions[name](*words)

    def _accept(self, status: int) -> None:
        if status:
            raise self._refusal(status)

    def _call(self, name: str, *words: Any) -> None:
        self._accept(self._status(name, ctypes.byref(self._handle), *words))

    def __enter__(self: _Self) -> _Self:
        return self

    def __exit__(self, *exception: object) -> None:
        self._status("close", ctypes.byref(self._handle))

    def __del__(self) -> None:
        if getattr(self, "_handle", None) is not None and self._handle.live:
            self._status("close", ctypes.byref(self._handle))

    def close(self) -> None:
        """Gives back all that it has."""
        self._call("close")
