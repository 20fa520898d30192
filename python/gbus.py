"""The simulated module bus of Project Ara, in a Python process.

    from gbus import Bus

    with Bus() as bus:
        bus.run("insert 2 gpio\\nboot\\nsettle 40")
        print(bus.line("show"), end="")

A bus takes a script line by line, as `gbus run` does, and answers the report of each line.
docs/LIBRARY.md is the guide, and docs/SCRIPT.md has the lines with their reports. The shared
library behind this module is made by `bin/gbus lib`. Python 3.8 or later, and nothing beside it."""

import ctypes
import functools
import os
import pathlib
import threading
from types import TracebackType
from typing import Iterable, Iterator, List, Optional, Type, Union

__all__ = ["BadLine", "Bus", "BusClosed", "BusError", "LONGEST_LINE", "OutOfMemory", "Spent"]

#: How many bytes a line may have, without its end.
LONGEST_LINE = 8192

_DONE, _BAD_LINE, _NO_MEMORY, _SPENT, _CLOSED, _OPEN = range(6)


class BusError(Exception):
    """What a bus answers in the place of a report."""


class BadLine(BusError, ValueError):
    """A line is bad. The bus is as before, but for the number of lines, and takes the next one."""

    #: What is reported, as `gbus run` writes it: of the line or, where `run` was called, of all
    #: lines up to this one.
    report: str

    def __init__(self, report: str) -> None:
        super().__init__(report.splitlines()[-1] if report else "")
        self.report = report


class OutOfMemory(BusError, MemoryError):
    """No memory was found. A bus to which this happened keeps nothing, and says so at each line."""


class Spent(BusError):
    """The bus has taken 4,294,967,295 lines, and takes no more."""


class BusClosed(BusError, ValueError):
    """The bus is closed."""


class _Handle(ctypes.Structure):
    """A handle as C has it."""

    _fields_ = [("at", ctypes.c_void_p)]


def _path() -> pathlib.Path:
    """Where the library is: as GBUS_LIBRARY says, or else where `bin/gbus lib` leaves it."""
    named = os.environ.get("GBUS_LIBRARY")
    if named:
        return pathlib.Path(named)
    top = pathlib.Path(__file__).resolve().parent.parent
    return top / "crates" / "gbus_c" / "out" / "libgbus.so"


@functools.lru_cache(maxsize=None)
def _library() -> ctypes.CDLL:
    """The library, with the types of its calls."""
    path = _path()
    if not path.exists():
        raise FileNotFoundError(f"{path}: bin/gbus lib makes it, or GBUS_LIBRARY names another one")
    library = ctypes.CDLL(str(path.resolve()))
    handle, size = ctypes.POINTER(_Handle), ctypes.c_size_t
    library.gbus_open.argtypes = [handle, ctypes.c_bool]
    library.gbus_open.restype = ctypes.c_uint32
    library.gbus_line.argtypes = [handle, ctypes.c_char_p, size, ctypes.POINTER(size)]
    library.gbus_line.restype = ctypes.c_uint32
    library.gbus_text.argtypes = [handle, size, ctypes.c_char_p, size]
    library.gbus_text.restype = size
    library.gbus_close.argtypes = [handle]
    library.gbus_close.restype = None
    return library


class Bus:
    """A bus. At first nothing is plugged, and nothing was sent. With `hex` the reports have the
    bytes of each message.

    Any thread may call it: a call waits until another one on the same bus has ended. A bus is
    closed by `close`, at the end of its `with`, or once nothing refers to it."""

    def __init__(self, *, hex: bool = False) -> None:
        self._library = _library()
        self._lock = threading.Lock()
        self._handle = _Handle()
        if self._library.gbus_open(self._handle, hex) != _DONE:
            raise OutOfMemory("no memory was found for a bus")

    def line(self, line: Union[str, bytes]) -> str:
        """Runs a line, which may have its end, and answers its report: lines with their ends, none
        for a blank line or a comment. A line that the bus refuses has a report that says so; for a
        bad one BadLine is raised."""
        data = line if isinstance(line, bytes) else line.encode("utf-8", "surrogateescape")
        size = ctypes.c_size_t()
        with self._lock:
            status = self._library.gbus_line(self._handle, data, len(data), ctypes.byref(size))
            report = self._text(size.value)
        if status == _DONE:
            return report
        if status == _BAD_LINE:
            raise BadLine(report)
        if status == _NO_MEMORY:
            raise OutOfMemory("no memory was found, and the bus keeps nothing")
        if status == _SPENT:
            raise Spent("the bus has taken as many lines as it may")
        raise BusClosed("the bus is closed")

    def lines(self, script: Union[str, Iterable[Union[str, bytes]]]) -> Iterator[str]:
        """Runs lines one after the other, and yields the report of each before it runs the next. A
        string is cut at each LF."""
        for line in _cut(script) if isinstance(script, str) else script:
            yield self.line(line)

    def run(self, script: Union[str, Iterable[Union[str, bytes]]]) -> str:
        """Runs lines, and answers their reports one behind the other. As with `gbus run` a bad line
        is the last one: BadLine is raised, with the report of all lines up to it."""
        reports: List[str] = []
        try:
            for report in self.lines(script):
                reports.append(report)
        except BadLine as bad:
            raise BadLine("".join(reports) + bad.report) from None
        return "".join(reports)

    @property
    def closed(self) -> bool:
        """Whether the bus is closed."""
        return self._handle.at is None

    def close(self) -> None:
        """Gives the memory of the bus back. Nothing happens if it is closed."""
        with self._lock:
            self._library.gbus_close(self._handle)

    def __enter__(self) -> "Bus":
        return self

    def __exit__(
        self,
        kind: Optional[Type[BaseException]],
        error: Optional[BaseException],
        trace: Optional[TracebackType],
    ) -> None:
        self.close()

    def __del__(self) -> None:
        if "_handle" in self.__dict__:
            self.close()

    def _text(self, size: int) -> str:
        """The report of the last line, which has so many bytes."""
        out = ctypes.create_string_buffer(size)
        count = self._library.gbus_text(self._handle, 0, out, size)
        return out.raw[:count].decode("ascii")


def _cut(script: str) -> List[str]:
    """The lines of a script, of which the last may lack its LF."""
    lines = script.split("\n")
    return lines if lines[-1] else lines[:-1]
