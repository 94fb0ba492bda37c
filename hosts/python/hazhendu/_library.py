"""The shared library, its exported functions, and refusals."""

import ctypes
import os
from contextlib import contextmanager
from pathlib import Path

NAME = "libhazhendu.so"


def _load():
    """The library that HAZHENDU_LIBRARY names, that of this copy of the project, or one that the system knows."""
    named = os.environ.get("HAZHENDU_LIBRARY")
    built = Path(__file__).resolve().parents[3] / "target" / "staticlib" / NAME
    try:
        return ctypes.CDLL(named or (str(built) if built.exists() else NAME))
    except OSError as error:
        raise ImportError(f"{error}: run hosts/library, which writes target/staticlib/{NAME}, or name one in HAZHENDU_LIBRARY") from error


_library = _load()
_library.hazhendu_shared_enter.restype = ctypes.c_uint32
_library.hazhendu_shared_leave.argtypes = [ctypes.c_uint32]
_library.hazhendu_shared_leave.restype = None
for _name in ("text", "value", "change"):
    _function = getattr(_library, f"hazhendu_shared_{_name}")
    _function.argtypes = [ctypes.c_uint32]
    _function.restype = ctypes.c_char_p


def _text(name, number):
    return getattr(_library, f"hazhendu_shared_{name}")(number).decode()


class Refused(Exception):
    """A job that the library does not take.

    number    the refusal's number (README, hosts/c/hazhendu.h)
    value     the double reported with it, value_is says what it is (None where it tells nothing)
    wrong     what is wrong
    change    what to change
    state     after 27 to 29 the field after the last accepted substep, which is not the field at tau; of stages also the field of the stage
              before the one refused; else None
    stage     of stages which one, from 1, 0 where none was reached; else None
    record    of ambient which one, from 1, 0 where none was reached; else None. state is then the field after the record before it
    results   of ambient the temperatures, the largest and the smallest of the records before it, three arrays; else None
    """

    def __init__(self, number, value, state=None, stage=None, record=None, results=None):
        self.number = number
        self.value = value
        self.value_is = _text("value", number) or None
        self.wrong = _text("text", number)
        self.change = _text("change", number)
        self.state = state
        self.stage = stage
        self.record = record
        self.results = results
        told = f" ({self.value_is}: {value!r})" if self.value_is else ""
        place = f" at stage {stage}" if stage else f" at record {record}" if record else ""
        super().__init__(f"refused ({number}){place}: {self.wrong}{told}; {self.change}")

    def __reduce__(self):
        return Refused, (self.number, self.value, self.state, self.stage, self.record, self.results)


@contextmanager
def _usual_environment():
    """Rounding to nearest, no flush to zero: what the calls assume."""
    saved = _library.hazhendu_shared_enter()
    try:
        yield
    finally:
        _library.hazhendu_shared_leave(saved)


def call(name, *arguments):
    """The number of an exported call. Each argument is a ctypes value or a reference to one."""
    function = getattr(_library, name)
    function.restype = ctypes.c_uint32
    with _usual_environment():
        return function(*arguments)


def next_place(queues):
    """The place whose turn is next on a unit, 16 if no run waits."""
    function = _library.hazhendu_rotation_next
    function.restype = ctypes.c_size_t
    return function(*queues.arguments)


def chooses_krylov(n, entries, number, applications):
    """Whether to take Krylov, by the number that the plan was answered with and its applications."""
    function = _library.hazhendu_shared_choose
    function.argtypes = [ctypes.c_size_t, ctypes.c_size_t, ctypes.c_uint32, ctypes.c_uint64]
    function.restype = ctypes.c_bool
    return function(n, entries, number, applications)


def other_m():
    """The m to take in turn after 28."""
    function = _library.hazhendu_shared_other_m
    function.argtypes = [ctypes.c_size_t]
    function.restype = ctypes.c_size_t
    return list(iter(map(function, range(2**16)).__next__, 0))
