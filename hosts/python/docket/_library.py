"""The shared object of the proved archive: where it is looked for, and its calls as hosts/c/docket.h declares them."""
import ctypes
import os
from typing import NoReturn

BESIDE = os.path.join(os.path.dirname(os.path.abspath(__file__)), "libdocket.so")
VARIABLE = "DOCKET_LIBRARY"
BUILD = "run 'tools/archive' and then 'hosts/python/build.sh' in the repository"

LINE_BYTES = 128
VALUES = 16
REPORT_BYTES = 256
OUTPUTS = 1_536
TAKEN = 2
OUTPUT_BYTES = 1_048_576

#: A text of more bytes is refused by 11.
MOST_TEXT = 1_048_576

#: Texts are listed from an input of at most so many bytes; a longer one gets the one answer 11.
MOST_INPUT = 65_536

#: Stack enough for a call, besides what Python itself uses on the thread.
STACK_BYTES = 1_048_576

_TOO_SMALL = 2**64 - 1
_NO_DOCKET = 2**64 - 2

_LENGTH = ctypes.c_size_t
_STRETCH = [ctypes.c_void_p, _LENGTH]
_STATE = 2 * _STRETCH

#: What each call takes; each returns a size_t.
CALLS = {
    "docket_rules": [],
    "docket_numbers": [],
    "docket_rows": [],
    "docket_fresh": _STATE,
    "docket_lodge": _STATE + 3 * _STRETCH,
    "docket_report": _STATE + _STRETCH + [_LENGTH],
    "docket_outputs": _STATE + _STRETCH,
    "docket_units_taken": _STATE + 2 * [_LENGTH] + 2 * _STRETCH,
    "docket_cheapest_runs": _STATE + 6 * _STRETCH,
    "docket_forced_statuses": _STATE + 5 * _STRETCH,
    "docket_listing": 2 * _STRETCH,
}


def _fail(sentence: str, path: str | None = None) -> NoReturn:
    raise ImportError(sentence, name=__package__, path=path) from None


def _path() -> str:
    """The file of the library: the one beside this module, else the one that the environment names."""
    named = os.environ.get(VARIABLE)
    for path in (BESIDE, named):
        if path and os.path.isfile(path):
            return os.path.abspath(path)
    other = f"names no file: {named}" if named else "is not set"
    _fail(f"docket finds no library: there is no {BESIDE}, and the environment variable {VARIABLE} {other}; {BUILD}")


def _load(path: str) -> ctypes.CDLL:
    """The library in the file, with the types of its calls."""
    try:
        library = ctypes.CDLL(path)
    except OSError as error:
        why = str(error).removeprefix(f"{path}: ")
        _fail(f"docket cannot load its library {path}: {why}; {BUILD}", path)
    for name, takes in CALLS.items():
        try:
            call = getattr(library, name)
        except AttributeError:
            _fail(f"docket cannot use the library {path}: it has no call {name}; {BUILD}", path)
        call.argtypes = takes
        call.restype = _LENGTH
    return library


def checked(length: int) -> int:
    """What a call returned, which is mostly a length; a RuntimeError where the call did nothing."""
    if length == _TOO_SMALL:
        raise RuntimeError(f"the library wants more room than this module lends: it is of another version; {BUILD}")
    if length == _NO_DOCKET:
        raise RuntimeError("this is no docket: its state was changed from outside")
    return length


library = _load(_path())
