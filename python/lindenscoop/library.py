"""The shared library: where it is found, and the types of its functions, as lindenscoop.h has them."""
import ctypes
import os
import pathlib
from typing import List

NAME = "liblindenscoop.so.0.1"
RECORD_NUMBERS = 29
LISTENER_BYTES = 70
LONGEST_STRING = 174
ROWS = 64
RACKS = 2
RACK_ROWS = 32

#: what feed_all answers for a record handed out
HEARD = 100

#: In the range of no field, the number of no form: what cannot cross is handed over as this, and refused by the library in its own order.
OUTSIDE = 2**32 - 1

Numbers = ctypes.c_uint32 * RECORD_NUMBERS
State = ctypes.c_uint8 * LISTENER_BYTES


class RecordByValue(ctypes.Structure):
    """A record's numbers as the struct of lindenscoop.h: a field for each, since an array crosses as a pointer in some versions of ctypes."""

    _fields_ = [(f"number_{place}", ctypes.c_uint32) for place in range(RECORD_NUMBERS)]


class SecondNumbers(ctypes.Structure):
    """A second of the calendar, its year as two digits."""

    _fields_ = [(name, ctypes.c_uint32) for name in ("yy", "month", "day", "hour", "minute", "second")]


class RunNumbers(ctypes.Structure):
    """A run."""

    _fields_ = [("first", SecondNumbers), ("last", SecondNumbers), ("count", ctypes.c_uint32)]


class RowNumbers(ctypes.Structure):
    """A row of a table of runs."""

    _fields_ = [("rack", ctypes.c_uint32), ("run", RunNumbers)]


class AddedNumbers(ctypes.Structure):
    """What adding a second answers, and the number of rows in use."""

    _fields_ = [("answer", ctypes.c_uint32), ("used", ctypes.c_uint32)]


_size = ctypes.c_size_t
_place = ctypes.POINTER(ctypes.c_size_t)
_numbers = ctypes.POINTER(ctypes.c_uint32)
_state = ctypes.POINTER(ctypes.c_uint8)
_FUNCTIONS = {
    "lindenscoop_read_numbers": [ctypes.c_uint32, ctypes.c_void_p, _size, _numbers, _size],
    "lindenscoop_write_numbers": [ctypes.c_uint32, _numbers, _size, ctypes.c_void_p, _size, _place],
    "lindenscoop_search_numbers": [ctypes.c_uint32, ctypes.c_void_p, _size, _size, _place, _numbers, _size],
    "lindenscoop_start_raw": [ctypes.c_uint32, _state, _size],
    "lindenscoop_feed_all_numbers": [_state, _size, ctypes.c_void_p, _size, _place, _numbers, _size],
    "lindenscoop_full_year_raw": [ctypes.c_uint32, _numbers],
    "lindenscoop_days_since_1980_raw": [ctypes.c_uint32, ctypes.c_uint32, ctypes.c_uint32, _numbers],
    "lindenscoop_add_rack_second_numbers": [ctypes.POINTER(RowNumbers), _size, ctypes.c_uint32, ctypes.c_uint32, RecordByValue],
}
#: those that answer more than a number
_ANSWERS = {"lindenscoop_add_rack_second_numbers": AddedNumbers}


def crossing(value: int) -> int:
    """The number as it is handed over. ctypes would cut one that does not fit to its low bits, which are another number."""
    return value if 0 <= value <= OUTSIDE else OUTSIDE


def _candidates() -> List[str]:
    """LINDENSCOOP_LIBRARY alone where it is set; else beside the module, in the lib folder above it, in the repository, where the system looks."""
    named = os.environ.get("LINDENSCOOP_LIBRARY")
    if named:
        return [named]
    folder = pathlib.Path(__file__).resolve().parent
    parents = list(folder.parents)
    files = [folder / NAME]
    if len(parents) > 2:
        files += [parents[2] / NAME, parents[1] / "target/sharedlib" / NAME]
    return [str(file) for file in files if file.is_file()] + [NAME]


def _load() -> ctypes.CDLL:
    candidates = _candidates()
    try:
        library = ctypes.CDLL(candidates[0])
    except OSError as error:
        raise ImportError(
            f"lindenscoop: the shared library cannot be loaded ({error}). Make it with `scripts/build lindenscoop_c` and "
            "`python/make-shared.sh` in the repository, install it, or set LINDENSCOOP_LIBRARY to its path."
        ) from None
    for name, types in _FUNCTIONS.items():
        function = getattr(library, name, None)
        if function is None:
            raise ImportError(
                f"lindenscoop: {candidates[0]} has no {name}, so it is of another version than this module. Install both of one version, or set "
                "LINDENSCOOP_LIBRARY to the path of the right one."
            )
        function.argtypes, function.restype = types, _ANSWERS.get(name, ctypes.c_uint32)
    return library


LIBRARY = _load()
