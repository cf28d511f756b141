"""Strings of any form, read, written and searched for."""
import ctypes
from typing import NamedTuple, Union

from . import library
from .flat import decode, encode
from .form import AnyForm, number_of
from .library import LIBRARY, RECORD_NUMBERS
from .record import Record
from .refusal import Refused

BytesLike = Union[bytes, bytearray, memoryview]


class Found(NamedTuple):
    """A valid string: the number of bytes before it, and its record."""

    place: int
    record: Record


def bytes_of(data: BytesLike) -> bytes:
    """Bytes that nobody changes while the library reads them. A number or a text is a TypeError."""
    if isinstance(data, bytes):
        return data
    if isinstance(data, str):
        raise TypeError("bytes are needed, not text: b'..', or a file opened with 'rb'")
    return bytes(memoryview(data))


def read(form: AnyForm, data: BytesLike) -> Record:
    """The record of a whole input of a form; raises Refused."""
    data, numbers = bytes_of(data), library.Numbers()
    answer = LIBRARY.lindenscoop_read_numbers(number_of(form), data, len(data), numbers, RECORD_NUMBERS)
    if answer:
        raise Refused(answer)
    return decode(numbers)


def write_into(form: AnyForm, record: Record, buffer: bytearray) -> int:
    """Writes a record at the head of a buffer and returns how many bytes it has. A refused write raises Refused and changes no byte."""
    number, numbers = number_of(form), library.Numbers(*encode(record))
    written = ctypes.c_size_t()
    out = (ctypes.c_uint8 * len(buffer)).from_buffer(buffer)
    answer = LIBRARY.lindenscoop_write_numbers(number, numbers, RECORD_NUMBERS, out, len(buffer), written)
    # Kept by the exception's traceback, it would bar the buffer from growing.
    del out
    if answer:
        raise Refused(answer)
    return written.value


def write(form: AnyForm, record: Record) -> bytes:
    """The string of a record; raises Refused."""
    buffer = bytearray(library.LONGEST_STRING)
    written = write_into(form, record, buffer)
    return bytes(buffer[:written])


def search(form: AnyForm, data: BytesLike, start: int = 0) -> Found:
    """The first valid string of a serial form that lies wholly at or after a start. Raises Refused: 1 for a form that is not serial, 12 where
    there is none."""
    if start < 0:
        raise ValueError(f"start is {start}; a search starts at 0 or later")
    data, numbers, place = bytes_of(data), library.Numbers(), ctypes.c_size_t()
    # Any start past the end finds nothing, so one too great to cross is put there.
    answer = LIBRARY.lindenscoop_search_numbers(number_of(form), data, len(data), min(start, len(data)), place, numbers, RECORD_NUMBERS)
    if answer:
        raise Refused(answer)
    return Found(place.value, decode(numbers))
