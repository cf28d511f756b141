"""The days of the calendar, 1980 to 2079."""
import ctypes
from typing import Optional

from .flat import full_date
from .library import LIBRARY
from .record import Date


def days_since_1980(year: int, month: int, day: int) -> Optional[int]:
    """The days from 1 January 1980 to a date; None where there is no such date of 1980 to 2079.

    >>> days_since_1980(1980, 1, 1)
    0
    >>> days_since_1980(2024, 2, 29)
    16130
    >>> days_since_1980(2023, 2, 29) is None
    True
    """
    days = ctypes.c_uint32()
    answer = LIBRARY.lindenscoop_days_since_1980_raw(*full_date(Date(year, month, day)), days)
    return None if answer else days.value
