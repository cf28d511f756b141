"""Time strings of satellite clocks, read, written, searched for and listened for by the verified Lindenscoop library.

    >>> import lindenscoop
    >>> record = lindenscoop.read("racal", b"XGU000229000000\\r")
    >>> record.date
    Date(year=2000, month=2, day=29)
    >>> record.sync is None
    True
    >>> lindenscoop.read("racal", b"XGU000230000000\\r")
    Traceback (most recent call last):
    lindenscoop.refusal.Refused: refused with 4: a number is outside its range, or there is no such date

A field that was not in the string is None; a damaged string raises `Refused` with its number. Forms are named ("racal"), numbered (5) or
given as `Form.RACAL`. The shared library is made by `python/make-shared.sh`; LINDENSCOOP_LIBRARY names another one.
"""
from .codec import Found, read, search, write, write_into
from .days import days_since_1980
from .form import Form
from .listener import Listener, heard
from .record import Date, DayOfYear, Fraction, Hundredths, Position, PositionInMinutes, Record
from .refusal import Refusal, Refused
from .runs import Added, Row, Run, Runs, Second

__all__ = [
    "Added",
    "Date",
    "DayOfYear",
    "Form",
    "Found",
    "Fraction",
    "Hundredths",
    "Listener",
    "Position",
    "PositionInMinutes",
    "Record",
    "Refusal",
    "Refused",
    "Row",
    "Run",
    "Runs",
    "Second",
    "days_since_1980",
    "heard",
    "read",
    "search",
    "write",
    "write_into",
]
