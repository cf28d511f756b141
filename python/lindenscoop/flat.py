"""A record as the 29 numbers in which it crosses to the library, in the order of the struct in lindenscoop.h."""
import ctypes
from typing import List, Optional, Sequence, Union

from .library import LIBRARY, OUTSIDE, crossing
from .record import Date, DayOfYear, Fraction, Hundredths, Position, PositionInMinutes, Record

FLAGS = ("sync", "fix", "utc", "summer", "change", "leap")
KINDS_OF_FRACTION = {3: 1, 7: 2}
DIGITS_OF_KIND = {kind: digits for digits, kind in KINDS_OF_FRACTION.items()}
HUNDREDTHS = 3


def _whole(value: int, what: str) -> int:
    if isinstance(value, bool) or not isinstance(value, int):
        raise TypeError(f"{what} is a whole number, not {value!r}")
    return value


def number(value: int, what: str) -> int:
    """A number as it is handed over; what is no whole number is a TypeError."""
    return crossing(_whole(value, what))


def _signed(value: int, what: str) -> List[int]:
    return [int(_whole(value, what) < 0), crossing(abs(value))]


def _flag(value: Optional[bool], what: str) -> int:
    if value is not None and not isinstance(value, bool):
        raise TypeError(f"{what} is True, False or None, not {value!r}")
    return 0 if value is None else 1 + value


def full_year(yy: int) -> int:
    """The year with its century that two digits mean, as the library says."""
    year = ctypes.c_uint32()
    if LIBRARY.lindenscoop_full_year_raw(yy, year):
        raise RuntimeError(f"the library has no year of the two digits {yy}")
    return year.value


def full_date(date: Date) -> List[int]:
    """Two digits of the year, month and day in which a date crosses; a year that no two digits mean is handed over as OUTSIDE."""
    year = _whole(date.year, "year")
    yy = year % 100
    return [yy if full_year(yy) == year else OUTSIDE, number(date.month, "month"), number(date.day, "day")]


def _date(date: Optional[Union[Date, DayOfYear]]) -> List[int]:
    if date is None:
        return [0, 0, 0, 0, 0]
    if isinstance(date, Date):
        return [1, *full_date(date), 0]
    if isinstance(date, DayOfYear):
        return [2, 0, 0, 0, number(date.day, "day of year")]
    raise TypeError(f"a date is a Date, a DayOfYear or None, not {date!r}")


def _fraction(fraction: Optional[Union[Fraction, Hundredths]]) -> List[int]:
    if fraction is None:
        return [0, 0]
    if isinstance(fraction, Fraction):
        kind = KINDS_OF_FRACTION.get(_whole(fraction.digits, "digits"), OUTSIDE)
        return [kind, number(fraction.value, "fraction")]
    if isinstance(fraction, Hundredths):
        return [HUNDREDTHS, number(fraction.hundredths, "hundredths")]
    raise TypeError(f"a fraction is a Fraction, Hundredths or None, not {fraction!r}")


def _position(position: Optional[Union[Position, PositionInMinutes]]) -> List[int]:
    if position is None:
        return [0, 0, 0, 0, 0, 0]
    if isinstance(position, Position):
        latitude, longitude = _signed(position.latitude, "latitude"), _signed(position.longitude, "longitude")
        return [1, *latitude, *longitude, number(position.altitude, "altitude")]
    if isinstance(position, PositionInMinutes):
        latitude, longitude = _signed(position.latitude_hundredths, "latitude"), _signed(position.longitude_hundredths, "longitude")
        return [2, *latitude, *longitude, 0]
    raise TypeError(f"a position is a Position, a PositionInMinutes or None, not {position!r}")


def encode(record: Record) -> List[int]:
    """The numbers in which the record crosses."""
    if not isinstance(record, Record):
        raise TypeError(f"a Record is needed, not {record!r}")
    numbers = [number(record.hour, "hour"), number(record.minute, "minute"), number(record.second, "second")]
    numbers += _date(record.date) + _fraction(record.fraction)
    numbers += [0, 0] if record.channel is None else [1, number(record.channel, "channel")]
    numbers += [_flag(getattr(record, name), name) for name in FLAGS]
    numbers += [0, 0, 0] if record.offset is None else [1, *_signed(record.offset, "offset")]
    return numbers + _position(record.position) + [_flag(record.dsp, "dsp"), _flag(record.lsp, "lsp")]


def _flag_of(flag: int) -> Optional[bool]:
    return None if flag == 0 else flag == 2


def _date_of(n: Sequence[int]) -> Optional[Union[Date, DayOfYear]]:
    if n[3] == 0:
        return None
    return Date(full_year(n[4]), n[5], n[6]) if n[3] == 1 else DayOfYear(n[7])


def _fraction_of(n: Sequence[int]) -> Optional[Union[Fraction, Hundredths]]:
    if n[8] == 0:
        return None
    if n[8] in DIGITS_OF_KIND:
        return Fraction(n[9], DIGITS_OF_KIND[n[8]])
    if n[8] == HUNDREDTHS:
        return Hundredths(n[9])
    # Of a library that is newer than this module; any kind in its place would be a wrong number.
    raise RuntimeError(f"the library stored a fraction of kind {n[8]}")


def _position_of(n: Sequence[int]) -> Optional[Union[Position, PositionInMinutes]]:
    latitude, longitude = -n[23] if n[22] else n[23], -n[25] if n[24] else n[25]
    if n[21] == 0:
        return None
    if n[21] == 1:
        return Position(latitude, longitude, n[26])
    if n[21] == 2:
        return PositionInMinutes(latitude, longitude)
    # As for a fraction.
    raise RuntimeError(f"the library stored a position of kind {n[21]}")


def decode(n: Sequence[int]) -> Record:
    """The record of numbers that the library stored."""
    return Record(
        hour=n[0],
        minute=n[1],
        second=n[2],
        date=_date_of(n),
        fraction=_fraction_of(n),
        channel=n[11] if n[10] else None,
        offset=(-n[20] if n[19] else n[20]) if n[18] else None,
        position=_position_of(n),
        dsp=_flag_of(n[27]),
        lsp=_flag_of(n[28]),
        **{name: _flag_of(n[12 + place]) for place, name in enumerate(FLAGS)},
    )
