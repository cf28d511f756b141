"""The record of a time string. A field that was not sent is None."""
import dataclasses
from typing import Optional, Union


@dataclasses.dataclass(frozen=True)
class Date:
    """A full date; `year` has its century, 1980 to 2079: 80 to 99 in a string mean 1980 to 1999, 00 to 79 mean 2000 to 2079."""

    year: int
    month: int
    day: int


@dataclasses.dataclass(frozen=True)
class DayOfYear:
    """A day of year alone, 1 to 366, of a year that was not sent."""

    day: int


@dataclasses.dataclass(frozen=True)
class Fraction:
    """A fraction of a second as it was sent: `value` with 3 or 7 digits behind the point. str() gives 0.007. `Hundredths` are a class of their own."""

    value: int
    digits: int

    def __str__(self) -> str:
        return f"0.{self.value:0{self.digits}}"


@dataclasses.dataclass(frozen=True)
class Hundredths:
    """Hundredths of a second, 0 to 99, as an RMC string has them. str() gives 0.07. No kind of fraction is turned into another, and no attribute
    of this one is an attribute of Fraction, so that code which knows thousandths and ten-millionths alone raises AttributeError and takes
    these for neither.

    >>> str(Hundredths(7))
    '0.07'
    >>> Hundredths(7).digits  # doctest: +ELLIPSIS
    Traceback (most recent call last):
    AttributeError: 'Hundredths' object has no attribute 'digits'...
    """

    hundredths: int

    def __str__(self) -> str:
        return f"0.{self.hundredths:02}"


@dataclasses.dataclass(frozen=True)
class Position:
    """Ten-thousandths of a degree, north and east positive, and metres."""

    latitude: int
    longitude: int
    altitude: int


@dataclasses.dataclass(frozen=True)
class PositionInMinutes:
    """Hundredths of a minute of arc, north and east positive, without an altitude, as an RMC string has them. 284100 is 47 degrees 21.00
    minutes. One kind of position is never turned into the other, and no attribute of one is an attribute of the other, so that code which
    knows degrees alone raises AttributeError.

    >>> PositionInMinutes(284100, 48375).latitude  # doctest: +ELLIPSIS
    Traceback (most recent call last):
    AttributeError: 'PositionInMinutes' object has no attribute 'latitude'...
    """

    latitude_hundredths: int
    longitude_hundredths: int


@dataclasses.dataclass(frozen=True)
class Record:
    """A record; `Record()` is the empty one, 00:00:00 and all else absent. `second` is 60 in a leap second."""

    hour: int = 0
    minute: int = 0
    second: int = 0
    date: Optional[Union[Date, DayOfYear]] = None
    fraction: Optional[Union[Fraction, Hundredths]] = None
    channel: Optional[int] = None
    sync: Optional[bool] = None
    #: position checked
    fix: Optional[bool] = None
    utc: Optional[bool] = None
    summer: Optional[bool] = None
    #: a change of summer time, announced in the last hour
    change: Optional[bool] = None
    #: a leap second, announced in the last hour
    leap: Optional[bool] = None
    #: minutes of local time minus UTC
    offset: Optional[int] = None
    position: Optional[Union[Position, PositionInMinutes]] = None
    #: a change of summer time is pending (IEEE1344)
    dsp: Optional[bool] = None
    #: a leap second is pending (IEEE1344)
    lsp: Optional[bool] = None
