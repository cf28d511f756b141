"""Which seconds were heard: the runs of seconds that follow each other, as rows of a table that two racks share."""
import dataclasses
import enum
from typing import Iterable, List, Optional, Sequence

from . import library
from .flat import encode, full_date, full_year, number
from .library import LIBRARY, crossing
from .record import Date, Record
from .refusal import Refused


@dataclasses.dataclass(frozen=True)
class Second:
    """A second of the calendar, as a record with a full date tells it. `year` has its century, 1980 to 2079; `second` is 60 in a leap second.

    >>> str(Second(2016, 12, 31, 23, 59, 60))
    '2016-12-31 23:59:60'
    """

    year: int
    month: int
    day: int
    hour: int
    minute: int
    second: int

    @property
    def date(self) -> Date:
        """Its date."""
        return Date(self.year, self.month, self.day)

    def __str__(self) -> str:
        return f"{self.year}-{self.month:02}-{self.day:02} {self.hour:02}:{self.minute:02}:{self.second:02}"


@dataclasses.dataclass(frozen=True)
class Run:
    """Seconds that were heard one after the other, each the next of the one before. `count` is how many, `first` and `last` included."""

    first: Second
    last: Second
    count: int


@dataclasses.dataclass(frozen=True)
class Row:
    """A row of a table: a run, and the rack that heard it, 0 or 1."""

    rack: int
    run: Run


class Added(str, enum.Enum):
    """What became of a second that was added: it joined the newest run of its rack, or opened a row. Equal to "joined" or "opened"."""

    JOINED = "joined"
    OPENED = "opened"

    def __str__(self) -> str:
        return self.value


def _second_numbers(second: Second) -> library.SecondNumbers:
    if not isinstance(second, Second):
        raise TypeError(f"a Second is needed, not {second!r}")
    time = number(second.hour, "hour"), number(second.minute, "minute"), number(second.second, "second")
    return library.SecondNumbers(*full_date(second.date), *time)


def _row_numbers(row: Optional[Row]) -> library.RowNumbers:
    if row is None:
        return library.RowNumbers()
    if not isinstance(row, Row):
        raise TypeError(f"a row is a Row, or None where it is not in use, not {row!r}")
    if not isinstance(row.run, Run):
        raise TypeError(f"the run of a row is a Run, not {row.run!r}")
    run = library.RunNumbers(_second_numbers(row.run.first), _second_numbers(row.run.last), number(row.run.count, "count"))
    return library.RowNumbers(number(row.rack, "rack"), run)


def _second_of(n: library.SecondNumbers) -> Second:
    return Second(full_year(n.yy), n.month, n.day, n.hour, n.minute, n.second)


class Runs:
    """A table of 64 rows, each a run of one of two racks, 0 and 1. A record with a full date joins the newest run of its own rack if its second
    is the next of the last one: 59 is followed by 60 or by the next minute, 60 by the next minute, and nothing follows the last minute of 2079.
    Any other second, a repeat or one before included, opens a row. From an empty table on, what one rack is told and its own runs are the same
    whatever the other rack's records are. One thread at a time.

        >>> from lindenscoop import heard
        >>> log = b"XGU161231235959\\rXGU161231235960\\rXGU170101000000\\rXGU170101000000\\r"
        >>> runs = Runs()
        >>> [str(runs.add(found.record)) for found in heard("racal", log)]
        ['opened', 'joined', 'joined', 'opened']
        >>> [str(runs.add(found.record, rack=1)) for found in heard("racal", log[:32])]
        ['opened', 'joined']
        >>> for row in runs.rows:
        ...     print("rack", row.rack, row.run.first, "to", row.run.last, "count", row.run.count)
        rack 0 2016-12-31 23:59:59 to 2017-01-01 00:00:00 count 3
        rack 0 2017-01-01 00:00:00 to 2017-01-01 00:00:00 count 1
        rack 1 2016-12-31 23:59:59 to 2016-12-31 23:59:60 count 2
    """

    #: how many rows a table has
    ROWS = library.ROWS
    #: how many racks share a table, by the numbers 0 and 1
    RACKS = library.RACKS
    #: how many rows of a table one rack may have in use
    RACK_ROWS = library.RACK_ROWS

    def __init__(self) -> None:
        """An empty table."""
        self._fill([None] * library.ROWS, 0)

    @classmethod
    def of(cls, rows: Iterable[Optional[Row]], used: int) -> "Runs":
        """The table of these rows, of which the first `used` are in use; a row that is not may be None. Any rows and any number are taken: what
        no calls made is refused with 21 where a record is added.

        >>> kept = [Row(1, Run(Second(2024, 2, 29, 12, 0, 0), Second(2024, 2, 29, 12, 0, 7), 8))]
        >>> runs = Runs.of(kept + [None] * 63, 1)
        >>> runs.add(Record(12, 0, 8, Date(2024, 2, 29)), rack=1)
        <Added.JOINED: 'joined'>
        >>> runs.of_rack(1)[0].count
        9
        """
        runs = cls()
        runs._fill(list(rows), used)
        return runs

    def _fill(self, rows: List[Optional[Row]], used: int) -> None:
        number(used, "the number in use")
        if None in rows[: max(used, 0)]:
            raise TypeError("a row in use is a Row, not None")
        # what the library is lent
        self._table: Sequence[library.RowNumbers] = (library.RowNumbers * len(rows))(*map(_row_numbers, rows))
        self._rows, self._used = rows, used

    @property
    def used(self) -> int:
        """How many rows are in use."""
        return self._used

    @property
    def rows(self) -> List[Row]:
        """The rows in use, of both racks, in the order in which they were opened."""
        return [row for row in self._rows[: max(self._used, 0)] if row is not None]

    def of_rack(self, rack: int) -> List[Run]:
        """The runs of one rack, in the order in which they were opened; the newest is the last. A rack that is not 0 or 1 has none."""
        number(rack, "rack")
        return [row.run for row in self.rows if row.rack == rack]

    def add(self, record: Record, rack: int = 0) -> Added:
        """Adds the second that a record of one rack tells. Raises Refused and changes nothing: 16 for a rack that is not 0 or 1; then 21 for a
        table that no calls made; then 14 where the record tells no second, since it has no full date or is bad; then 15 where it needs a row
        and its rack has 32."""
        numbers = library.RecordByValue(*encode(record))
        added = LIBRARY.lindenscoop_add_rack_second_numbers(
            self._table, len(self._table), crossing(self._used), number(rack, "rack"), numbers
        )
        if added.answer:
            raise Refused(added.answer)
        told = Added.JOINED if added.used == self._used else Added.OPENED
        self._used = added.used
        # the row of this rack that was opened last, by this call or before it
        place = max(place for place in range(added.used) if self._table[place].rack == rack)
        self._rows[place] = Row(rack, self._written(place))
        return told

    def _written(self, place: int) -> Run:
        """The run that the library wrote. A first second that it left as it was may be one of a table that no calls made, with a year that no
        two digits mean."""
        run, before = self._table[place].run, self._rows[place]
        if before is not None and bytes(run.first) == bytes(_second_numbers(before.run.first)):
            first = before.run.first
        else:
            first = _second_of(run.first)
        return Run(first, _second_of(run.last), run.count)

    def take(self, rack: int = 0) -> List[Run]:
        """Hands out the runs of one rack, in the order in which they were opened, and leaves it no row; those of the other rack stay as they are,
        in their order. It is what to do where a record is refused with 15, before it is added again. Such a record joins no run, so the runs of
        a rack handed out one after the other are those of a table without an end. A rack that is not 0 or 1 has none.

        >>> from lindenscoop import Refusal, Refused
        >>> runs, heard = Runs(), []
        >>> for minute in range(24 * 60):
        ...     # rack 1 hears the first hour without a gap, rack 0 a second of each minute
        ...     told = runs.add(Record(0, minute // 60, minute % 60, Date(2024, 2, 29)), rack=1)
        ...     record = Record(minute // 60, minute % 60, 0, Date(2024, 2, 29))
        ...     try:
        ...         told = runs.add(record, rack=0)
        ...     except Refused as refused:
        ...         assert refused.refusal == Refusal.NO_ROW
        ...         heard += runs.take(0)
        ...         told = runs.add(record, rack=0)
        >>> heard += runs.take(0)
        >>> len(heard), [run.count for run in runs.take(1)], runs.used
        (1440, [1440], 0)
        """
        taken = self.of_rack(rack)
        kept: List[Optional[Row]] = [row for row in self.rows if row.rack != rack]
        self._fill(kept + [None] * (library.ROWS - len(kept)), len(kept))
        return taken
