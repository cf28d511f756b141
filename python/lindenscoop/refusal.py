"""Why an input, a record, a rack, a buffer, a state or a table is refused. The meanings are those of README.md, "What a refusal means"."""
import enum


class Refusal(enum.IntEnum):
    """A refusal by its number; `meaning` says it in words."""

    meaning: str

    def __new__(cls, number: int, meaning: str) -> "Refusal":
        member = int.__new__(cls, number)
        member._value_ = number
        member.meaning = meaning
        return member

    UNKNOWN_FORM = 1, "there is no form of this number, or none that search and listener take"
    WRONG_LENGTH = 2, "the input is not as long as the form"
    WRONG_BYTE = 3, "a fixed byte, digit, letter, padding, mark, key or spelling is wrong"
    OUT_OF_RANGE = 4, "a number is outside its range, or there is no such date"
    DISAGREEMENT = 5, "two parts disagree: weekday and date, `L` and second 60, seconds of the day and time, a minus, `S`, `W` or a frame's sign 1 on a zero, utc and summer both yes"
    WRONG_CHECKSUM = 6, "the SPA or RMC sum or the frame's parity is wrong"
    BAD_RECORD = 7, "the record to be written is bad"
    MISSING_FIELD = 8, "a field that the form carries is absent or of another kind"
    NOT_EXPRESSIBLE = 9, "the form has no letter for the record's values"
    SHORT_BUFFER = 10, "the buffer is shorter than the output"
    BAD_STATE = 11, "a listener's state that no listener has: another version or form, too many bytes, too large a distance"
    NOT_FOUND = 12, "no valid string lies wholly at or after the start of the search"
    OVERLAP = 13, "a valid string ends too close behind the last one; a listener that was started never gives it"
    NO_SECOND = 14, "the record has no full date, or is bad, so that it tells no second"
    NO_ROW = 15, "a row is needed and this rack has 32 in use"
    NO_RACK = 16, "there is no rack of this number: the racks are 0 and 1"
    BAD_TABLE = 21, "a table that no calls made: not of 64 rows, a number in use over 64, a row in use of a rack that is not 0 or 1, over 32 rows of one rack, or a rack's newest row with an impossible last second or a count over 4,000,000,000"


class Refused(ValueError):
    """Raised for every refusal: `number` and `meaning`, and `refusal` to compare with."""

    def __init__(self, refusal: int, hint: str = "") -> None:
        self.refusal = Refusal(refusal)
        self.number = int(self.refusal)
        self.meaning = self.refusal.meaning
        self.hint = hint
        super().__init__(refusal, hint)

    def __str__(self) -> str:
        return f"refused with {self.number}: {self.meaning}" + (f"; {self.hint}" if self.hint else "")
