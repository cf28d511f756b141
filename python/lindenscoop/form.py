"""The forms by their numbers and names."""
import enum
from typing import Union

from .library import crossing
from .refusal import Refusal, Refused


class Form(enum.IntEnum):
    """The forms. Search and listener take those that are serial, 1 to 7, 10 and 12.

    FRAME and C37118 are one frame under two rules for its sign: 1 for an offset above zero in FRAME (IEEE 1344: the offset that is added to
    the encoded time to reach UTC), 1 for one below zero in C37118. A frame does not tell its rule: read by the other one it is not refused,
    and its offset has the other sign. Until C37118 came, FRAME had its rule: frames kept from then are read as C37118.
    """

    STANDARD = 1
    CAPTURE = 2
    ERLANGEN = 3
    SPA = 4
    RACAL = 5
    SYSPLEX = 6
    COMPUTIME = 7
    FRAME = 8
    BLOCK = 9
    SAT = 10
    C37118 = 11
    RMC = 12


AnyForm = Union[Form, int, str]


def number_of(form: AnyForm) -> int:
    """The number of a form that is named (letters of either case), numbered in digits, or a number. Whether there is a form of that number
    is for the library to say."""
    if isinstance(form, str):
        for known in Form:
            if form.lower() == known.name.lower() or form == str(int(known)):
                return int(known)
        names = ", ".join(f"{known.name.lower()} ({int(known)})" for known in Form)
        raise Refused(Refusal.UNKNOWN_FORM, f"{form!r} is none; the forms are {names}")
    if isinstance(form, bool) or not isinstance(form, int):
        raise TypeError(f"a form is a name or a number, not {form!r}")
    return crossing(int(form))
