"""A listener for a stream of one serial form's strings, and all strings of a stream."""
import ctypes
import io
from typing import BinaryIO, Callable, Iterator, List, Optional, Union

from . import library
from .codec import BytesLike, Found, bytes_of, write
from .flat import decode
from .form import AnyForm, number_of
from .library import LIBRARY, LISTENER_BYTES, RECORD_NUMBERS
from .record import Record
from .refusal import Refused


class Listener:
    """Hands out a record exactly when the byte just fed is the last of a valid string. One thread at a time.

        >>> listener = Listener("racal")
        >>> listener.feed_all(b"XGU00XGU0002290000")
        []
        >>> listener.feed_all(b"00\\r")[0].place
        5
    """

    def __init__(self, form: AnyForm) -> None:
        """Starts a listener. A form that is not serial raises Refused with number 1."""
        self._form = number_of(form)
        self._state = library.State()
        self._fed = 0
        self._length: Optional[int] = None
        answer = LIBRARY.lindenscoop_start_raw(self._form, self._state, LISTENER_BYTES)
        if answer:
            raise Refused(answer)

    @property
    def fed(self) -> int:
        """How many bytes were fed."""
        return self._fed

    def feed(self, byte: int) -> Optional[Record]:
        """Feeds one byte: the record that it completes, or None."""
        found = self.feed_all(bytes([byte]))
        return found[0].record if found else None

    def feed_all(self, data: BytesLike) -> List[Found]:
        """Feeds all the bytes: the strings that they complete, each with its place, counted over all bytes fed to this listener."""
        data, strings = bytes_of(data), []
        # Into the bytes by their address, since a part cut off behind each string would copy the rest each time.
        head, at = ctypes.cast(ctypes.c_char_p(data), ctypes.c_void_p).value, 0
        numbers, used = library.Numbers(), ctypes.c_size_t()
        while at < len(data):
            answer = LIBRARY.lindenscoop_feed_all_numbers(
                self._state, LISTENER_BYTES, head + at, len(data) - at, used, numbers, RECORD_NUMBERS
            )
            at += used.value
            self._fed += used.value
            if answer == library.HEARD:
                strings.append(self._found(decode(numbers)))
            elif answer:
                raise Refused(answer)
        return strings

    def _found(self, record: Record) -> Found:
        if self._length is None:
            # What was accepted is written again as the same bytes, and all strings of a serial form have one length.
            self._length = len(write(self._form, record))
        return Found(self._fed - self._length, record)


def heard(form: AnyForm, stream: Union[BinaryIO, BytesLike]) -> Iterator[Found]:
    """The strings in a stream, in order and once each, with their places: the number of bytes before each.

    The stream is bytes, or anything with `read` (its `read1` is taken where it has one, so that a pipe or a port is heard at once). It ends
    where b"" is read; an error of the stream is raised. A form that is not serial raises Refused at the call, before anything is read.

        >>> [found.place for found in heard("racal", b"..XGU000229000000\\r")]
        [2]
    """
    listener = Listener(form)
    read = getattr(stream, "read1", None) or getattr(stream, "read", None)
    return _heard(listener, read or io.BytesIO(bytes_of(stream)).read1)


def _heard(listener: Listener, read: Callable[[int], Optional[bytes]]) -> Iterator[Found]:
    while True:
        piece = read(65536)
        if piece is None:
            raise BlockingIOError("nothing to read now: heard needs a stream that waits")
        if not piece:
            return
        yield from listener.feed_all(piece)
