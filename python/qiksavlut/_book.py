"""The element book: elements of the display and of the export, kept under numbers in one run of bytes."""
from __future__ import annotations

import ctypes
import threading
from typing import Any, Iterator, Optional

from ._element import Element, _whole, flat
from ._library import Refused, calls, done

BYTES = 2036
NUMBERS = 8
ABSENT = 14


class Party:
    """What one of the two keeps: elements under the numbers 0 to 7, at most 1,000 bytes of descriptors."""

    def __init__(self, book: Book, name: str) -> None:
        self._book, self._name = book, name
        self._put, self._get, self._remove, self._tidy = (getattr(calls, '%s_%s' % (name, what)) for what in ('put', 'get', 'remove', 'tidy'))

    def put(self, number: int, element: Element) -> None:
        """Keeps a flat element under a number, in the place of what the number held. Refused as ABSENT above 7, and as FULL where there is no room."""
        descriptor = flat(element)
        with self._book._lock:
            done(self._put(self._book._bytes, self._book._length, _number(number), descriptor, len(descriptor)))

    def get(self, number: int) -> Element:
        """The element that a number holds. Refused as ABSENT where it holds none."""
        with self._book._lock:
            answer = self._get(self._book._bytes, self._book._length, _number(number))
            done(answer & 255)
            place, length = answer >> 16 & 65535, answer >> 32 & 65535
            return Element.from_descriptor(self._book._bytes[place:place + length])

    def remove(self, number: int) -> None:
        """Gives up what a number holds. Refused as ABSENT where it holds none."""
        with self._book._lock:
            done(self._remove(self._book._bytes, self._book._length, _number(number)))

    def tidy(self) -> None:
        """Sets the bytes that hold nothing to 0. It changes no answer."""
        with self._book._lock:
            done(self._tidy(self._book._bytes, self._book._length))

    def __iter__(self) -> Iterator[int]:
        """The numbers that hold an element."""
        for number in range(NUMBERS):
            try:
                self.get(number)
            except Refused as refusal:
                if refusal.number != ABSENT:
                    raise
            else:
                yield number

    def __repr__(self) -> str:
        return '<%s: %s>' % (self._name, {number: self.get(number) for number in self})


class Book:
    """The element book that the display and the export share: 2,036 bytes, fresh or as they were kept. `bytes(book)` are the bytes to keep. Bytes that are no
    book, or a damaged one, are Refused as BOOK; further bytes are carried along.

    >>> from qiksavlut import Book, Element
    >>> book = Book()
    >>> book.display.put(0, Element.row(5))
    >>> book.export.put(0, Element.trailing(5))
    >>> book.display.get(0), list(book.export)
    (Element.draw('O####'), [0])
    >>> again = Book(bytes(book))
    >>> again.display.remove(0)
    >>> again.display.get(0)
    Traceback (most recent call last):
    ...
    qiksavlut.Refused: 14 ABSENT: the book holds nothing under this number
    >>> again.export.get(0)
    Element.draw('####O')
    """

    def __init__(self, held: Optional[bytes] = None) -> None:
        if held is not None and not isinstance(held, (bytes, bytearray, memoryview)):
            raise TypeError('a book is made of bytes, and not of %s' % type(held).__name__)
        self._length = BYTES if held is None else len(held)
        self._bytes: Any = (ctypes.c_char * max(self._length, 1))()
        # a call has the bytes to itself
        self._lock = threading.Lock()
        self.display, self.export = Party(self, 'display'), Party(self, 'export')
        if held is None:
            done(calls.book_start(self._bytes, self._length))
        else:
            self._bytes[:self._length] = bytes(held)
            answer = calls.display_get(self._bytes, self._length, 0) & 255
            if answer != ABSENT:
                done(answer)

    def __bytes__(self) -> bytes:
        with self._lock:
            return self._bytes[:self._length]

    def __repr__(self) -> str:
        return '<Book: %r, %r>' % (self.display, self.export)


def _number(number: Any) -> int:
    if not 0 <= _whole(number, 'the number') < 2 ** 64:
        raise ValueError('the number is %d: 0 to %d can be had' % (number, NUMBERS - 1))
    return int(number)
