"""Pictures: numpy arrays judged, and lent to the library in its own form."""
from __future__ import annotations

import ctypes
from typing import Any, TypeVar, Union

import numpy as np
from numpy.typing import NDArray

OneBit = NDArray[np.bool_]
EightBit = NDArray[np.uint8]
# a picture of either depth; what is made of it has the same
Picture = TypeVar('Picture', OneBit, EightBit)
Either = Union[OneBit, EightBit]

MOST_PINGS, MOST_BINS = 1024, 256
# a source up to so many bytes is copied sooner than its address is found
SMALL = 16384


def judged(picture: Any, what: str = 'the picture') -> int:
    """1 or 8, the depth of a picture. Whatever is no picture is refused in words."""
    if not isinstance(picture, np.ndarray):
        raise TypeError('%s must be a numpy array, and is of type %s' % (what, type(picture).__name__))
    if isinstance(picture, np.ma.MaskedArray):
        raise TypeError('%s is a masked array: say what stands at its masked points, as by filled(0)' % what)
    sort = picture.dtype.char
    if sort not in '?B':
        raise TypeError('%s must be of bool (one bit) or of uint8 (8 bits), and is of %s' % (what, picture.dtype))
    if picture.ndim != 2:
        raise ValueError('%s must have two axes, bins and pings, and has %d' % (what, picture.ndim))
    bins, pings = picture.shape
    if not (1 <= bins <= MOST_BINS and 1 <= pings <= MOST_PINGS):
        raise ValueError('%s has %s bins and %s pings: 1 to %d bins and 1 to %s pings can be had'
                         % (what, format(bins, ','), format(pings, ','), MOST_BINS, format(MOST_PINGS, ',')))
    return 1 if sort == '?' else 8


def only(depth: int, picture: Any, what: str = 'the picture') -> None:
    """Refuses whatever is no picture of this depth."""
    if judged(picture, what) != depth:
        raise TypeError('%s must be of %s, and is of %s' % (what, 'bool (one bit)' if depth == 1 else 'uint8 (8 bits)', picture.dtype))


def room(array: Any) -> Any:
    """A new array's own bytes, as they are lent to be written."""
    return (ctypes.c_char * array.nbytes).from_buffer(array)


def packed(picture: OneBit) -> bytes:
    """The bytes of a one-bit picture, whatever its memory order."""
    return np.packbits(picture, 1).tobytes()


def plain(picture: EightBit) -> Any:
    """The bytes of an 8-bit picture, whatever its memory order: a copy, or the address of its own."""
    if picture.nbytes <= SMALL or not picture.flags.c_contiguous:
        return picture.tobytes()
    return picture.ctypes.data


def unpacked(target: NDArray[np.uint8], pings: int) -> OneBit:
    """The picture of packed rows."""
    return np.unpackbits(target, 1, pings).view(np.bool_)
