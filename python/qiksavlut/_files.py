"""Pictures in files: ECH, raw PBM and raw PGM."""
from __future__ import annotations

import os
import pathlib
from typing import IO, Any, Optional, Union

import numpy as np

from ._library import calls, done
from ._pictures import MOST_BINS, MOST_PINGS, Either, judged, packed, plain, room, unpacked

File = Union[str, 'os.PathLike[str]', IO[bytes]]
# the longest that stands before a picture: P5, 1024 256, 255 and their line ends
MOST_HEAD = 16
FORMATS = ('ech', 'pbm', 'pgm')


def read(file: File) -> Either:
    """The picture of an ECH, raw PBM or raw PGM file, told by its first bytes: a bool array of a one-bit file, a uint8 array of an 8-bit one. `file` is a
    path, or a file that is open for reading bytes.

    >>> import io
    >>> from qiksavlut import read
    >>> read(io.BytesIO(b'P4 5 2 ' + bytes([0b11100000, 0b00011000]))).astype(int)
    array([[1, 1, 1, 0, 0],
           [0, 0, 0, 1, 1]])
    >>> read(io.BytesIO(b'a page'))
    Traceback (most recent call last):
    ...
    qiksavlut.Refused: 9 FORM: no ECH file: it is under 10 bytes, or its mark, version or kind is wrong
    """
    if isinstance(file, (str, os.PathLike)):
        held = pathlib.Path(file).read_bytes()
    elif hasattr(file, 'read'):
        held = file.read()
    else:
        raise TypeError('a file must be a path or open for reading bytes, and is of type %s' % type(file).__name__)
    if not isinstance(held, bytes):
        raise TypeError('the file must be open for reading bytes, and gave %s' % type(held).__name__)
    call = calls.pbm_read if held[:2] == b'P4' else calls.pgm_read if held[:1] == b'P' else calls.ech_read
    # a picture has fewer bytes than its file
    target = np.empty(min(len(held), MOST_PINGS * MOST_BINS) or 1, np.uint8)
    answer = call(held, len(held), room(target), len(target))
    done(answer & 255)
    kind, pings, bins = answer >> 8 & 255, answer >> 16 & 65535, answer >> 32 & 65535
    if call is calls.pgm_read or kind == 2:
        return target[:bins * pings].reshape(bins, pings).copy()
    across = pings + 7 >> 3
    return unpacked(target[:bins * across].reshape(bins, across), pings)


def _encoded(picture: Any, form: str) -> bytes:
    depth = judged(picture)
    if depth != {'pbm': 1, 'pgm': 8}.get(form, depth):
        raise TypeError('a %s file holds %s, and the picture is of %s' % (form.upper(), 'one bit: bool' if form == 'pbm' else '8 bits: uint8', picture.dtype))
    bins, pings = picture.shape
    source, size = (packed(picture), bins * (pings + 7 >> 3)) if depth == 1 else (plain(picture), bins * pings)
    if form == 'ech':
        target = np.empty(10 + size, np.uint8)
        done(calls.ech_write(1 if depth == 1 else 2, pings, bins, source, size, room(target), len(target)))
        return target.tobytes()
    target = np.empty(MOST_HEAD + size, np.uint8)
    done((calls.pbm_write if depth == 1 else calls.pgm_write)(pings, bins, source, size, room(target), len(target)))
    head = len('P4\n%d %d\n' % (pings, bins)) + (len('255\n') if depth == 8 else 0)
    return target[:head + size].tobytes()


def write(file: File, picture: Either, format: Optional[str] = None) -> None:
    """Writes a picture as `format` says, 'ech', 'pbm' (bool alone) or 'pgm' (uint8 alone); left out, as the path's ending says. `file` is a path, or a file
    that is open for writing bytes. Nothing is opened where the picture is refused.

    >>> import io, numpy as np
    >>> from qiksavlut import write
    >>> file = io.BytesIO()
    >>> write(file, np.array([[0, 128, 255]], np.uint8), 'pgm')
    >>> file.getvalue()
    b'P5\\n3 1\\n255\\n\\x00\\x80\\xff'
    """
    path = pathlib.Path(file) if isinstance(file, (str, os.PathLike)) else None
    if path is None and not hasattr(file, 'write'):
        raise TypeError('a file must be a path or open for writing bytes, and is of type %s' % type(file).__name__)
    form = format if format is not None else path.suffix[1:].lower() if path is not None else None
    if form not in FORMATS:
        raise ValueError("the format must be 'ech', 'pbm' or 'pgm'%s, and is %r"
                         % (", or the path's ending" if format is None else '', format if format is not None else path and path.name))
    held = _encoded(picture, form)
    if path is not None:
        path.write_bytes(held)
    else:
        file.write(held)  # type: ignore[union-attr]
