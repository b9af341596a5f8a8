"""The proved library, loaded: where it is, its entries as include/qiksavlut.h declares them, and what it refuses."""
from __future__ import annotations

import ctypes
import os
import pathlib
from typing import Any

NAME = 'libqiksavlut.so'
_HERE = pathlib.Path(__file__).resolve().parent
# where it may be: where the user says; beside this file, as pip installs it; in the clone that this file stands in, as host/shared makes it
PLACES = [_HERE / NAME, _HERE.parent.parent / 'target' / 'shared' / NAME]
if os.environ.get('QIKSAVLUT_LIBRARY'):
    PLACES = [pathlib.Path(os.environ['QIKSAVLUT_LIBRARY'])]


def _load() -> tuple[pathlib.Path, ctypes.CDLL]:
    for place in PLACES:
        if place.is_file():
            try:
                return place, ctypes.CDLL(str(place))
            except OSError as why:
                raise ImportError('the library cannot be loaded: %s' % why) from None
    raise ImportError('there is no %s; `pip install .` in the folder python of a clone makes it, and host/shared does. Looked for: %s'
                      % (NAME, ', '.join(map(str, PLACES))))


PATH, _loaded = _load()

# n is a number of 64 bits, b a buffer: its address and its length
ENTRIES = {
    'nnbb': 'nesting pbm_write pgm_write',
    'nnbbb': 'erode1 erode8 dilate1 dilate8 weighted_erode weighted_dilate reconstruct_cross reconstruct_square size_spectrum',
    'nnbbbb': 'open1 open8 close1 close8 white_tophat1 white_tophat8 black_tophat1 black_tophat8 gradient1 gradient8 hit_or_miss weighted_open weighted_close',
    'nnbbnbbb': 'chain_erode1 chain_erode8 chain_dilate1 chain_dilate8',
    'nnnbb': 'ech_write',
    'bb': 'ech_read pbm_read pgm_read find_chain',
    'bnb': 'check_chain display_put export_put',
    'bn': 'display_get export_get display_remove export_remove',
    'b': 'book_start display_tidy export_tidy',
}
# the answers that have more in them than 32 bits hold
LONG = 'nesting find_chain ech_read pbm_read pgm_read display_get export_get'.split()
_KINDS: dict[str, list[Any]] = {'n': [ctypes.c_uint64], 'b': [ctypes.c_void_p, ctypes.c_size_t]}


class Calls:
    """The entries by their names without `qik_`."""

    def __init__(self) -> None:
        for kinds, names in ENTRIES.items():
            for name in names.split():
                entry = getattr(_loaded, 'qik_' + name, None)
                if entry is None:
                    raise ImportError('%s is of another version: it has no qik_%s' % (PATH, name))
                entry.argtypes = [part for kind in kinds for part in _KINDS[kind]]
                entry.restype = ctypes.c_uint64 if name in LONG else ctypes.c_uint32
                setattr(self, name, entry)

    def __getattr__(self, name: str) -> Any:
        raise AttributeError('the library has no entry qik_' + name)


calls = Calls()

# number: the name, and what it says
REFUSALS = {
    1: ('SIZE', 'the picture has fewer than 1 or more than 1,024 pings, or fewer than 1 or more than 256 bins'),
    2: ('SOURCE', 'the picture has not exactly the length that its size needs'),
    3: ('PAD', 'a padding bit of the file is 1'),
    4: ('SHAPE', 'the descriptor breaks a rule'),
    5: ('OVERLAP', 'hit and miss share an offset'),
    6: ('CHAIN', 'a chain has 1 to 5 links, each at most 8 x 8'),
    7: ('SPLIT', 'chain and element differ, first at dx %d, dy %d'),
    8: ('ROOM', 'a buffer is too short'),
    9: ('FORM', 'no ECH file: it is under 10 bytes, or its mark, version or kind is wrong'),
    10: ('JOB', 'no job'),
    11: ('NETPBM', 'no raw PBM file, nor a raw PGM file with the maximum 255: its header is broken'),
    12: ('MARKER', 'a marker point lies outside the mask'),
    13: ('FULL', "the party's descriptors would exceed 1,000 bytes"),
    14: ('ABSENT', 'the book holds nothing under this number'),
    15: ('RETIRED', 'files of kind 3 are no longer made'),
    16: ('NEST', 'the picture has more than 16,384 points, or more than 255 regions'),
    17: ('BOOK', 'the bytes are no element book, or a damaged one'),
    18: ('NOCHAIN', 'no chain does what the element does'),
}


class Refused(ValueError):
    """The library refuses what it was asked: `number` and `name` as the documents have them, `dx` and `dy` of the first offset at fault where the name is
    SPLIT, else 0; and `gave_up` where the name is NOCHAIN and the search ended at its bound, so that there may be a chain all the same.

    >>> import qiksavlut
    >>> try:
    ...     qiksavlut.check_chain(qiksavlut.Element.draw('O##'), [qiksavlut.Element.draw('O#'), qiksavlut.Element.draw('O.#')])
    ... except qiksavlut.Refused as refusal:
    ...     print(refusal)
    ...     print(refusal.number, refusal.name, refusal.dx, refusal.dy)
    7 SPLIT: chain and element differ, first at dx 3, dy 0
    7 SPLIT 3 0
    """

    def __init__(self, number: int, dx: int = 0, dy: int = 0, gave_up: bool = False) -> None:
        super().__init__(number, dx, dy, gave_up)
        self.number, self.dx, self.dy, self.gave_up = number, dx, dy, gave_up
        self.name: str = REFUSALS[number][0]

    def __str__(self) -> str:
        words = 'no chain was found, and the search gave up' if self.gave_up else REFUSALS[self.number][1]
        return '%d %s: %s' % (self.number, self.name, words % (self.dx, self.dy) if '%' in words else words)


def done(answer: int) -> None:
    """Raises what an answer refuses: number + 256 * (dx mod 256) + 65536 * (dy mod 256)."""
    if answer:
        raise Refused(answer & 255, (answer >> 8 & 255 ^ 128) - 128, (answer >> 16 & 255 ^ 128) - 128)
