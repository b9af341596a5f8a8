"""Elements: the cells that an operation looks at, and where they stand about the origin."""
from __future__ import annotations

import operator
from typing import Any, Optional

import numpy as np
from numpy.typing import ArrayLike, NDArray

MOST_CELLS = 64
MOST_HEIGHT = 127
# the widest disc that has at most MOST_CELLS cells a side
MOST_RADIUS = (MOST_CELLS - 1) // 2


def _whole(number: Any, what: str) -> int:
    try:
        if isinstance(number, (bool, np.bool_)):
            raise TypeError
        return operator.index(number)
    except TypeError:
        raise TypeError('%s must be a whole number, and is %r' % (what, number)) from None


class Element:
    """Cells about an origin. A set cell at row r and column c stands for the offset dx = c - origin's column, dy = r - origin's row: dx counts pings,
    dy bins. Elements do not change.

    `cells` is an array of bool (or of 0 and 1), 1 to 64 cells each way; its rows are bins and its columns pings, as those of a picture. `origin` is
    (row, column), so that `cells[origin]` is the cell there; left out it is the middle, (rows // 2, columns // 2), as scipy.ndimage and OpenCV have it.
    `weights` are heights for `weighted_erode` and its companions: an int8 array of the same shape, -127 to 127, 0 where the cell is unset.

    >>> from qiksavlut import Element
    >>> Element([[0, 1, 0], [1, 1, 1], [0, 1, 0]])
    Element.draw('.#./#O#/.#.')
    >>> Element([[1, 1, 1]], origin=(0, 2)).offsets
    [(-2, 0), (-1, 0), (0, 0)]
    >>> Element([[1, 1]], origin=(0, 2))
    Traceback (most recent call last):
    ...
    ValueError: the origin is row 0 and column 2, and the element has 1 row and 2 columns
    """

    __slots__ = ('_cells', '_origin', '_weights', '_descriptor')

    def __init__(self, cells: ArrayLike, origin: Optional[tuple[int, int]] = None, weights: Optional[NDArray[np.int8]] = None) -> None:
        array = np.array(cells)
        if array.dtype.kind not in 'bui' or array.dtype.kind in 'ui' and not np.isin(array, (0, 1)).all():
            raise TypeError('the cells must be of bool, or 0 and 1, and are %s'
                            % ('of %s' % array.dtype if array.dtype.kind not in 'ui' else 'other numbers too'))
        if array.ndim != 2:
            raise ValueError('the cells must have two axes, rows and columns, and have %d' % array.ndim)
        rows, columns = array.shape
        if not (1 <= rows <= MOST_CELLS and 1 <= columns <= MOST_CELLS):
            raise ValueError('the element has %d rows and %d columns: 1 to %d of each can be had' % (rows, columns, MOST_CELLS))
        if origin is None:
            row, column = rows // 2, columns // 2
        else:
            try:
                row, column = origin
            except (TypeError, ValueError):
                raise TypeError('the origin must be (row, column), and is %r' % (origin,)) from None
            row, column = _whole(row, "the origin's row"), _whole(column, "the origin's column")
        if not (0 <= row < rows and 0 <= column < columns):
            raise ValueError('the origin is row %d and column %d, and the element has %d row%s and %d column%s'
                             % (row, column, rows, '' if rows == 1 else 's', columns, '' if columns == 1 else 's'))
        self._cells = array.astype(np.bool_)
        self._cells.flags.writeable = False
        self._origin = row, column
        self._descriptor = bytes([columns, rows, column, row]) + np.packbits(self._cells, 1).tobytes()
        self._weights = None if weights is None else self._judged_weights(weights)
        if self._weights is not None:
            self._descriptor += self._weights.tobytes()

    def _judged_weights(self, weights: Any) -> NDArray[np.int8]:
        if not isinstance(weights, np.ndarray) or weights.dtype != np.int8:
            raise TypeError('the weights must be an array of int8, and are of %s' % getattr(weights, 'dtype', type(weights).__name__))
        if weights.shape != self._cells.shape:
            raise ValueError('the weights have the shape %s and the cells %s' % (weights.shape, self._cells.shape))
        if (weights < -MOST_HEIGHT).any():
            raise ValueError('a weight is %d: -%d to %d can be had' % (weights.min(), MOST_HEIGHT, MOST_HEIGHT))
        if weights[~self._cells].any():
            raise ValueError('an unset cell has a weight other than 0')
        kept = np.array(weights, order='C')
        kept.flags.writeable = False
        return kept

    @classmethod
    def row(cls, cells: int) -> Element:
        """A row of so many cells, the origin at the first: what comes next decides. `row(31)` is the default of echtext.

        >>> Element.row(3)
        Element.draw('O##')
        """
        return cls(np.ones((1, _side(cells)), np.bool_), (0, 0))

    @classmethod
    def trailing(cls, cells: int) -> Element:
        """A row of so many cells, the origin at the last: what came before decides. `trailing(31)` was the default of echtext.

        >>> Element.trailing(3)
        Element.draw('##O')
        """
        return cls(np.ones((1, _side(cells)), np.bool_), (0, cells - 1))

    @classmethod
    def square(cls, side: int) -> Element:
        """A full square, the origin in the middle.

        >>> Element.square(3)
        Element.draw('###/#O#/###')
        """
        return cls(np.ones((_side(side), side), np.bool_))

    @classmethod
    def disc(cls, radius: int) -> Element:
        """The cells at most this far from the origin, which is in the middle: 2 * radius + 1 cells wide and high.

        >>> Element.disc(2)
        Element.draw('..#../.###./##O##/.###./..#..')
        """
        if not 0 <= _whole(radius, 'the radius') <= MOST_RADIUS:
            raise ValueError('the radius is %d: 0 to %d can be had' % (radius, MOST_RADIUS))
        away = np.arange(-radius, radius + 1) ** 2
        return cls(away[:, None] + away <= radius * radius)

    @classmethod
    def draw(cls, drawing: str) -> Element:
        """An element as it is drawn: # is a set cell and . an unset one; O is the origin where it is set, and o where it is not; rows are parted by / or
        by line ends. White space about the rows does not count.

        >>> Element.draw('o#').offsets
        [(1, 0)]
        """
        if not isinstance(drawing, str):
            raise TypeError('a drawing must be a string, and is of type %s' % type(drawing).__name__)
        rows = drawing.replace('/', ' ').split()
        if not rows or set(''.join(rows)) - set('#.Oo'):
            raise ValueError('an element is drawn with # . O o, its rows parted by /, and not as %r' % drawing)
        if len({len(row) for row in rows}) > 1:
            raise ValueError('the rows of a drawing must be of one length, and those of %r are not' % drawing)
        origins = [(r, c) for r, row in enumerate(rows) for c, cell in enumerate(row) if cell in 'Oo']
        if len(origins) != 1:
            raise ValueError('a drawing must have one origin, O or o, and %r has %s' % (drawing, len(origins) or 'none'))
        return cls([[cell in '#O' for cell in row] for row in rows], origins[0])

    @classmethod
    def from_descriptor(cls, descriptor: bytes) -> Element:
        """The element of a descriptor, plain or weighted, as C and the element book have it.

        >>> Element.from_descriptor(bytes([3, 1, 2, 0, 0b11100000]))
        Element.draw('##O')
        """
        bytes_ = np.frombuffer(descriptor, np.uint8)
        if len(bytes_) < 4:
            raise ValueError('a descriptor has more than 4 bytes, and this has %d' % len(bytes_))
        columns, rows, column, row = map(int, bytes_[:4])
        across = (columns + 7) // 8
        plain = 4 + rows * across
        if len(bytes_) not in (plain, plain + rows * columns) or not rows * columns:
            raise ValueError('a descriptor of %d x %d has %d bytes, or %d with weights, and this has %d'
                             % (columns, rows, plain, plain + rows * columns, len(bytes_)))
        bits = np.unpackbits(bytes_[4:plain].reshape(rows, across), 1)
        if bits[:, columns:].any():
            raise ValueError('a padding bit of the descriptor is 1')
        weights = bytes_[plain:].view(np.int8).reshape(rows, columns) if len(bytes_) > plain else None
        return cls(bits[:, :columns], (row, column), weights)

    @property
    def cells(self) -> NDArray[np.bool_]:
        """The cells, rows and columns; it cannot be written to."""
        return self._cells

    @property
    def origin(self) -> tuple[int, int]:
        """Row and column of the origin."""
        return self._origin

    @property
    def weights(self) -> Optional[NDArray[np.int8]]:
        """The heights, or None of a flat element; it cannot be written to."""
        return self._weights

    @property
    def shape(self) -> tuple[int, int]:
        """How many rows and columns of cells."""
        rows, columns = self._cells.shape
        return rows, columns

    @property
    def offsets(self) -> list[tuple[int, int]]:
        """(dx, dy) of the set cells, in row order."""
        row, column = self._origin
        return [(int(c) - column, int(r) - row) for r, c in np.argwhere(self._cells)]

    @property
    def descriptor(self) -> bytes:
        """The bytes that C and the element book know the element by; those of a weighted one go on with its heights."""
        return self._descriptor

    def turned(self) -> Element:
        """The element turned by half about its origin, every offset (dx, dy) as (-dx, -dy): what a library that dilates without turning must be handed.

        >>> Element.row(3).turned()
        Element.draw('##O')
        """
        (rows, columns), (row, column) = self.shape, self._origin
        weights = None if self._weights is None else self._weights[::-1, ::-1]
        return Element(self._cells[::-1, ::-1], (rows - 1 - row, columns - 1 - column), weights)

    def __eq__(self, other: object) -> bool:
        return isinstance(other, Element) and self._descriptor == other._descriptor

    def __hash__(self) -> int:
        return hash(self._descriptor)

    def __reduce__(self) -> Any:
        return Element, (self._cells, self._origin, self._weights)

    def __repr__(self) -> str:
        if self._weights is not None:
            return 'Element(%s, %s, weights=np.array(%s, np.int8))' % (self._cells.astype(int).tolist(), self._origin, self._weights.tolist())
        drawn = [['#' if cell else '.' for cell in row] for row in self._cells]
        row, column = self._origin
        drawn[row][column] = 'O' if self._cells[row, column] else 'o'
        return "Element.draw('%s')" % '/'.join(''.join(line) for line in drawn)


def _side(cells: Any) -> int:
    if not 1 <= _whole(cells, 'the number of cells') <= MOST_CELLS:
        raise ValueError('%d cells: 1 to %d can be had' % (cells, MOST_CELLS))
    return int(cells)


def flat(element: Any, what: str = 'the element') -> bytes:
    """The descriptor of a flat element; anything else is refused in words."""
    if not isinstance(element, Element):
        raise TypeError('%s must be an Element, and is of type %s%s'
                        % (what, type(element).__name__, ': Element(array) makes one with the origin in the middle' if isinstance(element, np.ndarray) else ''))
    if element._weights is not None:
        raise ValueError('%s has weights, which weighted_erode, weighted_dilate, weighted_opening and weighted_closing take' % what)
    return element._descriptor


def weighted(element: Any, what: str = 'the element') -> bytes:
    """The descriptor of a weighted element; anything else is refused in words."""
    if not isinstance(element, Element):
        raise TypeError('%s must be an Element, and is of type %s' % (what, type(element).__name__))
    if element._weights is None:
        raise ValueError('%s has no weights: Element(cells, origin, weights) has them' % what)
    return element._descriptor
