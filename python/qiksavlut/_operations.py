"""The operations on a picture. At the frame one rule holds everywhere: a point beyond it counts as full when eroding and as empty when dilating."""
from __future__ import annotations

from typing import Any, NamedTuple

import numpy as np
from numpy.typing import NDArray

from ._element import Element, flat, weighted
from ._library import Refused, calls, done
from ._pictures import EightBit, OneBit, Picture, judged, only, packed, plain, room, unpacked

SIDES = 32
MOST_REGIONS = 255
# five links of 8 x 8, 12 bytes each
MOST_CHAIN = 60


def _applied(one: Any, eight: Any, middle: bool, picture: Any, element: Any) -> Any:
    """A flat operation at the picture's depth; `middle` says whether its entry is lent a scratch too."""
    depth, descriptor = judged(picture), flat(element)
    bins, pings = picture.shape
    if depth == 1:
        source, call, target = packed(picture), one, np.empty((bins, pings + 7 >> 3), np.uint8)
    else:
        source, call, target = plain(picture), eight, np.empty((bins, pings), np.uint8)
    size = target.nbytes
    lent = (room(np.empty(size, np.uint8)), size) if middle else ()
    answer = call(pings, bins, source, size, descriptor, len(descriptor), room(target), size, *lent)
    if answer:
        done(answer)
    return unpacked(target, pings) if depth == 1 else target


def erode(picture: Picture, element: Element) -> Picture:
    """Erosion: at each point the least value at point + offset, over the offsets that stay in the frame; of a bool picture, whether all of them are set.

    >>> import numpy as np
    >>> from qiksavlut import Element, erode
    >>> erode(np.array([[0, 1, 1, 1, 1, 1, 0]], bool), Element.trailing(3)).astype(int)
    array([[0, 0, 0, 1, 1, 1, 0]])
    >>> erode(np.array([[10, 200, 30]], np.uint8), Element.trailing(2))
    array([[10, 10, 30]], dtype=uint8)
    """
    return _applied(calls.erode1, calls.erode8, False, picture, element)


def dilate(picture: Picture, element: Element) -> Picture:
    """Dilation: at each point the greatest value at point - offset, over the offsets that stay in the frame; of a bool picture, whether one of them is set.
    The element is turned, as the definitions have it, so that an opening stays within its picture.

    >>> import numpy as np
    >>> from qiksavlut import Element, dilate
    >>> dilate(np.array([[0, 0, 0, 1, 1, 1, 0]], bool), Element.trailing(3)).astype(int)
    array([[0, 1, 1, 1, 1, 1, 0]])
    >>> dilate(np.array([[10, 200, 30]], np.uint8), Element.draw('o#'))
    array([[  0,  10, 200]], dtype=uint8)
    """
    return _applied(calls.dilate1, calls.dilate8, False, picture, element)


def opening(picture: Picture, element: Element) -> Picture:
    """Erosion, then dilation by the same element: what the element does not fit into goes. Nothing appears that was not received.

    What has just come in is kept where the element looks ahead, and goes where it looks back: at the frame the origin counts.

    >>> import numpy as np
    >>> from qiksavlut import Element, opening
    >>> newest = np.array([[0, 0, 0, 0, 0, 1, 1]], bool)
    >>> opening(newest, Element.row(3)).astype(int)
    array([[0, 0, 0, 0, 0, 1, 1]])
    >>> opening(newest, Element.trailing(3)).astype(int)
    array([[0, 0, 0, 0, 0, 0, 0]])
    """
    return _applied(calls.open1, calls.open8, True, picture, element)


def closing(picture: Picture, element: Element) -> Picture:
    """Dilation, then erosion by the same element: gaps that the element does not fit into are filled. Nothing that was received goes.

    >>> import numpy as np
    >>> from qiksavlut import Element, closing
    >>> closing(np.array([[0, 1, 1, 0, 1, 1, 0]], bool), Element.row(3)).astype(int)
    array([[0, 1, 1, 1, 1, 1, 1]])
    """
    return _applied(calls.close1, calls.close8, True, picture, element)


def white_tophat(picture: Picture, element: Element) -> Picture:
    """The picture less its opening: what the opening takes away, short echoes.

    >>> import numpy as np
    >>> from qiksavlut import Element, white_tophat
    >>> white_tophat(np.array([[9, 9, 9, 40, 9, 9, 9]], np.uint8), Element.row(3))
    array([[ 0,  0,  0, 31,  0,  0,  0]], dtype=uint8)
    """
    return _applied(calls.white_tophat1, calls.white_tophat8, True, picture, element)


def black_tophat(picture: Picture, element: Element) -> Picture:
    """The closing less the picture: what the closing fills, short gaps.

    >>> import numpy as np
    >>> from qiksavlut import Element, black_tophat
    >>> black_tophat(np.array([[9, 9, 9, 2, 9, 9, 9]], np.uint8), Element.row(3))
    array([[0, 0, 0, 7, 0, 0, 0]], dtype=uint8)
    """
    return _applied(calls.black_tophat1, calls.black_tophat8, True, picture, element)


def gradient(picture: Picture, element: Element) -> Picture:
    """The dilation less the erosion, held at 0: edges. Of a bool picture, the points that the dilation has and the erosion has not.

    >>> import numpy as np
    >>> from qiksavlut import Element, gradient
    >>> gradient(np.array([[0, 0, 5, 5, 5, 5, 0]], np.uint8), Element.draw('#O#'))
    array([[0, 5, 5, 0, 0, 5, 5]], dtype=uint8)
    """
    return _applied(calls.gradient1, calls.gradient8, True, picture, element)


def hit_or_miss(picture: OneBit, hit: Element, miss: Element) -> OneBit:
    """The points at which `hit` fits into the picture and `miss` into what the picture leaves empty, both under the frame rule. The two share no offset, or
    it is Refused as OVERLAP.

    >>> import numpy as np
    >>> from qiksavlut import Element, hit_or_miss
    >>> hit_or_miss(np.array([[0, 1, 1, 0, 1]], bool), Element.draw('O'), Element.draw('o#')).astype(int)
    array([[0, 0, 1, 0, 1]])
    """
    only(1, picture)
    one, other = flat(hit, 'hit'), flat(miss, 'miss')
    bins, pings = picture.shape
    target = np.empty((bins, pings + 7 >> 3), np.uint8)
    size = target.nbytes
    done(calls.hit_or_miss(pings, bins, packed(picture), size, one, len(one), other, len(other), room(target), size))
    return unpacked(target, pings)


def reconstruct(marker: OneBit, mask: OneBit, by: str = 'cross') -> OneBit:
    """Every point of the mask that steps inside the mask join to a marker point: steps along rows and columns by the 'cross', and aslant too by the
    'square'. With an opening as the marker and its picture as the mask it gives back the full outline of each echo that survived. A marker point outside the
    mask is Refused as MARKER.

    >>> import numpy as np
    >>> from qiksavlut import reconstruct
    >>> mask = np.array([[1, 1, 0, 1], [0, 1, 0, 1]], bool)
    >>> marker = np.array([[1, 0, 0, 0], [0, 0, 0, 0]], bool)
    >>> reconstruct(marker, mask).astype(int)
    array([[1, 1, 0, 0],
           [0, 1, 0, 0]])
    """
    only(1, marker, 'the marker')
    only(1, mask, 'the mask')
    if marker.shape != mask.shape:
        raise ValueError('the marker has the shape %s and the mask %s' % (marker.shape, mask.shape))
    if by not in ('cross', 'square'):
        raise ValueError("by must be 'cross' or 'square', and is %r" % (by,))
    bins, pings = mask.shape
    target = np.empty((bins, pings + 7 >> 3), np.uint8)
    size = target.nbytes
    call = calls.reconstruct_cross if by == 'cross' else calls.reconstruct_square
    done(call(pings, bins, packed(marker), size, packed(mask), size, room(target), size))
    return unpacked(target, pings)


def _weighed(call: Any, middle: bool, picture: Any, element: Any) -> EightBit:
    only(8, picture)
    descriptor = weighted(element)
    bins, pings = picture.shape
    target = np.empty((bins, pings), np.uint8)
    size = target.nbytes
    lent = (room(np.empty(size, np.uint8)), size) if middle else ()
    done(call(pings, bins, plain(picture), size, descriptor, len(descriptor), room(target), size, *lent))
    return target


def weighted_erode(picture: EightBit, element: Element) -> EightBit:
    """Erosion by heights: the least of value less height, held to 0..255. A value of 255 counts as 255 at any height.

    >>> import numpy as np
    >>> from qiksavlut import Element, weighted_erode
    >>> peak = Element([[1, 1, 1]], weights=np.array([[-20, 0, -20]], np.int8))
    >>> weighted_erode(np.array([[50, 60, 70, 255]], np.uint8), peak)
    array([[50, 60, 70, 90]], dtype=uint8)
    """
    return _weighed(calls.weighted_erode, False, picture, element)


def weighted_dilate(picture: EightBit, element: Element) -> EightBit:
    """Dilation by heights: the greatest of value plus height, held to 0..255. A value of 0, nothing received, counts as 0 at any height.

    >>> import numpy as np
    >>> from qiksavlut import Element, weighted_dilate
    >>> weighted_dilate(np.array([[0, 1, 250]], np.uint8), Element([[1]], weights=np.array([[10]], np.int8)))
    array([[  0,  11, 255]], dtype=uint8)
    """
    return _weighed(calls.weighted_dilate, False, picture, element)


def weighted_opening(picture: EightBit, element: Element) -> EightBit:
    """Erosion by heights, then dilation by the same: nowhere above the picture.

    >>> import numpy as np
    >>> from qiksavlut import Element, weighted_opening
    >>> weighted_opening(np.array([[5, 50, 200]], np.uint8), Element([[1]], weights=np.array([[10]], np.int8)))
    array([[  0,  50, 200]], dtype=uint8)
    """
    return _weighed(calls.weighted_open, True, picture, element)


def weighted_closing(picture: EightBit, element: Element) -> EightBit:
    """Dilation by heights, then erosion by the same: nowhere below the picture.

    >>> import numpy as np
    >>> from qiksavlut import Element, weighted_closing
    >>> weighted_closing(np.array([[5, 50, 250]], np.uint8), Element([[1]], weights=np.array([[10]], np.int8)))
    array([[  5,  50, 255]], dtype=uint8)
    """
    return _weighed(calls.weighted_close, True, picture, element)


def _links(chain: Any) -> tuple[int, bytes]:
    if isinstance(chain, Element) or not hasattr(chain, '__iter__'):
        raise TypeError('the chain must be a list of Elements, and is of type %s' % type(chain).__name__)
    links = [flat(link, 'link %d' % number) for number, link in enumerate(chain, 1)]
    return len(links), b''.join(links)


def check_chain(element: Element, chain: list[Element]) -> None:
    """Whether a chain of 1 to 5 small elements, each at most 8 x 8, does what the element does, on every picture in every frame. Where it does not, it is
    Refused as SPLIT with the first offset at fault, lesser dy first, then lesser dx.

    >>> from qiksavlut import Element, check_chain
    >>> check_chain(Element.draw('#O#'), [Element.draw('#O'), Element.draw('O#')])
    >>> check_chain(Element.draw('O'), [Element.draw('o#'), Element.draw('#o')])
    Traceback (most recent call last):
    ...
    qiksavlut.Refused: 7 SPLIT: chain and element differ, first at dx 0, dy 0
    """
    descriptor = flat(element)
    number, links = _links(chain)
    done(calls.check_chain(descriptor, len(descriptor), number, links, len(links)))


def find_chain(element: Element) -> list[Element]:
    """A chain of at most five links of at most 8 x 8 that `check_chain` accepts for the element. Where none is found it is Refused as NOCHAIN, and `gave_up`
    says whether there may be one all the same.

    >>> from qiksavlut import Element, check_chain, find_chain
    >>> chain = find_chain(Element.row(31))
    >>> check_chain(Element.row(31), chain)
    >>> find_chain(Element.row(61))
    Traceback (most recent call last):
    ...
    qiksavlut.Refused: 18 NOCHAIN: no chain does what the element does
    """
    descriptor, chain = flat(element), np.empty(MOST_CHAIN, np.uint8)
    answer = calls.find_chain(descriptor, len(descriptor), room(chain), MOST_CHAIN)
    if answer & 255:
        raise Refused(answer & 255, gave_up=answer >> 16 == 1)
    links, left = [], chain[:answer >> 32].tobytes()
    for _ in range(answer >> 16 & 65535):
        length = 4 + left[1] * (left[0] + 7 >> 3)
        links.append(Element.from_descriptor(left[:length]))
        left = left[length:]
    return links


def _chained(one: Any, eight: Any, picture: Any, element: Any, chain: Any) -> Any:
    depth, descriptor = judged(picture), flat(element)
    number, links = _links(chain)
    bins, pings = picture.shape
    size = bins * (pings + 7 >> 3 if depth == 1 else pings)
    buffers = np.empty((2, bins, size // bins), np.uint8)
    first, second = buffers
    source, call = (packed(picture), one) if depth == 1 else (plain(picture), eight)
    done(call(pings, bins, source, size, descriptor, len(descriptor), number, links, len(links), room(first), size, room(second), size))
    last = first if number % 2 else second
    return unpacked(last, pings) if depth == 1 else last.copy()


def chain_erode(picture: Picture, element: Element, chain: list[Element]) -> Picture:
    """Erosion by each link of a chain in turn, which is the erosion by the element; refused where `check_chain` refuses.

    >>> import numpy as np
    >>> from qiksavlut import Element, chain_erode
    >>> chain_erode(np.array([[0, 1, 1, 1, 1, 0]], bool), Element.draw('#O#'), [Element.draw('#O'), Element.draw('O#')]).astype(int)
    array([[0, 0, 1, 1, 0, 0]])
    """
    return _chained(calls.chain_erode1, calls.chain_erode8, picture, element, chain)


def chain_dilate(picture: Picture, element: Element, chain: list[Element]) -> Picture:
    """Dilation by each link of a chain in turn, which is the dilation by the element; refused where `check_chain` refuses.

    >>> import numpy as np
    >>> from qiksavlut import Element, chain_dilate
    >>> chain_dilate(np.array([[0, 0, 9, 0, 0]], np.uint8), Element.draw('#O#'), [Element.draw('#O'), Element.draw('O#')])
    array([[0, 9, 9, 9, 0]], dtype=uint8)
    """
    return _chained(calls.chain_dilate1, calls.chain_dilate8, picture, element, chain)


def size_spectrum(picture: OneBit) -> NDArray[np.int64]:
    """How much of a picture is in marks of which size: 32 counts. Count k - 1 is of the points that survive opening by the square of side k, its origin at its
    first cell, and not by that of side k + 1; the last is of those that survive side 32. They sum to the picture's set points.

    >>> import numpy as np
    >>> from qiksavlut import size_spectrum
    >>> picture = np.zeros((40, 60), bool)
    >>> picture[5, 5] = True
    >>> picture[10:13, 10:13] = True
    >>> size_spectrum(picture)[:4]
    array([1, 0, 9, 0])
    """
    only(1, picture)
    bins, pings = picture.shape
    size = bins * (pings + 7 >> 3)
    counts, scratch = np.empty(SIDES, np.uint32), np.empty(2 * size, np.uint8)
    done(calls.size_spectrum(pings, bins, packed(picture), size, room(counts), SIDES, room(scratch), 2 * size))
    return counts.astype(np.int64)


class Region(NamedTuple):
    """One region of a picture: how deep it lies (0: the outer background, odd: an echo, even: a hole) and how many points it has."""

    depth: int
    points: int


def nesting(picture: OneBit) -> list[Region]:
    """Which echo lies inside which: the outer background, then each echo in it by its first point in row order, after each echo the holes in it, after each
    hole the echoes in it. Echoes are joined by 8 neighbours and background by 4. More than 16,384 points or 255 regions are Refused as NEST.

    >>> import numpy as np
    >>> from qiksavlut import nesting
    >>> ring = np.ones((5, 5), bool)
    >>> ring[1:4, 1:4] = False
    >>> ring[2, 2] = True
    >>> for region in nesting(ring):
    ...     print('  ' * region.depth, region.points)
     0
       16
         8
           1
    """
    only(1, picture)
    bins, pings = picture.shape
    pairs = np.empty((MOST_REGIONS, 2), np.uint32)
    source = packed(picture)
    answer = calls.nesting(pings, bins, source, len(source), room(pairs), 2 * MOST_REGIONS)
    done(answer & 65535)
    return [Region(*pair) for pair in pairs[:answer >> 16].tolist()]
