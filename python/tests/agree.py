"""agree [SEED [PICTURES]]: the package beside scipy.ndimage and OpenCV, wherever these can say what is asked: random pictures of both depths, in every memory
order, by random elements with the origin anywhere. What they must be told to say it stands in `Scipy` and `OpenCV`."""
import sys

import cv2
import numpy as np
from scipy import ndimage

import qiksavlut
from qiksavlut import Element

cv2.setNumThreads(1)


class Scipy:
    """scipy.ndimage: its origin counts from the middle, and the border must be given for each erosion and each dilation."""

    def about(self, element):
        return [at - size // 2 for at, size in zip(element.origin, element.shape)]

    def erode(self, picture, element):
        if picture.dtype == bool:
            return ndimage.binary_erosion(picture, element.cells, origin=self.about(element), border_value=1)
        return ndimage.grey_erosion(picture, footprint=element.cells, origin=self.about(element), mode='constant', cval=255)

    def dilate(self, picture, element):
        if picture.dtype == bool:
            return ndimage.binary_dilation(picture, element.cells, origin=self.about(element), border_value=0)
        return ndimage.grey_dilation(picture, footprint=element.cells, origin=self.about(element), mode='constant', cval=0)


class OpenCV:
    """OpenCV: its own border is the rule; it dilates without turning, so it is handed the turned element. Its anchor is (column, row)."""

    def erode(self, picture, element):
        return cv2.erode(picture, element.cells.astype(np.uint8), anchor=element.origin[::-1])

    def dilate(self, picture, element):
        turned = element.turned()
        return cv2.dilate(picture, turned.cells.astype(np.uint8), anchor=turned.origin[::-1])


def operations(by):
    """The flat operations, made of another library's erosion and dilation."""
    def less(a, b):
        return a & ~b if a.dtype == bool else np.maximum(a.astype(int) - b, 0).astype(np.uint8)

    def opened(a, e):
        return by.dilate(by.erode(a, e), e)

    def closed(a, e):
        return by.erode(by.dilate(a, e), e)

    return {'erode': by.erode, 'dilate': by.dilate, 'opening': opened, 'closing': closed,
            'white_tophat': lambda a, e: less(a, opened(a, e)), 'black_tophat': lambda a, e: less(closed(a, e), a),
            'gradient': lambda a, e: less(by.dilate(a, e), by.erode(a, e))}


def weighted_by_scipy(picture, element):
    """Heights, in whole numbers: an end of the scale contributes itself at any height, so it is moved out of reach of all heights. scipy takes away and adds what
    stands in `structure`."""
    def eroded(a):
        wide = np.where(a == 255, 10000, a.astype(np.int32))
        return np.clip(ndimage.grey_erosion(wide, footprint=element.cells, structure=element.weights.astype(np.int32), origin=scipy.about(element),
                                            mode='constant', cval=10000), 0, 255).astype(np.uint8)

    def dilated(a):
        wide = np.where(a == 0, -10000, a.astype(np.int32))
        return np.clip(ndimage.grey_dilation(wide, footprint=element.cells, structure=element.weights.astype(np.int32), origin=scipy.about(element),
                                             mode='constant', cval=-10000), 0, 255).astype(np.uint8)

    return {'weighted_erode': eroded(picture), 'weighted_dilate': dilated(picture), 'weighted_opening': dilated(eroded(picture)),
            'weighted_closing': eroded(dilated(picture))}


def spectrum_by_scipy(picture):
    left = [np.count_nonzero(picture)]
    for side in range(2, 33):
        square = Element(np.ones((side, side), bool), (0, 0))
        left.append(np.count_nonzero(scipy.dilate(scipy.erode(picture, square), square)) if left[-1] else 0)
    return [a - b for a, b in zip(left, left[1:] + [0])]


def nesting_by_scipy(picture):
    """(depth, points) by scipy's labels: of a picture with a margin of background about it, which joins what touches the edge."""
    wide = np.pad(picture, 1)
    echoes, _ = ndimage.label(wide, np.ones((3, 3)))
    holes, more = ndimage.label(~wide)
    regions = np.where(wide, echoes + more, holes)
    # a region lies in that which stands left of its first point
    names, firsts = np.unique(regions, return_index=True)
    inside = {name: [] for name in names}
    for first, name in sorted(zip(firsts, names))[1:]:
        inside[regions.flat[first - 1]].append(name)
    points, said = np.bincount(regions[1:-1, 1:-1].ravel(), minlength=names.max() + 1), []

    def tell(name, depth):
        said.append((depth, points[name]))
        for within in inside[name]:
            tell(within, depth + 1)

    tell(regions[0, 0], 0)
    return said


def depths_by_opencv(picture):
    """The depths of all regions but the outer one, by OpenCV's contours and their tree."""
    contours, tree = cv2.findContours(picture.astype(np.uint8), cv2.RETR_TREE, cv2.CHAIN_APPROX_NONE)
    depths = []
    for at in range(len(contours)):
        depth = 1
        while tree[0][at][3] >= 0:
            at, depth = tree[0][at][3], depth + 1
        depths.append(depth)
    return sorted(depths)


scipy, opencv = Scipy(), OpenCV()
FLAT = {'scipy.ndimage': operations(scipy), 'OpenCV': operations(opencv)}
ORDERS = [np.ascontiguousarray, np.asfortranarray, lambda a: np.repeat(np.repeat(a, 2, 0), 3, 1)[::2, ::3], lambda a: a[::-1].copy()[::-1],
          lambda a: np.pad(a, 3)[3:-3, 3:-3]]


def main(seed, pictures):
    chance = np.random.default_rng(seed)
    met, bad = {}, []

    def same(what, other, ours, theirs, said):
        met[other] = met.get(other, 0) + 1
        if not np.array_equal(ours, theirs):
            bad.append('%s is not what %s has: seed %d, picture %d: %s' % (what, other, seed, at, said))

    def drawn(most):
        """an element, now and then an empty one, its origin anywhere"""
        rows, columns = chance.integers(1, most + 1, 2)
        cells = chance.random((rows, columns)) < chance.choice([0.2, 0.6, 1])
        return Element(cells, (chance.integers(rows), chance.integers(columns)))

    for at in range(pictures):
        large = at % 400 == 7  # more points than the package copies
        bins, pings = chance.integers((130, 200), (257, 1025)) if large else chance.integers(1, 14, 2) if at % 8 else chance.integers(1, 41, 2)
        one = chance.random((bins, pings)) < chance.choice([0.2, 0.5, 0.8])
        eight = chance.choice([0, 1, 100, 200, 254, 255], (bins, pings)).astype(np.uint8) if at % 2 else chance.integers(0, 256, (bins, pings)).astype(np.uint8)
        element = drawn(4 if at % 16 else 12)
        order = ORDERS[at % len(ORDERS)]
        for name in FLAT['OpenCV']:
            for picture in (one, eight):
                lent = order(picture)
                ours = getattr(qiksavlut, name)(lent, element)
                assert np.array_equal(lent, picture) and ours.dtype == picture.dtype and ours.flags.c_contiguous and ours.flags.writeable
                for other, by in FLAT.items():
                    if not element.offsets and (other, picture.dtype) != ('scipy.ndimage', bool):
                        continue  # of an empty element OpenCV makes something else, and scipy.ndimage knows it at one bit alone
                    if other == 'OpenCV' and picture is one:
                        # OpenCV knows bytes alone: 0 and 255 are the one bit
                        theirs = by[name](one.astype(np.uint8) * 255, element) > 0
                    else:
                        theirs = by[name](picture, element)
                    same(name, other, ours, theirs, '%s %r' % (picture.dtype, element))
        # the cells are the hit, of the others some are the miss
        miss = Element((chance.random(element.shape) < 0.4) & ~element.cells, element.origin)
        same('hit_or_miss', 'scipy.ndimage', qiksavlut.hit_or_miss(order(one), element, miss), scipy.erode(one, element) & scipy.erode(~one, miss), repr(element))
        marker = one & (chance.random(one.shape) < 0.1)
        for by, cells in ('cross', None), ('square', np.ones((3, 3))):
            same('reconstruct', 'scipy.ndimage', qiksavlut.reconstruct(order(marker), order(one), by), ndimage.binary_propagation(marker, cells, mask=one), by)
        heights = np.where(element.cells, chance.integers(-127, 128, element.shape) // chance.choice([1, 8]), 0).astype(np.int8)
        weighted = Element(element.cells, element.origin, heights)
        for name, theirs in weighted_by_scipy(eight, weighted).items() if element.offsets else ():
            same(name, 'scipy.ndimage', getattr(qiksavlut, name)(order(eight), weighted), theirs, repr(weighted))
        if large:
            continue
        same('nesting', 'scipy.ndimage', [tuple(region) for region in qiksavlut.nesting(order(one))], nesting_by_scipy(one), repr(one))
        same('nesting', 'OpenCV', sorted(region.depth for region in qiksavlut.nesting(order(one)))[1:], depths_by_opencv(one), repr(one))
        if at % 16 == 0:
            blots = ndimage.binary_dilation(chance.random((bins, pings)) < 0.03, np.ones((5, 5)))
            same('size_spectrum', 'scipy.ndimage', qiksavlut.size_spectrum(order(blots)), spectrum_by_scipy(blots), repr(blots))
    for line in bad[:10]:
        print(line)
    print('agree: seed %d, %d pictures; the same %s; %d different' % (seed, pictures, ', '.join('%s times as %s' % (format(n, ','), other) for other, n in met.items()), len(bad)))
    return 1 if bad else 0


if __name__ == '__main__':
    given = [int(word) for word in sys.argv[1:]]
    sys.exit(main(*given, *(1, 2000)[len(given):]))
