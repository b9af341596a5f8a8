"""bench [SECONDS]: one table of what a call takes from Python, beside scipy.ndimage, scikit-image and OpenCV: all in one run, on the same pictures, each called as its users
call it. Debian: python3-scipy, python3-skimage, python3-opencv."""
import platform
import sys
import time

import cv2
import numpy as np
import scipy
import skimage
from scipy import ndimage
from skimage import morphology

import qiksavlut
from qiksavlut import Element

SECONDS = float(sys.argv[1]) if len(sys.argv) > 1 else 0.1
ELEMENTS = {'31-row': Element.row(31), '3 x 3': Element.square(3), 'cross': Element.disc(1), '8 x 8': Element.square(8), '31 x 31': Element.square(31),
            'disc 15': Element.disc(15)}
cv2.setNumThreads(1)


def picture(bins, pings):
    """A level with splashes and noise, 8 bits."""
    chance = np.random.default_rng(1)
    ping, at = np.meshgrid(np.arange(pings), np.arange(bins))
    level = 200 * np.exp(-((at - bins * (0.7 - 0.3 * ping / pings)) / (1 + bins / 16)) ** 2)
    return np.clip(level + 180 * (chance.random(level.shape) < 0.02) + chance.normal(20, 15, level.shape), 0, 255).astype(np.uint8)


def ways(one, element):
    """erosion and opening by each library, as a user of it writes them; None where it cannot say the element"""
    cells, about = element.cells, [at - size // 2 for at, size in zip(element.origin, element.shape)]
    kernel, turned, anchor = cells.astype(np.uint8), element.turned(), element.origin[::-1]
    back, other = turned.cells.astype(np.uint8), turned.origin[::-1]
    ours = {'erode': lambda a: qiksavlut.erode(a, element), 'open': lambda a: qiksavlut.opening(a, element)}
    if one:
        by_scipy = {'erode': lambda a: ndimage.binary_erosion(a, cells, origin=about, border_value=1),
                    'open': lambda a: ndimage.binary_dilation(ndimage.binary_erosion(a, cells, origin=about, border_value=1), cells, origin=about)}
        by_skimage = {'erode': lambda a: morphology.binary_erosion(a, cells), 'open': lambda a: morphology.binary_opening(a, cells)}
    else:
        by_scipy = {'erode': lambda a: ndimage.grey_erosion(a, footprint=cells, origin=about, mode='constant', cval=255),
                    'open': lambda a: ndimage.grey_dilation(ndimage.grey_erosion(a, footprint=cells, origin=about, mode='constant', cval=255),
                                                            footprint=cells, origin=about, mode='constant', cval=0)}
        by_skimage = {'erode': lambda a: morphology.erosion(a, cells), 'open': lambda a: morphology.opening(a, cells)}
    by_opencv = {'erode': lambda a: cv2.erode(a, kernel, anchor=anchor), 'open': lambda a: cv2.dilate(cv2.erode(a, kernel, anchor=anchor), back, anchor=other)}
    return [ours, by_scipy, by_skimage if element.origin == tuple(side // 2 for side in element.shape) else None, by_opencv]


def best(call):
    """microseconds of processor time: the best run among those of SECONDS"""
    least, spent, times = float('inf'), 0.0, 1
    while spent < SECONDS:
        start = time.process_time()
        for _ in range(times):
            call()
        took = time.process_time() - start
        spent += took
        least = min(least, took / times)
        if took < 1e-3:
            times *= 2
    return least * 1e6


def main():
    print('bench: %s, Python %s, numpy %s, scipy %s, scikit-image %s, OpenCV %s'
          % (platform.machine(), platform.python_version(), np.__version__, scipy.__version__, skimage.__version__, cv2.__version__))
    print('Microseconds of a call, processor time, the best run in %g s; in brackets, times our time. OpenCV has one thread, and at one bit is handed bytes of 0\n'
          'and 1. !: not our result. -: its origin cannot be said.\n' % SECONDS)
    print('pings x bins  bits        element    qiksavlut        scipy.ndimage         scikit-image               OpenCV')
    for bins, pings in (256, 1024), (16, 64):
        eight = picture(bins, pings)
        for bits, source in (1, eight > 100), (8, eight):
            for way in 'erode', 'open':
                for name, element in ELEMENTS.items():
                    line, ours = '%4d x %-4d     %d   %-5s %-8s' % (pings, bins, bits, way, name), None
                    for number, calls in enumerate(ways(bits == 1, element)):
                        if calls is None:
                            line += '%21s' % '-'
                            continue
                        given = source.view(np.uint8) if number == 3 else source
                        result, took = calls[way](given), best(lambda: calls[way](given))
                        if ours is None:
                            ours, own = result, took
                            line += '%11.1f' % took
                        else:
                            line += '%11.1f (%6.2f)%s' % (took, took / own, ' ' if np.array_equal(ours, result) else '!')
                    print(line.rstrip(), flush=True)
    cell = Element.draw('O')
    print("\nThe call's own cost, by one cell on 64 x 16: " + ', '.join(
        '%s bit%s %.1f us' % (bits, 's' * (bits > 1), best(lambda: qiksavlut.erode(source, cell))) for bits, source in ((1, eight > 100), (8, eight))))


if __name__ == '__main__':
    main()
