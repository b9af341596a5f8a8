"""The time that SciPy takes for what host/bench-weighted.c measures: a line `W H way size kind nanoseconds` for each, to standard output. Its rule at the ends is another, so the results are not compared."""
import sys
import time

try:
    import numpy
    from scipy import ndimage
except ImportError:
    sys.exit("bench-scipy: no SciPy (Debian: python3-scipy)")


def height(kind, size, c, r):
    middle = size // 2
    far = max(abs(c - middle), abs(r - middle))
    i = r * size + c
    return [i * 7 % 127 - 63, i * 7 % 127 + 1, -3 * far, 3 * (middle - far) + 1][kind]


KINDS = ["both-signs", "above-0", "cone-below-0", "cone-above-0"]
chance = numpy.random.default_rng(1)
for w, h in ((1024, 256), (64, 16)):
    picture = chance.integers(0, 256, (h, w), dtype=numpy.uint8)
    for size in (5, 31):
        for way, run in (("e", ndimage.grey_erosion), ("d", ndimage.grey_dilation)):
            for kind, name in enumerate(KINDS):
                structure = numpy.array([[height(kind, size, c, r) for c in range(size)] for r in range(size)])
                least, spent = None, 0.0
                while spent < 0.1:
                    begun = time.process_time()
                    run(picture, structure=structure, mode="nearest")
                    took = time.process_time() - begun
                    spent += took
                    least = took if least is None else min(least, took)
                print(w, h, way, size, name, "%.3f" % (least * 1e9 / (w * h)))
