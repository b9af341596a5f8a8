"""morning [FOLDER]: a morning at the sensor, worked through as in a notebook: what stands after each `figure` is one cell. The figures go to FOLDER, or to docs/pictures
of the repository."""
import pathlib
import sys

import matplotlib

matplotlib.use('Agg')
import matplotlib.pyplot as plt
import numpy as np

import qiksavlut
from qiksavlut import Element

FOLDER = pathlib.Path(sys.argv[1]) if len(sys.argv) > 1 else pathlib.Path(__file__).resolve().parent.parent.parent / 'docs' / 'pictures'
plt.rcParams.update({'font.size': 9, 'figure.constrained_layout.use': True, 'savefig.dpi': 110, 'axes.titlelocation': 'left'})


def figure(name, size):
    """A figure that is saved under a name when it is left."""
    class Saved:
        def __enter__(self):
            self.figure = plt.figure(figsize=size)
            return self.figure

        def __exit__(self, *failed):
            if not any(failed):
                self.figure.savefig(FOLDER / ('python-%s.png' % name), metadata={'Software': None})
            plt.close(self.figure)
    return Saved()


def morning(seed=4, pings=300, bins=90):
    """Five hours at a ping a minute: a level that rises, splashes above it, specks, an echo that has just begun, noise. 8 bits."""
    chance = np.random.default_rng(seed)
    ping, bin_ = np.meshgrid(np.arange(pings), np.arange(bins))
    level = 68 - 24 / (1 + np.exp(-(ping - 150) / 40)) + 0.8 * np.sin(ping / 20)
    strength = 215 * np.exp(-((bin_ - level) / 6) ** 2)
    for _ in range(11):  # splashes: short, and above the level
        at, wide, deep = chance.integers(10, pings - 50), chance.integers(2, 12), chance.integers(2, 5)
        high = level[0, at] - chance.integers(14, 30)
        strength += 200 * np.exp(-((ping - at) / wide) ** 2 - ((bin_ - high) / deep) ** 2)
    strength[chance.random(strength.shape) < 0.003] += 150  # specks
    strength += 190 * (ping >= pings - 20) * np.exp(-((bin_ - 14) / 4) ** 2)  # what has just come in
    return np.clip(strength + chance.normal(14, 12, strength.shape), 0, 255).astype(np.uint8)


strengths = morning()
echoes = strengths > 100
shown = dict(cmap='Greys', interpolation='nearest', aspect='auto')

# ---- the morning, and its opening by the old and by the new default
was, now = qiksavlut.opening(echoes, Element.trailing(31)), qiksavlut.opening(echoes, Element.row(31))
assert not (now & ~echoes).any() and not (was & ~echoes).any()
with figure('morning', (8, 8)) as f:
    for place, (title, picture) in enumerate([
            ('A morning: strengths', strengths), ('Echoes: strengths above 100', echoes),
            ('Opened by Element.trailing(31), the default that was: the newest echo is gone', was),
            ('Opened by Element.row(31), the default: splashes go, what has just come in stays', now)]):
        axes = f.add_subplot(4, 1, place + 1)
        axes.imshow(picture, **dict(shown, cmap='magma') if place == 0 else shown)
        axes.set_title(title)
        axes.set_ylabel('bin')
    axes.set_xlabel('ping, the newest at the right')

# ---- how much of the picture is in marks of which size
with figure('spectrum', (8, 3.4)) as f:
    axes, sides = f.add_subplot(), np.arange(1, 33)
    for shift, (label, picture) in zip((-0.2, 0.2), [('as received', echoes), ('opened by row(31)', now)]):
        counts = qiksavlut.size_spectrum(picture)
        assert counts.sum() == picture.sum()
        axes.bar(sides + shift, counts, 0.4, label='%s, %d points' % (label, picture.sum()))
    axes.set_title('The size spectrum: points that the square of a side keeps and the next does not')
    axes.set_xlabel('side of the square (32: that and more)')
    axes.set_ylabel('points')
    axes.set_xticks(sides[::2])
    axes.legend()

# ---- foam round a clear patch round a float
bin_, ping = np.mgrid[:60, :100]
away, turn = np.hypot((ping - 38) * 0.8, bin_ - 30), np.arctan2(bin_ - 30, ping - 38)
ring = ((away > 17) & (away < 24 + 1.5 * np.sin(9 * turn))) | (away < 6) | (np.hypot(ping - 85, bin_ - 14) < 6)
regions = qiksavlut.nesting(ring)
assert sum(region.points for region in regions) == ring.size
with figure('nest', (8, 3.6)) as f:
    left, right = f.subplots(1, 2, width_ratios=[3, 2])
    left.imshow(ring, **dict(shown, aspect='equal'))
    left.set_title('Foam round a clear patch round a float')
    left.set_xlabel('ping')
    left.set_ylabel('bin')
    right.axis('off')
    right.text(0, 1, 'nesting(picture)', transform=right.transAxes, weight='bold')
    for line, region in enumerate(regions):
        what = 'outer background' if region.depth == 0 else 'echo' if region.depth % 2 else 'hole'
        right.text(0.02 + 0.12 * region.depth, 0.9 - 0.13 * line, '%s, depth %d, %d points' % (what, region.depth, region.points), transform=right.transAxes)

print('morning: %s' % ', '.join(str(path.name) for path in sorted(FOLDER.glob('python-*.png'))))
