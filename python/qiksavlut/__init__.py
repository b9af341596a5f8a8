"""Qiksavlut: the picture library of an ultrasonic level sensor, proved, as numpy users call it.

A picture is a numpy array of shape (bins, pings), the newest ping last: bool is one-bit, uint8 is 8-bit; 1 to 256 bins and 1 to 1,024 pings, in any memory
order. It is never changed: each call gives a new array. One rule holds at the frame, with no flag to set: a point beyond it counts as full when eroding
and as empty when dilating.

What is no picture or no element is a TypeError or a ValueError, in words. What the library refuses is `Refused`, a ValueError too, with its number.

>>> import numpy as np, qiksavlut
>>> picture = np.array([[0, 1, 1, 0, 0, 0, 0, 0, 1, 1],
...                     [1, 1, 1, 1, 1, 1, 1, 1, 1, 1]], bool)
>>> qiksavlut.opening(picture, qiksavlut.Element.row(4)).astype(int)
array([[0, 0, 0, 0, 0, 0, 0, 0, 1, 1],
       [1, 1, 1, 1, 1, 1, 1, 1, 1, 1]])
"""
from ._book import Book, Party
from ._element import Element
from ._files import read, write
from ._library import Refused
from ._operations import (Region, black_tophat, chain_dilate, chain_erode, check_chain, closing, dilate, erode, find_chain, gradient, hit_or_miss, nesting, opening,
                          reconstruct, size_spectrum, weighted_closing, weighted_dilate, weighted_erode, weighted_opening, white_tophat)

__version__ = '1.0'
__all__ = ['Book', 'Element', 'Party', 'Refused', 'Region', 'black_tophat', 'chain_dilate', 'chain_erode', 'check_chain', 'closing', 'dilate', 'erode', 'find_chain', 'gradient',
           'hit_or_miss', 'nesting', 'opening', 'read', 'reconstruct', 'size_spectrum', 'weighted_closing', 'weighted_dilate', 'weighted_erode',
           'weighted_opening', 'white_tophat', 'write']

for _name in __all__:
    # what users see is qiksavlut.Refused, and not where it happens to stand
    globals()[_name].__module__ = __name__
del _name
