"""The package's own manners: what it refuses and in which words, memory, files, the book, threads, the header. tests/python of the repository runs it."""
import io
import os
import pathlib
import pickle
import re
import subprocess
import sys
import tempfile
import threading
import time
import unittest

import numpy as np

import qiksavlut
from qiksavlut import Book, Element, Refused, _library

TOP = pathlib.Path(__file__).resolve().parent.parent.parent
one = np.zeros((3, 9), bool)
eight = np.zeros((3, 9), np.uint8)
cell = Element.draw('O')
heavy = Element([[1]], weights=np.array([[10]], np.int8))
FLAT = ['erode', 'dilate', 'opening', 'closing', 'white_tophat', 'black_tophat', 'gradient']
WEIGHTED = ['weighted_erode', 'weighted_dilate', 'weighted_opening', 'weighted_closing']

# what is refused before the library sees it: the call, the exception, its words
WORDS = [
    (lambda: qiksavlut.erode([[1]], cell), TypeError, 'the picture must be a numpy array, and is of type list'),
    (lambda: qiksavlut.erode(np.zeros((3, 3)), cell), TypeError, 'the picture must be of bool (one bit) or of uint8 (8 bits), and is of float64'),
    (lambda: qiksavlut.dilate(np.zeros((3, 3), np.int8), cell), TypeError, 'the picture must be of bool (one bit) or of uint8 (8 bits), and is of int8'),
    (lambda: qiksavlut.opening(np.zeros(3, bool), cell), ValueError, 'the picture must have two axes, bins and pings, and has 1'),
    (lambda: qiksavlut.closing(np.zeros((3, 3, 3), np.uint8), cell), ValueError, 'the picture must have two axes, bins and pings, and has 3'),
    (lambda: qiksavlut.gradient(np.zeros((3, 1025), bool), cell), ValueError, 'the picture has 3 bins and 1,025 pings: 1 to 256 bins and 1 to 1,024 pings can be had'),
    (lambda: qiksavlut.gradient(np.zeros((257, 3), bool), cell), ValueError, 'the picture has 257 bins and 3 pings: 1 to 256 bins and 1 to 1,024 pings can be had'),
    (lambda: qiksavlut.gradient(np.zeros((0, 3), bool), cell), ValueError, 'the picture has 0 bins and 3 pings: 1 to 256 bins and 1 to 1,024 pings can be had'),
    (lambda: qiksavlut.erode(np.ma.masked_equal(eight, 0), cell), TypeError, "the picture is a masked array: say what stands at its masked points, as by filled(0)"),
    (lambda: qiksavlut.erode(one, np.ones((3, 3), bool)), TypeError, 'the element must be an Element, and is of type ndarray: Element(array) makes one with the origin in the middle'),
    (lambda: qiksavlut.erode(one, 3), TypeError, 'the element must be an Element, and is of type int'),
    (lambda: qiksavlut.erode(eight, heavy), ValueError, 'the element has weights, which weighted_erode, weighted_dilate, weighted_opening and weighted_closing take'),
    (lambda: qiksavlut.weighted_erode(eight, cell), ValueError, 'the element has no weights: Element(cells, origin, weights) has them'),
    (lambda: qiksavlut.weighted_erode(one, heavy), TypeError, 'the picture must be of uint8 (8 bits), and is of bool'),
    (lambda: qiksavlut.weighted_dilate(eight, 'O'), TypeError, 'the element must be an Element, and is of type str'),
    (lambda: qiksavlut.hit_or_miss(eight, cell, cell), TypeError, 'the picture must be of bool (one bit), and is of uint8'),
    (lambda: qiksavlut.hit_or_miss(one, cell, 'O'), TypeError, 'miss must be an Element, and is of type str'),
    (lambda: qiksavlut.reconstruct(eight, one), TypeError, 'the marker must be of bool (one bit), and is of uint8'),
    (lambda: qiksavlut.reconstruct(one, one.tolist()), TypeError, 'the mask must be a numpy array, and is of type list'),
    (lambda: qiksavlut.reconstruct(one, one[:2]), ValueError, 'the marker has the shape (3, 9) and the mask (2, 9)'),
    (lambda: qiksavlut.reconstruct(one, one, 'disc'), ValueError, "by must be 'cross' or 'square', and is 'disc'"),
    (lambda: qiksavlut.size_spectrum(eight), TypeError, 'the picture must be of bool (one bit), and is of uint8'),
    (lambda: qiksavlut.nesting(eight), TypeError, 'the picture must be of bool (one bit), and is of uint8'),
    (lambda: qiksavlut.check_chain(cell, cell), TypeError, 'the chain must be a list of Elements, and is of type Element'),
    (lambda: qiksavlut.check_chain(cell, [cell, 'O']), TypeError, 'link 2 must be an Element, and is of type str'),
    (lambda: qiksavlut.chain_erode(eight, cell, [heavy]), ValueError, 'link 1 has weights, which weighted_erode, weighted_dilate, weighted_opening and weighted_closing take'),
    (lambda: Element([1, 1]), ValueError, 'the cells must have two axes, rows and columns, and have 1'),
    (lambda: Element([[0.5]]), TypeError, 'the cells must be of bool, or 0 and 1, and are of float64'),
    (lambda: Element([[0, 2]]), TypeError, 'the cells must be of bool, or 0 and 1, and are other numbers too'),
    (lambda: Element(np.ones((65, 2), bool)), ValueError, 'the element has 65 rows and 2 columns: 1 to 64 of each can be had'),
    (lambda: Element(np.ones((2, 0), bool)), ValueError, 'the element has 2 rows and 0 columns: 1 to 64 of each can be had'),
    (lambda: Element([[1]], origin=0), TypeError, 'the origin must be (row, column), and is 0'),
    (lambda: Element([[1]], origin=(0, 0.0)), TypeError, "the origin's column must be a whole number, and is 0.0"),
    (lambda: Element([[1, 1]], origin=(0, -1)), ValueError, 'the origin is row 0 and column -1, and the element has 1 row and 2 columns'),
    (lambda: Element([[1]], weights=[[1]]), TypeError, 'the weights must be an array of int8, and are of list'),
    (lambda: Element([[1]], weights=np.array([[200]])), TypeError, 'the weights must be an array of int8, and are of int64'),
    (lambda: Element([[1]], weights=np.array([[1, 2]], np.int8)), ValueError, 'the weights have the shape (1, 2) and the cells (1, 1)'),
    (lambda: Element([[1]], weights=np.array([[-128]], np.int8)), ValueError, 'a weight is -128: -127 to 127 can be had'),
    (lambda: Element([[0]], weights=np.array([[1]], np.int8)), ValueError, 'an unset cell has a weight other than 0'),
    (lambda: Element.row(0), ValueError, '0 cells: 1 to 64 can be had'),
    (lambda: Element.trailing(65), ValueError, '65 cells: 1 to 64 can be had'),
    (lambda: Element.square(2.0), TypeError, 'the number of cells must be a whole number, and is 2.0'),
    (lambda: Element.disc(32), ValueError, 'the radius is 32: 0 to 31 can be had'),
    (lambda: Element.draw('##'), ValueError, "a drawing must have one origin, O or o, and '##' has none"),
    (lambda: Element.draw('OO'), ValueError, "a drawing must have one origin, O or o, and 'OO' has 2"),
    (lambda: Element.draw('O#/#'), ValueError, "the rows of a drawing must be of one length, and those of 'O#/#' are not"),
    (lambda: Element.draw('x'), ValueError, "an element is drawn with # . O o, its rows parted by /, and not as 'x'"),
    (lambda: Element.draw(3), TypeError, 'a drawing must be a string, and is of type int'),
    (lambda: Element.from_descriptor(b'abc'), ValueError, 'a descriptor has more than 4 bytes, and this has 3'),
    (lambda: Element.from_descriptor(bytes([3, 1, 0, 0, 255])), ValueError, 'a padding bit of the descriptor is 1'),
    (lambda: Element.from_descriptor(bytes([3, 1, 0, 0, 128, 0])), ValueError, 'a descriptor of 3 x 1 has 5 bytes, or 8 with weights, and this has 6'),
    (lambda: qiksavlut.read(3), TypeError, 'a file must be a path or open for reading bytes, and is of type int'),
    (lambda: qiksavlut.read(io.StringIO('P4')), TypeError, 'the file must be open for reading bytes, and gave str'),
    (lambda: qiksavlut.write('a.png', one), ValueError, "the format must be 'ech', 'pbm' or 'pgm', or the path's ending, and is 'a.png'"),
    (lambda: qiksavlut.write(io.BytesIO(), one), ValueError, "the format must be 'ech', 'pbm' or 'pgm', or the path's ending, and is None"),
    (lambda: qiksavlut.write(io.BytesIO(), one, 'gif'), ValueError, "the format must be 'ech', 'pbm' or 'pgm', and is 'gif'"),
    (lambda: qiksavlut.write(3, one, 'ech'), TypeError, 'a file must be a path or open for writing bytes, and is of type int'),
    (lambda: qiksavlut.write(io.BytesIO(), eight, 'pbm'), TypeError, 'a PBM file holds one bit: bool, and the picture is of uint8'),
    (lambda: qiksavlut.write(io.BytesIO(), one, 'pgm'), TypeError, 'a PGM file holds 8 bits: uint8, and the picture is of bool'),
    (lambda: Book('EBK'), TypeError, 'a book is made of bytes, and not of str'),
    (lambda: Book().display.get('0'), TypeError, "the number must be a whole number, and is '0'"),
    (lambda: Book().display.get(-1), ValueError, 'the number is -1: 0 to 7 can be had'),
    (lambda: Book().export.put(0, heavy), ValueError, 'the element has weights, which weighted_erode, weighted_dilate, weighted_opening and weighted_closing take'),
]


def full_book():
    book = Book()
    book.display.put(0, Element.square(64))
    book.display.put(1, Element.square(64))


# what the library refuses: the call, number, name, dx, dy
REFUSED = [
    (lambda: qiksavlut.hit_or_miss(one, cell, Element.square(3)), 5, 'OVERLAP', 0, 0),
    (lambda: qiksavlut.check_chain(cell, []), 6, 'CHAIN', 0, 0),
    (lambda: qiksavlut.check_chain(cell, [cell] * 6), 6, 'CHAIN', 0, 0),
    (lambda: qiksavlut.check_chain(cell, [Element.row(9)]), 6, 'CHAIN', 0, 0),
    (lambda: qiksavlut.check_chain(Element.draw('##O###'), [Element.draw('#.o'), Element.row(6)]), 7, 'SPLIT', -1, 0),
    (lambda: qiksavlut.check_chain(Element(np.ones((64, 64), bool), (63, 63)), [cell]), 7, 'SPLIT', -63, -63),
    (lambda: qiksavlut.chain_dilate(one, cell, [Element.draw('o#'), Element.draw('#o')]), 7, 'SPLIT', 0, 0),
    (lambda: qiksavlut.reconstruct(~one, one), 12, 'MARKER', 0, 0),
    (lambda: qiksavlut.nesting(np.zeros((129, 128), bool)), 16, 'NEST', 0, 0),
    (lambda: qiksavlut.nesting(np.arange(64) % 2 + 2 * (np.arange(64)[:, None] % 2) == 0), 16, 'NEST', 0, 0),
    (lambda: qiksavlut.find_chain(Element.row(61)), 18, 'NOCHAIN', 0, 0),
    (full_book, 13, 'FULL', 0, 0),
    (lambda: Book().export.get(0), 14, 'ABSENT', 0, 0),
    (lambda: Book().export.put(8, cell), 14, 'ABSENT', 0, 0),
    (lambda: Book(bytes(2036)), 17, 'BOOK', 0, 0),
    (lambda: Book(b''), 17, 'BOOK', 0, 0),
    (lambda: qiksavlut.read(io.BytesIO(b'')), 9, 'FORM', 0, 0),
    (lambda: qiksavlut.read(io.BytesIO(b'ECH\1\0\1\0\0\1\0')), 1, 'SIZE', 0, 0),
    (lambda: qiksavlut.read(io.BytesIO(b'ECH\1\0\1\1\0\1\0')), 2, 'SOURCE', 0, 0),
    (lambda: qiksavlut.read(io.BytesIO(b'ECH\1\0\1\1\0\1\0\1')), 3, 'PAD', 0, 0),
    (lambda: qiksavlut.read(io.BytesIO(b'P1 1 1 1')), 11, 'NETPBM', 0, 0),
    (lambda: qiksavlut.read(io.BytesIO(b'P5 1 1 65535 ab')), 11, 'NETPBM', 0, 0),
    (lambda: qiksavlut.read(io.BytesIO(b'P5 2000 1 255 ab')), 1, 'SIZE', 0, 0),
]


class Words(unittest.TestCase):
    def test_words(self):
        for call, kind, words in WORDS:
            with self.subTest(words), self.assertRaises(kind) as caught:
                call()
            self.assertEqual(str(caught.exception), words)
            self.assertNotIsInstance(caught.exception, Refused)

    def test_refused(self):
        for call, number, name, dx, dy in REFUSED:
            with self.subTest(name), self.assertRaises(Refused) as caught:
                call()
            refusal = caught.exception
            self.assertEqual((refusal.number, refusal.name, refusal.dx, refusal.dy), (number, name, dx, dy))
            self.assertTrue(str(refusal).startswith('%d %s: ' % (number, name)))
            again = pickle.loads(pickle.dumps(refusal))
            self.assertEqual((again.number, again.name, again.dx, again.dy, str(again)), (number, name, dx, dy, str(refusal)))


class Pictures(unittest.TestCase):
    def test_limits(self):
        for shape in (1, 1), (256, 1024), (1, 1024), (256, 1):
            for sort in bool, np.uint8:
                picture = np.ones(shape, sort)
                for name in FLAT:
                    result = getattr(qiksavlut, name)(picture, cell)
                    self.assertEqual((result.shape, result.dtype), (shape, picture.dtype))
                    self.assertTrue((result == (0 if name in FLAT[4:] else 1)).all())

    def test_never_changed(self):
        """a picture that cannot be written to is taken, and one that can comes out as it was; the result is a new array, the caller's own"""
        chance = np.random.default_rng(5)
        for shape in (3, 9), (40, 1000):
            for picture in chance.random(shape) < 0.5, chance.integers(0, 256, shape).astype(np.uint8):
                was = picture.copy()
                for lent in picture, picture[:, ::-1], np.asfortranarray(picture):
                    lent.flags.writeable = False
                    for name in FLAT:
                        result = getattr(qiksavlut, name)(lent, Element.square(3))
                        self.assertFalse(np.shares_memory(result, lent))
                        result[...] = 1
                self.assertTrue((picture == was).all())

    def test_bytes_of_bools(self):
        """a bool array made by a view, whose bytes are other than 0 and 1, is what numpy takes it for"""
        strange = np.array([[0, 2, 4, 0, 255]], np.uint8).view(bool)
        self.assertEqual(qiksavlut.dilate(strange, cell).view(np.uint8).tolist(), [[0, 1, 1, 0, 1]])

    def test_subclass(self):
        self.assertIs(type(qiksavlut.erode(np.ones((3, 9), np.uint8).view(np.recarray), cell)), np.ndarray)

    def test_chains(self):
        chance = np.random.default_rng(3)
        links = [Element.row(8)] * 4 + [Element.row(3)]
        for picture in chance.random((9, 70)) < 0.9, chance.integers(0, 256, (9, 70)).astype(np.uint8):
            for number in range(1, 6):
                whole = Element.row(sum(link.shape[1] - 1 for link in links[:number]) + 1)
                self.assertTrue((qiksavlut.chain_erode(picture, whole, links[:number]) == qiksavlut.erode(picture, whole)).all())
                self.assertTrue((qiksavlut.chain_dilate(picture, whole, links[:number]) == qiksavlut.dilate(picture, whole)).all())

    def test_found(self):
        """squares with the origin anywhere, their chains found and accepted"""
        for side in range(1, 37):
            whole = Element(np.ones((side, side), bool), (side - 1, side // 2))
            chain = qiksavlut.find_chain(whole)
            self.assertTrue(1 <= len(chain) <= 5)
            qiksavlut.check_chain(whole, chain)

    def test_threads(self):
        """calls of many threads at once, each with its own pictures"""
        def work(seed, found):
            chance = np.random.default_rng(seed)
            picture = chance.random((200, 900)) < 0.9
            whole = [qiksavlut.opening(picture, Element.row(1 + seed)).sum() for _ in range(4)]
            found[seed] = len(set(whole)) == 1
        found = {}
        threads = [threading.Thread(target=work, args=(seed, found)) for seed in range(6)]
        for thread in threads:
            thread.start()
        for thread in threads:
            thread.join()
        self.assertEqual(found, dict.fromkeys(range(6), True))


class Elements(unittest.TestCase):
    def test_made(self):
        self.assertEqual(Element.row(31).descriptor, bytes([31, 1, 0, 0, 255, 255, 255, 254]))
        self.assertEqual(Element.trailing(31).descriptor, bytes([31, 1, 30, 0, 255, 255, 255, 254]))
        self.assertEqual(len(Element.disc(15).offsets), 709)
        self.assertEqual(Element.disc(0), cell)
        self.assertEqual(Element.square(4).origin, (2, 2))
        self.assertEqual(Element.draw('.#.\n#O#\n.#.'), Element([[0, 1, 0], [1, 1, 1], [0, 1, 0]]))
        self.assertEqual(Element(np.zeros((2, 3), bool)).offsets, [])

    def test_kept(self):
        """an element is what it was, whatever becomes of the array that it was made of; equal ones are one key; it is pickled, and read off its descriptor"""
        cells = np.ones((2, 3), bool)
        element = Element(cells)
        cells[:] = False
        self.assertEqual(element, Element(np.ones((2, 3)) > 0))
        with self.assertRaises(ValueError):
            element.cells[0, 0] = False
        for e in element, heavy, Element.draw('o'), Element.disc(3):
            self.assertEqual(len({e, pickle.loads(pickle.dumps(e)), Element.from_descriptor(e.descriptor), e.turned().turned()}), 1)
            self.assertEqual(eval(repr(e)), e)
        self.assertNotEqual(heavy, cell)
        self.assertNotEqual(cell, 'O')


class Files(unittest.TestCase):
    def test_round(self):
        chance = np.random.default_rng(7)
        with tempfile.TemporaryDirectory() as made:
            for shape in (1, 1), (2, 7), (3, 8), (4, 9), (256, 1024):
                for picture, ends in (chance.random(shape) < 0.5, 'ech pbm'), (chance.integers(0, 256, shape).astype(np.uint8), 'ech pgm PGM'):
                    for end in ends.split():
                        path = pathlib.Path(made, 'a picture.' + end)
                        qiksavlut.write(path, np.asfortranarray(picture))
                        for file in path, str(path), open(path, 'rb'):
                            read = qiksavlut.read(file)
                            self.assertEqual((read.dtype, read.tolist()), (picture.dtype, picture.tolist()))
                        file.close()
                        held = io.BytesIO()
                        qiksavlut.write(held, picture, end.lower())
                        self.assertEqual(held.getvalue(), path.read_bytes())

    def test_nothing_opened(self):
        with tempfile.TemporaryDirectory() as made:
            with self.assertRaises(TypeError):
                qiksavlut.write(os.path.join(made, 'a.pbm'), eight)
            self.assertEqual(os.listdir(made), [])

    def test_old_kind(self):
        """a file of kind 3 is stored turned over, and is an ordinary picture"""
        self.assertEqual(qiksavlut.read(io.BytesIO(b'ECH\1\0\3\3\0\1\0\x40')).astype(int).tolist(), [[1, 0, 1]])


class Books(unittest.TestCase):
    def test_as_maps(self):
        """beside two plain maps"""
        chance = np.random.default_rng(11)
        book, maps, full = Book(), {'display': {}, 'export': {}}, 0
        for _ in range(600):
            party, number, way = ('display', 'export')[chance.integers(2)], int(chance.integers(8)), chance.integers(4)
            held, ours = maps[party], getattr(book, party)
            if way < 2:
                element = Element(chance.random(chance.integers(1, 65, 2)) < 0.5, (0, 0))
                if sum(len(e.descriptor) for n, e in held.items() if n != number) + len(element.descriptor) > 1000:
                    full += 1
                    with self.assertRaises(Refused):
                        ours.put(number, element)
                else:
                    ours.put(number, element)
                    held[number] = element
            elif way == 2 and number in held:
                ours.remove(number)
                del held[number]
            else:
                ours.tidy()
            book = Book(bytes(book))
            for name, elements in maps.items():
                self.assertEqual({n: getattr(book, name).get(n) for n in getattr(book, name)}, elements)
        self.assertGreater(full, 5)


class Library(unittest.TestCase):
    def test_header(self):
        """the entries and the refusals are those of the header, neither more nor fewer"""
        header = re.sub(r'/\*.*?\*/', '', (TOP / 'include' / 'qiksavlut.h').read_text(), flags=re.S)
        kinds = {'uint64_t': 'n', 'uint8_t *': 'p', 'uint32_t *': 'p', 'size_t': 'l'}
        declared = {}
        for answer, name, parameters in re.findall(r'^(uint\d\d_t) qik_(\w+)\(([^)]*)\);', header, re.M):
            sorts = [re.match(r'(?:const )?(\w+ \*|\w+) ?\w+$', ' '.join(p.split())).group(1) for p in parameters.split(',')]
            declared[name] = answer == 'uint64_t', ''.join(kinds[sort] for sort in sorts).replace('pl', 'b')
        ours = {name: (name in _library.LONG, kinds) for kinds, names in _library.ENTRIES.items() for name in names.split()}
        self.assertEqual(ours, declared)
        for version in re.findall(r'define QIK_VERSION "(.*)"', header):
            self.assertEqual(version, qiksavlut.__version__)
        numbers = {int(n): name for name, n in re.findall(r'QIK_(\w+) = (\d+)', header)}
        del numbers[0]
        self.assertEqual({n: name for n, (name, _) in _library.REFUSALS.items()}, numbers)

    def test_missing(self):
        """where the library is not there, or is none, the import says so"""
        for place, words in ('/nowhere/' + _library.NAME, 'there is no'), (__file__, 'cannot be loaded'):
            said = subprocess.run([sys.executable, '-c', 'import qiksavlut'], env=dict(os.environ, QIKSAVLUT_LIBRARY=place), stderr=subprocess.PIPE, text=True)
            last = said.stderr.strip().split('\n')[-1]
            self.assertTrue(said.returncode == 1 and last.startswith('ImportError: ') and words in last and place in last, last)

    def test_cost(self):
        """what a call takes of its own on a picture of 64 pings by 16 bins: under 20 microseconds with all that the library does by one cell"""
        for picture in np.zeros((16, 64), bool), np.zeros((16, 64), np.uint8):
            least = 1.0
            for _ in range(60):
                start = time.process_time()
                for _ in range(50):
                    qiksavlut.erode(picture, cell)
                least = min(least, (time.process_time() - start) / 50)
            self.assertLess(least, 20e-6)


if __name__ == '__main__':
    unittest.main()
