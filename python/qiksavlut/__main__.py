"""python -m qiksavlut: the version, and where the library is."""
from . import __version__
from ._library import PATH

print('qiksavlut %s\n%s' % (__version__, PATH))
