"""The C library (include/watered.h) from Python: the tables of a plan afresh and after edits. ctypes, no state of its own."""
import ctypes
import ctypes.util
import os
import subprocess

from .places import ARCHIVE, INSTALLED, LIBRARY, LINK

Numbers = ctypes.POINTER(ctypes.c_int32)
SIZE = ctypes.c_size_t
TABLES = [ctypes.POINTER(ctypes.c_uint8), SIZE, ctypes.POINTER(ctypes.c_double), SIZE] * 2


class NoLibrary(Exception):
    """The library cannot be loaded, or refuses what document 01 takes."""


def linked():
    """The shared library of this tree, linked anew if its archive is younger; none if there is neither."""
    if os.path.exists(LIBRARY) and (INSTALLED or not os.path.exists(ARCHIVE) or os.path.getmtime(LIBRARY) >= os.path.getmtime(ARCHIVE)):
        return LIBRARY
    if INSTALLED or not os.path.exists(ARCHIVE):
        return None
    try:
        done = subprocess.run([LINK, LIBRARY], capture_output=True)
    except OSError as error:
        raise NoLibrary('cannot link %s: %s' % (ARCHIVE, error.strerror))
    if done.returncode:
        raise NoLibrary('cannot link %s: %s' % (ARCHIVE, done.stderr.decode('utf-8', 'replace').strip()))
    return LIBRARY


def load(chosen=None):
    """The library: the one chosen, the one of this tree, or, from the sources, one that is installed; with the types of its calls."""
    path = chosen or linked() or (None if INSTALLED else ctypes.util.find_library('watered'))
    if not path:
        raise NoLibrary('the library is not there; ' + ('install it anew' if INSTALLED else 'build it with: tools/build watered_c'))
    try:
        library = ctypes.CDLL(path)
        afresh, edit = library.watered_afresh, library.watered_edit
    except (OSError, AttributeError) as error:
        raise NoLibrary('cannot use %s: %s' % (path, error))
    afresh.argtypes, afresh.restype = [SIZE, Numbers, Numbers] + TABLES, ctypes.c_uint32
    edit.argtypes, edit.restype = [SIZE, Numbers, Numbers, SIZE] + [ctypes.c_int32] * 3 + TABLES, ctypes.c_uint32
    return library


class Window:
    """A plan with its tables, as a drawing window keeps them: worked out afresh once, then edited."""

    def __init__(self, library, box, heads):
        self.library, self.count = library, len(heads)
        self.box = (ctypes.c_int32 * 4)(*box)
        self.heads = (ctypes.c_int32 * 30)(*[value for head in heads[:10] for value in head])
        size = 2 ** min(self.count, 10)
        self.presence, self.numbers = (ctypes.c_uint8 * size)(), (ctypes.c_double * size)()
        self.exclusive_presence, self.exclusive_numbers = (ctypes.c_uint8 * size)(), (ctypes.c_double * size)()
        self.taken(library.watered_afresh(self.count, self.box, self.heads, *self.tables()))

    def tables(self):
        slices = self.presence, self.numbers, self.exclusive_presence, self.exclusive_numbers
        return [argument for lent in slices for argument in (lent, len(lent))]

    def taken(self, answer):
        if answer:
            raise NoLibrary('the library refused a plan or a move under %d' % answer)

    def edit(self, head, x, y, radius):
        self.taken(self.library.watered_edit(self.count, self.box, self.heads, head, x, y, radius, *self.tables()))

    def plan(self):
        """The heads as they stand."""
        return [list(self.heads[3 * i:3 * i + 3]) for i in range(self.count)]

    def rows(self):
        """The present rows: {mask: area of the ground that all its heads water}."""
        return {mask: number for mask, number in enumerate(self.numbers) if self.presence[mask]}

    def exclusives(self):
        """The present rows: {mask: area of the ground that exactly its heads water}."""
        return {mask: number for mask, number in enumerate(self.exclusive_numbers) if self.exclusive_presence[mask]}
