"""The files that ./wesalondo reads and writes, with one line about each trouble."""
import contextlib
import os
import stat
import sys

from shared.command import Stop
from shared.house import longest
from shared.kept import replace
from shared.table import BENCH_MARKS, MOST_MARKS

TAKEN = longest(BENCH_MARKS)   # bytes of a house file that the programs read
LONGEST = longest(MOST_MARKS)  # bytes of any house file


def shown(path):
    """A file's name for a line of text or a drawing: what can't be printed is a question mark."""
    return 'standard input' if path == '-' else ''.join(letter if letter.isprintable() else '?' for letter in path)


def stop(path, error):
    return Stop(f'{shown(path)}: {error.strerror or error}')


def read(path):
    """The bytes of a file, or of standard input for `-`; of a longer file than any house file one byte more than the longest has, which is refused."""
    if path == '-' and sys.stdin is None:
        raise Stop('standard input is closed')
    try:
        if path == '-':
            return sys.stdin.buffer.read(LONGEST + 1)
        with open(path, 'rb') as file:
            return read_whole(file, path)
    except OSError as error:
        raise stop(path, error)


def read_whole(file, path):
    """A regular file has the length that it is said to have, before and after it is read; otherwise someone is writing to it."""
    before = os.fstat(file.fileno())
    data = file.read(LONGEST + 1)
    after = os.fstat(file.fileno())
    if stat.S_ISREG(before.st_mode) and any(min(found.st_size, LONGEST + 1) != len(data) for found in (before, after)):
        raise Stop(f'{shown(path)}: it changed while it was read; try again when it is written')
    return data


def write(path, data):
    """Puts a file in place as a whole, or leaves what was there; what is no regular file, as a pipe, is written to."""
    if path == '-':
        raise Stop('- can be read and not written: give the file a name')
    try:
        if os.path.exists(path) and not os.path.isfile(path):
            with open(path, 'wb') as file:
                file.write(data)
        else:
            replace(os.path.realpath(path), data)
    except OSError as error:
        raise stop(path, error)


# ---- files that are written to a folder, under their own names

def targets(path, folder, *kinds):
    """Where what is made of a file goes: one under its own name, and for each kind one with that ending in place of its own."""
    name = os.path.basename(path)
    return [os.path.join(folder, one) for one in (name, *(os.path.splitext(name)[0] + kind for kind in kinds))]


def identity(path):
    """What tells a file from every other, by whatever path; None where there is none."""
    with contextlib.suppress(OSError):
        found = os.stat(path)
        return found.st_dev, found.st_ino
    return None


def hold(paths, folder, *kinds):
    """Every file has a name of its own in a folder that is there, and none of those that are read is written over."""
    if not os.path.isdir(folder):
        raise Stop(f'--out wants a folder, and {shown(folder)} is none: make it first')
    if '-' in paths:
        raise Stop('standard input has no name to be written under: give a file')
    read_ones, places = {identity(path): path for path in paths}, set()
    for place in (place for path in paths for place in targets(path, folder, *kinds)):
        if place in places:
            raise Stop(f'two files would be called {shown(os.path.basename(place))}, and --out is one folder')
        places.add(place)
        over = identity(place)
        if over is not None and over in read_ones:
            raise Stop(f'--out would write over {shown(read_ones[over])} itself: give another folder')
