"""The kept input and output of the programs: crates/NAME/stdin and stdout."""
import collections
import os
import struct
import tempfile

from shared.command import Stop

ROOT = os.path.dirname(os.path.dirname(os.path.dirname(os.path.realpath(__file__))))


def path_of(name, part):
    return os.path.join(ROOT, 'crates', name, part)


def read(name, part):
    """The bytes of a kept file."""
    with open(path_of(name, part), 'rb') as file:
        return file.read()


def read_stdin(name):
    data = read(name, 'stdin')
    if not data:
        raise Stop(f'crates/{name}/stdin is empty: it is what the inputs are read from')
    return data


class Words:
    """The 64-bit words of a kept input, taken from the front."""

    def __init__(self, name):
        self.name, self.data, self.at = name, read_stdin(name), 0

    def __bool__(self):
        return self.at < len(self.data)

    def take(self, count):
        return list(struct.unpack('<%dQ' % count, self.bytes(8 * count)))

    def bytes(self, count):
        if self.at + count > len(self.data):
            raise Stop(f'crates/{self.name}/stdin ends inside a record')
        self.at += count
        return self.data[self.at - count:self.at]


def packed(patterns):
    return struct.pack('<%dQ' % len(patterns), *patterns)


def at_least(rows, count, name):
    """The rows that were collected, which no generator makes: they must not become fewer."""
    if len(rows) < count:
        raise Stop(f'crates/{name}/stdin has {len(rows)} collected cases where {count} are wanted')
    return rows


def without(rows, made):
    """The rows that are left if those that were made are taken out, each as often as it was made, the last ones first."""
    out = collections.Counter(made)
    left = []
    for row in reversed(rows):
        if out[row]:
            out[row] -= 1
        else:
            left.append(row)
    return left[::-1]


class Made:
    """A program's input and output as a tool makes them: how many cases they are, how many were kept, and a line about them."""

    def __init__(self, name, stdin, stdout, count, before, note=''):
        self.name, self.count, self.before, self.note = name, count, before, note
        self.parts = {'stdin': stdin, 'stdout': stdout if isinstance(stdout, bytes) else stdout.encode('ascii')}

    def different(self):
        """The parts that are not as they are kept."""
        return [part for part, data in self.parts.items() if not os.path.isfile(path_of(self.name, part)) or read(self.name, part) != data]

    def write(self):
        """Puts both in place of the kept ones, each as a whole."""
        if self.count < self.before:
            raise Stop(f'{self.name}: {self.count} cases would take the place of {self.before}; nothing is written')
        for part, data in self.parts.items():
            replace(path_of(self.name, part), data)


def replace(path, data):
    """Puts a file in place of another, or leaves the other as it is."""
    folder = os.path.dirname(path)
    handle, beside = tempfile.mkstemp(dir=folder)
    try:
        with os.fdopen(handle, 'wb') as file:
            file.write(data)
        os.chmod(beside, 0o644)
        os.replace(beside, path)
    except BaseException:
        os.unlink(beside)
        raise


def unlike(kept, made):
    """Where two texts part, for a reader: the line that differs first."""
    kept_lines, made_lines = kept.split(b'\n'), made.split(b'\n')
    pairs = zip(kept_lines, made_lines)
    place = next((i for i, (before, after) in enumerate(pairs) if before != after), min(len(kept_lines), len(made_lines)))
    return f'line {place + 1}'


def tally(answers):
    """How many answers begin with each word."""
    heads = [answer.split()[0] for answer in answers]
    return ', '.join(f'{heads.count(head)} of {head}' for head in sorted(set(heads)))
