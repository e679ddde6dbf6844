"""What the tests share: a copy of the repository whose path has a blank in it, calls of its commands, house files, and the runner."""
import os
import shutil
import signal
import stat
import subprocess
import sys
import tempfile
import unittest

ROOT = os.path.dirname(os.path.dirname(os.path.realpath(__file__)))
sys.path.insert(0, os.path.join(ROOT, 'tools'))
for setting in [name for name in os.environ if name.startswith('PYTHON')]:
    del os.environ[setting]  # commands run as they do for everyone
signal.signal(signal.SIGINT, signal.default_int_handler)  # a shell's background jobs ignore interrupts, and some tests send one

from shared import house
from shared.words import bits, patterns_of

where = None  # the folder of the copy


def make_copy(programs):
    """Copies what the commands need, and the programs that `tools/build` has built: what a test builds stays in the copy."""
    global where
    for name in programs:
        if not os.path.isfile(os.path.join(ROOT, 'target', 'bin', name)):
            raise AssertionError(f'there is no target/bin/{name}; build it with: tools/build {name}')
    where = os.path.join(tempfile.mkdtemp(), 'a copy')
    os.mkdir(where)
    for name in ('compare', 'crates', 'docs', 'examples', 'tools'):
        shutil.copytree(os.path.join(ROOT, name), in_copy(name), ignore=shutil.ignore_patterns('proofs', 'must-fail', 'out'))
    for name in ('wesalondo', 'crates.txt'):
        shutil.copy2(os.path.join(ROOT, name), where)
    os.makedirs(in_copy('target/bin'))
    for name in programs:
        shutil.copy2(os.path.join(ROOT, 'target', 'bin', name), in_copy('target/bin'))


def remove_copy():
    shutil.rmtree(os.path.dirname(where))


def in_copy(name):
    return os.path.join(where, name)


def write(name, data, runs=False):
    """A file of the copy; its path."""
    path = in_copy(name)
    os.makedirs(os.path.dirname(path), exist_ok=True)
    with open(path, 'wb') as file:
        file.write(data.encode('utf-8') if isinstance(data, str) else data)
    if runs:
        os.chmod(path, os.stat(path).st_mode | stat.S_IXUSR)
    return path


def read(name):
    with open(in_copy(name), 'rb') as file:
        return file.read()


def marks_file(count, tolerance=0.5, **change):
    """A house file of so many marks on a shallow curve; change names patterns by their place, as p3=NAN."""
    marks = patterns_of(*(value for i in range(count) for value in (float(i), (i % 7) * 0.01)))
    for place, pattern in change.items():
        marks[int(place[1:])] = pattern
    return house.build(bits(tolerance), marks)


TRIANGLE = [-0.0, 0.0, 4.0, 0.0, 4.0, 3.0]  # three marks; the first has a minus zero


def straight(start, end):
    return [*start, *(a + (b - a) * part for part in (0.33, 0.66) for a, b in zip(start, end)), *end]


SIDES = [straight(TRIANGLE[a:a + 2], TRIANGLE[b:b + 2]) for a, b in ((0, 2), (2, 4), (4, 0))]


class Case(unittest.TestCase):
    def call(self, *command, given=b'', **environment):
        """Runs a command of the copy, from another folder: status, standard output, standard error."""
        words = [in_copy(command[0]), *command[1:]]
        done = subprocess.run(words, input=given, cwd=os.path.dirname(where), capture_output=True, env={**os.environ, **environment})
        said = done.stderr.decode('utf-8')
        self.assertNotIn('Traceback', said)
        return done.returncode, done.stdout.decode('utf-8'), said

    def says(self, status, piece, *command, **more):
        """The command ends with this status and says one line with this piece in it on standard error, and nothing else."""
        got, out, said = self.call(*command, **more)
        self.assertEqual((got, out, said.count('\n')), (status, '', 1), said)
        self.assertIn(piece, said)

    def program(self, name, data, *words_):
        """What one of the port's programs writes to these bytes, with these words behind its name."""
        return subprocess.run([in_copy('tools/run_program'), name, *words_], input=data, capture_output=True, check=True).stdout

    def answers(self, lines):
        """What the port says to lines of replay."""
        return self.program('replay', ''.join(line + '\n' for line in lines).encode('latin-1')).decode('ascii').split('\n')[:-1]


def main():
    """Runs the tests of the script; its last line is `N passed, M failed`."""
    suite = unittest.defaultTestLoader.loadTestsFromModule(sys.modules['__main__'])
    result = unittest.TextTestRunner(verbosity=1).run(suite)
    failed = len(result.failures) + len(result.errors) + len(result.unexpectedSuccesses)
    sys.stderr.flush()
    print(f'{max(result.testsRun - failed, 0)} passed, {failed} failed')
    return 1 if failed else 0
