"""The proved programs behind ./wesalondo: built on first use, and run."""
import contextlib
import fcntl
import glob
import os
import re
import shutil
import signal
import subprocess
import sys

from bench.progress import Line
from shared.command import Stop, say
from shared.crates import CRATES, reach, read_crates
from shared.kept import ROOT, replace

NAMES = ('judge', 'save', 'replay', 'salvage')
RUNNER, BUILDER = (os.path.join(ROOT, 'tools', name) for name in ('run_program', 'build'))
TARGET = os.path.join(ROOT, 'target')
STAMP, LOCK, LOG = (os.path.join(TARGET, f'wesalondo.{part}') for part in ('stamp', 'lock', 'log'))


def run_both(name, data):
    """What a program writes to these bytes, on standard output and on standard error."""
    done = subprocess.run([RUNNER, name], input=data, capture_output=True)
    if done.returncode:
        raise Stop(done.stderr.decode('utf-8', 'replace') or f'the program {name} ended with status {done.returncode}')
    return done.stdout, done.stderr


def run(name, data):
    """What a program writes to these bytes on standard output."""
    return run_both(name, data)[0]


# ---- whether they are there

def crates():
    """The crates that the programs stand on, and the programs themselves."""
    _, under = read_crates()
    missing = [name for name in NAMES if name not in under]
    if missing:
        raise Stop(f'crates.txt has no crate {missing[0]}, which is one of the programs')
    known = {}
    return sorted(set(NAMES).union(*(reach(name, under, known) for name in NAMES)))


def sources(names):
    """What the programs are made from, by the times and lengths of the files alone: it is looked at in every start."""
    paths = [CRATES] + [path for name in names for path in sorted(glob.glob(os.path.join(glob.escape(ROOT), 'crates', name, 'src', '*.rt')))]
    return ''.join(f'{os.path.relpath(path, ROOT)} {found.st_mtime_ns} {found.st_size}\n' for path in paths for found in [os.stat(path)])


def built(made_from):
    """Whether the last build was of these sources and left its programs."""
    if not all(os.access(os.path.join(TARGET, 'bin', name), os.X_OK) for name in NAMES):
        return False
    with contextlib.suppress(FileNotFoundError), open(STAMP, encoding='utf-8', errors='replace') as file:
        return file.read() == made_from
    return False


# ---- building

def ready():
    """Builds the programs where they are missing or a source has changed; two commands never build at once."""
    names = crates()
    if built(sources(names)):
        return
    os.makedirs(TARGET, exist_ok=True)
    with open(LOCK, 'wb') as lock:
        wait_for(lock)
        made_from = sources(names)  # as they are before the build: a change while it runs is built next time
        if not built(made_from):
            build(names, lock)
            replace(STAMP, made_from.encode('utf-8'))


def wait_for(lock):
    try:
        fcntl.flock(lock, fcntl.LOCK_EX | fcntl.LOCK_NB)
    except BlockingIOError:
        say('wesalondo', 'another command is building the programs; this one waits for it')
        fcntl.flock(lock, fcntl.LOCK_EX)


def build(names, lock):
    """Proves and builds the programs by tools/build; what it and rt print goes to the log."""
    if shutil.which('rt') is None:
        raise Stop('rt is not on the path, and the programs are proved and built by it on first use: install the Rattle kit, put its bin folder on the path, and try again')
    with contextlib.suppress(FileNotFoundError):
        os.remove(STAMP)
    with Line() as line, open(LOG, 'wb') as log:
        if not line.on:
            say('wesalondo', f'building the programs, {len(names)} crates; this is done once')
        signal.pthread_sigmask(signal.SIG_BLOCK, {signal.SIGINT})  # an interrupt waits until there is a process to end
        # tools/build has the lock too, so that the next command waits for it even if this one is killed
        with subprocess.Popen([sys.executable, BUILDER, *NAMES], cwd=ROOT, stdin=subprocess.DEVNULL, stdout=subprocess.PIPE, stderr=subprocess.STDOUT,
                              start_new_session=True, pass_fds=[lock.fileno()], preexec_fn=take_interrupts) as process:
            try:
                take_interrupts()
                last = follow(process.stdout, log, len(names), line)
            except BaseException:
                os.killpg(process.pid, signal.SIGTERM)
                raise
    if process.returncode or not all(os.path.isfile(os.path.join(TARGET, 'bin', name)) for name in NAMES):
        raise Stop(f'the programs were not built: tools/build ended with status {process.returncode}, saying {last!r}. '
                   f'All that it and rt said is in {LOG}; mend that, and try again')


def take_interrupts():
    signal.pthread_sigmask(signal.SIG_UNBLOCK, {signal.SIGINT})


def follow(lines, log, count, line):
    """Keeps what is printed, and counts the crates that are called proved, also those that were proved before. The last line."""
    proved, last = set(), b''
    line.show(f'wesalondo: building, crate 1 of {count}')
    for text in lines:
        log.write(text)
        last = text
        found = re.match(rb'build: (\w+) (?:was )?proved ', text)
        if found:
            proved.add(found[1])
            line.show(f'wesalondo: building, crate {min(len(proved) + 1, count)} of {count}')
    return last.decode('utf-8', 'replace').strip()[:300]
