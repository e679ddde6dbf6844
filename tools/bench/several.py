"""One call on each of several files, on all cores: a line for each, in their order."""
import concurrent.futures
import contextlib
import os

from bench.progress import Line
from shared.command import Stop, say, trouble


class Done:
    """What came of one file: a status, lines for standard output, and one for standard error."""

    def __init__(self, status, lines=(), trouble=None):
        self.status, self.lines, self.trouble = status, lines, trouble


def attempt(work, path):
    """A call on one file; a trouble with it leaves the other files alone."""
    try:
        return work(path)
    except Stop as stop:
        return Done(stop.status, trouble=str(stop))
    except OSError as error:
        return Done(2, trouble=trouble(error))


def bar(done, count):
    return f'[{"#" * (30 * done // count):30}] {done} of {count} files'


def in_order(work, paths):
    """What came of each file, in their order and as soon as it is there; the programs run on all cores, and a terminal shows how many files are done."""
    pool = concurrent.futures.ThreadPoolExecutor(os.cpu_count())
    try:
        waiting = [pool.submit(attempt, work, path) for path in paths]
        with Line() as line:
            for one in waiting:
                while len(paths) > 1 and line.on and not one.done():
                    line.show(bar(sum(other.done() for other in waiting), len(paths)))
                    concurrent.futures.wait([one], 0.1)
                result = one.result()
                line.clear()
                yield result
    finally:
        pool.shutdown(wait=False, cancel_futures=True)


def go_through(name, work, paths, head=None):
    """Prints what comes of each file, below a head if there is one. The worst status."""
    worst = 0
    with contextlib.closing(in_order(work, paths)) as results:
        for done in results:
            if done.lines and head:
                print(head)
                head = None
            for line in done.lines:
                print(line, flush=True)
            if done.trouble:
                say(name, done.trouble)
            worst = max(worst, done.status)
    return worst
