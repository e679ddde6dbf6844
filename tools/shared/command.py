"""How a command ends: with a status, and on trouble with one line on standard error."""
import os
import sys


class Stop(Exception):
    """Ends a command with one line, and with status 2 unless another is given."""

    def __init__(self, words, status=2):
        super().__init__(words)
        self.status = status


def say(name, words):
    line = ' '.join(str(words).split())
    print(f'{name}: {line}', file=sys.stderr)


def trouble(error):
    """What an OSError says, and of which file."""
    return f'{error.filename}: {error.strerror}' if error.filename else str(error)


def run(name, main):
    """Calls main with the command's words, and ends the process with the status that it returns."""
    try:
        status = main(sys.argv[1:])
        sys.stdout.flush()
    except Stop as stop:
        say(name, stop)
        status = stop.status
    except BrokenPipeError:  # whoever read our output has gone
        status = 2
    except OSError as error:
        say(name, trouble(error))
        status = 2
    except KeyboardInterrupt:
        status = 2
    let_go()
    sys.exit(status)


def let_go():
    """Drops output that can't be written, or Python would try again when it ends, and say so."""
    try:
        if sys.stdout is not None:
            sys.stdout.flush()
    except OSError:
        os.dup2(os.open(os.devnull, os.O_WRONLY), sys.stdout.fileno())


def read_lines(path):
    """The lines of a text file, the last one also where it has no newline."""
    with open(path, 'rb') as file:
        data = file.read()
    for place, line in enumerate(data.split(b'\n'), 1):
        if not line.isascii():
            raise Stop(f'{path}: line {place} is not plain text (ASCII)')
    lines = data.decode('ascii').replace('\r\n', '\n').split('\n')
    if lines[-1] == '':
        lines.pop()
    if not lines:
        raise Stop(f'{path} is empty')
    return lines
