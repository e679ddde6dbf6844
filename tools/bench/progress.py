"""A line on standard error that is written over while something runs."""
import sys


class Line:
    """Says nothing where standard error is no terminal."""

    def __init__(self):
        self.on = sys.stderr is not None and sys.stderr.isatty()
        self.shown = ''

    def show(self, text):
        if self.on and text != self.shown:
            sys.stderr.write('\r' + text.ljust(len(self.shown)))
            sys.stderr.flush()
            self.shown = text

    def clear(self):
        """Leaves the line empty, so that another can be printed."""
        if self.shown:
            sys.stderr.write('\r' + ' ' * len(self.shown) + '\r')
            sys.stderr.flush()
            self.shown = ''

    def __enter__(self):
        return self

    def __exit__(self, *_):
        self.clear()
