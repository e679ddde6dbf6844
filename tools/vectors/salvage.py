"""salvage: a packed example with marks that are lost, out of range and repeated. What the program writes is by shared/cleaning.py; the gate sees standard output alone, and tests/cli the list too."""
import os

from shared import cleaning, house, kept
from shared.words import MINUS, NAN, bits

NAME = 'salvage'
MARKS = 20  # where a file's marks begin
BEYOND = bits(1e6) + 1


def shaken():
    """The cushion with other marks: two out of range, one of them between two that are equal, and three behind one that they equal."""
    with open(os.path.join(kept.ROOT, 'examples', 'cushion.house'), 'rb') as file:
        data = file.read()
    marks = house.parse(data).marks
    places = [marks[at:at + 2] for at in range(0, len(marks), 2)]
    places[12], places[13] = [NAN, places[12][1]], places[11]
    places[40:43] = [places[39]] * 3
    places[60] = [places[60][0], BEYOND | MINUS]
    return data[:MARKS] + house.row([pattern for place in places for pattern in place]) + data[MARKS + 8 * len(marks):]


def make(rust):
    data = shaken()
    return kept.Made(NAME, data, cleaning.piped(data)[0], 1, 1)
