"""clean: house files without the marks that are out of range or repeat. The program salvage drops them; here files are read and written, and what was dropped is told."""
import os
import re
from collections import namedtuple
from itertools import groupby

from bench import files, outline, programs, said, tables
from bench.several import Done, go_through
from shared.command import Stop

RANGE, EQUAL = 'RANGE', 'EQUAL'
LIST = 'KEPT ([0-9]+) DROPPED ([0-9]+)\n((?:DROP [0-9]+ (?:RANGE|EQUAL)\n)*)'
DRAWN = '.svg'  # behind a file's name, in place of its own ending
SPANS = 8       # that are named one by one

# what to do where the fit still refuses; of a cleaned file it gives no other number
HINTS = {
    1: 'Too few marks are left: trace the outline again.',
    5: 'The marks that were kept are all in range, so it is the tolerance, which stays as it was: set it, and export the file again.',
    6: 'What repeated is gone, and marks may still stand too close for the sums: trace that place again.'}

# a dropped mark: its number in the file as it was, the cause, where it stood, and of an equal one the number of the mark that it equals
Drop = namedtuple('Drop', 'number cause point equals')


# ---- what salvage says

class Cleaned:
    """A file's marks without those that were dropped: the bytes of the file that holds them, and what was dropped."""

    def __init__(self, made, count, drops):
        self.made, self.count, self.drops = made, count, drops

    def of(self, cause):
        return [drop for drop in self.drops if drop.cause == cause]

    def words(self):
        return f'{len(self.drops)} of {said.counted(self.count, "mark")} dropped'


def drops_of(marks, causes):
    """The dropped marks, by the numbers and causes that salvage gives, in the order of the file; and the patterns of the others."""
    drops, kept, last = [], [], None
    for number, point in enumerate(outline.points(marks)):
        cause = causes.get(number)
        if cause is None:
            kept += marks[2 * number:2 * number + 2]
            last = number
        else:
            drops.append(Drop(number, cause, point, last if cause == EQUAL else None))
    return drops, kept


def asked(data):
    """The file that salvage writes, and its list taken apart: how many it keeps and drops, and number and cause of each dropped one."""
    made, listed = outline.hand_both('salvage', data)
    text = listed.decode('latin-1')
    refused, found = re.fullmatch('REFUSED ([1-9])\n', text), re.fullmatch(LIST, text)
    if refused:
        raise outline.refused(refused[1], 'salvage', data)
    if not found:
        raise Stop(f'salvage gives no list: it says {text[:60]!r}')
    lines = [line.split(' ')[1:] for line in found[3].split('\n')[:-1]]
    return made, [int(found[1]), int(found[2])], [(int(number), cause) for number, cause in lines]


def salvaged(data):
    """What salvage makes of a file. Each mark is in the file that it writes or in its list; a program that says something else is not the one that was proved."""
    made, counts, lines = asked(data)
    before, after = outline.taken_apart(data, 'salvage'), outline.taken_apart(made, 'salvage')
    drops, kept = drops_of(before.marks, dict(lines))
    if [drop[:2] for drop in drops] != lines or counts != [after.count, len(drops)]:
        raise Stop('salvage does not list what it drops')
    if (after.tolerance, after.marks, after.curves) != (before.tolerance, kept, []):
        raise Stop('salvage drops other marks than it lists')
    return Cleaned(made, before.count, drops)


# ---- in words

def spans(numbers):
    """Rising numbers, each run of them by its ends, as many runs as one wants to read."""
    runs = [[number for _, number in run] for _, run in groupby(enumerate(numbers), lambda one: one[1] - one[0])]
    some = [f'{run[0]} to {run[-1]}' if len(run) > 2 else ', '.join(map(str, run)) for run in runs[:SPANS]]
    return ', '.join(some) + f' and {sum(map(len, runs[SPANS:])):,} more' * (len(runs) > SPANS)


def standing(point):
    return 'x {}, y {}'.format(*map(said.plain, point))


def drop_line(drop):
    """What was dropped, and why."""
    return f'    mark {drop.number}: ' + (f'equal to mark {drop.equals}' if drop.cause == EQUAL else f'out of range, {standing(drop.point)}')


# ---- drawings

def unfitted(name, cleaned):
    """The kept marks by themselves."""
    listed = outline.Listed(name, outline.taken_apart(cleaned.made, 'salvage'))
    listed.cleaned = cleaned
    return listed


def hinted(refused):
    """A refusal of the fit behind the cleaning, with what to do."""
    return f'{said.refusal(refused.refusal, refused.marks)} {HINTS.get(refused.refusal, "")}'.rstrip()


def fitted(name, cleaned, fit):
    """The fit of the kept marks; where it refuses, the marks by themselves with its words."""
    try:
        listed = fit(name, cleaned.made)
    except outline.Refused as refused:
        listed = unfitted(name, cleaned)
        listed.refusal = hinted(refused)
    listed.cleaned = cleaned
    return listed


def joined(name, made):
    return outline.joined(name, outline.saved(made))


# ---- the verb

def lines_of(name, cleaned, words):
    """The line of one file, and if asked for those of its dropped marks."""
    left = '' if len(cleaned.drops) < cleaned.count else '; none is left to draw'
    return [f'{name}: {cleaned.words()}{left}'] + [drop_line(drop) for drop in cleaned.drops if words.list]


def clean_one(path, words, fits):
    """The lines of one file; the cleaned one and its drawing are written. What came of its fit goes to `fits`."""
    from bench.draw import draw
    name, data = files.shown(path), files.read(path)
    try:
        cleaned = salvaged(data)
    except outline.Refused as refused:
        return Done(1, [f'{name}: {said.refusal(refused.refusal, refused.marks)}'])
    shown, (place, drawing) = os.path.basename(name), files.targets(path, words.out, DRAWN)
    listed = fitted(shown, cleaned, joined) if words.fit else unfitted(shown, cleaned)
    drawn = draw(listed).encode('utf-8') if listed.marks else None
    files.write(place, cleaned.made)
    if drawn is not None:
        files.write(drawing, drawn)
    fits[path] = files.shown(place), listed
    return Done(0, lines_of(name, cleaned, words))


def say_fits(fits):
    """A table of what came of the cleaned files, in the words of fit. The status."""
    wide = max(len(name) for name, _ in fits)
    print(tables.table_head(wide))
    for name, listed in fits:
        print(tables.table_row(name, wide, listed) if listed.refusal is None else f'{name.ljust(wide)}  {listed.refusal}')
    return int(any(listed.refusal is not None for _, listed in fits))


def go(words):
    files.hold(words.files, words.out, DRAWN)
    programs.ready()
    fits = {}
    status = go_through(words.name, lambda path: clean_one(path, words, fits), words.files)
    if words.fit and fits:
        status = max(status, say_fits([fits[path] for path in words.files if path in fits]))
    return status
