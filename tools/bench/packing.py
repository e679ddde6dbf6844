"""pack and unpack: house files with each joint once, and back. The proved calls do it, asked by a line of replay; here files are read and written."""
import re

from bench import files, outline, programs, said
from bench.several import Done, go_through
from shared import house
from shared.command import Stop
from shared.table import LINE_BYTES

NO_ROOM, NO_FILE = '4', '9'


# ---- one file

def too_long(verb, name, data):
    """What to say of a file that is longer than a line of replay holds, or than replay has room for; a broken one is refused all the same."""
    held = house.parse(data) if len(data) <= files.LONGEST else None
    if held is None:
        return outline.Refused(NO_FILE)
    return Stop(f'{name}: too long for ./wesalondo to {verb}: {len(data):,} bytes, {held.count:,} marks. The file is a whole house file. '
                f'Have a program call {verb}_file of the library, from Rust or C: it takes any length')


def converted(verb, name, data):
    """The bytes that the call makes of a file."""
    line = f'{verb} {data.hex()}'
    answer = outline.ask([line])[0] if len(line) <= LINE_BYTES else NO_ROOM
    if answer == NO_ROOM:
        raise too_long(verb, name, data)
    if re.fullmatch('[1-9][0-9]?', answer):
        raise outline.Refused(answer)
    return bytes.fromhex(outline.value(answer, '(?:[0-9a-f]{2})*', 'file'))


def reason(data):
    """Why a whole file is refused by 9: it was given to the wrong verb."""
    held = house.parse(data)
    return '' if held is None else ' This one is packed already.' if held.packed else ' This one is not packed.'


def told(before, after):
    """What came of a file, by its lengths; one without curves stays as it is."""
    if before == after:
        return f'no curves, so no joints to share: copied as it is, {len(after):,} bytes'
    more = len(after) - len(before)
    return f'{len(after):,} bytes, {abs(more):,} {"more" if more > 0 else "fewer"}'


def convert(verb, path, folder):
    """The line of one file, which is written if it is not refused."""
    name, data = files.shown(path), files.read(path)
    try:
        made = converted(verb, name, data)
    except outline.Refused as refused:
        return Done(1, [f'{name}: {said.refusal(refused.refusal)}{reason(data) if str(refused.refusal) == NO_FILE else ""}'])
    files.write(files.targets(path, folder)[0], made)
    return Done(0, [f'{name}: {told(data, made)}'])


def go(verb, words):
    files.hold(words.files, words.out)
    programs.ready()
    return go_through(words.name, lambda path: convert(verb, path, words.out), words.files)
