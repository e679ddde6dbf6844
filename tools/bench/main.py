"""The verbs of ./wesalondo. Exit status: 0 all good; 1 something is refused or faulty; 2 something could not be run, and the rest was."""
import argparse
import os
import sys

from bench import cleaning, files, outline, packing, programs, said
from bench.several import Done, go_through
from bench.tables import curve_table, refused_row, table_head, table_row
from shared.command import Stop, run, say

VERBS = ('fit', 'check', 'plot', 'path', 'clean', 'pack', 'unpack', 'explain')


# ---- fit

def fit_of(name, data, words):
    """The fit of a file's bytes, and the house file that holds it, which save writes; a ring's list stands in none, and the second engine's is not written."""
    if words.ring or words.flat:
        return outline.by_replay(name, data, words.ring, words.flat), None
    made = outline.saved(data)
    return outline.joined(name, made), made


def fitted(path, words):
    """The fit of one file, and the house file that holds it, if there is one."""
    data = files.read(path)
    return fit_of(files.shown(path), data, words)


def fit_lines(path, words, wide):
    """The table's line of one file, and what was saved."""
    name = files.shown(path)
    try:
        listed, made = fitted(path, words)
    except outline.Refused as refused:
        return Done(1, [refused_row(name, wide, refused)])
    lines = [table_row(name, wide, listed)]
    if words.curves:
        lines += curve_table(listed)
    if words.save is not None:
        files.write(words.save, made)
        lines.append(written(words.save, made))
    return Done(0, lines)


def written(path, data):
    return f'written: {files.shown(path)}, {len(data)} bytes'


def fit_listing(path, words):
    try:
        return Done(0, outline.listing(fitted(path, words)[0]))
    except outline.Refused as refused:
        return Done(1, [f'REFUSED {refused.refusal}'], f'{files.shown(path)}: {said.refusal(refused.refusal, refused.marks)}')


def fit(words):
    for option, given in (('--listing', words.listing), ('--save', words.save is not None)):
        if given and len(words.files) > 1:
            raise Stop(f'{option} takes one file, and {len(words.files)} are given')
    if words.listing and words.save is not None:
        raise Stop('give --listing or --save, not both')
    if words.listing and words.curves:
        raise Stop('give --listing or --curves, not both')
    if words.ring and words.save is not None:
        raise Stop('--save is not for --ring: a house file holds no list of a closed outline')
    if words.flat and words.save is not None:
        raise Stop('--save is not for --flat: the program that writes house files fits by the first engine')
    hold_names(words)
    programs.ready()
    if words.listing:
        return go_through(words.name, lambda path: fit_listing(path, words), words.files)
    wide = max(len(files.shown(path)) for path in words.files)
    return go_through(words.name, lambda path: fit_lines(path, words, wide), words.files, table_head(wide))


# ---- check

def fault_words(listed, letter, curve, mark):
    """A fault in words. The distances in it are replay's."""
    def measured(marks, curve):
        return outline.distances(listed, [(mark, curve) for mark in marks])
    return f'fault {letter}, curve {curve}, mark {mark}: {said.fault(listed, letter, curve, mark, measured)}'


def exact_words(listed):
    """The largest distance by the checker's arithmetic and in exact fractions."""
    from bench import exact
    found = exact.largest(listed)
    if found is None:
        return 'no largest distance: a number of the list is not finite'
    true, place = found[0], 'at mark {} under curve {}'.format(*found[1:])
    if listed.far is None:
        return f'largest distance in exact fractions {exact.written(true)} mm {place}; the sums of the checker ran over'
    far, checked = listed.far[0], 'at mark {} under curve {}'.format(*listed.far[1:])
    return (f'largest distance {said.plain(far)} mm {checked}, in exact fractions {exact.written(true)} mm{"" if place == checked else " " + place}; '
            f'of it rounding: {exact.written(abs(exact.Fraction(far) - true), 2)} mm')


def check_line(path, words):
    name, data = files.shown(path), files.read(path)
    try:
        kind, *rest = outline.judged(data)
    except outline.Refused as refused:
        return Done(1, [f'{name}: {said.refusal(refused.refusal, refused.marks)}'])
    if kind == 'NO CURVES':
        return Done(1, [f'{name}: no curves, {said.counted(rest[0], "mark")}: nothing to check; ./wesalondo fit --save makes a file with curves'])
    listed = outline.own(name, data)
    if kind == 'PASSED':
        line, letter = f'{name}: passed, {said.counted(rest[0], "mark")}, {said.counted(rest[1], "curve")}', None
    else:
        line, letter = f'{name}: {fault_words(listed, *rest)}', rest[0]
    return Done(int(letter is not None), measured_lines(line, listed, letter, words))


def measured_lines(line, listed, letter, words):
    """A file's line with what is asked for besides. With fault A no mark has a curve."""
    if not (words.exact or words.curves):
        return [line]
    if letter == 'A':
        return [line + '; no distances: with fault A no mark has a curve']
    outline.measure(listed, letter is None)
    return [f'{line}; {exact_words(listed)}' if words.exact else line] + (curve_table(listed) if words.curves else [])


def check(words):
    hold_names(words)
    programs.ready()
    return go_through(words.name, lambda path: check_line(path, words), words.files)


# ---- plot

def clean_to_draw(name, data, words):
    """The fit of a file's marks without those that cleaning drops."""
    listed = cleaning.fitted(name, cleaning.salvaged(data), lambda name, made: fit_of(name, made, words)[0])
    if not listed.marks:
        raise Stop(f'{files.shown(words.file)}: {listed.cleaned.words()}; none is left to draw', 1)
    return listed


def to_draw(path, words):
    """The list that a file holds, with the checker's verdict; of a file without curves, of a closed outline, and of cleaned marks, the fit."""
    name, data = os.path.basename(files.shown(path)), files.read(path)
    if words.clean:
        return clean_to_draw(name, data, words)
    kind, *rest = ['NO CURVES'] if words.ring else outline.judged(data)
    if kind == 'NO CURVES':
        return fit_of(name, data, words)[0]
    listed = outline.own(name, data)
    listed.verdict = outline.Verdict(True, 'passed') if kind == 'PASSED' else outline.Verdict(False, fault_words(listed, *rest))
    if listed.verdict.passed or rest[0] != 'A':
        outline.measure(listed, listed.verdict.passed)
    return listed


def hold_paper(words):
    """A paper that there is, and a file that a browser takes for what it is."""
    from bench.tiles import paper_of
    paper_of(words.tiles)
    if words.out is not None and not words.out.lower().endswith(('.html', '.htm')):
        raise Stop('--tiles writes an HTML file: give --out a name that ends in .html')


def drawing(listed, paper):
    from bench.draw import draw
    from bench.tiles import tiles
    return draw(listed) if paper is None else tiles(listed, paper)


def plot(words):
    if words.out is None and sys.stdout.isatty():
        raise Stop('the drawing would go to the terminal: give --out and a name')
    if words.out is not None and os.path.exists(words.out) and os.path.exists(words.file) and os.path.samefile(words.file, words.out):
        raise Stop('--out names the house file itself, which the drawing would replace')
    if words.tiles is not None:
        hold_paper(words)
    programs.ready()
    try:
        listed = to_draw(words.file, words)
    except outline.Refused as refused:
        raise Stop(f'{files.shown(words.file)}: {said.refusal(refused.refusal, refused.marks)}', 1)
    data = drawing(listed, words.tiles).encode('utf-8')
    if words.out is None:
        sys.stdout.buffer.write(data)
    else:
        files.write(words.out, data)
        print(written(words.out, data))
    trouble = outline.trouble(listed)
    if trouble is None:
        return 0
    say(words.name, f'{files.shown(words.file)}: {trouble}')
    return 1


# ---- path

def path(words):
    """The path data goes out as it is, or in a file of its own; of a refused outline nothing does, for a cutter may be reading."""
    programs.ready()
    try:
        listed, _ = fitted(words.file, words)
        data = outline.path_data(listed)
    except outline.Refused as refused:
        raise Stop(f'{files.shown(words.file)}: {said.refusal(refused.refusal, refused.marks)}', 1)
    if words.svg:
        from bench.cutter import wrapped
        listed.name = os.path.basename(listed.name)
        data = wrapped(listed, data)
    sys.stdout.buffer.write((data + '\n').encode('utf-8'))
    return 0


# ---- clean

def clean(words):
    return cleaning.go(words)


# ---- pack, unpack

def pack(words):
    return packing.go('pack', words)


def unpack(words):
    return packing.go('unpack', words)


# ---- explain

def explain(words):
    names = said.given() if words.number is None else [words.number.upper()]
    print('\n'.join(said.explained(name) for name in names))
    return 0


# ---- the words of the command

class Parser(argparse.ArgumentParser):
    """Bad use is one line, and status 2."""

    def error(self, message):
        raise Stop(f'{message}; --help says more')


def hold_names(words):
    if words.files.count('-') > 1:
        raise Stop('- is standard input, and can be read once')


def add_verb(verbs, call, words, example):
    """A verb, with what it does as its help, and an example below."""
    name = call.__name__
    verb = verbs.add_parser(name, help=words, description=words, epilog=f'example: {example}', allow_abbrev=False)
    verb.set_defaults(call=call, name=f'wesalondo {name}')
    return verb


def add_flat(verb, more=''):
    """The option of the verbs that fit, with what one of them says more of it."""
    verb.add_argument('--flat', action='store_true', help=f'fit by the second engine, made for controllers with a small stack: the answer is the same{more}')


def parser():
    whole = Parser(prog='wesalondo', allow_abbrev=False, description='Fits the marks of house files by smooth curves, checks curves, draws them, writes them for a cutter, cleans shaky traces, and packs files for keeping.',
                   epilog='example: wesalondo fit examples/cover.house. The programs behind it are proved and built on first use. '
                          'Exit status: 0 all good; 1 something is refused or faulty; 2 something could not be run.')
    verbs = whole.add_subparsers(metavar='VERB', required=True, parser_class=Parser)

    verb = add_verb(verbs, fit, 'Fits each file and prints a line about it: marks, curves, blocks and their size, and the largest distance of a mark from its curve.',
                    'wesalondo fit cover.house --save fitted.house')
    verb.add_argument('files', metavar='FILE', nargs='+', help='a house file, or - for standard input; curves that it has are not looked at')
    verb.add_argument('--ring', action='store_true', help='a closed outline, which comes back to its first mark')
    add_flat(verb, '; not with --save')
    verb.add_argument('--curves', action='store_true', help='print a line for each curve besides: how far off it is, and at which mark')
    verb.add_argument('--listing', action='store_true', help='print the curves of one file: a line OUTLINE, then a line PIECE for each')
    verb.add_argument('--save', metavar='OUT.house', help='write one file with its curves')

    verb = add_verb(verbs, check, 'Says of each house file with curves, whoever made it, whether they are sound for its marks, or the first fault.',
                    'wesalondo check fitted.house --exact')
    verb.add_argument('files', metavar='FILE', nargs='+', help='a house file with curves, or - for standard input')
    verb.add_argument('--curves', action='store_true', help='print a line for each curve besides: how far off it is, and at which mark')
    verb.add_argument('--exact', action='store_true', help='add the largest distance in exact fractions, and how much of it is rounding')

    verb = add_verb(verbs, plot, 'Draws a house file at true scale: its own curves with the verdict on them, or its fit if it has none.',
                    'wesalondo plot cover.house --tiles A4 --out cover.html')
    verb.add_argument('file', metavar='FILE', help='a house file, or - for standard input')
    verb.add_argument('--ring', action='store_true', help='fit and draw a closed outline; curves that the file has are not looked at')
    add_flat(verb)
    verb.add_argument('--clean', action='store_true', help='clean the marks, fit and draw those that are kept, and show in grey what is dropped; curves that the file has are not looked at')
    verb.add_argument('--out', metavar='OUT.svg', help='the file to write; without it the drawing goes to standard output')
    verb.add_argument('--tiles', metavar='A4|A3|WxH', help='an HTML file with a page for every sheet of this paper, to print and glue; W and H in millimetres')

    verb = add_verb(verbs, path, 'Fits a file and prints its curves as path data for a cutter: an absolute M, a C for each curve, Z for a closed outline; in millimetres to three places.',
                    'wesalondo path cover.house --ring --svg > cover.svg')
    verb.add_argument('file', metavar='FILE', help='a house file, or - for standard input; curves that it has are not looked at')
    verb.add_argument('--ring', action='store_true', help='a closed outline, which comes back to its first mark')
    add_flat(verb)
    verb.add_argument('--svg', action='store_true', help='print an SVG file with the path, which a browser or Inkscape opens at true scale')

    verb = add_verb(verbs, clean, 'Writes each file without the marks that are out of range or equal the last one kept, and a drawing that shows those in grey. That a fit takes what is kept is not promised.',
                    'wesalondo clean rested.house --out cleaned --fit')
    verb.add_argument('files', metavar='FILE', nargs='+', help='a house file of up to 512 marks; curves that it has are not kept')
    verb.add_argument('--out', metavar='DIR', required=True, help='the folder to write to, each file under its own name and its drawing with .svg in place of the ending; not the folder that it is in')
    verb.add_argument('--list', action='store_true', help='print a line for each dropped mark besides: its number and why')
    verb.add_argument('--fit', action='store_true', help='fit what is kept too: draw the curves, and print what came of it as fit does')

    for call, words, example in (
            (pack, 'Packs each file: where two curves meet, the point is stored once, which makes the file smaller. Older Wesalondos do not read packed files.', 'wesalondo pack kept.house --out packed'),
            (unpack, 'Unpacks each file: back to the very bytes that were packed.', 'wesalondo unpack packed/kept.house --out old')):
        verb = add_verb(verbs, call, words, example)
        verb.add_argument('files', metavar='FILE', nargs='+', help='a house file; one without curves is copied as it is')
        verb.add_argument('--out', metavar='DIR', required=True, help='the folder to write to, each file under its own name; not the folder that it is in')

    verb = add_verb(verbs, explain, 'Says what a refusal or a fault means and what to do; all of them without a number.', 'wesalondo explain 5')
    verb.add_argument('number', metavar='N', nargs='?', help='a refusal, 1 to 6 or 8 to 12, or a fault, A to E')
    return whole


def main(arguments):
    if sys.stdout is None:
        raise Stop('standard output is closed')
    sys.stdout.reconfigure(errors='backslashreplace')
    if not arguments:
        raise Stop(f'give a verb: {", ".join(VERBS)}; --help says more')
    try:
        words = parser().parse_args(arguments)
    except SystemExit as done:  # help was asked for and printed
        return done.code
    return words.call(words)


def start():
    """Runs the command; its lines on standard error begin with its name and its verb."""
    verb = sys.argv[1] if len(sys.argv) > 1 else ''
    run(f'wesalondo {verb}' if verb in VERBS else 'wesalondo', main)
