"""The drawings, in-process: what is drawn where, on one sheet and over many; of sound lists, and of lists that are nearly anything. tests/cli runs these."""
import math
import re
import types
import unittest
import xml.etree.ElementTree

import support
from bench.cleaning import EQUAL, RANGE, Cleaned, Drop, spans
from bench.curves import at, cover, extent, seam_angle
from bench.draw import draw
from bench.svg import COLOURS, GREY, RED, WIDE
from bench.tiles import CROSS, JOIN, LEAST, MARGIN, MOST, OVERLAP, Tiles, cross_places, paper_of, tiles
from shared.command import Stop

SVG, XHTML = '{http://www.w3.org/2000/svg}', '{http://www.w3.org/1999/xhtml}'
BENT = [(0.0, 0.0), (40.0, 90.0), (-30.0, 70.0), (25.0, -10.0)]  # it turns in x twice, and in y


def wheel(count, radius):
    """Marks round a circle, on the table's grid."""
    return [tuple(round(20 * radius * turn(2 * math.pi * i / count)) / 20 for turn in (math.cos, math.sin)) for i in range(count)]


def chords(marks, ring=False):
    """A straight curve from each mark to the next."""
    pairs = zip(marks, marks[1:] + marks[:1] * ring)
    return [list(zip(*[iter(support.straight(a, b))] * 2)) for a, b in pairs]


def listed(marks, curves=None, **rest):
    """A list of curves as the drawings take it; straight ones if none are given."""
    ring = rest.get('ring', False)
    fields = dict(name='x.house', ring=ring, tolerance=0.5, marks=marks, firsts=None, params=None, blocks=None, block_size=None, far=(0.25, 1, 0), long=[], verdict=None, refusal=None, cleaned=None)
    return types.SimpleNamespace(**{**fields, **rest}, curves=chords(marks, ring) if curves is None else curves)


def cleaned(marks, equal=(), wild=()):
    """What was dropped before these marks were kept: numbers that equalled a mark, and numbers and places out of range."""
    drops = [Drop(number, EQUAL, marks[of], of) for of, numbers in equal for number in numbers] + [Drop(number, RANGE, point, None) for number, point in wild]
    return Cleaned(b'', len(marks) + len(drops), sorted(drops))


def grey_rings(drawn):
    """(place, words) of each grey ring about a mark: it is drawn in its layer's grey, and shows its words where a pointer rests on it."""
    groups = [group for group in drawn.iter(f'{SVG}g') if group.get('stroke') == GREY and group.get('fill') == 'none']
    return [((float(ring.get('cx')), float(ring.get('cy'))), one.find(f'{SVG}title').text) for group in groups for one in group for ring in one.iter(f'{SVG}circle')]


def verdict(passed, words):
    return types.SimpleNamespace(passed=passed, words=words)


def all_words(drawn, colour=None):
    """The text of a drawing, of one colour or of all, its lines joined."""
    return ' '.join(found.text for found in drawn.iter(f'{SVG}text') if colour in (None, found.get('fill')))


def paths_of(drawn, form):
    """The numbers of each path of this form, where # stands for a number."""
    number = r'(-?[0-9.]+)'
    found = [re.fullmatch(form.replace('#', number), path.get('d')) for path in drawn.iter(f'{SVG}path')]
    return [[float(value) for value in one.groups()] for one in found if one]


def curves_of(drawn):
    return [list(zip(values[0::2], values[1::2])) for values in paths_of(drawn, 'M# # C# # # # # #')]


def crosses_of(drawn):
    """(centre, arm) of every cross."""
    return [((x + wide / 2, y), wide / 2) for x, y, wide, *_ in paths_of(drawn, 'M# #h#m# #v#')]


def bars_of(drawn):
    lines = [[float(line.get(side)) for side in ('x1', 'y1', 'x2', 'y2')] for line in drawn.iter(f'{SVG}line')]
    return [line for line in lines if line[1] == line[3] and line[2] - line[0] == 100]


def label_boxes(drawn):
    """The words beside the drawing, each with its box."""
    for found in drawn.iter(f'{SVG}text'):
        if found.get('text-anchor') == 'middle':
            x, y, size = (float(found.get(name)) for name in ('x', 'y', 'font-size'))
            wide = WIDE * size * len(found.text)
            yield found.text, (x - wide / 2, y - size * 0.8, x + wide / 2, y + size * 0.1)


class Curves(unittest.TestCase):
    def test_extent(self):
        """A curve reaches its extent on every side, and goes nowhere beyond."""
        points = [at(BENT, i / 4096) for i in range(4097)]
        left, low, right, high = extent(BENT)
        for side, reached in ((left, min(x for x, _ in points)), (low, min(y for _, y in points)), (right, max(x for x, _ in points)), (high, max(y for _, y in points))):
            self.assertAlmostEqual(side, reached, 4)
        self.assertEqual(extent(chords([(3.0, 1.0), (3.0, 9.0)])[0]), (3.0, 1.0, 3.0, 9.0))

    def test_cover(self):
        """The boxes are small, and every point of the curve that is in the region is in one of them."""
        region = (0.0, 0.0, 30.0, 45.0)
        boxes = list(cover(BENT, region, 2.0))
        self.assertLessEqual(max(max(box[2] - box[0], box[3] - box[1]) for box in boxes), 2.0)
        for x, y in (at(BENT, i / 999) for i in range(1000)):
            within = any(box[0] <= x + 1e-9 and x <= box[2] + 1e-9 and box[1] <= y + 1e-9 and y <= box[3] + 1e-9 for box in boxes)
            self.assertTrue(within or not (0 <= x <= 30 and 0 <= y <= 45), (x, y))
        self.assertLess(len(boxes), len(list(cover(BENT, (-99.0, -99.0, 99.0, 99.0), 2.0))))

    def test_seam(self):
        for marks, angle in (([(0, 0), (4, 0), (4, 4), (0, 4)], 90), ([(2, 0), (4, 0), (4, 4), (0, 4), (0, 0)], 0), ([(0, 0), (4, 0), (9, 3), (-5, 5)], 45),
                             ([(0, 0), (4, 0), (9, 3), (7, 0)], 180)):
            self.assertAlmostEqual(seam_angle(chords(marks, ring=True)), angle)
        self.assertIsNone(seam_angle([[(0, 0), (0, 0), (2, 1), (4, 4)], [(4, 4), (4, 9), (0, 4), (0, 0)]]))


class Sheets(unittest.TestCase):
    def drawn(self, *words, **rest):
        return xml.etree.ElementTree.fromstring(draw(listed(*words, **rest)))

    def page(self, drawn):
        return [float(drawn.get(side)[:-2]) for side in ('width', 'height')]

    def test_true_scale(self):
        """A unit is a millimetre; marks and curves are where they are, moved together and y turned; the page is one that browsers do not round."""
        marks = [(x + 5000, y - 300) for x, y in wheel(40, 700)]
        drawn = self.drawn(marks, [[(x + 5000, y) for x, y in BENT]])
        wide, tall = self.page(drawn)
        self.assertEqual((drawn.get('width')[-2:], drawn.get('height')[-2:], [float(side) for side in drawn.get('viewBox').split()]), ('mm', 'mm', [0, 0, wide, tall]))
        for side in (wide, tall):
            self.assertAlmostEqual(side / 6.35, round(side / 6.35), 9)
        ((_, bar, _, _),) = bars_of(drawn)
        seen = [place for place, _ in crosses_of(drawn)][:40] + curves_of(drawn)[0]
        moved = {(round(x - u, 2), round(y + v, 2)) for (x, y), (u, v) in zip(seen, marks + [(x + 5000, y) for x, y in BENT])}
        self.assertEqual(len(moved), 1, moved)
        self.assertTrue(all(0 < x < wide and 0 < y < bar for x, y in seen))

    def test_closed(self):
        """A ring ends at its first joint, where the seam's diamond stands; an open outline has an end of its own."""
        marks = wheel(12, 300)
        for ring in (True, False):
            drawn = self.drawn(marks, ring=ring)
            curves = curves_of(drawn)
            ends = {curve[0] for curve in curves} | {curve[3] for curve in curves}
            dots = [group for group in drawn.iter(f'{SVG}g') if group.get('fill') == '#ffffff']
            self.assertEqual((len(curves), len(ends), [len(group) for group in dots]), (12 if ring else 11, 12, [12]))
            self.assertEqual(len(paths_of(drawn, 'M# #l# #l# #l# #z')), 2 if ring else 0)  # the diamond, and its sign in the band
            self.assertEqual(bool(re.search('seam (29.9|30)', all_words(drawn))), ring)

    def test_farthest(self):
        """The mark is ringed, and its distance said, with as many places as show that it is above the tolerance."""
        marks = wheel(12, 300)
        drawn = self.drawn(marks, far=(0.5000001, 3, 2))
        self.assertIn("Largest distance from a mark to its curve: 0.5000001 mm, at mark 3 (ringed), x 0, y 300, under curve 2; by the checker's", all_words(drawn))
        self.assertIn('0.5000001 mm', all_words(drawn, RED))
        circles = [circle for circle in drawn.iter(f'{SVG}circle') if circle.get('stroke') == RED]
        mark = [place for place, _ in crosses_of(drawn)][3]
        self.assertEqual([(float(circle.get('cx')), float(circle.get('cy'))) == mark for circle in circles], [True, False])  # the other is its sign in the band
        none = self.drawn(marks, far=None)
        self.assertIn('No largest distance', all_words(none))
        self.assertEqual((all_words(none, RED), [circle for circle in none.iter(f'{SVG}circle') if circle.get('stroke') == RED]), ('', []))

    def test_worst_of_long_curves(self):
        """A small ring in the curve's colour about the worst mark of each long curve but the farthest of all, its distance beside it, and the sign and a note said once."""
        marks = wheel(40, 300)
        drawn = self.drawn(marks, far=(0.4, 30, 2), long=[(0, 0.25, 4), (1, 0.125, 17), (2, 0.4, 30)])
        places = [place for place, _ in crosses_of(drawn)]
        for colour, mark, words in ((COLOURS[0], 4, '0.250 mm'), (COLOURS[1], 17, '0.125 mm')):
            circles = [(float(circle.get('cx')), float(circle.get('cy'))) for circle in drawn.iter(f'{SVG}circle') if circle.get('stroke') == colour]
            self.assertIn(places[mark], circles)
            self.assertEqual(len(circles), 2 if colour == COLOURS[0] else 1)  # the other is the sign in the band
            self.assertEqual([found for found, _ in label_boxes(drawn)].count(words), 1)
            self.assertIn(words, all_words(drawn, colour))
        self.assertNotIn('0.400 mm', all_words(drawn, COLOURS[0]))
        self.assertIn('Small rings: the worst mark of each curve with 5 marks or more under it', all_words(drawn))
        self.assertIn('worst', [text.text for text in drawn.iter(f'{SVG}text')])
        without = self.drawn(marks)
        self.assertNotIn('Small rings', all_words(without))
        self.assertNotIn('worst', [text.text for text in without.iter(f'{SVG}text')])

    def test_many_long_curves(self):
        """All have their ring; distances stand only where there is room, on no other words and close to their marks."""
        marks = wheel(2000, 300)
        drawn = self.drawn(marks, far=None, tolerance=9.0, long=[(k, 1 + k / 1000, 5 * k) for k in range(400)])
        circles = [circle for circle in drawn.iter(f'{SVG}circle') if circle.get('stroke') in COLOURS]
        places = [place for place, _ in crosses_of(drawn)]
        labels = [(round(1000 * float(words[:-3])) - 1000, box) for words, box in label_boxes(drawn) if words.endswith(' mm')]
        self.assertEqual(len(circles), 400 + 1)  # and the sign in the band
        self.assertTrue(10 < len(labels) < 400, len(labels))
        for place, (k, (left, top, right, low)) in enumerate(labels):
            self.assertFalse(any(other[0] < right and left < other[2] and other[1] < low and top < other[3] for _, other in labels[place + 1:]))
            x, y = places[5 * k]
            self.assertLess(math.hypot(max(left - x, 0, x - right), max(top - y, 0, y - low)), 3 * (low - top))

    def test_verdict(self):
        """It stands in the notes, and in red above all else where a list is not passed; however long, on the page."""
        long = 'fault B, curve 12, mark 57: ' + 'curve 12 does not begin on mark 57, where curve 11 ended; ' * 9 + 'so it is'
        for passed, words in ((True, 'passed'), (False, 'fault A'), (False, long)):
            drawn = self.drawn(wheel(12, 100), verdict=verdict(passed, words), far=None)
            self.assertEqual(all_words(drawn, RED), '' if passed else f'Not passed. {words}')
            self.assertIn(f'The list checker says: {words} ', all_words(drawn))
            wide, tall = self.page(drawn)
            top = min(y for (_, y), _ in crosses_of(drawn)[:12])
            for found in drawn.iter(f'{SVG}text'):
                x, y, size = (float(found.get(name)) for name in ('x', 'y', 'font-size'))
                self.assertTrue(0 < x and x + 0.5 * size * len(found.text) < wide and size < y < tall, found.text)
                self.assertTrue(found.get('fill') != RED or y < top, found.text)
        self.assertNotIn('checker says', all_words(self.drawn(wheel(12, 100))))

    def test_gaps(self):
        """A double ring round both ends of each gap, the curves as they are, and the number of gaps; curves that meet off the marks have none."""
        marks = wheel(12, 300)
        curves = chords(marks)
        curves[4] = [(x + 60, y) for x, y in curves[4]]
        drawn = self.drawn(marks, curves, far=None)
        rings = {(float(circle.get('cx')), float(circle.get('cy'))) for circle in drawn.iter(f'{SVG}circle') if circle.get('stroke') == RED}
        seen = {curve[0]: curve for curve in curves_of(drawn)}
        inner = [places for places in rings if places in seen or any(curve[3] == places for curve in seen.values())]
        self.assertEqual((len(seen), len(inner), len(rings)), (11, 4, 5))  # the fifth is the sign in the band
        self.assertIn('Gaps (double rings): 2.', all_words(drawn))
        (dots,) = [group for group in drawn.iter(f'{SVG}g') if group.get('fill') == '#ffffff']
        self.assertEqual(len(dots), 11 + 2 + 1)  # where curves begin, where two end short of the next, and the last end
        curves[4][1], curves[4][3] = (math.nan, 0.0), (0.0, -500.0)  # it is not drawn, and still ends below all else
        drawn = self.drawn(marks, curves, far=None)
        ((_, bar, _, _),) = bars_of(drawn)
        rings = [float(circle.get('cy')) for circle in drawn.iter(f'{SVG}circle') if circle.get('stroke') == RED]
        self.assertEqual([y < bar for y in rings], [True] * 8 + [False] * 2)
        curves[4] = [(x + 60, y) for x, y in chords(marks)[4]]
        curves[3][3], curves[5][0] = curves[4][0], curves[4][3]
        self.assertNotIn('Gaps', all_words(self.drawn(marks, curves)))

    def test_curves_that_are_nowhere(self):
        """What is no place is not drawn, and said; what is far off is cut off there. The page stays about the marks."""
        marks = wheel(12, 300)
        for wild in (math.nan, math.inf, -math.inf, 1e300, -2e7):
            for place in range(4):
                for axis in range(2):
                    curves = chords(marks)
                    curves[5][place] = tuple(wild if axis == i else value for i, value in enumerate(curves[5][place]))
                    drawn = self.drawn(marks, curves, far=None, firsts=[65535] * 11)
                    self.assertEqual(len(curves_of(drawn)), 10)
                    self.assertIn('Not drawn: curve 5, with a point that', all_words(drawn))
                    self.assertLess(max(self.page(drawn)), 900)
        for off, cut in ((9e6, True), (3000, True), (500, False)):
            curves = chords(marks)
            curves[2][1] = (0.0, off)
            drawn = self.drawn(marks, curves)
            self.assertEqual((len(curves_of(drawn)), 'is cut off' in all_words(drawn), len(list(drawn.iter(f'{SVG}svg'))) == 2), (11, cut, cut))
            self.assertLess(max(self.page(drawn)), 1300)
        self.assertIn('Not drawn: curves 0, 1, 2, 3, 4, 5, 6, 7 and 3 more,', all_words(self.drawn(marks, [[(math.nan, 0.0)] * 4] * 11, far=None)))

    def test_the_most(self):
        """4,096 marks and 4,095 curves: all of them in a file that is not too large, and no number on another or off the page."""
        marks = wheel(4096, 900)
        text = draw(listed(marks))
        drawn = xml.etree.ElementTree.fromstring(text)
        self.assertEqual((len(curves_of(drawn)), len(crosses_of(drawn))), (4095, 4096 + 4 + 1))  # the page's corners and the sign in the band
        self.assertLess(len(text), 800_000)
        wide, tall = self.page(drawn)
        boxes = sorted(box for _, box in label_boxes(drawn))
        self.assertGreater(len(boxes), 100)
        for k, (left, top, right, low) in enumerate(boxes):
            self.assertTrue(0 < left and right < wide and 0 < top and low < tall)
            self.assertFalse(any(other[0] < right and other[1] < low and top < other[3] for other in boxes[k + 1:]))

    def test_numbers_keep_clear(self):
        """No number stands on a curve, as in a star of many lines, or on a corner's cross, as beside a mark in the corner."""
        ends = wheel(41, 300)
        for marks in ([ends[i * 13 % 41] for i in range(41)], [(0.0, 0.0), (300.0, 300.0)]):
            drawn = self.drawn(marks)
            boxes = [box for _, box in label_boxes(drawn)]
            self.assertGreater(len(boxes), 1)
            corners = [(x + a, y + b) for (x, y), arm in crosses_of(drawn)[-5:-1] for a in (-arm, 0, arm) for b in (-arm, 0, arm)]
            for x, y in corners + [at(curve, i / 300) for curve in curves_of(drawn) for i in range(301)]:
                self.assertFalse(any(left < x < right and top < y < low for left, top, right, low in boxes), (x, y))

    def test_dropped(self):
        """A grey ring about each mark that others equalled, with their numbers on it and beside it; those out of range stand in grey below the drawing. Without any there is no word of them."""
        marks = wheel(12, 300)
        drawn = self.drawn(marks, cleaned=cleaned(marks, [(2, [3, 4, 5]), (7, [11])], [(0, (math.nan, 2.5)), (13, (-1e9, 0.05))]))
        places = [place for place, _ in crosses_of(drawn)]
        self.assertEqual(grey_rings(drawn), [(places[2], 'dropped: 3 to 5'), (places[7], 'dropped: 11')])
        beside = {words: box for words, box in label_boxes(drawn) if words in ('3 to 5', '11')}
        self.assertEqual(len(beside), 2)
        grey = all_words(drawn, GREY)
        for piece in ('3 to 5', 'Cleaned: 6 of 18 marks dropped.', 'Equal to the last one kept (grey rings): 3 to 5, 11.', 'on no sheet: 0 (x NaN, y 2.5); 13 (x -1000000000, y 0.05).', 'those of the file as it was'):
            self.assertIn(piece, grey)
        ((_, bar, _, _),) = bars_of(drawn)
        self.assertEqual([float(found.get('y')) > bar for found in drawn.iter(f'{SVG}text') if 'NaN' in found.text], [True])
        self.assertIn('x.house, cleaned: 12 marks, 11 curves', all_words(drawn))
        self.assertIn('dropped', [text.text for text in drawn.iter(f'{SVG}text')])
        none, plain = self.drawn(marks, cleaned=cleaned(marks)), self.drawn(marks)
        self.assertEqual((all_words(none, GREY), grey_rings(none)), ('Cleaned: 0 of 12 marks dropped.', []))
        self.assertEqual((all_words(plain, GREY), grey_rings(plain)), ('', []))
        for without in (none, plain):
            self.assertNotIn('dropped', [text.text for text in without.iter(f'{SVG}text')])
        self.assertEqual([self.page(one)[0] for one in (drawn, none)], [self.page(plain)[0]] * 2)

    def test_many_dropped(self):
        """As many as the program drops: a few are named and the others counted, all rings are there, and no words run off the page."""
        marks = wheel(60, 300)
        equal = [(k, [8 * k + j for j in (1, 3, 5)]) for k in range(60)]
        drawn = self.drawn(marks, cleaned=cleaned(marks, equal, [(500 + k, (math.inf, -math.inf)) for k in range(200)]))
        self.assertEqual(len(grey_rings(drawn)), 60)
        grey = all_words(drawn, GREY)
        self.assertIn('(grey rings): 1, 3, 5, 9, 11, 13, 17, 19 and 172 more.', grey)
        self.assertIn('507 (x infinity, y -infinity); and 192 more.', grey)
        wide, tall = self.page(drawn)
        for found in drawn.iter(f'{SVG}text'):
            x, y, size = (float(found.get(name)) for name in ('x', 'y', 'font-size'))
            self.assertTrue(0 < x < wide and size < y < tall, found.text)

    def test_spans(self):
        for numbers, words in (([], ''), ([4], '4'), ([4, 5], '4, 5'), ([4, 5, 6], '4 to 6'), ([0, 2, 3, 4, 9], '0, 2 to 4, 9'), (range(186, 416), '186 to 415'), (range(0, 34, 2), '0, 2, 4, 6, 8, 10, 12, 14 and 9 more')):
            self.assertEqual(spans(numbers), words)

    def test_marks_by_themselves(self):
        """Without curves the marks are drawn, and no sign or word of a curve; what the fit says stands in red."""
        for marks in (wheel(12, 100), [(3.0, 5.0)]):
            drawn = self.drawn(marks, [], far=None, cleaned=cleaned(marks, [(0, [1])]), refusal='refused 1, too few')
            self.assertEqual((len(curves_of(drawn)), len(crosses_of(drawn)), len(grey_rings(drawn))), (0, len(marks) + 4 + 1, 1))  # the page's corners and the sign in the band
            self.assertEqual(all_words(drawn, RED), 'Not fitted. refused 1, too few')
            self.assertIn('The marks by themselves: no curves are fitted.', all_words(drawn))
            for word in ('curves', 'joint', 'worst', 'farthest mark'):
                self.assertNotIn(word, [text.text for text in drawn.iter(f'{SVG}text')])
            self.assertLess(max(self.page(drawn)), 320)

    def test_small(self):
        """Two marks on one spot, and a straight line of no height."""
        for marks in ([(3.0, 5.0), (3.0, 5.0)], [(0.0, 0.0), (9.0, 0.0)]):
            drawn = self.drawn(marks)
            self.assertEqual((len(curves_of(drawn)), max(self.page(drawn)) < 200), (1, True))

    def test_names(self):
        """A name may hold what a drawing can't."""
        for name, shown in (('a&b <c>.house', 'a&b <c>.house'), ('bell\a\ud800\x85.house', 'bell\ufffd\ufffd\ufffd.house')):
            drawn = self.drawn(wheel(12, 100), name=name)
            self.assertIn(f'{shown}: 12 marks, 11 curves, tolerance 0.5 mm', all_words(drawn))
            self.assertIn(shown, drawn.find(f'{SVG}title').text)


class Pages(unittest.TestCase):
    def made(self, paper, *words, **rest):
        """The tiles, and the sections of their page with the place of each."""
        made = Tiles(listed(*words, **rest), paper)
        sections = list(xml.etree.ElementTree.fromstring(made.html()).iter(f'{XHTML}section'))
        self.assertEqual(len(sections), len(made.used))
        return made, dict(zip(sorted(made.used), sections))

    def test_paper(self):
        for words, paper in (('A4', (210, 297)), ('a3', (297, 420)), ('210x297', (210, 297)), ('600.5X148', (600.5, 148)), ('5000x5000', (5000, 5000))):
            self.assertEqual(paper_of(words), paper)
        for words in ('', 'A5', 'A', '210', '210x', 'x297', '210x297x3', '-210x297', '210 x 297', '1e3x1e3', 'nanxnan', '٣٠٠x٣٠٠'):
            with self.assertRaisesRegex(Stop, '^--tiles takes A4, A3, or width x height'):
                paper_of(words)
        for words in ('147.9x500', '500x147', '0x0', '5001x500', '500x' + '9' * 400):
            with self.assertRaisesRegex(Stop, 'at least 148 mm wide and high'):
                paper_of(words)

    def test_room(self):
        """The least paper has room for a long verdict; where there is none left for the drawing the paper is refused."""
        for count, taken in ((2, True), (60, False)):
            one = listed(wheel(12, 100), verdict=verdict(False, 'curve 12 does not begin on mark 57; ' * count))
            if taken:
                self.assertIn('<section>', tiles(one, f'{LEAST:.0f}x{LEAST:.0f}'))
            else:
                with self.assertRaisesRegex(Stop, 'no room for the drawing'):
                    tiles(one, f'{LEAST:.0f}x{LEAST:.0f}')

    def test_too_many_sheets(self):
        """Long or crowded, it is refused before it takes long; so is one that wants a sheet too many, and one that wants just as many as there may be is not."""
        crowd = [(97.0 * (i * 31 % 64), 97.0 * (i * 17 % 61)) for i in range(1000)]
        for marks in ([(-1e6, -1e6), (1e6, 1e6)], [(-1e6, 0.0), (1e6, 0.0)], crowd):
            with self.assertRaisesRegex(Stop, f'takes more than {MOST} sheets of 210 x 297 mm; take larger paper'):
                tiles(listed(marks), 'A4')
        made = Tiles(listed([(0.0, 0.0), (1.0, 0.0)]), 'A4')
        pitch = 297 - 2 * MARGIN - OVERLAP
        for count, taken in ((MOST, True), (MOST + 1, False)):
            long = listed([(0.0, 0.0), (count * pitch - 2 * made.picture.sizes.font, 0.0)])
            if taken:
                self.assertEqual(len(Tiles(long, 'A4').used), MOST)
            else:
                self.assertRaises(Stop, tiles, long, 'A4')

    def test_true_scale(self):
        """Each page is as large as the paper less its margins, a unit is a millimetre there and in the part of the drawing that it shows, and each has a bar."""
        made, sheets = self.made('A4', wheel(100, 700))
        self.assertIn('@page { size: %smm %smm; margin: 0 }' % tuple(f'{side:.0f}' for side in made.grid.paper), made.html())
        for sheet, section in sheets.items():
            (page,) = section
            self.assertEqual(page.get('viewBox'), f'0 0 {page.get("width")[:-2]} {page.get("height")[:-2]}')
            self.assertEqual([float(page.get(side)[:-2]) for side in ('width', 'height')], [side - 2 * MARGIN for side in made.grid.paper])
            (window,) = page.findall(f'{SVG}svg')
            left, top, right, low = made.grid.frame(sheet)
            self.assertEqual([float(side) for side in window.get('viewBox').split()], [left, top, right - left, low - top])
            self.assertEqual((float(window.get('width')), float(window.get('height')), window.get('x'), window.get('y')), (right - left, low - top, '0', '0'))
            self.assertEqual(sum(use.get('href') == '#band' for use in page.iter(f'{SVG}use')), 1)
        bands = [group for section in sheets.values() for group in section.iter(f'{SVG}g') if group.get('id') == 'band']
        self.assertEqual([len(bars_of(band)) for band in bands], [1])

    def test_neighbours(self):
        """Neighbours show a strip of 10 mm of the same drawing, with three crosses each at the same places of it; no cross stands on one sheet alone."""
        made, sheets = self.made('A4', wheel(100, 700))
        places = {}
        for sheet, section in sheets.items():
            for use in section.iter(f'{SVG}use'):
                if use.get('href') == '#cross':
                    places.setdefault((use.get('x'), use.get('y')), set()).add(sheet)
        self.assertTrue(all(len(shown) > 1 for shown in places.values()))
        pairs = 0
        for row, column in sheets:
            for other in ((row + 1, column), (row, column + 1)):
                if other in sheets:
                    pairs += 1
                    ours, theirs = made.grid.frame((row, column)), made.grid.frame(other)
                    strip = (max(ours[0], theirs[0]), max(ours[1], theirs[1]), min(ours[2], theirs[2]), min(ours[3], theirs[3]))
                    self.assertAlmostEqual(min(strip[2] - strip[0], strip[3] - strip[1]), OVERLAP)
                    both = [place for place, shown in places.items() if {(row, column), other} <= shown]
                    self.assertEqual(len(both), 3)
                    for x, y in both:
                        self.assertTrue(strip[0] + CROSS <= float(x) <= strip[2] - CROSS and strip[1] + CROSS <= float(y) <= strip[3] - CROSS)
        self.assertGreater(pairs, 10)

    def test_grid(self):
        """A place is on every sheet whose frame holds it, and asks only for the one that keeps it when all are cut. The drawing stands in the middle."""
        made = Tiles(listed(wheel(100, 400)), 'A4')
        grid = made.grid
        places = [(row, column) for row in range(grid.rows) for column in range(grid.columns)]
        frames = {place: grid.frame(place) for place in places}
        for i in range(400):
            x, y = grid.left + i * 97 % (grid.columns * grid.pitch[0]), grid.top + i * 61 % (grid.rows * grid.pitch[1])
            holding = [place for place, (left, top, right, low) in frames.items() if left <= x <= right and top <= y <= low]
            self.assertEqual(sorted(grid.under((x, y, x, y))), holding)
        x, y = grid.line_x(1), grid.line_y(1)
        for across in (-1, 1):
            for down in (-1, 1):
                layer = types.SimpleNamespace(things=[('', [(x + across, y + down, x + across, y + down)])])
                self.assertEqual(grid.used([layer]), {(down > 0, across > 0)})
        for low, high, start, end in zip(made.picture.box[:2], made.picture.box[2:], grid.frame((0, 0))[:2], grid.frame((grid.rows - 1, grid.columns - 1))[2:]):
            self.assertAlmostEqual(low - start, end - high, delta=2)

    def test_crosses_between_two(self):
        """Of sheets that meet at a corner alone that corner has a cross, on both; of neighbours their side has three."""
        grid = Tiles(listed(wheel(100, 400)), 'A4').grid
        x, y = grid.line_x(1), grid.line_y(1)
        for one, other, count in (((0, 0), (1, 1), 1), ((0, 1), (1, 0), 1), ((0, 0), (0, 1), 3), ((0, 0), (1, 0), 3), ((0, 0), (0, 2), 0)):
            places = [sorted(cross_places(grid, sheet, {one, other})) for sheet in (one, other)]
            self.assertEqual((places[0], len(places[0]), (x, y) in places[0]), (places[1], count, count > 0))

    def test_nothing_is_lost(self):
        """Every point of every curve, and every mark, is on the sheet that keeps it when all are cut, well inside its frame; and every sheet keeps something."""
        for marks in (wheel(100, 700), [(0.0, 0.0), (1900.0, 700.0)], [(0.0, 0.0), (0.0, 1300.0)]):
            made, sheets = self.made('A4', marks)
            kept = set()
            for curve in made.listed.curves:
                for x, y in (made.picture.put(at(curve, i / 500)) for i in range(501)):
                    row, column = int((y - made.grid.line_y(0)) // made.grid.pitch[1]), int((x - made.grid.line_x(0)) // made.grid.pitch[0])
                    kept.add((row, column))
                    left, top, right, low = made.grid.frame((row, column))
                    self.assertLessEqual(OVERLAP / 2 - 1e-9, min(x - left, right - x, y - top, low - y))
            self.assertLessEqual(kept, set(sheets))
            self.assertLessEqual(len(set(sheets) - kept), 2)  # a cross or a ring may reach where no curve goes
            for sheet, section in sheets.items():
                self.assertTrue(curves_of(section) or crosses_of(section), sheet)

    def test_each_curve_is_on_its_sheets_alone(self):
        """The file hardly grows with the number of sheets."""
        marks = wheel(2048, 700)
        one = listed(marks)
        made, sheets = self.made('A4', marks)
        written = sum(len(curves_of(section)) for section in sheets.values())
        self.assertTrue(2047 < written < 1.2 * 2047, written)
        self.assertLess(len(made.html()), 1.4 * len(draw(one)))

    def test_left_out(self):
        """The middle of a wide circle has no sheet, and the plan no box; the rest are named by row and column, and counted."""
        made, sheets = self.made('A4', wheel(100, 700))
        grid = made.grid
        self.assertNotIn((grid.rows // 2, grid.columns // 2), sheets)
        for place, (sheet, section) in enumerate(sheets.items(), 1):
            self.assertIn(f'Row {sheet[0] + 1} of {grid.rows}, column {sheet[1] + 1} of {grid.columns}; sheet {place} of {len(sheets)}', all_words(section))
        plan = next(group for section in sheets.values() for group in section.iter(f'{SVG}g') if group.get('id') == 'plan')
        self.assertEqual(plan[0].get('d').count('M'), len(sheets))

    def test_fewer_sheets(self):
        """The paper lies the way that wants fewer sheets, whichever way it is asked for."""
        for marks, upright in (([(0.0, 0.0), (1400.0, 0.0)], False), ([(0.0, 0.0), (0.0, 1400.0)], True)):
            one, other = (Tiles(listed(marks), paper) for paper in ('210x297', '297x210'))
            self.assertEqual((one.grid.paper == (210, 297), other.grid.paper, len(other.used)), (upright, one.grid.paper, len(one.used)))

    def test_one_sheet(self):
        """With no neighbour there are no crosses, no line to cut along and no word of either."""
        made, sheets = self.made('A3', wheel(50, 100))
        (section,) = sheets.values()
        self.assertEqual(cross_places(made.grid, (0, 0), made.used), [])
        self.assertFalse([use for use in section.iter(f'{SVG}use') if use.get('href') == '#cross'])
        several = all_words(min(self.made('A4', wheel(50, 300))[1].items())[1])
        for words in (JOIN[:40], 'The crosses stand 184 mm apart across'):
            self.assertNotIn(words, all_words(section))
            self.assertIn(words, several)

    def test_labels_are_whole(self):
        """Each number stands whole on a sheet that shows it, beside the end of a line that just fits on one too, and on no cross."""
        for marks, least in ((wheel(2000, 700), 150), ([(0.0, 0.0), (297 - 2 * MARGIN - 4 * 3.4, 0.0)], 2)):
            made, sheets = self.made('A4', marks)
            whole = {}
            for sheet, section in sheets.items():
                left, top, right, low = made.grid.frame(sheet)
                for text, box in label_boxes(section):
                    whole[text] = whole.get(text, False) or (left <= box[0] and top <= box[1] and box[2] <= right and box[3] <= low)
                    for x, y in cross_places(made.grid, sheet, made.used):
                        self.assertFalse(box[0] < x + CROSS and x - CROSS < box[2] and box[1] < y + CROSS and y - CROSS < box[3], text)
            self.assertGreaterEqual(len(whole), least)
            self.assertTrue(all(whole.values()), whole)

    def test_verdict(self):
        """A list that is not passed is so on every sheet, in red, once."""
        made, sheets = self.made('A4', wheel(100, 300), verdict=verdict(False, 'fault B, curve 3, mark 4'), far=None)
        band = next(group for section in sheets.values() for group in section.iter(f'{SVG}g') if group.get('id') == 'band')
        self.assertEqual(all_words(band, RED), 'Not passed. fault B, curve 3, mark 4')
        self.assertEqual(all_words(band).count('fault B'), 1)
        (section,) = self.made('A4', wheel(9, 50), verdict=verdict(True, 'passed'))[1].values()
        self.assertIn('The list checker says: passed', all_words(section))

    def test_dropped(self):
        """Grey rings stand on the sheets that hold them, and the notes in grey on every one; marks out of range ask for no sheet."""
        marks = wheel(100, 300)
        wild = [(200 + k, (1e300, math.nan)) for k in range(5)]
        made, sheets = self.made('A4', marks, cleaned=cleaned(marks, [(0, [1]), (50, [60, 61, 62])], wild))
        self.assertEqual(set(sheets), set(self.made('A4', marks)[1]))
        for place, words in ((made.picture.put(marks[0]), 'dropped: 1'), (made.picture.put(marks[50]), 'dropped: 60 to 62')):
            for sheet, section in sheets.items():
                left, top, right, low = made.grid.frame(sheet)
                if left <= place[0] <= right and top <= place[1] <= low:
                    self.assertIn(words, [found for _, found in grey_rings(section)])
            self.assertIn(words, [found for section in sheets.values() for _, found in grey_rings(section)])
        (band,) = [group for section in sheets.values() for group in section.iter(f'{SVG}g') if group.get('id') == 'band']
        self.assertIn('204 (x 1e+300, y NaN).', all_words(band, GREY))
        self.assertNotIn('grey', all_words(next(iter(self.made('A4', marks)[1].values())), GREY))

    def test_wild_curves(self):
        """A curve that runs off asks for no sheet outside the drawing, and one that is nowhere for none at all."""
        marks = wheel(12, 300)
        for wild in (math.nan, 1e300, 9e6):
            curves = chords(marks)
            curves[5][1] = (wild, 0.0)
            self.assertLess(len(self.made('A4', marks, curves, far=None)[1]), 40)
