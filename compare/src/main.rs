//! Answers the lines of `replay` (compare/README.md lists them) with the functions of flo_curves, one line of answer for each, for compare/run and
//! tools/make_vectors.py.
//! It refuses only where the crate can't be asked: an odd number of coordinates (3), fewer than two marks, or three of a ring (1), a dimension above 1 (5).
//! A panic of the crate is PANIC, a nearest search that does not end is ENDLESS.
//! After a tab may follow what the comparison wants to know: `lost` where an operation on the way was not finite, `depth D` of a search.
mod pack;
mod path;
mod salvage;
use flo_curves::bezier::*;
use flo_curves::line::*;
use std::cell::{Cell, RefCell};
use std::io::*;
use std::ops::*;
use std::rc::Rc;
use std::str;

thread_local! { static LOST: Cell<bool> = Cell::new(false); }
/// Passes a number on, and notes one that is not finite.
fn watch(v: f64) -> f64 { if !v.is_finite() { LOST.with(|l| l.set(true)); } v }

/// A point that knows which mark it is, and notes operations that are not finite; its arithmetic is Coord2's own.
#[derive(Clone, Copy, Debug)]
struct Mark(Coord2, Option<usize>);
fn seen(p: Coord2) -> Mark { Mark(Coord2(watch(p.0), watch(p.1)), None) }
impl PartialEq for Mark { fn eq(&self, o: &Mark) -> bool { self.0 == o.0 } }
impl Add for Mark { type Output = Mark; fn add(self, o: Mark) -> Mark { seen(self.0 + o.0) } }
impl Sub for Mark { type Output = Mark; fn sub(self, o: Mark) -> Mark { seen(self.0 - o.0) } }
impl Mul<f64> for Mark { type Output = Mark; fn mul(self, k: f64) -> Mark { seen(self.0 * k) } }
impl Coordinate2D for Mark { fn x(&self) -> f64 { self.0.0 } fn y(&self) -> f64 { self.0.1 } }
impl Coordinate for Mark {
    fn from_components(c: &[f64]) -> Mark { Mark(Coord2::from_components(c), None) }
    fn origin() -> Mark { Mark(Coord2::origin(), None) }
    fn len() -> usize { Coord2::len() }
    fn get(&self, i: usize) -> f64 { self.0.get(i) }
    fn from_biggest_components(p: Mark, q: Mark) -> Mark { Mark(Coord2::from_biggest_components(p.0, q.0), None) }
    fn from_smallest_components(p: Mark, q: Mark) -> Mark { Mark(Coord2::from_smallest_components(p.0, q.0), None) }
    fn distance_to(&self, o: &Mark) -> f64 { watch(Coordinate::distance_to(&self.0, &o.0)) }
    fn dot(&self, o: &Mark) -> f64 { watch(self.0.dot(&o.0)) }
}

/// A curve that keeps each parameter at which it is asked for a point. The last to measure a curve is `max_error_for_curve`, once
/// for every mark: so the parameters that an accepted curve has kept are those of its marks. Nothing is asked of a two-mark line.
#[derive(Clone)]
struct Kept { start: Mark, controls: (Mark, Mark), end: Mark, asked: Rc<RefCell<Vec<f64>>> }
impl Geo for Kept { type Point = Mark; }
impl BezierCurveFactory for Kept {
    fn from_points(start: Mark, controls: (Mark, Mark), end: Mark) -> Kept { Kept { start, controls, end, asked: Rc::default() } }
}
impl BezierCurve for Kept {
    fn start_point(&self) -> Mark { self.start }
    fn end_point(&self) -> Mark { self.end }
    fn control_points(&self) -> (Mark, Mark) { self.controls }
    fn point_at_pos(&self, t: f64) -> Mark {
        self.asked.borrow_mut().push(t);
        basis(t, self.start, self.controls.0, self.controls.1, self.end)
    }
}

type Plain = Curve<Coord2>;
fn eight<C: BezierCurve>(c: &C) -> [f64; 8] where C::Point: Coordinate2D {
    let (s, (a, b), e) = c.all_points();
    [s.x(), s.y(), a.x(), a.y(), b.x(), b.y(), e.x(), e.y()]
}
/// A number's bits, one pattern for all NaNs. The test is of whole numbers: one of floats may be taken away by the compiler, to which all NaNs are alike.
fn bits(v: f64) -> u64 { let b = v.to_bits(); if b << 1 > 0xFFE0_0000_0000_0000 { 0x7FF8_0000_0000_0000 } else { b } }
fn hex(v: &[f64]) -> String { v.iter().map(|x| format!(" {:016X}", bits(*x))).collect() }
fn points(v: &[f64]) -> Vec<Coord2> { v.chunks(2).map(|c| Coord2(c[0], c[1])).collect() }
fn number(w: &str) -> Option<f64> {
    let fair = w.len() == 16 && w.bytes().all(|b| b.is_ascii_digit() || (b'A'..=b'F').contains(&b));
    if fair { u64::from_str_radix(w, 16).ok().map(f64::from_bits) } else { None }
}
fn whole(w: &str) -> Option<usize> {
    if w.bytes().all(|b| b.is_ascii_digit()) && (w == "0" || !w.starts_with('0')) { w.parse().ok() } else { None }
}
fn numbers(w: &[&str]) -> Option<Vec<f64>> { w.iter().map(|w| number(w)).collect() }

/// The size of a block: `max_points_to_fit`, which the crate keeps to itself, by the same count-down. The joined and the ring fit, which the crate has not, want it here, and `size`.
fn block_size(n: usize) -> usize {
    if n < 200 { 200 } else { (51..=200).rev().find(|size| n % size >= 50).unwrap_or(50) }
}
/// The most marks of an outline by blocks and of a list; for up to so many the crate is asked how it cuts them.
const MOST_MARKS: usize = 100_000;
/// The same as the crate's own cutting shows it: `fit_curve` fits each block by itself, so that of a straight line, with a tolerance that takes every curve, the first curve
/// ends on the first block's last mark. Fewer than 200 marks are one block, and nothing shows.
fn first_block(n: usize) -> usize {
    let line: Vec<Coord2> = (0..n).map(|i| Coord2(i as f64, 0.0)).collect();
    let curves: Vec<Plain> = fit_curve(&line, f64::MAX).expect("two marks");
    curves[0].end_point().0 as usize + 1
}
/// The unit vector in a vector's direction, or that it has none: its magnitude is 0, and `to_unit_vector` gives zero.
fn direction<P: Coordinate>(v: P) -> Option<P> { Some(v.to_unit_vector()).filter(|_| v.magnitude() != 0.0) }
/// The vector of `tangent_between`, which the crate keeps to itself: at a mark, from its two neighbours.
fn between<P: Coordinate>(before: P, at: P, after: P) -> P { ((before - at) + (at - after)) * 0.5 }
/// The joined fit: block k from mark k·size to mark (k+1)·size, both included, each by the crate's `fit_curve_cubic`. At a mark where two blocks meet the left one
/// ends with the direction between that mark's neighbours and the right one starts with it times -1; where there is none, each takes that of the chord from the mark to its own
/// neighbour, or zero. At the outline's two ends it is that of the first and the last two marks.
/// A ring, whose last mark is its first once more, has no ends: there too the last block meets the first.
fn joined<C: BezierCurveFactory>(ring: bool, p: &[C::Point], tolerance: f64) -> Vec<C> {
    let (size, last) = (block_size(p.len()), p.len() - 1);
    let before = |i: usize| p[if i == 0 { last - 1 } else { i - 1 }];
    let after = |i: usize| p[if i == last { 1 } else { i + 1 }];
    let chord = |from: usize, to: C::Point| (to - p[from]).to_unit_vector();
    let shared = |i: usize| direction(between(before(i), p[i], after(i)));
    (0..).map(|k| k * size).take_while(|from| *from < last).flat_map(|from| {
        let to = (from + size).min(last);
        let start = if from == 0 && !ring { chord(0, p[1]) } else { shared(from).map_or_else(|| chord(from, after(from)), |t| t * -1.0) };
        let end = if to == last && !ring { chord(last, p[last - 1]) } else { shared(to).unwrap_or_else(|| chord(to, before(to))) };
        fit_curve_cubic(&p[from..=to], &start, &end, tolerance)
    }).collect()
}
fn fit<C: BezierCurveFactory>(kind: &str, tolerance: f64, tangents: Option<(C::Point, C::Point)>, p: &[C::Point]) -> Vec<C> {
    match (kind, tangents) {
        ("source", _) => fit_curve(p, tolerance).expect("two marks"),
        ("loop", _) => fit_curve_loop(p, tolerance).expect("two marks"),
        ("direct", Some((s, e))) => fit_curve_cubic(p, &s, &e, tolerance),
        _ => joined(kind == "ring", p, tolerance),
    }
}
/// The square of a mark's distance from a curve at t, as `max_error_for_curve` works it out, which the crate keeps to itself.
fn square(c: &Plain, mark: Coord2, t: f64) -> f64 { let off = mark - c.point_at_pos(t); off.dot(&off) }
/// The largest square among so many, and the first place that has it: place 0 where none is above zero.
fn farthest(squares: impl Iterator<Item = f64>) -> (usize, f64) {
    squares.enumerate().fold((0, 0.0), |worst, (i, far)| if far > worst.1 { (i, far) } else { worst })
}
/// Count, and of each curve first mark, worst mark, its numbers and the largest distance; then the parameters of a fit. The plain run's curves and the watched run's must be the same bits.
/// A curve's last mark is measured with its others, at 1, where the distance is 0: so it does not count which curve a joint is under.
fn fitted(kind: &str, tolerance: f64, tangents: Option<(Coord2, Coord2)>, p: &[Coord2]) -> String {
    let marks: Vec<Mark> = p.iter().enumerate().map(|(i, c)| Mark(*c, Some(i))).collect();
    let plain: Vec<Plain> = fit(kind, tolerance, tangents, p);
    let kept: Vec<Kept> = fit(kind, tolerance, tangents.map(|(s, e)| (Mark(s, None), Mark(e, None))), &marks);
    let mut at = vec![0.0; p.len()];
    let mut out = format!("0 {}", plain.len());
    if plain.len() != kept.len() { return "UNLIKE".into(); }
    for (c, k) in plain.iter().zip(&kept) {
        if eight(c).map(bits) != eight(k).map(bits) { return "UNLIKE".into(); }
        let (first, last, asked) = (k.start.1.unwrap(), k.end.1.unwrap(), k.asked.borrow());
        let own = if last - first == 1 { &[0.0, 1.0][..] } else { &asked[..] };
        if own.len() != last - first + 1 { return "UNLIKE".into(); }
        at[first..=last].copy_from_slice(own);
        let (worst, far) = farthest(p[first..=last].iter().zip(own).map(|(m, t)| square(c, *m, *t)));
        out += &format!(" {} {}{}{}", first, first + worst, hex(&eight(c)), hex(&[far.sqrt()]));
    }
    out + &hex(&at)
}

/// Newton refinement once more, with the numbers watched that the crate's own call lets pass unseen.
fn refine_watched(p: &[Mark], q: Mark, mut t: f64, rounds: usize) -> f64 {
    let (n1, n2, n3) = ((p[1] - p[0]) * 3.0, (p[2] - p[1]) * 3.0, (p[3] - p[2]) * 3.0);
    let (m1, m2) = ((n2 - n1) * 2.0, (n3 - n2) * 2.0);
    for _ in 0..rounds {
        watch(1.0 - t);
        let (c, d1, d2) = (de_casteljau4(t, p[0], p[1], p[2], p[3]), de_casteljau3(t, n1, n2, n3), de_casteljau2(t, m1, m2));
        let top = (c - q).dot(&d1);
        let bottom = watch(d1.dot(&d1) + (c - q).dot(&d2));
        if top.abs() < 1e-8 || bottom == 0.0 { break; }
        t = watch(t - watch(top / bottom));
    }
    t.max(0.0).min(1.0)
}

/// The depth of the crate's own nearest search, or None where 100,000 sections don't end it: then the crate's call would run
/// until the memory is full. The steps are those of find_roots.rs, with the crate's own halving and line coefficients.
fn search_depth(p: &[Coord2], q: Coord2) -> Option<usize> {
    const Z: [[f64; 4]; 3] = [[1.0, 0.6, 0.3, 0.1], [0.4, 0.6, 0.6, 0.4], [0.1, 0.3, 0.6, 1.0]];
    let mut whole = [0, 1, 2, 3, 4, 5].map(|k| Coord2(k as f64 / 5.0, 0.0));
    for k in 0..6usize {
        for i in k.saturating_sub(2)..=k.min(3) {
            let next = (p[k - i + 1] - p[k - i]) * 3.0;
            whole[k].1 += next.dot(&(p[i] - q)) * Z[k - i][i];
        }
    }
    let (mut open, mut taken, mut deepest) = (vec![(whole, 0)], 0, 0);
    while let Some((s, depth)) = open.pop() {
        taken += 1;
        deepest = deepest.max(depth);
        if taken > 100_000 { return None; }
        let crossings = s.windows(2).filter(|w| (w[0].1 < 0.0 && w[1].1 >= 0.0) || (w[0].1 >= 0.0 && w[1].1 < 0.0)).count();
        let rising: Vec<f64> = s.windows(2).map(|w| (w[1].1 - w[0].1).signum()).collect();
        let line = (s[0], s[5]).coefficients();
        let flat = rising.iter().all(|r| *r == rising[0]) && s.iter().fold(0.0f64, |m, p| m.max(line.distance_to(p))) <= 0.1;
        if crossings == 0 || (crossings == 1 && flat) { continue; }
        let (left, right) = subdivide_n(0.5, s);
        open.push((right, depth + 1));
        open.push((left, depth + 1));
    }
    Some(deepest)
}

/// The marks of an outline as they are, and those of a ring with the first one once more behind them.
fn outline(ring: bool, given: &[Coord2]) -> Vec<Coord2> { given.iter().chain(given.first().filter(|_| ring)).copied().collect() }
fn fewest(ring: bool) -> usize { if ring { 3 } else { 2 } }

/// The list checker by the document's rules; the crate has none. Points and distances are the crate's. A curve has eight numbers, or nine where worst marks are kept.
fn check(ring: bool, tolerance: f64, given: &[Coord2], firsts: &[usize], worsts: Option<&[usize]>, curves: &[Vec<f64>], at: &[f64]) -> String {
    let marks = outline(ring, given);
    let (n, count) = (marks.len(), curves.len());
    let wild = |v: f64| !(v.abs() <= 1_000_000.0);
    if given.len() < fewest(ring) { return "1".into(); }
    if given.len() > MOST_MARKS { return "2".into(); }
    if marks.iter().any(|m| wild(m.0) || wild(m.1)) || !(tolerance >= 0.0 && tolerance.is_finite()) { return "5".into(); }
    if count < 1 || count > n - 1 { return "FAULT A 0 0".into(); }
    for k in 0..count {
        if firsts[k] >= n - 1 || (if k == 0 { firsts[0] != 0 } else { firsts[k] <= firsts[k - 1] }) { return format!("FAULT A {} 0", k); }
    }
    let same = |v: &[f64], m: Coord2| v[0].to_bits() == m.0.to_bits() && v[1].to_bits() == m.1.to_bits();
    for k in 0..count {
        let (c, first, next) = (&curves[k][..8], firsts[k], if k + 1 < count { firsts[k + 1] } else { n - 1 });
        if c.iter().any(|v| !v.is_finite()) || !same(&c[0..2], marks[first]) || !same(&c[6..8], marks[next]) { return format!("FAULT B {} {}", k, first); }
        let p = points(c);
        let p = Plain::from_points(p[0], (p[1], p[2]), p[3]);
        let under = first..(if k + 1 < count { next } else { n });
        for i in under.clone() {
            let t = at[i];
            let placed = if i == first { t == 0.0 } else if i == n - 1 { t == 1.0 } else { (0.0..=1.0).contains(&t) };
            if !placed { return format!("FAULT C {} {}", k, i); }
            let far = square(&p, marks[i], t).sqrt();
            if !(far.is_finite() && far <= tolerance) { return format!("FAULT D {} {}", k, i); }
        }
        let Some(worsts) = worsts else { continue };
        let (worst, far) = farthest(under.map(|i| square(&p, marks[i], at[i])));
        if curves[k][8].to_bits() != far.sqrt().to_bits() || worsts[k] != first + worst { return format!("FAULT E {} {}", k, first); }
    }
    "0".into()
}
/// A list on a line: for each curve its first mark and eight numbers, or first mark, worst mark and nine.
fn check_line(ring: bool, kept: bool, w: &[&str]) -> Option<String> {
    let n = whole(w.get(1)?)?;
    let count_at = n.checked_mul(2)?.checked_add(2)?;
    let k = whole(w.get(count_at)?)?;
    let (wide, beside) = if kept { (11, 2) } else { (9, 1) };
    let end = (count_at + 1).checked_add(k.checked_mul(wide)?)?;
    if w.len() != end.checked_add(n + usize::from(ring))? { return None; }
    let (mut firsts, mut worsts, mut curves) = (vec![], vec![], vec![]);
    let mark = |w: &str| -> Option<usize> { Some(u32::try_from(whole(w)?).ok()? as usize) };
    for c in w[count_at + 1..end].chunks(wide) {
        firsts.push(mark(c[0])?);
        worsts.push(mark(c[beside - 1])?);
        curves.push(numbers(&c[beside..])?);
    }
    Some(check(ring, number(w[0])?, &points(&numbers(&w[2..count_at])?), &firsts, if kept { Some(&worsts) } else { None }, &curves, &numbers(&w[end..])?))
}

/// The kinds of the port's second engine are fits of the crate like those of the first.
fn fit_of(kind: &str) -> &str { kind.strip_suffix("_flat").filter(|fit| ["direct", "joined", "ring"].contains(fit)).unwrap_or(kind) }

/// One line's answer; None for a line that is none of replay's.
fn answer(line: &str) -> Option<String> {
    let w: Vec<&str> = line.split(' ').collect();
    let (kind, w) = (fit_of(w[0]), &w[1..]);
    let marks = |v: &[f64]| -> Vec<Mark> { points(v).into_iter().map(|c| Mark(c, None)).collect() };
    let show = |v: &[Mark]| -> String { let f: Vec<f64> = v.iter().flat_map(|m| [m.0.0, m.0.1]).collect(); format!("0{}", hex(&f)) };
    let wanted = match kind {
        "sqrt" => 1, "basis" | "de_casteljau4" | "subdivide4" | "coefficients" => 9, "de_casteljau3" => 7, "de_casteljau2" => 5, "refine" => 12, "nearest" => 10, "distance" => 11, "blocks" | "size" | "pack" | "unpack" | "salvage" => 1,
        "export" => return path::export(w),
        "direct" => w.len().max(5), "source" | "loop" | "joined" | "ring" | "check" | "check_ring" | "check_worst" | "check_worst_ring" => w.len().max(1), _ => return None,
    };
    if w.len() != wanted { return None; }
    Some(match kind {
        "sqrt" => format!("0{}", hex(&[number(w[0])?.sqrt()])),
        "coefficients" => {
            let (d, v) = (whole(w[0])?, numbers(&w[1..])?);
            if d > 1 { return Some("5".into()); }
            let p = points(&v);
            let r = bezier_coefficients(d, &p[0], &p[1], &p[2], &p[3]);
            format!("0{}", hex(&[r.0, r.1, r.2, r.3]))
        }
        "basis" | "de_casteljau4" | "de_casteljau3" | "de_casteljau2" | "subdivide4" => {
            let (t, p) = (number(w[0])?, marks(&numbers(&w[1..])?));
            match kind {
                "basis" => show(&[basis(t, p[0], p[1], p[2], p[3])]),
                "de_casteljau4" => show(&[de_casteljau4(t, p[0], p[1], p[2], p[3])]),
                "de_casteljau3" => show(&[de_casteljau3(t, p[0], p[1], p[2])]),
                "de_casteljau2" => show(&[de_casteljau2(t, p[0], p[1])]),
                _ => { let (l, r) = subdivide4(t, p[0], p[1], p[2], p[3]); show(&[l.0, l.1, l.2, l.3, r.0, r.1, r.2, r.3]) }
            }
        }
        "refine" => {
            let (v, rounds) = (numbers(&w[..11])?, whole(w[11])?);
            let p = points(&v[..10]);
            let t = nearest_point_on_curve_newton_raphson_with_estimate(&Plain::from_points(p[0], (p[1], p[2]), p[3]), &p[4], v[10], rounds);
            let m = marks(&v[..10]);
            if bits(refine_watched(&m, m[4], v[10], rounds)) != bits(t) { return Some("UNLIKE".into()); }
            format!("0{}", hex(&[t]))
        }
        "nearest" => {
            let p = points(&numbers(w)?);
            let curve = Plain::from_points(p[0], (p[1], p[2]), p[3]);
            let Some(depth) = search_depth(&p, p[4]) else { return Some("ENDLESS".into()) };
            let t = nearest_point_on_curve(&curve, &p[4]);
            let off = curve.point_at_pos(t) - p[4];
            format!("0{}\tdepth {}", hex(&[t, off.dot(&off)]), depth)
        }
        "distance" => {
            let v = numbers(w)?;
            let p = points(&v[..10]);
            format!("0{}", hex(&[square(&Plain::from_points(p[0], (p[1], p[2]), p[3]), p[4], v[10]).sqrt()]))
        }
        "blocks" => {
            // as many as there are numbers k with k * size < n - 1
            let last = whole(w[0])?.saturating_sub(1);
            let size = block_size(last + 1);
            format!("0 {}", last / size + usize::from(last % size > 0))
        }
        "size" => {
            let n = whole(w[0])?;
            let size = block_size(n);
            if (200..=MOST_MARKS).contains(&n) && first_block(n) != size { return Some("UNLIKE".into()); }
            format!("0 {}", size)
        }
        "pack" | "unpack" => pack::answer(kind, w[0])?,
        "salvage" => salvage::answer(w[0])?,
        "check" | "check_ring" | "check_worst" | "check_worst_ring" => check_line(kind.ends_with("_ring"), kind.starts_with("check_worst"), w)?,
        _ => {
            let v = numbers(w)?;
            let (ring, tolerance, rest) = (kind == "ring", v[0], &v[if kind == "direct" { 5 } else { 1 }..]);
            let tangents = if kind == "direct" { Some((Coord2(v[1], v[2]), Coord2(v[3], v[4]))) } else { None };
            if rest.len() % 2 == 1 { "3".into() } else if rest.len() < 2 * fewest(ring) { "1".into() } else { fitted(kind, tolerance, tangents, &outline(ring, &points(rest))) }
        }
    })
}

fn all() {
    std::panic::set_hook(Box::new(|_| {}));
    let mut out = BufWriter::new(stdout().lock());
    for line in stdin().lock().split(b'\n') {
        let line = line.expect("standard input");
        LOST.with(|l| l.set(false));
        let said = std::panic::catch_unwind(|| match line.strip_prefix(b"import ") {
            Some(text) => path::import(text), // a text may have any bytes
            None => str::from_utf8(&line).ok().and_then(answer).unwrap_or("BAD".into()),
        })
        .unwrap_or("PANIC".into());
        let lost = LOST.with(|l| l.get()) && !said.contains('\t');
        writeln!(out, "{}{}", said, if lost { "\tlost" } else { "" }).expect("standard output");
    }
}
fn main() {
    // a cut calls itself; an outline of some thousand marks, all cut, wants more than the usual stack
    std::thread::Builder::new().stack_size(1 << 29).spawn(all).expect("a thread").join().expect("an end");
}
