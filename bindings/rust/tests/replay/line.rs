//! The answer to one line of crates/replay, in its format.
use crate::common::{flat, report, Kind, Room};
use wesalondo::*;

/// The words of a line in turn.
pub struct Words<'a>(std::str::Split<'a, char>);

impl<'a> Words<'a> {
    pub fn new(line: &'a str) -> Words<'a> {
        Words(line.split(' '))
    }

    fn word(&mut self) -> &'a str {
        self.0.next().expect("another word")
    }

    fn whole<N: std::str::FromStr>(&mut self) -> N {
        let word = self.word();
        word.parse().unwrap_or_else(|_| panic!("{word} is no whole number"))
    }

    fn float(&mut self) -> f64 {
        let word = self.word();
        f64::from_bits(u64::from_str_radix(word, 16).unwrap_or_else(|_| panic!("{word} is no pattern")))
    }

    fn floats<const N: usize>(&mut self) -> [f64; N] {
        std::array::from_fn(|_| self.float())
    }

    fn point(&mut self) -> Point {
        self.floats::<2>().into()
    }

    fn points<const N: usize>(&mut self) -> [Point; N] {
        std::array::from_fn(|_| self.point())
    }

    fn curve(&mut self) -> Curve {
        self.floats::<8>().into()
    }

    fn rest(&mut self) -> Vec<f64> {
        let mut numbers = Vec::new();
        while self.0.clone().next().is_some() {
            numbers.push(self.float());
        }
        numbers
    }
}

/// What a case answers.
pub fn answer_of(kind: &str, words: &mut Words) -> String {
    let answer = match kind {
        "sqrt" => accepted(&[sqrt(words.float())]),
        "blocks" => format!("0 {}", joined_blocks(words.whole())),
        "size" => format!("0 {}", max_points_to_fit(words.whole())),
        "basis" => at(words, |words, t| basis(&words.curve(), t)),
        "de_casteljau4" => at(words, |words, t| de_casteljau4(&words.curve(), t)),
        "de_casteljau3" => at(words, |words, t| de_casteljau3(&words.points(), t)),
        "de_casteljau2" => at(words, |words, t| de_casteljau2(&words.points(), t)),
        "subdivide4" => {
            let t = words.float();
            numbers_or_refusal(subdivide4(&words.curve(), t).map(|(left, right)| [<[f64; 8]>::from(left), right.into()].concat()))
        }
        "coefficients" => {
            let dimension = words.whole();
            numbers_or_refusal(bezier_coefficients(&words.curve(), dimension).map(|numbers| numbers.to_vec()))
        }
        "refine" => {
            let (curve, point, t) = (words.curve(), words.point(), words.float());
            let refined = nearest_point_on_curve_newton_raphson_with_estimate(&curve, point, t, words.whole());
            numbers_or_refusal(refined.map(|t| vec![t]))
        }
        "nearest" => {
            let (curve, point) = (words.curve(), words.point());
            numbers_or_refusal(nearest_point_on_curve(&curve, point).map(|found| vec![found.t, found.distance_sq]))
        }
        "direct" => fitted_along(words, Kind::Cubic),
        "direct_flat" => fitted_along(words, Kind::CubicFlat),
        "source" => fitted_within(words, Kind::Curve),
        "loop" => fitted_within(words, Kind::Loop),
        "joined" => fitted_within(words, Kind::Joined),
        "joined_flat" => fitted_within(words, Kind::JoinedFlat),
        "ring" => fitted_within(words, Kind::Ring),
        "ring_flat" => fitted_within(words, Kind::RingFlat),
        "check" => checked(words, false, false, check_list),
        "check_ring" => checked(words, true, false, check_ring),
        "check_worst" => checked(words, false, true, check_worst),
        "check_worst_ring" => checked(words, true, true, check_worst_ring),
        "export" => exported(words),
        "pack" => converted(words, pack_file),
        "unpack" => converted(words, unpack_file),
        "salvage" => cleaned(words),
        other => panic!("the kind {other} is not known"),
    };
    assert_eq!(words.0.next(), None, "a word of {kind} is left");
    answer
}

/// A number's bits; all NaNs are one, as in Rattle.
fn hex(x: f64) -> String {
    format!("{:016X}", if x.is_nan() { 0x7FF8_0000_0000_0000 } else { x.to_bits() })
}

fn accepted(numbers: &[f64]) -> String {
    std::iter::once("0".to_owned()).chain(numbers.iter().map(|&x| hex(x))).collect::<Vec<_>>().join(" ")
}

fn numbers_or_refusal(answer: Result<Vec<f64>, Refusal>) -> String {
    match answer {
        Ok(numbers) => accepted(&numbers),
        Err(refusal) => refusal.number().to_string(),
    }
}

/// A list as path data; in the record of nine it gives the same text, whatever the ninth numbers are.
fn exported(words: &mut Words) -> String {
    let ring = words.word() == "RING";
    let count: usize = words.whole();
    let curves: Vec<Curve> = (0..count).map(|_| words.curve()).collect();
    let answer = export_path(&curves, ring);
    let nines: Vec<f64> = curves.iter().flat_map(|&curve| <[f64; 8]>::from(curve).into_iter().chain([f64::NAN])).collect();
    let (mut out, mut size) = (vec![0; 92 * count + 33], 7);
    // SAFETY: each pointer is to that many elements, all apart.
    let number = unsafe { sys::wes_export_path(true, nines.as_ptr(), nines.len(), count, ring, out.as_mut_ptr(), out.len(), &mut size) };
    let text = answer.as_deref().unwrap_or_default();
    assert_eq!((number, &out[..size]), (answer.as_ref().map_or_else(|refusal| refusal.number(), |_| 0), text.as_bytes()));
    answer.map_or_else(|refusal| refusal.number().to_string(), |text| format!("0 {text}"))
}

/// A house file, by two digits a byte.
fn file(words: &mut Words) -> Vec<u8> {
    let digits = words.word().as_bytes().chunks(2).map(|pair| std::str::from_utf8(pair).unwrap());
    digits.map(|pair| u8::from_str_radix(pair, 16).unwrap_or_else(|_| panic!("{pair} is no byte"))).collect()
}

fn digits(bytes: &[u8]) -> String {
    bytes.iter().map(|byte| format!("{byte:02x}")).collect()
}

/// A house file packed or unpacked.
fn converted(words: &mut Words, call: fn(&[u8]) -> Result<Vec<u8>, Refusal>) -> String {
    match call(&file(words)) {
        Ok(made) => format!("0 {}", digits(&made)),
        Err(refusal) => refusal.number().to_string(),
    }
}

/// A house file cleaned, and the list, which says what the values say.
fn cleaned(words: &mut Words) -> String {
    match salvage(&file(words)) {
        Ok(made) => {
            assert_eq!(made.report, report(made.kept, &made.dropped));
            format!("0 {} {}", digits(&made.file), digits(made.report.as_bytes()))
        }
        Err(refusal) => refusal.number().to_string(),
    }
}

/// What path data draws, in a line of answer.
pub fn imported(text: &[u8]) -> String {
    match import_path(text) {
        Ok(path) => {
            let numbers: String = path.curves.iter().flat_map(|&curve| <[f64; 8]>::from(curve)).map(|x| format!(" {}", hex(x))).collect();
            format!("0 {} {}{numbers}", path.curves.len(), if path.closed { "CLOSED" } else { "OPEN" })
        }
        Err(refusal) => refusal.number().to_string(),
    }
}

fn at(words: &mut Words, call: impl FnOnce(&mut Words, f64) -> Result<Point, Refusal>) -> String {
    let t = words.float();
    numbers_or_refusal(call(words, t).map(|point| vec![point.x, point.y]))
}

fn fitted_within(words: &mut Words, kind: Kind) -> String {
    let tolerance = words.float();
    fitted(words, kind, tolerance)
}

/// A fit with given tangents.
fn fitted_along(words: &mut Words, kind: fn(Point, Point) -> Kind) -> String {
    let (tolerance, start, end) = (words.float(), words.point(), words.point());
    fitted(words, kind(start, end), tolerance)
}

/// A fit's answer, by both engines where both have the fit; should they differ, it is none that is kept.
fn fitted(words: &mut Words, kind: Kind, tolerance: f64) -> String {
    let numbers = words.rest();
    let mut answers: Vec<String> = kind.engines().map(|kind| fitted_by(kind, &numbers, tolerance)).collect();
    answers.dedup();
    answers.join(" and by the second engine ")
}

/// The answer of one engine; an odd number of coordinates is no slice of points, and goes through `sys`.
fn fitted_by(kind: Kind, numbers: &[f64], tolerance: f64) -> String {
    if numbers.len() % 2 == 1 {
        let mut room = Room::filled(kind, numbers.len(), 0, 2.5, 3);
        let before = room.bits();
        let answer = kind.fit_in(numbers, tolerance, &mut room);
        assert_eq!((room.made, room.bits()), (0, before), "an odd slice is refused, and no room is touched");
        return answer.to_string();
    }
    let marks: Vec<Point> = numbers.chunks_exact(2).map(|pair| Point::new(pair[0], pair[1])).collect();
    match kind.fit(&marks, tolerance) {
        Ok(fit) => fit_line(&fit),
        Err(refusal) => refusal.number().to_string(),
    }
}

fn fit_line(fit: &Fit) -> String {
    let mut words = vec!["0".to_owned(), fit.len().to_string()];
    for piece in fit {
        words.extend([piece.first.to_string(), piece.worst.to_string()]);
        words.extend(<[f64; 8]>::from(piece.curve).map(hex));
        words.push(hex(piece.distance));
    }
    words.extend(fit.params().iter().map(|&t| hex(t)));
    words.join(" ")
}

fn checked(words: &mut Words, ring: bool, nine: bool, call: fn(&[Point], f64, &List<'_>) -> Result<Verdict, Refusal>) -> String {
    let tolerance = words.float();
    let n: usize = words.whole();
    let marks: Vec<Point> = (0..n).map(|_| words.point()).collect();
    let count = words.whole();
    let (mut firsts, mut worsts, mut curves) = (vec![], vec![], vec![]);
    for _ in 0..count {
        firsts.push(words.whole());
        if nine {
            worsts.push(words.whole());
        }
        curves.extend((0..if nine { 9 } else { 8 }).map(|_| words.float()));
    }
    let params: Vec<f64> = (0..n + usize::from(ring)).map(|_| words.float()).collect();
    let list = List { count, curves: &curves, firsts: &firsts, worsts: &worsts, params: &params };
    let answer = call(&marks, tolerance, &list);
    assert_eq!(raw_checked(ring, nine, &marks, tolerance, &list), numbered(answer), "the named call and the general one");
    match answer {
        Ok(Verdict::Sound) => "0".to_owned(),
        Ok(Verdict::Faulty(fault)) => format!("FAULT {} {} {}", fault.kind.letter(), fault.curve, fault.mark),
        Err(refusal) => refusal.number().to_string(),
    }
}

fn numbered(answer: Result<Verdict, Refusal>) -> (u32, usize, usize) {
    match answer {
        Ok(Verdict::Sound) => (0, 0, 0),
        Ok(Verdict::Faulty(fault)) => (fault.kind.letter().into(), fault.curve, fault.mark),
        Err(refusal) => (refusal.number(), 0, 0),
    }
}

/// The library's call for just this form of a list and this outline, where the safe calls all go through `wes_check`.
fn raw_checked(ring: bool, nine: bool, marks: &[Point], tolerance: f64, list: &List<'_>) -> (u32, usize, usize) {
    let m = flat(marks);
    let List { count, curves: c, firsts: f, worsts: w, params: p } = *list;
    let (mp, ml, cp, cl, fp, fl) = (m.as_ptr(), m.len(), c.as_ptr(), c.len(), f.as_ptr(), f.len());
    let (wp, wl, pp, pl) = (w.as_ptr(), w.len(), p.as_ptr(), p.len());
    let (mut curve, mut mark) = (7, 7);
    let (at, on) = (&mut curve, &mut mark);
    // SAFETY: each pointer is to that many elements, all apart.
    let answer = unsafe {
        match (ring, nine) {
            (false, true) => sys::wes_check_worst(mp, ml, tolerance, count, cp, cl, fp, fl, wp, wl, pp, pl, at, on),
            (true, true) => sys::wes_check_worst_ring(mp, ml, tolerance, count, cp, cl, fp, fl, wp, wl, pp, pl, at, on),
            (false, false) => sys::wes_check_list(mp, ml, tolerance, count, cp, cl, fp, fl, pp, pl, at, on),
            (true, false) => sys::wes_check_ring(mp, ml, tolerance, count, cp, cl, fp, fl, pp, pl, at, on),
        }
    };
    (answer, curve, mark)
}
