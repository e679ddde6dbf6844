//! Long outlines, up to the most marks that are taken. bindings/long.txt has digests of what the Rust makes of them (bindings/make_long.py); here they are drawn
//! again and fitted, and every number is held against the Rust's. Their lists are checked, written as house files, read, checked once more and written again.
use wesalondo::*;

const MOST_MARKS: usize = 100_000;

// ---- the outlines, as bindings/make_long.py has them: whole numbers over a power of two, so that nothing is rounded

/// The highest bits of Knuth's linear congruential generator.
struct Dice(u64);

impl Dice {
    fn roll(&mut self, count: u32) -> i64 {
        self.0 = self.0.wrapping_mul(6_364_136_223_846_793_005).wrapping_add(1_442_695_040_888_963_407);
        (self.0 >> (64 - count)) as i64
    }

    /// How far a shaking hand is off.
    fn off(&mut self) -> i64 {
        2 * (self.roll(24) - (1 << 23))
    }
}

/// In the place of a sine: a parabola above zero, `half` wide, and one below.
fn wave(half: i64, at: i64) -> i64 {
    match at % (2 * half) {
        up if up < half => up * (half - up),
        down => -(down - half) * (2 * half - down),
    }
}

fn mark((x, y): (i64, i64), scale: u32) -> Point {
    let whole = (1u64 << scale) as f64;
    Point::new(x as f64 / whole, y as f64 / whole)
}

/// Once round, whatever the number of marks, by a steady hand or by a shaking one.
fn round(n: usize, shaking: bool) -> Vec<Point> {
    let mut dice = Dice(1);
    let mut off = || if shaking { dice.off() } else { 0 };
    let turn = (0..n as i64).map(|i| (i << 22) / n as i64);
    turn.map(|at| mark((wave(1 << 21, at + (1 << 20)) + off(), wave(1 << 21, at) + off()), 26)).collect()
}

fn rested(n: usize) -> Vec<Point> {
    let mut marks = round(n, true);
    let spot = marks[n - 400];
    marks[n - 400..].fill(spot);
    marks
}

fn spiral(n: usize) -> Vec<Point> {
    (0..n as i64).map(|i| mark(((64 + i) * wave(1 << 11, 54 * i + (1 << 10)), (64 + i) * wave(1 << 11, 54 * i)), 22)).collect()
}

fn shaken(n: usize) -> Vec<Point> {
    (0..n as i64).map(|i| mark((i, 2 * (i * 7919 % 101)), 1)).collect()
}

fn scribble(n: usize) -> Vec<Point> {
    const STEPS: [(i64, i64); 8] = [(1, 0), (1, 1), (0, 1), (-1, 1), (-1, 0), (-1, -1), (0, -1), (1, -1)];
    let (mut dice, mut at) = (Dice(1), (0, 0));
    let steps = (0..n).map(|_| STEPS[dice.roll(3) as usize]);
    steps
        .map(|step| {
            at = (at.0 + step.0, at.1 + step.1);
            mark(at, 0)
        })
        .collect()
}

fn drawn(shape: &str, n: usize) -> Vec<Point> {
    match shape {
        "round" => round(n, false),
        "traced" => round(n, true),
        "rested" => rested(n),
        "spiral" => spiral(n),
        "shaken" => shaken(n),
        "scribble" => scribble(n),
        other => panic!("no shape is called {other}"),
    }
}

// ---- digests

/// FNV-1a of 64 bits.
struct Digest(u64);

impl Digest {
    fn new() -> Digest {
        Digest(0xCBF2_9CE4_8422_2325)
    }

    fn add(&mut self, bytes: &[u8]) {
        for &byte in bytes {
            self.0 = (self.0 ^ u64::from(byte)).wrapping_mul(0x0100_0000_01B3);
        }
    }

    fn add_numbers(&mut self, numbers: &[f64]) {
        numbers.iter().for_each(|x| self.add(&x.to_le_bytes()));
    }
}

fn digest_of_marks(marks: &[Point]) -> u64 {
    let mut digest = Digest::new();
    marks.iter().for_each(|&mark| digest.add_numbers(&<[f64; 2]>::from(mark)));
    digest.0
}

fn digest_of_fit(fit: &Fit) -> u64 {
    let (mut digest, list) = (Digest::new(), fit.list());
    digest.add(&(list.count as u64).to_le_bytes());
    list.firsts.iter().chain(list.worsts).for_each(|mark| digest.add(&mark.to_le_bytes()));
    digest.add_numbers(list.curves);
    digest.add_numbers(list.params);
    digest.0
}

fn digest_of_file(file: &[u8]) -> u64 {
    let mut digest = Digest::new();
    digest.add(file);
    digest.0
}

// ---- the kept lines

/// A line of bindings/long.txt.
struct Line {
    shape: String,
    n: usize,
    tolerance: f64,
    what: String,
    answer: u32,
    count: usize,
    digest: u64,
}

impl Line {
    fn of(text: &str) -> Line {
        let words: Vec<&str> = text.split(' ').collect();
        let [shape, n, tolerance, what, answer, count, digest] = words[..] else { panic!("this is no line: {text}") };
        let bits = |word| u64::from_str_radix(word, 16).expect("a pattern");
        let whole = |word: &str| word.parse::<usize>().expect("a whole number");
        Line {
            shape: shape.to_owned(),
            n: whole(n),
            tolerance: f64::from_bits(bits(tolerance)),
            what: what.to_owned(),
            answer: whole(answer) as u32,
            count: whole(count),
            digest: bits(digest),
        }
    }

    fn marks(&self) -> Vec<Point> {
        drawn(&self.shape, self.n)
    }

    fn name(&self) -> String {
        format!("{} of {} {}", self.what, self.shape, self.n)
    }
}

/// The kept lines of these things, of which each must be there with the most marks.
fn lines(whats: &[&str]) -> Vec<Line> {
    let path = concat!(env!("CARGO_MANIFEST_DIR"), "/../long.txt");
    let text = std::fs::read_to_string(path).unwrap_or_else(|error| panic!("{path}: {error}"));
    let all = text.lines().filter(|line| !line.starts_with('#')).map(Line::of);
    let found: Vec<Line> = all.filter(|line| whats.contains(&line.what.as_str())).collect();
    for what in whats {
        assert!(found.iter().any(|line| line.what == *what && line.n >= MOST_MARKS - 1), "no long line of {what}");
    }
    found
}

// ---- fits

type FitCall = fn(&[Point], f64) -> Result<Fit, Refusal>;

/// The calls that make a thing, by one engine or by both.
fn fit_calls(what: &str) -> &'static [FitCall] {
    match what {
        "source" => &[fit_curve],
        "loop" => &[fit_curve_loop],
        "joined" | "nine" | "eight" => &[fit_joined, fit_joined_flat],
        "ring" | "closed" => &[fit_ring, fit_ring_flat],
        other => panic!("nothing is known of {other}"),
    }
}

/// A list without its worst marks, as the checkers take it.
fn eights(fit: &Fit) -> Vec<f64> {
    fit.list().curves.chunks(9).flat_map(|record| &record[..8]).copied().collect()
}

#[test]
fn marks_are_drawn_as_the_rust_had_them() {
    for line in lines(&["marks"]) {
        let marks = line.marks();
        assert_eq!((2 * marks.len(), digest_of_marks(&marks)), (line.count, line.digest), "{}", line.name());
    }
}

fn expect_fits(whats: &[&str]) {
    for line in lines(whats) {
        let marks = line.marks();
        for (engine, fit) in (1..).zip(fit_calls(&line.what)) {
            expect_fit(&format!("{} by engine {engine}", line.name()), &line, &marks, fit(&marks, line.tolerance));
        }
    }
}

/// Holds a fit against its kept line.
fn expect_fit(name: &str, line: &Line, marks: &[Point], answer: Result<Fit, Refusal>) {
    match answer {
        Ok(fit) => {
            assert_eq!((line.answer, fit.len()), (0, line.count), "{name}");
            assert_eq!(digest_of_fit(&fit), line.digest, "{name}: other numbers than the Rust's");
            let curves = eights(&fit);
            let by_eights = check(fit.is_ring(), false, marks, line.tolerance, &List { curves: &curves, ..fit.list() }).unwrap();
            let verdict = fit.check(marks, line.tolerance).unwrap();
            assert_eq!(by_eights, verdict, "{name}");
            // Blocks of the source's fits do not meet, and that is fault B.
            let fault = if ["joined", "ring"].contains(&line.what.as_str()) { None } else { Some(FaultKind::B) };
            assert_eq!(verdict.fault().map(|fault| fault.kind), fault, "{name}");
        }
        Err(refusal) => assert_eq!((refusal.number(), 0), (line.answer, line.count), "{name}"),
    }
}

#[test]
fn fits_in_blocks_give_what_the_rust_gives() {
    expect_fits(&["source", "loop"]);
}

#[test]
fn joined_and_ring_fits_give_what_the_rust_gives_and_are_sound() {
    expect_fits(&["joined", "ring"]);
}

// ---- house files

/// examples/mainsail.house, of which flo_curves makes 99 curves.
#[test]
fn the_example_is_fitted() {
    let house = read_file(include_bytes!("../../../examples/mainsail.house")).unwrap();
    let fit = fit_joined(&house.marks, house.tolerance).unwrap();
    assert_eq!((house.marks.len(), fit.len()), (6000, 99));
    assert_eq!(House::with_fit(house.tolerance, &house.marks, &fit).check(), Ok(Verdict::Sound));
}

#[test]
fn files_are_written_read_and_checked() {
    for line in lines(&["nine", "eight", "closed"]) {
        let (name, marks) = (line.name(), line.marks());
        let fit = fit_calls(&line.what)[0](&marks, line.tolerance).unwrap();
        let mut house = House::with_fit(line.tolerance, &marks, &fit);
        if line.what == "eight" {
            (house.nine, house.worsts, house.curves) = (false, vec![], eights(&fit));
        }
        let file = write_file(&house).unwrap();
        assert_eq!((file.len(), digest_of_file(&file)), (line.count, line.digest), "{name}: other bytes");
        let kind = if house.marks.len() > 4096 { [5, 7] } else { [3, 6] }[usize::from(house.nine)];
        assert_eq!(file[20 + 16 * house.marks.len() + 4..][..2], [kind, 0], "{name}: the kind");
        let read = read_file(&file).unwrap();
        assert!(read == house, "{name}: other numbers");
        assert_eq!(read.check(), Ok(Verdict::Sound), "{name}");
        assert!(write_file(&read).as_ref() == Ok(&file), "{name}: other bytes from what was read");
        let packed = pack_file(&file).unwrap();
        let (n, per) = (house.marks.len(), if house.nine { 64 } else { 52 });
        assert_eq!(packed.len(), 20 + 24 * n + 33 + per * house.len(), "{name}: packed");
        assert!(unpack_file(&packed).as_ref() == Ok(&file), "{name}: other bytes from what was packed");
        assert!(read_file(&packed).as_ref() == Ok(&house), "{name}: other numbers from what was packed");
        let refusal = if file.len() > 434_120 { Some(Refusal::BadlyFormed) } else { Some(Refusal::TooMany).filter(|_| house.marks.len() > 4096) };
        assert_eq!((judge_file(&file).err(), save_fit(&file).err()), (refusal, refusal), "{name}");
    }
}

#[test]
fn a_mark_more_is_refused() {
    let marks = drawn("traced", MOST_MARKS + 1);
    for fit in [fit_curve, fit_curve_loop, fit_joined, fit_ring, fit_joined_flat, fit_ring_flat] {
        assert_eq!(fit(&marks, 0.5).err(), Some(Refusal::TooMany));
    }
    let ring = fit_ring(&marks[..MOST_MARKS], 0.5).unwrap();
    assert_eq!(ring.check(&marks[..MOST_MARKS], 0.5), Ok(Verdict::Sound));
    assert_eq!(ring.check(&marks, 0.5), Err(Refusal::TooMany));
    let house = House::with_fit(0.5, &marks[..MOST_MARKS], &ring);
    assert_eq!((house.check().err(), write_file(&house).err()), (Some(Refusal::TooMany), Some(Refusal::TooMany)));
}
