//! Random outlines: what is fitted passes the checkers, what is damaged does not, and nothing depends on what was in the room or on other threads. And random traces,
//! cleaned.
mod common;

use common::{flat, list_bits, marks_file, salvaged, Kind, Room};
use wesalondo::*;

/// Marsaglia's xorshift.
struct Random(u64);

impl Random {
    fn next(&mut self) -> u64 {
        self.0 ^= self.0 << 13;
        self.0 ^= self.0 >> 7;
        self.0 ^= self.0 << 17;
        self.0
    }

    fn below(&mut self, n: usize) -> usize {
        (self.next() >> 11) as usize % n
    }

    /// From 0 up to 1.
    fn unit(&mut self) -> f64 {
        (self.next() >> 11) as f64 / (1u64 << 53) as f64
    }

    /// From -1 up to 1.
    fn sign(&mut self) -> f64 {
        2.0 * self.unit() - 1.0
    }

    fn tangent(&mut self) -> Point {
        let (y, x) = (6.3 * self.unit()).sin_cos();
        Point::new(x, y)
    }
}

/// An outline with the tolerance to fit it by.
fn outline(random: &mut Random, n: usize) -> (Vec<Point>, f64) {
    let (a, b, c, d) = (random.unit() * 8.0, random.unit() * 8.0, random.sign(), random.sign());
    let mut marks: Vec<Point> = (0..n)
        .map(|i| i as f64 / n as f64)
        .map(|s| Point::new(300.0 * s + 100.0 * (a * s).sin() + 50.0 * c, 150.0 * (b * s).cos() + 70.0 * d * s))
        .collect();
    match random.below(6) {
        0 => {}
        1 => marks.iter_mut().for_each(|p| *p = Point::new(p.x + random.sign(), p.y + random.sign())),
        2 => {
            // Folded: the second half goes back over the first.
            for i in n / 2..n {
                marks[i] = marks[n - 1 - i];
            }
        }
        3 => {
            // At rest now and then.
            for i in 1..n {
                if random.below(5) == 0 {
                    marks[i] = marks[i - 1];
                }
            }
        }
        4 => marks.iter_mut().for_each(|p| *p = Point::new(random.sign() * 400.0, random.sign() * 400.0)),
        _ => marks.iter_mut().for_each(|p| *p = Point::new((p.x * 2.0).round() / 2.0, -0.0 * p.y)),
    }
    let scale = [1.0, 1.0, 1.0, 1e-9, 1e-150, 1e-306, 1500.0][random.below(7)];
    marks.iter_mut().for_each(|p| *p = Point::new(p.x * scale, p.y * scale));
    let tolerance = scale * [0.0, 1e-6, 0.1, 1.0, 5.0, 1000.0][random.below(6)];
    (marks, tolerance)
}

/// From 2 to 600 marks, short outlines as often as long ones.
fn length(random: &mut Random) -> usize {
    if random.below(2) == 0 {
        2 + random.below(30)
    } else {
        2 + random.below(599)
    }
}

fn kinds(random: &mut Random) -> [Kind; 3] {
    [Kind::Joined, Kind::Ring, Kind::Cubic(random.tangent(), random.tangent())]
}

/// Changes one number of a list so that it is sound no more, and says which fault that is, and of which curve.
fn damage(random: &mut Random, house: &mut House) -> (FaultKind, usize) {
    let j = random.below(house.len());
    match random.below(7) {
        0 => {
            house.curves[9 * j + random.below(8)] = [f64::NAN, f64::INFINITY][random.below(2)];
            (FaultKind::B, j)
        }
        1 => {
            let end = &mut house.curves[9 * j + [0, 1, 6, 7][random.below(4)]];
            *end = f64::from_bits(end.to_bits() ^ 1);
            (FaultKind::B, j)
        }
        2 => {
            let distance = &mut house.curves[9 * j + 8];
            *distance = f64::from_bits(distance.to_bits() ^ 1);
            (FaultKind::E, j)
        }
        3 => {
            house.worsts[j] ^= 1 << random.below(32);
            (FaultKind::E, j)
        }
        4 => {
            house.firsts[j] = [house.marks.len() as u32, u32::MAX][random.below(2)];
            (FaultKind::A, j)
        }
        5 => {
            house.params[house.firsts[j] as usize] = [0.5, 1.0, f64::NAN][random.below(3)];
            (FaultKind::C, j)
        }
        _ => {
            *house.params.last_mut().unwrap() = [0.0, 0.5, f64::NAN][random.below(3)];
            (FaultKind::C, house.len() - 1)
        }
    }
}

/// Fits an outline in all ways, and looks at what comes of it: how many were accepted, and how many refused.
fn try_outline(random: &mut Random, n: usize) -> (usize, usize) {
    let (marks, tolerance) = outline(random, n);
    let (mut accepted, mut refused) = (0, 0);
    for kind in kinds(random) {
        let least = if kind.is_ring() { 3 } else { 2 };
        let most = kind.most();
        let answer = kind.fit(&marks, tolerance);
        let by_second = kind.flat().expect("the second engine has it").fit(&marks, tolerance);
        let bits = |answer: &Result<Fit, Refusal>| answer.as_ref().map(|fit| (fit.is_ring(), list_bits(&fit.list()))).map_err(|refusal| *refusal);
        assert!(bits(&answer) == bits(&by_second), "{kind:?} of {n} marks by the two engines: {answer:?} and {by_second:?}");
        match answer {
            Ok(fit) => {
                accepted += 1;
                assert!((least..=most).contains(&n), "{kind:?} takes {n} marks");
                assert_eq!(fit.check(&marks, tolerance), Ok(Verdict::Sound), "{kind:?} of {n} marks");
                // The marks of a ring stand in a house with mark 0 again, and its list is sound there too.
                let mut house = House::with_fit(tolerance, &marks, &fit);
                assert_eq!(house.check(), Ok(Verdict::Sound), "{kind:?} of {n} marks, in a house");
                let (fault, curve) = damage(random, &mut house);
                let found = check(kind.is_ring(), true, &marks, tolerance, &house.list()).map(|verdict| verdict.fault());
                assert_eq!(found.map(|found| found.map(|f| (f.kind, f.curve))), Ok(Some((fault, curve))), "{kind:?} of {n} marks, damaged");
            }
            Err(Refusal::TooFew) => assert!(n < least, "{n} marks are too few for {kind:?}"),
            Err(Refusal::TooMany) => assert!(n > most, "{n} marks are too many for {kind:?}"),
            Err(refusal) => {
                refused += 1;
                assert_eq!(refusal, Refusal::NotFinite, "{kind:?} of {n} marks in range");
            }
        }
    }
    (accepted, refused)
}

#[test]
fn fits_pass_and_damaged_lists_do_not() {
    let mut random = Random(0x5EED_0001);
    let (mut accepted, mut refused) = (0, 0);
    for i in 0..3000 {
        let n = if i % 300 == 299 { 10_000 } else { length(&mut random) };
        let (more, fewer) = try_outline(&mut random, n);
        accepted += more;
        refused += fewer;
    }
    assert!(accepted > 5000 && refused > 100, "{accepted} accepted, {refused} refused");
}

#[test]
fn what_was_in_the_room_does_not_matter() {
    let mut random = Random(0x5EED_0002);
    for _ in 0..500 {
        let n = length(&mut random);
        let (marks, tolerance) = outline(&mut random, n);
        for kind in kinds(&mut random).into_iter().chain([Kind::Curve, Kind::Loop]) {
            let safe = kind.fit(&marks, tolerance);
            for (engine, number, mark) in kind.engines().flat_map(|engine| [(engine, f64::NAN, u32::MAX), (engine, -1.5, 3)]) {
                let mut room = Room::filled(engine, n, 5, number, mark);
                let before = room.bits();
                let answer = engine.fit_in(&flat(&marks), tolerance, &mut room);
                match &safe {
                    Ok(fit) => same_fit(fit, answer, &room, number, mark),
                    Err(Refusal::NotFinite) => {
                        assert_eq!((answer, room.made), (6, 0));
                        assert!(room.bits().iter().all(|&bits| bits == 0), "6 leaves zeros");
                    }
                    Err(refusal) => {
                        assert_eq!((answer, room.made), (refusal.number(), 0));
                        assert_eq!(room.bits(), before, "{refusal} leaves the room as it was");
                    }
                }
            }
        }
    }
}

/// That a raw fit is this one, with the places behind it as they were.
fn same_fit(fit: &Fit, answer: u32, room: &Room, number: f64, mark: u32) {
    let list = fit.list();
    let same = |ours: &[f64], theirs: &[f64]| ours.iter().zip(theirs).all(|(a, b)| a.to_bits() == b.to_bits());
    assert_eq!((answer, room.made), (0, fit.len()));
    assert!(same(list.curves, &room.curves) && same(list.params, &room.params));
    assert_eq!((list.firsts, list.worsts), (&room.firsts[..fit.len()], &room.worsts[..fit.len()]));
    assert!(room.curves[list.curves.len()..].iter().chain(&room.params[list.params.len()..]).all(|x| x.to_bits() == number.to_bits()));
    assert!(room.firsts[fit.len()..].iter().chain(&room.worsts[fit.len()..]).all(|&place| place == mark));
    assert!(room.is_closed(), "a part is left open");
}

#[test]
fn threads_give_what_one_gives() {
    let mut random = Random(0x5EED_0003);
    let cases: Vec<_> = (0..60).map(|i| outline(&mut random, if i % 20 == 19 { 4096 } else { 2 + i * 9 })).collect();
    let fit_all = || cases.iter().map(|(marks, tolerance)| (fit_joined(marks, *tolerance), fit_ring(marks, *tolerance))).collect::<Vec<_>>();
    let alone = fit_all();
    std::thread::scope(|scope| {
        let threads: Vec<_> = (0..4).map(|_| scope.spawn(fit_all)).collect();
        for thread in threads {
            assert!(thread.join().unwrap() == alone, "a thread's fits differ");
        }
    });
}

/// A number of a shaky trace: one of few, so that marks are equal now and then, at times one that is out of range or near to it, at times any bits.
fn shaky(random: &mut Random) -> f64 {
    let odd = [f64::NAN, f64::INFINITY, -1e300, 1e6, -1e6, 1_000_000.000_000_000_1, 5e-324, f64::from_bits(0x7FF0_0000_0000_0123)];
    match random.below(24) {
        0 | 1 => odd[random.below(odd.len())],
        2 => f64::from_bits(random.next()),
        _ => [0.0, -0.0, 1.5, -2.0][random.below(4)],
    }
}

#[test]
fn random_traces_are_cleaned() {
    let mut random = Random(0x5EED_0004);
    let (mut kept, mut range, mut equal) = (0, 0, 0);
    for _ in 0..5000 {
        let marks: Vec<Point> = (0..random.below(50)).map(|_| Point::new(shaky(&mut random), shaky(&mut random))).collect();
        let tolerance = random.next();
        let expected = salvaged(tolerance, &marks);
        assert_eq!(salvage(&marks_file(tolerance, &marks)).as_ref(), Ok(&expected), "{marks:?}");
        assert_eq!(salvage(&expected.file).map(|again| (again.file, again.dropped)).as_ref(), Ok(&(expected.file, vec![])), "{marks:?}, again");
        kept += expected.kept;
        range += expected.dropped.iter().filter(|dropped| dropped.cause == Cause::Range).count();
        equal += expected.dropped.iter().filter(|dropped| dropped.cause == Cause::Equal).count();
    }
    assert!(kept > 50_000 && range > 10_000 && equal > 5_000, "{kept} kept, {range} out of range, {equal} equal");
}
