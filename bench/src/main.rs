//! Times the functions of flo_curves and those of the port, in one process and on the same outlines, for bench/run.
//! Before anything is timed, every outline is fitted by both, and the curves must be the same bits, and those of the port's second engine all that the first
//! one hands out: an outline where they are not is named on standard error, and the status is 1.
//! A line for each call and outline: call, family, marks, tolerance, curves, nanoseconds a mark of the Rust (`-` where flo_curves has no such call),
//! of the port, and of its second engine (`-` where that has no such call). A line of the family `even` is of all stretches of so many marks, into which one outline is cut. Of the nearest point and the square
//! root it is questions in the place of marks, `-` for the tolerance, and nanoseconds a question.
use flo_curves::bezier::*;
use std::cell::RefCell;
use std::f64::consts::TAU;
use std::hint::black_box;
use std::time::{Duration, Instant};
use wesalondo::sys;

type Plain = Curve<Coord2>;

const SIZES: [usize; 14] = [12, 24, 50, 100, 200, 300, 512, 1000, 2000, 4096, 10_000, 20_000, 50_000, 100_000];
const MOST: usize = 100_000;
const MOST_DIRECT: usize = 512; // that fit_curve_cubic of the port takes
const STRETCHES: [usize; 7] = [1000, 2000, 5000, 10_000, 20_000, 50_000, MOST]; // into which the even outline is cut
const QUESTIONS: usize = 512; // that are asked in turn where one call is too short for the clock
const SEED: u64 = 0x9E37_79B9_7F4A_7C15;

// ---- numbers that look random, the same in every run

struct Dice(u64);
impl Dice {
    /// The next number of an xorshift generator: from 0 to below 1.
    fn roll(&mut self) -> f64 {
        self.0 ^= self.0 << 13;
        self.0 ^= self.0 >> 7;
        self.0 ^= self.0 << 17;
        (self.0 >> 11) as f64 / (1u64 << 53) as f64
    }
    /// From -reach to below reach.
    fn within(&mut self, reach: f64) -> f64 { (2.0 * self.roll() - 1.0) * reach }
    fn near(&mut self, p: Coord2, reach: f64) -> Coord2 { Coord2(p.0 + self.within(reach), p.1 + self.within(reach)) }
}

// ---- outlines, in millimetres

/// A closed Lissajous figure of 800 by 500 mm, whatever the number of marks.
fn smooth(n: usize) -> Vec<Coord2> {
    (0..n).map(|i| TAU * i as f64 / n as f64).map(|a| Coord2(400.0 * a.cos(), 250.0 * (2.0 * a + 0.6).sin())).collect()
}
/// The same as a shaking hand would mark it: each mark is off by up to 0.4 mm each way.
fn noisy(n: usize) -> Vec<Coord2> {
    let mut dice = Dice(SEED);
    smooth(n).into_iter().map(|p| dice.near(p, 0.4)).collect()
}
/// A spiral with 75 marks a turn, so that it grows with its marks.
fn long(n: usize) -> Vec<Coord2> {
    (0..n).map(|i| (20.0 + 0.25 * i as f64, TAU * i as f64 / 75.0)).map(|(r, a)| Coord2(r * a.cos(), r * a.sin())).collect()
}

/// The most marks on a wavy line, 2 mm a mark and 75 marks a wave, each mark off by up to 0.2 mm each way: every stretch is like every other.
fn even() -> Vec<Coord2> {
    let mut dice = Dice(SEED);
    (0..MOST).map(|i| dice.near(Coord2(2.0 * i as f64, 40.0 * (TAU * i as f64 / 75.0).sin()), 0.2)).collect()
}

struct Outline { family: &'static str, tolerance: f64, marks: Vec<Coord2>, numbers: Vec<f64> }

/// A family, how its marks are made, and the tolerances that suit it.
type Family = (&'static str, fn(usize) -> Vec<Coord2>, &'static [f64]);
const FAMILIES: [Family; 3] = [("smooth", smooth, &[0.05, 0.5]), ("noisy", noisy, &[0.1, 0.5, 2.0]), ("long", long, &[0.05, 0.5])];

fn outline(family: &'static str, tolerance: f64, marks: Vec<Coord2>) -> Outline {
    let numbers = marks.iter().flat_map(|p| [p.0, p.1]).collect();
    Outline { family, tolerance, marks, numbers }
}
/// The even outline in stretches of n marks: the same marks for every n, so that what a mark costs can differ only by how many an outline has.
fn stretches(n: usize) -> Vec<Outline> { even().chunks(n).map(|marks| outline("even", 0.5, marks.to_vec())).collect() }
/// What is fitted in a row and timed as one: an outline, or stretches of one.
fn groups() -> Vec<Vec<Outline>> {
    let of_size = |n: usize| FAMILIES.iter().flat_map(move |(name, made, tolerances)| tolerances.iter().map(move |t| vec![outline(name, *t, made(n))]));
    SIZES.iter().flat_map(|n| of_size(*n)).chain(STRETCHES.iter().map(|n| stretches(*n))).collect()
}
/// The unit vectors from the first mark to the second and from the last to the one before, which fit_curve_cubic is given.
fn tangents(p: &[Coord2]) -> (Coord2, Coord2) {
    let last = p.len() - 1;
    ((p[1] - p[0]).to_unit_vector(), (p[last - 1] - p[last]).to_unit_vector())
}

// ---- the port's calls, on slices that are lent once

struct Room { curves: Vec<f64>, firsts: Vec<u32>, worsts: Vec<u32>, params: Vec<f64>, open: Vec<u32>, made: usize }
type Check = unsafe extern "C" fn(
    *const f64, usize, f64, usize, *const f64, usize, *const u32, usize, *const u32, usize, *const f64, usize, *mut usize, *mut usize,
) -> u32;

impl Room {
    /// As much as a ring of n marks asks for, with no zeros among the open parts, so that those that are found there are a call's.
    fn new(n: usize) -> Room {
        Room { curves: vec![0.0; 9 * n], firsts: vec![0; n], worsts: vec![0; n], params: vec![0.0; n + 1], open: vec![7; 2 * n], made: 0 }
    }
    fn fit(&mut self, fit: sys::FitCall, o: &Outline) -> u32 {
        let (curves, firsts, worsts, params) = (&mut self.curves, &mut self.firsts, &mut self.worsts, &mut self.params);
        // every pointer is a vector's own, with its own length
        unsafe {
            fit(
                o.numbers.as_ptr(), o.numbers.len(), o.tolerance, curves.as_mut_ptr(), curves.len(), firsts.as_mut_ptr(), firsts.len(),
                worsts.as_mut_ptr(), worsts.len(), params.as_mut_ptr(), params.len(), &mut self.made,
            )
        }
    }
    fn fit_direct(&mut self, o: &Outline) -> u32 {
        let (curves, firsts, worsts, params) = (&mut self.curves, &mut self.firsts, &mut self.worsts, &mut self.params);
        let (start, end) = tangents(&o.marks);
        unsafe {
            sys::wes_fit_curve_cubic(
                o.numbers.as_ptr(), o.numbers.len(), start.0, start.1, end.0, end.1, o.tolerance, curves.as_mut_ptr(), curves.len(),
                firsts.as_mut_ptr(), firsts.len(), worsts.as_mut_ptr(), worsts.len(), params.as_mut_ptr(), params.len(), &mut self.made,
            )
        }
    }
    fn fit_flat(&mut self, fit: sys::FlatFitCall, o: &Outline) -> u32 {
        let (curves, firsts, worsts, params, open) = (&mut self.curves, &mut self.firsts, &mut self.worsts, &mut self.params, &mut self.open);
        unsafe {
            fit(
                o.numbers.as_ptr(), o.numbers.len(), o.tolerance, curves.as_mut_ptr(), curves.len(), firsts.as_mut_ptr(), firsts.len(),
                worsts.as_mut_ptr(), worsts.len(), params.as_mut_ptr(), params.len(), open.as_mut_ptr(), open.len(), &mut self.made,
            )
        }
    }
    fn fit_direct_flat(&mut self, o: &Outline) -> u32 {
        let (curves, firsts, worsts, params, open) = (&mut self.curves, &mut self.firsts, &mut self.worsts, &mut self.params, &mut self.open);
        let (start, end) = tangents(&o.marks);
        unsafe {
            sys::wes_fit_curve_cubic_flat(
                o.numbers.as_ptr(), o.numbers.len(), start.0, start.1, end.0, end.1, o.tolerance, curves.as_mut_ptr(), curves.len(),
                firsts.as_mut_ptr(), firsts.len(), worsts.as_mut_ptr(), worsts.len(), params.as_mut_ptr(), params.len(),
                open.as_mut_ptr(), open.len(), &mut self.made,
            )
        }
    }
    /// Judges the list that the last fit has left here.
    fn check(&self, check: Check, o: &Outline) -> u32 {
        let (mut curve, mut mark) = (0, 0);
        unsafe {
            check(
                o.numbers.as_ptr(), o.numbers.len(), o.tolerance, self.made, self.curves.as_ptr(), self.curves.len(), self.firsts.as_ptr(),
                self.firsts.len(), self.worsts.as_ptr(), self.worsts.len(), self.params.as_ptr(), self.params.len(), &mut curve, &mut mark,
            )
        }
    }
}

// ---- what is compared

type Port = fn(&Outline, &mut Room) -> u32;
type Rust = fn(&Outline) -> Vec<Plain>;
/// Against what an answer of the port is held before it is timed: the Rust's curves, or the list checker.
enum Held { Same(Rust), Sound(Port) }
/// A call of the port, and the same by its second engine, which keeps open parts in a slice, if that has it.
struct Call { name: &'static str, most: usize, before: Option<Port>, port: Port, flat: Option<Port>, held: Held }

const JOINED: Port = |o, room| room.fit(sys::wes_fit_joined, o);
const JOINED_FLAT: Port = |o, room| room.fit_flat(sys::wes_fit_joined_flat, o);
const RING_FLAT: Port = |o, room| room.fit_flat(sys::wes_fit_ring_flat, o);
const DIRECT_FLAT: Port = |o, room| room.fit_direct_flat(o);
const CHECKED: Port = |o, room| room.check(sys::wes_check_worst, o);
const CHECKED_RING: Port = |o, room| room.check(sys::wes_check_worst_ring, o);

fn rust_direct(o: &Outline) -> Vec<Plain> {
    let (start, end) = tangents(&o.marks);
    fit_curve_cubic(&o.marks, &start, &end, o.tolerance)
}
fn calls() -> [Call; 6] {
    let both = |name, most, port, flat, rust| Call { name, most, before: None, port, flat, held: Held::Same(rust) };
    let alone = |name, before, port, flat, check| Call { name, most: MOST, before, port, flat, held: Held::Sound(check) };
    let by_the_loop: Rust = |o| fit_curve_loop(&o.marks, o.tolerance).expect("two marks");
    [
        both("fit_curve", MOST, |o, room| room.fit(sys::wes_fit_curve, o), None, |o| fit_curve(&o.marks, o.tolerance).expect("two marks")),
        both("fit_curve_loop", MOST, |o, room| room.fit(sys::wes_fit_curve_loop, o), None, by_the_loop),
        both("fit_curve_cubic", MOST_DIRECT, |o, room| room.fit_direct(o), Some(DIRECT_FLAT), rust_direct),
        alone("fit_joined", None, JOINED, Some(JOINED_FLAT), CHECKED),
        alone("fit_ring", None, |o, room| room.fit(sys::wes_fit_ring, o), Some(RING_FLAT), CHECKED_RING),
        alone("check_worst", Some(JOINED), CHECKED, None, CHECKED),
    ]
}

fn eight(c: &Plain) -> [f64; 8] {
    let (s, (a, b), e) = c.all_points();
    [s.0, s.1, a.0, a.1, b.0, b.1, e.0, e.1]
}
fn same_bits(a: &[f64], b: &[f64]) -> bool { a.len() == b.len() && a.iter().zip(b).all(|(x, y)| x.to_bits() == y.to_bits()) }
fn same_curves(rust: &[Plain], room: &Room) -> bool {
    rust.len() == room.made && rust.iter().zip(room.curves.chunks(9)).all(|(c, numbers)| same_bits(&eight(c), &numbers[..8]))
}
/// Puts into the room what a call reads there.
fn prepare(call: &Call, o: &Outline, room: &mut Room) -> bool { call.before.map_or(0, |before| before(o, room)) == 0 }
/// Whether the second engine leaves what the first has left, the places behind the list among it, and no part open.
fn same_room(first: &Room, second: &Room) -> bool {
    let numbers = same_bits(&first.curves, &second.curves) && same_bits(&first.params, &second.params);
    let marks = first.made == second.made && first.firsts == second.firsts && first.worsts == second.worsts;
    numbers && marks && second.open.iter().all(|mark| *mark == 0)
}
/// Whether the port takes an outline and its answer is the Rust's, or passes the list checker, and is that of its second engine.
fn holds(call: &Call, o: &Outline) -> bool {
    let (mut room, mut other) = (Room::new(o.marks.len()), Room::new(o.marks.len()));
    let taken = prepare(call, o, &mut room) && (call.port)(o, &mut room) == 0;
    let right = taken && match &call.held { Held::Same(rust) => same_curves(&rust(o), &room), Held::Sound(check) => check(o, &mut room) == 0 };
    right && call.flat.map_or(true, |flat| flat(o, &mut other) == 0 && same_room(&room, &other))
}

// ---- timing

const BATCH: Duration = Duration::from_millis(4); // how long the clock runs at least: short, so that some batch is not interrupted
const ROUNDS: usize = 5;
const PASSES: usize = 5; // over everything, so that a spell in which the machine is slow falls on one of the five times that a call is timed

/// Nanoseconds of one call, by so many in a row.
fn batch(side: &mut dyn FnMut(), times: u32) -> f64 {
    let start = Instant::now();
    for _ in 0..times { side(); }
    start.elapsed().as_nanos() as f64 / f64::from(times)
}
/// How many calls in a row are long enough for the clock.
fn enough(side: &mut dyn FnMut()) -> u32 {
    let longest = BATCH.as_nanos() as f64;
    let mut times = 1;
    while batch(side, times) * f64::from(times) < longest { times *= 2; }
    times
}
/// Something of each side: the Rust, the port, and the port's second engine; or none where it has no such call.
type Sides<T> = [Option<T>; 3];

/// The least nanoseconds of a call of each side, all sides by turns, another one first in each round.
fn least(mut sides: Sides<&mut dyn FnMut()>) -> Sides<f64> {
    let times = sides.each_mut().map(|side| side.as_mut().map(|side| enough(side)));
    let mut found = [None; 3];
    for round in 0..ROUNDS {
        for turn in 0..sides.len() {
            let k = (round + turn) % sides.len();
            if let (Some(side), Some(times)) = (&mut sides[k], times[k]) { found[k] = lesser(found[k], Some(batch(side, times))); }
        }
    }
    found
}
/// The lesser of two durations, or the one that there is.
fn lesser(before: Option<f64>, now: Option<f64>) -> Option<f64> { before.into_iter().chain(now).reduce(f64::min) }

/// What is timed: a call on outlines of the same length in a row, or so many questions in a row.
enum Item<'a> { Fit(&'a Call, &'a [Outline]), Nearest(&'a str, &'a [Question]), Roots(&'a str, Timed, &'a [f64]) }

impl Item<'_> {
    /// The least nanoseconds of each side; and how many curves there are.
    fn time(&self) -> (Sides<f64>, usize) {
        match self {
            Item::Fit(call, outlines) => time_call(call, outlines),
            Item::Nearest(_, asked) => (time_nearest(asked), 0),
            Item::Roots(_, timed, numbers) => (timed(numbers), 0),
        }
    }
    /// Call, family, marks of an outline or questions, and tolerance; and by how many the nanoseconds are divided.
    fn told(&self) -> (String, usize) {
        match self {
            Item::Fit(call, outlines) => {
                let (first, all) = (&outlines[0], outlines.iter().map(|o| o.marks.len()).sum());
                (format!("{} {} {} {}", call.name, first.family, first.marks.len(), first.tolerance), all)
            }
            Item::Nearest(family, asked) => (format!("nearest_point_on_curve {} {} -", family, asked.len()), asked.len()),
            Item::Roots(family, _, numbers) => (format!("sqrt {} {} -", family, numbers.len()), numbers.len()),
        }
    }
}

/// Each outline has room of its own, in which the checker finds its list. Both engines write to the same room, so that where it lies counts for neither.
fn time_call(call: &Call, outlines: &[Outline]) -> (Sides<f64>, usize) {
    let mut rooms: Vec<(&Outline, Room)> = outlines.iter().map(|o| (o, Room::new(o.marks.len()))).collect();
    for (o, room) in &mut rooms { assert!(prepare(call, o, room), "it was taken before"); }
    let rooms = RefCell::new(rooms);
    let run = |port: Port| for (o, room) in black_box(&mut *rooms.borrow_mut()) { black_box(port(o, room)); };
    let rust = match call.held { Held::Same(rust) => Some(rust), Held::Sound(_) => None };
    let mut by_rust = rust.map(|rust| move || for o in black_box(outlines) { black_box(rust(o)); });
    let mut by_flat = call.flat.map(|flat| move || run(flat));
    let found = least([by_rust.as_mut().map(|side| side as _), Some(&mut || run(call.port)), by_flat.as_mut().map(|side| side as _)]);
    let curves = rooms.borrow().iter().map(|(_, room)| room.made).sum();
    (found, curves)
}

/// Times every item PASSES times, and prints it with the least of them in the last pass.
fn time_all(items: &[Item]) {
    let mut least = vec![[None; 3]; items.len()];
    for pass in 1..=PASSES {
        for (item, best) in items.iter().zip(&mut least) {
            let (found, curves) = item.time();
            for (best, now) in best.iter_mut().zip(found) { *best = lesser(*best, now); }
            if pass == PASSES {
                let (told, count) = item.told();
                let each = best.map(|side| side.map_or("-".to_owned(), |ns| format!("{:.3}", ns / count as f64)));
                println!("{} {} {}", told, curves, each.join(" "));
            }
        }
    }
}

// ---- the nearest point

struct Question { curve: Plain, numbers: [f64; 8], point: Coord2 }

/// Curves of a fit, in turn, and for each a point that `place` puts somewhere.
fn questions(place: fn(&mut Dice, &Plain) -> Coord2) -> Vec<Question> {
    let mut dice = Dice(SEED);
    let curves: Vec<Plain> = fit_curve(&noisy(200), 0.5).expect("two marks");
    let asked = |curve: Plain| Question { numbers: eight(&curve), point: place(&mut dice, &curve), curve };
    curves.into_iter().cycle().take(QUESTIONS).map(asked).collect()
}
fn beside(dice: &mut Dice, curve: &Plain) -> Coord2 {
    let t = dice.roll();
    dice.near(curve.point_at_pos(t), 2.0)
}
fn anywhere(dice: &mut Dice, _: &Plain) -> Coord2 { dice.near(Coord2::origin(), 600.0) }
/// The port's parameter and squared distance.
fn port_nearest(q: &Question) -> Option<(f64, f64)> {
    let (mut t, mut square) = (0.0, 0.0);
    let said = unsafe { sys::wes_nearest_point_on_curve(&q.numbers, q.point.0, q.point.1, &mut t, &mut square) };
    Some((t, square)).filter(|_| said == 0)
}
/// The port claims no equal bits here: its point must not be farther off than the Rust's, but for noise (compare/rules.txt).
fn near_enough(q: &Question) -> bool {
    let far = Coordinate::distance_to(&q.curve.point_at_pos(nearest_point_on_curve(&q.curve, &q.point)), &q.point);
    port_nearest(q).is_some_and(|(_, square)| square.sqrt() <= far + 1e-9)
}
fn time_nearest(asked: &[Question]) -> Sides<f64> {
    let mut rust = || for q in asked { black_box(nearest_point_on_curve(black_box(&q.curve), black_box(&q.point))); };
    let mut port = || for q in asked { black_box(port_nearest(black_box(q))); };
    least([Some(&mut rust), Some(&mut port), None])
}

// ---- the square root

fn port_root(x: f64) -> f64 { unsafe { sys::wes_sqrt(x) } }
/// Squares of distances from a thousandth of a millimetre to a kilometre.
fn squares() -> Vec<f64> {
    let mut dice = Dice(SEED);
    (0..QUESTIONS).map(|_| 10.0f64.powf(-6.0 + 18.0 * dice.roll())).collect()
}
/// How roots are timed: the least nanoseconds of all of them, by the Rust and by the port.
type Timed = fn(&[f64]) -> Sides<f64>;
const ROOTS: [(&str, Timed); 2] = [("apart", time_apart), ("chained", time_chained)];

/// Each of a number of its own, so that the next one is begun before this one is done. The numbers are hidden from the compiler as a slice: hidden
/// one by one, each goes through memory, which was seen to take the port's calls two to three times as long and the Rust's instruction hardly longer.
fn time_apart(numbers: &[f64]) -> Sides<f64> {
    let mut rust = || for x in black_box(numbers) { black_box(x.sqrt()); };
    let mut port = || for x in black_box(numbers) { black_box(port_root(*x)); };
    least([Some(&mut rust), Some(&mut port), None])
}
/// Each of a number that the one before is added to, so that it has to wait.
fn time_chained(numbers: &[f64]) -> Sides<f64> {
    let mut rust = || { black_box(black_box(numbers).iter().fold(0.0, |root: f64, x| (x + root).sqrt())); };
    let mut port = || { black_box(black_box(numbers).iter().fold(0.0, |root, x| port_root(x + root))); };
    least([Some(&mut rust), Some(&mut port), None])
}

/// Ends with status 1 where anything that is to be timed is not held to be right, and names it.
fn hold_all(calls: &[Call], groups: &[Vec<Outline>], nearest: &[(&str, Vec<Question>)], roots: &[f64]) {
    let mut unlike = vec![];
    for call in calls {
        for o in groups.iter().flatten().filter(|o| o.marks.len() <= call.most) {
            if !holds(call, o) { unlike.push(format!("{} {} {} {}", call.name, o.family, o.marks.len(), o.tolerance)); }
        }
    }
    for (family, asked) in nearest {
        let farther = asked.iter().enumerate().filter(|(_, q)| !near_enough(q));
        unlike.extend(farther.map(|(i, _)| format!("nearest_point_on_curve {} question {}", family, i)));
    }
    unlike.extend(roots.iter().filter(|x| !same_bits(&[x.sqrt()], &[port_root(**x)])).map(|x| format!("sqrt {:e}", x)));
    for name in &unlike { eprintln!("the Rust and the port, or its two engines, are unlike: {}", name); }
    if !unlike.is_empty() { std::process::exit(1); }
}

fn main() {
    let (calls, groups, roots) = (calls(), groups(), squares());
    let nearest = [("beside", questions(beside)), ("anywhere", questions(anywhere))];
    hold_all(&calls, &groups, &nearest, &roots);
    let taken = |call: &'_ Call, group: &[Outline]| group[0].marks.len() <= call.most;
    let fits = calls.iter().flat_map(|call| groups.iter().filter(|group| taken(call, group)).map(move |group| Item::Fit(call, group)));
    let nearest_items = nearest.iter().map(|(family, asked)| Item::Nearest(family, asked));
    let root_items = ROOTS.iter().map(|(family, timed)| Item::Roots(family, *timed, &roots));
    time_all(&fits.chain(nearest_items).chain(root_items).collect::<Vec<_>>());
}
