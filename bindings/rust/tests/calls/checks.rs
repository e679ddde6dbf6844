//! The checkers.
use crate::common::flat;
use crate::{wave, OUT};
use wesalondo::*;

type Check = fn(&[Point], f64, &List<'_>) -> Result<Verdict, Refusal>;

/// A list of its own, to be changed.
#[derive(Clone)]
struct Own {
    ring: bool,
    nine: bool,
    marks: Vec<f64>,
    tolerance: f64,
    count: usize,
    curves: Vec<f64>,
    firsts: Vec<u32>,
    worsts: Vec<u32>,
    params: Vec<f64>,
}

impl Own {
    /// A sound list.
    fn sound(ring: bool, nine: bool) -> Own {
        let marks = wave(60);
        let fit = if ring { fit_ring(&marks, 0.05) } else { fit_joined(&marks, 0.05) }.unwrap();
        assert!(fit.len() > 3, "enough curves to change one");
        let List { count, curves, firsts, worsts, params } = fit.list();
        let curves = curves.chunks(9).flat_map(|record| &record[..if nine { 9 } else { 8 }]).copied().collect();
        let worsts = if nine { worsts.to_vec() } else { vec![] };
        Own { ring, nine, marks: flat(&marks), tolerance: 0.05, count, curves, firsts: firsts.to_vec(), worsts, params: params.to_vec() }
    }

    fn width(&self) -> usize {
        if self.nine {
            9
        } else {
            8
        }
    }

    fn safe(&self) -> Result<Verdict, Refusal> {
        let marks: Vec<Point> = self.marks.chunks_exact(2).map(|pair| Point::new(pair[0], pair[1])).collect();
        let list = List { count: self.count, curves: &self.curves, firsts: &self.firsts, worsts: &self.worsts, params: &self.params };
        let named: Check = match (self.ring, self.nine) {
            (false, true) => check_worst,
            (true, true) => check_worst_ring,
            (false, false) => check_list,
            (true, false) => check_ring,
        };
        let verdict = named(&marks, self.tolerance, &list);
        assert_eq!(check(self.ring, self.nine, &marks, self.tolerance, &list), verdict);
        verdict
    }

    /// The library's own calls, the one for such a list and the general one.
    fn raw(&self) -> (u32, usize, usize) {
        let Own { ring, nine, marks: m, tolerance, count, curves: c, firsts: f, worsts: w, params: p } = self;
        let (mp, ml, cp, cl, fp, fl) = (m.as_ptr(), m.len(), c.as_ptr(), c.len(), f.as_ptr(), f.len());
        let (wp, wl, pp, pl, tolerance, count) = (w.as_ptr(), w.len(), p.as_ptr(), p.len(), *tolerance, *count);
        let (mut curve, mut mark, mut curve_2, mut mark_2) = (7, 7, 7, 7);
        let (at, on) = (&mut curve, &mut mark);
        // SAFETY: each pointer is to that many elements, all apart.
        let (answer, general) = unsafe {
            let answer = match (ring, nine) {
                (false, true) => sys::wes_check_worst(mp, ml, tolerance, count, cp, cl, fp, fl, wp, wl, pp, pl, at, on),
                (true, true) => sys::wes_check_worst_ring(mp, ml, tolerance, count, cp, cl, fp, fl, wp, wl, pp, pl, at, on),
                (false, false) => sys::wes_check_list(mp, ml, tolerance, count, cp, cl, fp, fl, pp, pl, at, on),
                (true, false) => sys::wes_check_ring(mp, ml, tolerance, count, cp, cl, fp, fl, pp, pl, at, on),
            };
            (answer, sys::wes_check(*ring, *nine, mp, ml, tolerance, count, cp, cl, fp, fl, wp, wl, pp, pl, &mut curve_2, &mut mark_2))
        };
        assert_eq!((answer, curve, mark), (general, curve_2, mark_2));
        (answer, curve, mark)
    }

    fn changed(&self, change: impl FnOnce(&mut Own)) -> Own {
        let mut other = self.clone();
        change(&mut other);
        other
    }

    fn is_faulty(&self, kind: FaultKind, curve: usize, mark: usize) {
        assert_eq!(self.safe(), Ok(Verdict::Faulty(Fault { kind, curve, mark })));
        assert_eq!(self.raw(), (kind.letter().into(), curve, mark));
    }

    fn is_refused(&self, refusal: Refusal) {
        assert_eq!(self.safe(), Err(refusal));
        assert_eq!(self.raw(), (refusal.number(), 0, 0), "a refusal has no place");
    }
}

fn lists() -> [Own; 4] {
    [(false, true), (true, true), (false, false), (true, false)].map(|(ring, nine)| Own::sound(ring, nine))
}

#[test]
fn sound_lists_pass() {
    for own in lists() {
        assert_eq!(own.safe(), Ok(Verdict::Sound));
        assert_eq!(own.raw(), (0, 0, 0));
        let longer = own.changed(|own| own.curves.extend([f64::NAN; 20]));
        assert_eq!(longer.safe(), Ok(Verdict::Sound), "what is behind the list is not looked at");
    }
}

#[test]
fn each_fault_is_found() {
    for own in lists() {
        let (width, second) = (own.width(), own.firsts[1] as usize);
        own.changed(|own| own.count = 0).is_faulty(FaultKind::A, 0, 0);
        own.changed(|own| own.firsts[2] = own.firsts[1]).is_faulty(FaultKind::A, 2, 0);
        own.changed(|own| own.curves[width + 1] += 1e-9).is_faulty(FaultKind::B, 1, second);
        own.changed(|own| own.params[second] = 0.5).is_faulty(FaultKind::C, 1, second);
        own.changed(|own| own.params[second + 1] = f64::NAN).is_faulty(FaultKind::C, 1, second + 1);
        own.changed(|own| own.params[second + 1] = 1.0).is_faulty(FaultKind::D, 1, second + 1);
        if own.nine {
            own.changed(|own| own.curves[width + 8] *= 2.0).is_faulty(FaultKind::E, 1, second);
            own.changed(|own| own.worsts[1] += 1).is_faulty(FaultKind::E, 1, second);
        }
    }
}

#[test]
fn lists_are_refused() {
    for own in lists() {
        let few = if own.ring { 4 } else { 2 };
        own.changed(|own| own.marks.clear()).is_refused(Refusal::TooFew);
        own.changed(|own| own.marks.truncate(few)).is_refused(Refusal::TooFew);
        own.changed(|own| own.marks = flat(&wave(100_001))).is_refused(Refusal::TooMany);
        own.changed(|own| own.curves.truncate(own.width() * own.count - 1)).is_refused(Refusal::NoRoom);
        own.changed(|own| own.firsts.truncate(own.count - 1)).is_refused(Refusal::NoRoom);
        own.changed(|own| own.params.truncate(own.params.len() - 1)).is_refused(Refusal::NoRoom);
        own.changed(|own| own.count += 1).is_refused(Refusal::NoRoom);
        own.changed(|own| own.count = usize::MAX).is_refused(Refusal::NoRoom);
        if own.nine {
            own.changed(|own| own.worsts.truncate(own.count - 1)).is_refused(Refusal::NoRoom);
        }
        for bad in OUT {
            own.changed(|own| own.marks[33] = bad).is_refused(Refusal::OutOfRange);
        }
        for tolerance in [f64::NAN, f64::INFINITY, -1.0] {
            own.changed(|own| own.tolerance = tolerance).is_refused(Refusal::OutOfRange);
        }
        let odd = own.changed(|own| own.marks.truncate(119));
        assert_eq!(odd.raw(), (3, 0, 0), "half a mark can't be said in points");
    }
}
