//! All fits under one hand, safe and raw, and room for them.
#![allow(dead_code)] // each program of tests uses a part of it
use wesalondo::*;

/// One of the fits, by the first engine or by the second.
#[derive(Clone, Copy, Debug)]
pub enum Kind {
    Joined,
    Ring,
    Curve,
    Loop,
    Cubic(Point, Point),
    JoinedFlat,
    RingFlat,
    CubicFlat(Point, Point),
}

impl Kind {
    /// The fit in room of its own.
    pub fn fit(self, marks: &[Point], tolerance: f64) -> Result<Fit, Refusal> {
        match self {
            Kind::Joined => fit_joined(marks, tolerance),
            Kind::Ring => fit_ring(marks, tolerance),
            Kind::Curve => fit_curve(marks, tolerance),
            Kind::Loop => fit_curve_loop(marks, tolerance),
            Kind::Cubic(start, end) => fit_curve_cubic(marks, start, end, tolerance),
            Kind::JoinedFlat => fit_joined_flat(marks, tolerance),
            Kind::RingFlat => fit_ring_flat(marks, tolerance),
            Kind::CubicFlat(start, end) => fit_curve_cubic_flat(marks, start, end, tolerance),
        }
    }

    /// The library's own call in lent room.
    pub fn fit_in(self, m: &[f64], tolerance: f64, room: &mut Room) -> u32 {
        let Room { curves: c, firsts: f, worsts: w, params: p, open: o, made } = room;
        let (mp, ml, cl, fl, wl, pl, ol) = (m.as_ptr(), m.len(), c.len(), f.len(), w.len(), p.len(), o.len());
        let (cp, fp, wp, pp, op) = (c.as_mut_ptr(), f.as_mut_ptr(), w.as_mut_ptr(), p.as_mut_ptr(), o.as_mut_ptr());
        // SAFETY: each pointer is to that many elements, all apart.
        let by = |raw: sys::FitCall, made| unsafe { raw(mp, ml, tolerance, cp, cl, fp, fl, wp, wl, pp, pl, made) };
        // SAFETY: as above.
        let flat_by = |raw: sys::FlatFitCall, made| unsafe { raw(mp, ml, tolerance, cp, cl, fp, fl, wp, wl, pp, pl, op, ol, made) };
        match self {
            Kind::Joined => by(sys::wes_fit_joined, made),
            Kind::Ring => by(sys::wes_fit_ring, made),
            Kind::Curve => by(sys::wes_fit_curve, made),
            Kind::Loop => by(sys::wes_fit_curve_loop, made),
            Kind::JoinedFlat => flat_by(sys::wes_fit_joined_flat, made),
            Kind::RingFlat => flat_by(sys::wes_fit_ring_flat, made),
            // SAFETY: as above.
            Kind::Cubic(s, e) => unsafe { sys::wes_fit_curve_cubic(mp, ml, s.x, s.y, e.x, e.y, tolerance, cp, cl, fp, fl, wp, wl, pp, pl, made) },
            // SAFETY: as above.
            Kind::CubicFlat(s, e) => unsafe {
                sys::wes_fit_curve_cubic_flat(mp, ml, s.x, s.y, e.x, e.y, tolerance, cp, cl, fp, fl, wp, wl, pp, pl, op, ol, made)
            },
        }
    }

    /// The same fit by the second engine, if that has it.
    pub fn flat(self) -> Option<Kind> {
        match self {
            Kind::Joined => Some(Kind::JoinedFlat),
            Kind::Ring => Some(Kind::RingFlat),
            Kind::Cubic(start, end) => Some(Kind::CubicFlat(start, end)),
            _ => None,
        }
    }

    /// This fit, and by the second engine if that has it.
    pub fn engines(self) -> impl Iterator<Item = Kind> {
        std::iter::once(self).chain(self.flat())
    }

    /// Whether mark 0 counts again behind the last.
    pub fn is_ring(self) -> bool {
        matches!(self, Kind::Ring | Kind::RingFlat)
    }

    /// Whether it is the second engine's.
    pub fn is_flat(self) -> bool {
        matches!(self, Kind::JoinedFlat | Kind::RingFlat | Kind::CubicFlat(..))
    }

    /// How many marks it takes.
    pub fn most(self) -> usize {
        if let Kind::Cubic(..) | Kind::CubicFlat(..) = self {
            512
        } else {
            100_000
        }
    }
}

/// Room for a raw fit.
#[derive(Clone, Debug)]
pub struct Room {
    pub curves: Vec<f64>,
    pub firsts: Vec<u32>,
    pub worsts: Vec<u32>,
    pub params: Vec<f64>,
    /// Of the second engine alone; else it is empty.
    pub open: Vec<u32>,
    pub made: usize,
}

impl Room {
    /// Just the room that a fit of n marks asks for and `more` places in each slice, all of them filled.
    pub fn filled(kind: Kind, n: usize, more: usize, number: f64, mark: u32) -> Room {
        let counted = n + usize::from(kind.is_ring());
        let most = counted.saturating_sub(1);
        Room {
            curves: vec![number; 9 * most + more],
            firsts: vec![mark; most + more],
            worsts: vec![mark; most + more],
            params: vec![number; counted + more],
            open: vec![mark; if kind.is_flat() { 2 * n + more } else { 0 }],
            made: 7,
        }
    }

    /// All that is in it, in bits.
    pub fn bits(&self) -> Vec<u64> {
        let marks = self.firsts.iter().chain(&self.worsts).chain(&self.open).map(|&mark| u64::from(mark));
        self.curves.iter().chain(&self.params).map(|x| x.to_bits()).chain(marks).collect()
    }

    /// Whether no part is left open.
    pub fn is_closed(&self) -> bool {
        self.open.iter().all(|&mark| mark == 0)
    }
}

/// All that is in a list, in bits.
pub fn list_bits(list: &List<'_>) -> Vec<u64> {
    let marks = list.firsts.iter().chain(list.worsts).map(|&mark| u64::from(mark));
    let counts = [list.count, list.firsts.len(), list.worsts.len(), list.params.len()].map(|count| count as u64);
    counts.into_iter().chain(list.curves.iter().chain(list.params).map(|x| x.to_bits())).chain(marks).collect()
}

/// The coordinates of marks.
pub fn flat(marks: &[Point]) -> Vec<f64> {
    marks.iter().flat_map(|&mark| <[f64; 2]>::from(mark)).collect()
}

/// What is kept of a trace, and what is dropped, by the rule itself.
pub fn sifted(marks: &[Point]) -> (Vec<Point>, Vec<Dropped>) {
    let (mut kept, mut dropped) = (vec![], vec![]);
    for (mark, &point) in marks.iter().enumerate() {
        if !(point.x.abs() <= 1e6 && point.y.abs() <= 1e6) {
            dropped.push(Dropped { mark, cause: Cause::Range });
        } else if kept.last() == Some(&point) {
            dropped.push(Dropped { mark, cause: Cause::Equal });
        } else {
            kept.push(point);
        }
    }
    (kept, dropped)
}

/// The list of what was dropped.
pub fn report(kept: usize, dropped: &[Dropped]) -> String {
    let lines = dropped.iter().map(|d| format!("DROP {} {}\n", d.mark, format!("{:?}", d.cause).to_uppercase()));
    format!("KEPT {kept} DROPPED {}\n{}", dropped.len(), lines.collect::<String>())
}

/// The bytes of a house file of marks alone, whose tolerance has these bits, by the format's own rules.
pub fn marks_file(tolerance: u64, marks: &[Point]) -> Vec<u8> {
    let length = 2 + 16 * marks.len() as u32;
    let head = [&[10, 0, 0, 0, 1, 0][..], &tolerance.to_le_bytes(), &length.to_le_bytes(), &[2, 0]].concat();
    head.into_iter().chain(flat(marks).into_iter().flat_map(f64::to_le_bytes)).collect()
}

/// What `salvage` is to give of a trace.
pub fn salvaged(tolerance: u64, marks: &[Point]) -> Salvaged {
    let (kept, dropped) = sifted(marks);
    Salvaged { file: marks_file(tolerance, &kept), kept: kept.len(), report: report(kept.len(), &dropped), dropped }
}
