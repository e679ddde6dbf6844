//! What only the second engine's fits have: lent room through safe calls, and a small stack.
use crate::common::{list_bits, Kind, Room};
use crate::{wave, ALONG, BACK};
use wesalondo::*;

const KINDS: [Kind; 3] = [Kind::JoinedFlat, Kind::RingFlat, Kind::CubicFlat(ALONG, BACK)];

/// The stack of a thread that a flat fit runs in, in bytes.
const SMALL: usize = 32 << 10;

/// The safe call in lent room.
fn fit_lent<'a>(kind: Kind, marks: &[Point], tolerance: f64, room: &'a mut Room) -> Result<List<'a>, Refusal> {
    let Room { curves, firsts, worsts, params, open, .. } = room;
    let lent = Lent { curves, firsts, worsts, params, open };
    match kind {
        Kind::JoinedFlat => fit_joined_flat_in(marks, tolerance, lent),
        Kind::RingFlat => fit_ring_flat_in(marks, tolerance, lent),
        Kind::CubicFlat(start, end) => fit_curve_cubic_flat_in(marks, start, end, tolerance, lent),
        other => panic!("{other:?} is no flat fit"),
    }
}

/// How many elements there are in a room.
fn wanted_of(room: &Room) -> Wanted {
    Wanted { curves: room.curves.len(), firsts: room.firsts.len(), worsts: room.worsts.len(), params: room.params.len(), open: room.open.len() }
}

#[test]
fn what_is_wanted() {
    for n in [0, 1, 2, 3, 40, 512, 100_000] {
        assert_eq!(Wanted::for_marks(n), wanted_of(&Room::filled(Kind::JoinedFlat, n, 0, 0.0, 0)));
        assert_eq!(Wanted::for_ring(n), wanted_of(&Room::filled(Kind::RingFlat, n, 0, 0.0, 0)));
    }
    assert_eq!(Wanted::for_marks(usize::MAX), Wanted::for_marks(100_000));
    assert_eq!(Wanted::for_ring(usize::MAX), Wanted::for_ring(100_000));
}

#[test]
fn lent_room_gives_what_own_room_gives() {
    for kind in KINDS {
        for (n, more) in [(3, 0), (40, 0), (40, 7), (450, 0)] {
            let marks = wave(n);
            let fit = kind.fit(&marks, 0.01).unwrap();
            let mut room = Room::filled(kind, n, more, f64::NAN, 9);
            let list = fit_lent(kind, &marks, 0.01, &mut room).unwrap();
            assert_eq!(list_bits(&list), list_bits(&fit.list()), "{kind:?} of {n} marks");
            assert!(list.pieces().eq(&fit), "{kind:?} of {n} marks");
            assert_eq!(check(kind.is_ring(), true, &marks, 0.01, &list), Ok(Verdict::Sound), "{kind:?} of {n} marks");
            assert!(room.is_closed(), "{kind:?} leaves no part open");
        }
    }
}

#[test]
fn lent_room_refuses() {
    let cuts: [fn(&mut Room); 5] = [
        |room| room.curves.truncate(room.curves.len() - 1),
        |room| room.firsts.truncate(room.firsts.len() - 1),
        |room| room.worsts.truncate(room.worsts.len() - 1),
        |room| room.params.truncate(room.params.len() - 1),
        |room| room.open.truncate(room.open.len() - 1),
    ];
    let marks = wave(40);
    for kind in KINDS {
        for cut in cuts {
            let mut room = Room::filled(kind, 40, 0, 2.5, 3);
            cut(&mut room);
            let before = room.bits();
            assert_eq!(fit_lent(kind, &marks, 0.5, &mut room).err(), Some(Refusal::NoRoom), "{kind:?}");
            assert_eq!(room.bits(), before, "{kind:?} leaves its room");
        }
        let mut room = Room::filled(kind, 40, 5, 2.5, 3);
        assert_eq!(fit_lent(kind, &[ALONG; 40], 0.5, &mut room).err(), Some(Refusal::NotFinite), "{kind:?}");
        assert!(room.bits().iter().all(|&bits| bits == 0), "{kind:?} leaves zeros");
    }
}

/// A list of nine numbers ends where its shortest slice does.
#[test]
fn pieces_of_a_list() {
    let fit = fit_joined_flat(&wave(300), 0.01).unwrap();
    let (list, k) = (fit.list(), fit.len());
    assert!(k > 3);
    for short in [
        List { count: k - 1, ..list },
        List { curves: &list.curves[..9 * k - 1], ..list },
        List { firsts: &list.firsts[1..], ..list },
        List { worsts: &list.worsts[1..], ..list },
    ] {
        assert_eq!((short.pieces().len(), short.pieces().count()), (k - 1, k - 1));
        assert_eq!((short.get(k - 1), short.get(usize::MAX)), (None, None));
    }
    assert_eq!(List { count: usize::MAX, ..list }.pieces().len(), k);
}

/// A zigzag that slowly shrinks loses one mark at a time: cut as deep as that, the fits of the first engine overflow this stack several times over.
#[test]
fn deep_cuts_on_a_small_stack() {
    let marks: Vec<Point> = std::iter::successors(Some(1e6), |x| Some(-0.998 * x)).map(|x| Point::new(x, 0.0)).take(512).collect();
    for kind in KINDS {
        let deep = marks.clone();
        let thread = std::thread::Builder::new().stack_size(SMALL).spawn(move || kind.fit(&deep, 1e-10));
        let fit = thread.unwrap().join().unwrap().unwrap();
        assert!(fit.len() > marks.len() / 2, "{kind:?}: {} curves", fit.len());
    }
}
