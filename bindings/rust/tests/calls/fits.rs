//! The fits, by both engines.
use crate::common::{flat, Kind, Room};
use crate::{wave, ALONG, BACK, OUT};
use wesalondo::*;

const KINDS: [Kind; 8] =
    [Kind::Joined, Kind::Ring, Kind::Curve, Kind::Loop, Kind::Cubic(ALONG, BACK), Kind::JoinedFlat, Kind::RingFlat, Kind::CubicFlat(ALONG, BACK)];

/// The refusal of a raw fit, in room for `n` marks that `cut` may have made shorter; what it leaves behind is looked at.
fn refused(kind: Kind, numbers: &[f64], tolerance: f64, cut: impl Fn(&mut Room)) -> u32 {
    let mut room = Room::filled(kind, numbers.len() / 2, 0, 2.5, 3);
    cut(&mut room);
    let before = room.bits();
    let answer = kind.fit_in(numbers, tolerance, &mut room);
    assert_eq!(room.made, 0, "{kind:?} refuses by {answer} and has made nothing");
    match answer {
        6 => assert!(room.bits().iter().all(|&bits| bits == 0), "{kind:?} refuses by 6 and leaves zeros"),
        _ => assert!(room.bits() == before, "{kind:?} refuses by {answer} and leaves its room"),
    }
    answer
}

/// A refusal of marks that both the safe call and the raw one give.
fn both_refuse(kind: Kind, marks: &[Point], tolerance: f64, refusal: Refusal) {
    assert_eq!(kind.fit(marks, tolerance).err(), Some(refusal), "{kind:?}");
    assert_eq!(refused(kind, &flat(marks), tolerance, |_| {}), refusal.number(), "{kind:?}");
}

#[test]
fn accepted_in_just_the_room_that_is_asked_for() {
    let marks = wave(40);
    for kind in KINDS {
        let fit = kind.fit(&marks, 0.5).unwrap();
        let mut room = Room::filled(kind, 40, 0, 2.5, 3);
        assert_eq!(kind.fit_in(&flat(&marks), 0.5, &mut room), 0, "{kind:?}");
        assert_eq!(room.made, fit.len());
        assert_eq!(room.curves[..9 * room.made], *fit.list().curves);
        assert_eq!(room.params, fit.params());
        assert!(room.is_closed(), "{kind:?} leaves no part open");
        assert_eq!(fit.params().len(), 40 + usize::from(kind.is_ring()));
        assert_eq!((fit.is_ring(), fit.is_empty()), (kind.is_ring(), false));
        assert_eq!(fit.check(&marks, 0.5), Ok(Verdict::Sound), "{kind:?}");
    }
}

#[test]
fn two_marks_are_a_line_and_three_a_ring() {
    for kind in KINDS.into_iter().filter(|kind| !kind.is_ring()) {
        assert_eq!(kind.fit(&wave(2), 0.0).map(|fit| fit.len()), Ok(1), "{kind:?}");
    }
    assert!(fit_ring(&wave(3), 1.0).is_ok());
}

#[test]
fn blocks_of_flo_curves_do_not_meet_and_joined_ones_do() {
    let marks = wave(400);
    for kind in [Kind::Curve, Kind::Loop] {
        let verdict = kind.fit(&marks, 0.5).unwrap().check(&marks, 0.5).unwrap();
        assert_eq!(verdict.fault().map(|fault| fault.kind), Some(FaultKind::B), "{kind:?}");
    }
    let joined = fit_joined(&marks, 0.5).unwrap();
    let curves: Vec<Curve> = joined.curves().collect();
    assert!(curves.windows(2).all(|pair| pair[0].end == pair[1].start));
    assert!(fit_ring(&marks, 0.5).unwrap().curves().next_back().unwrap().end == marks[0]);
}

#[test]
fn too_few_and_too_many_marks() {
    for kind in KINDS {
        both_refuse(kind, &[], 0.5, Refusal::TooFew);
        both_refuse(kind, &wave(1), 0.5, Refusal::TooFew);
        assert_eq!(kind.fit(&wave(1_000_000), 0.5).err(), Some(Refusal::TooMany));
        if kind.is_ring() {
            both_refuse(kind, &wave(2), 0.5, Refusal::TooFew);
        }
        both_refuse(kind, &wave(kind.most() + 1), 0.5, Refusal::TooMany);
        assert!(kind.fit(&wave(kind.most()), 0.5).is_ok(), "{kind:?}");
    }
}

#[test]
fn odd_slices() {
    for kind in KINDS {
        for n in [1, 3, 39, 200_001] {
            let numbers = flat(&wave(100_001))[..n].to_vec();
            assert_eq!(refused(kind, &numbers, 0.5, |_| {}), 3, "{kind:?} of {n} numbers");
        }
    }
}

#[test]
fn one_place_too_few() {
    let numbers = flat(&wave(40));
    for kind in KINDS {
        assert_eq!(refused(kind, &numbers, 0.5, |room| room.curves.truncate(room.curves.len() - 1)), 4);
        assert_eq!(refused(kind, &numbers, 0.5, |room| room.firsts.truncate(room.firsts.len() - 1)), 4);
        assert_eq!(refused(kind, &numbers, 0.5, |room| room.worsts.truncate(room.worsts.len() - 1)), 4);
        assert_eq!(refused(kind, &numbers, 0.5, |room| room.params.truncate(room.params.len() - 1)), 4);
        assert_eq!(refused(kind, &numbers, f64::NAN, |room| room.params.clear()), 4, "4 comes before 5");
    }
    for kind in KINDS.into_iter().filter(|kind| kind.is_flat()) {
        let one_less = |room: &mut Room| room.open.truncate(79);
        assert_eq!(refused(kind, &numbers, 0.5, one_less), 4, "{kind:?}: 40 marks want 80 numbers");
        assert_eq!(refused(kind, &numbers, f64::NAN, one_less), 4, "4 comes before 5");
        assert_eq!(refused(kind, &flat(&[Point::default(); 40]), 0.5, one_less), 4, "4 comes before 6");
        assert_eq!(refused(kind, &numbers[..79], 0.5, |room| room.open.clear()), 3, "4 comes after 3");
        assert_eq!(refused(kind, &numbers[..2], 0.5, |room| room.open.clear()), 1, "4 comes after 1");
        assert_eq!(refused(kind, &flat(&wave(kind.most() + 1)), 0.5, |room| room.open.clear()), 2, "4 comes after 2");
    }
}

#[test]
fn numbers_out_of_range() {
    for kind in KINDS {
        for bad in OUT {
            for (at, along) in [(0, false), (17, true), (39, false), (39, true)] {
                let mut marks = wave(40);
                *(if along { &mut marks[at].x } else { &mut marks[at].y }) = bad;
                both_refuse(kind, &marks, 0.5, Refusal::OutOfRange);
            }
        }
        for tolerance in [f64::NAN, f64::INFINITY, -1.0, -f64::MIN_POSITIVE] {
            both_refuse(kind, &wave(40), tolerance, Refusal::OutOfRange);
        }
    }
    for bad in [f64::NAN, f64::INFINITY, 2.000_1, -2.000_1] {
        let ways = [(Point::new(bad, 0.0), BACK), (Point::new(0.0, bad), BACK), (ALONG, Point::new(bad, 0.0)), (ALONG, Point::new(0.0, bad))];
        for kind in ways.into_iter().flat_map(|(start, end)| Kind::Cubic(start, end).engines()) {
            both_refuse(kind, &wave(40), 0.5, Refusal::OutOfRange);
        }
    }
}

/// Tolerance 0 over marks that no curve follows, so that parts are cut down to lines: as deep as fits go, on the stack of a thread.
#[test]
fn deep_cuts() {
    let marks: Vec<Point> = (0..4096).map(|i| Point::new(f64::from(i), f64::from(i * 7919 % 101) * f64::from(i % 512 + 1))).collect();
    for kind in KINDS {
        let marks = &marks[..kind.most().min(4096)];
        assert!(kind.fit(marks, 0.0).unwrap().len() > marks.len() / 2, "{kind:?}");
    }
}

#[test]
fn marks_on_one_spot() {
    for kind in KINDS {
        both_refuse(kind, &[Point::new(3.0, 4.0); 5], 0.5, Refusal::NotFinite);
    }
}

#[test]
fn pieces_from_either_end() {
    let fit = fit_joined(&wave(300), 0.01).unwrap();
    let pieces: Vec<Piece> = fit.pieces().collect();
    assert!(pieces.len() > 3 && pieces.len() == fit.len());
    assert_eq!(fit.pieces().len(), fit.len());
    assert_eq!(fit.curves().len(), fit.len());
    let mut backwards: Vec<Piece> = fit.into_iter().rev().collect();
    backwards.reverse();
    assert_eq!(pieces, backwards);
    assert_eq!(fit.pieces().nth(2), fit.get(2));
    assert_eq!(fit.get(fit.len()), None);
    assert_eq!(fit.get(usize::MAX / 16), None);
    for (j, piece) in (&fit).into_iter().enumerate() {
        let list = fit.list();
        assert_eq!(<[f64; 8]>::from(piece.curve), list.curves[9 * j..9 * j + 8]);
        assert_eq!(piece.distance, list.curves[9 * j + 8]);
        assert_eq!((piece.first, piece.worst), (list.firsts[j] as usize, list.worsts[j] as usize));
    }
}
