//! Path data.
use crate::wave;
use wesalondo::*;

const ARCH: [f64; 8] = [0.0, 0.0, 0.0, 1.0, 1.0, 1.0, 1.0, 0.0];
const BACK: [f64; 8] = [1.0, 0.0, 1.0, -1.0, 0.0, -1.0, 0.0, 0.0];

fn curves(lists: &[[f64; 8]]) -> Vec<Curve> {
    lists.iter().copied().map(Curve::from).collect()
}

/// The library's own call, in room of `room` bytes that hold 7 before: its answer, the size, and the bytes.
fn raw_export(nine: bool, numbers: &[f64], count: usize, ring: bool, room: usize) -> (u32, usize, Vec<u8>) {
    let (mut out, mut size) = (vec![7; room], 7);
    // SAFETY: each pointer is to that many elements, all apart.
    let answer = unsafe { sys::wes_export_path(nine, numbers.as_ptr(), numbers.len(), count, ring, out.as_mut_ptr(), room, &mut size) };
    (answer, size, out)
}

/// The same of the import, in room of `room` numbers.
fn raw_import(text: &[u8], room: usize) -> (u32, usize, bool, Vec<f64>) {
    let (mut numbers, mut count, mut closed) = (vec![7.0; room], 7, true);
    // SAFETY: each pointer is to that many elements, all apart.
    let answer = unsafe { sys::wes_import_path(text.as_ptr(), text.len(), numbers.as_mut_ptr(), room, &mut count, &mut closed) };
    (answer, count, closed, numbers)
}

#[test]
fn curves_to_text() {
    assert_eq!(export_path(&curves(&[ARCH]), false).unwrap(), "M 0 0 C 0 1 1 1 1 0");
    assert_eq!(export_path(&curves(&[ARCH, BACK]), true).unwrap(), "M 0 0 C 0 1 1 1 1 0 C 1 -1 0 -1 0 0 Z");
    let halves = [-0.0, 0.0625, -0.0625, 0.1875, -0.0004, 1e9, 5e-324, 999_999_999.999_9];
    assert_eq!(export_path(&curves(&[halves]), false).unwrap(), "M 0 0.063 C -0.063 0.188 0 1000000000 0 1000000000");
}

#[test]
fn export_refuses_in_its_order() {
    let above = f64::from_bits(1e9f64.to_bits() + 1);
    let with = |place: usize, value: f64, mut list: [f64; 8]| {
        list[place] = value;
        list
    };
    let refused = |lists: &[[f64; 8]], ring| export_path(&curves(lists), ring).unwrap_err();
    assert_eq!(refused(&[with(2, above, ARCH), with(5, f64::NAN, ARCH)], false), Refusal::OutOfRange);
    assert_eq!(refused(&[with(2, f64::NEG_INFINITY, ARCH)], true), Refusal::OutOfRange);
    assert_eq!(refused(&[ARCH, with(5, -above, ARCH)], false), Refusal::TooLarge);
    assert_eq!(refused(&[ARCH, ARCH], false), Refusal::NotJoined);
    assert_eq!(refused(&[ARCH], true), Refusal::NotJoined);
    assert_eq!(refused(&[ARCH, with(1, -0.0, BACK)], false), Refusal::NotJoined);
    assert_eq!((refused(&[], false), refused(&[], true)), (Refusal::NotJoined, Refusal::NotJoined));
}

#[test]
fn export_in_lent_room() {
    let text = b"M 0 0 C 0 1 1 1 1 0";
    let nine: Vec<f64> = ARCH.into_iter().chain([f64::NAN]).collect();
    for (numbers, is_nine) in [(&ARCH[..], false), (&nine[..], true)] {
        let (answer, size, out) = raw_export(is_nine, numbers, 1, false, 25);
        assert_eq!((answer, size, &out[..size], &out[size..]), (0, text.len(), &text[..], &[7; 6][..]));
        assert_eq!(raw_export(is_nine, numbers, 1, false, text.len()).0, 0);
        assert_eq!(raw_export(is_nine, numbers, 1, false, text.len() - 1), (4, 0, vec![7; text.len() - 1]));
        assert_eq!(raw_export(is_nine, &numbers[..numbers.len() - 1], 1, false, 99), (4, 0, vec![7; 99]));
        assert_eq!(raw_export(is_nine, numbers, 2, false, 999), (4, 0, vec![7; 999]));
        assert_eq!(raw_export(is_nine, numbers, usize::MAX, false, 999), (4, 0, vec![7; 999]));
        assert_eq!(raw_export(is_nine, numbers, 0, false, 0), (12, 0, vec![]));
    }
}

#[test]
fn text_to_curves() {
    let path = import_path("M0,0 C 0 1 1 1 1-0 Z").unwrap();
    assert_eq!((path.curves.len(), path.closed), (2, true));
    assert_eq!(path.curves[0], Curve::from(ARCH));
    assert_eq!(path.curves[1], Curve::from([1.0, 0.0, 1.0 - 0.33, 0.0, 1.0 - 0.66, 0.0, 0.0, 0.0]));
    assert_eq!(import_path(" M 1 2\n").unwrap(), Path::default());
    assert_eq!(import_path(b"M 1 2 Z").unwrap(), Path { curves: vec![], closed: true });
    assert_eq!(import_path("M-0-0-0-0").unwrap().curves[0].start.x.to_bits(), 0);
    for text in ["", " ", "m 1 2", "M 1 2 z", "M 12", "M 1.2345 6", "M 1e3 2", "M 1 2 M 3 4", "M 1 2 Z Z", "M 1 2,", "M 2000000000 0 x"] {
        assert_eq!(import_path(text), Err(Refusal::NoPath), "{text:?}");
    }
    assert_eq!(import_path(b"\xff"), Err(Refusal::NoPath));
    assert_eq!(import_path("M 1000000000.001 0"), Err(Refusal::TooLarge));
    assert_eq!(import_path(format!("M {} 0", "9".repeat(400))), Err(Refusal::TooLarge));
}

/// As many curves as a text of its length can have.
#[test]
fn the_shortest_lines() {
    let text = format!("M0-0{}Z", "-0-1-0-0".repeat(50) + "-0-1");
    assert_eq!(import_path(&text).unwrap().curves.len(), (text.len() - 1) / 4);
}

#[test]
fn import_in_lent_room() {
    let text = b"M 0 0 4 0 4 4 Z";
    let (answer, count, closed, numbers) = raw_import(text, 27);
    assert_eq!((answer, count, closed, &numbers[24..]), (0, 3, true, &[7.0; 3][..]));
    assert_eq!(numbers[..8], [0.0, 0.0, 4.0 * 0.33, 0.0, 4.0 * 0.66, 0.0, 4.0, 0.0]);
    assert_eq!(raw_import(text, 23), (4, 0, false, vec![7.0; 23]));
    assert_eq!(raw_import(b"M 0 0 4 0 4 4 Z x", 23), (11, 0, false, vec![7.0; 23]));
    assert_eq!(raw_import(b"M 0 0 4 0 4 2000000000 Z", 23), (10, 0, false, vec![7.0; 23]));
    assert_eq!(raw_import(b"M 0 0", 0), (0, 0, false, vec![]));
}

/// What is exported and imported again has as many curves, which meet, each number within a rounding of its own, and is exported to the same text.
#[test]
fn there_and_back() {
    let marks = wave(700);
    for fit in [fit_joined(&marks, 0.05).unwrap(), fit_ring(&marks, 0.05).unwrap()] {
        let text = fit.export_path().unwrap();
        let own: Vec<Curve> = fit.curves().collect();
        assert_eq!(export_path(&own, fit.is_ring()).unwrap(), text);
        let path = import_path(&text).unwrap();
        assert_eq!((path.curves.len(), path.closed), (fit.len(), fit.is_ring()));
        assert!(path.curves.windows(2).all(|pair| pair[0].end == pair[1].start));
        for (ours, theirs) in path.curves.iter().zip(&own) {
            let pairs = <[f64; 8]>::from(*ours).into_iter().zip(<[f64; 8]>::from(*theirs));
            assert!(pairs.into_iter().all(|(a, b)| (a - b).abs() <= 0.0005 + 1e-9));
        }
        assert_eq!(export_path(&path.curves, path.closed).unwrap(), text);
    }
    assert_eq!(fit_curve(&marks, 0.05).unwrap().export_path(), Err(Refusal::NotJoined));
}
