//! Cleaning a shaky trace. What is expected is worked out by the rule itself (`common`), and of small traces by hand.
use crate::common::{marks_file, salvaged};
use crate::kinds::{file_of, house, suits, KINDS};
use crate::packing::packed;
use crate::{wave, OUT};
use wesalondo::*;

const HALF: u64 = 0x3FE0_0000_0000_0000;

/// Tolerances whose bits are to stay, most of them ones that no fit takes.
const TOLERANCES: [u64; 5] = [HALF, 0x7FF0_0000_0000_0123, 0xFFFF_FFFF_FFFF_FFFF, 0xBFF0_0000_0000_0000, 0x8000_0000_0000_0000];

/// A raw call into so many bytes: its answer, and what it wrote. Where it refuses, all bytes stay and both sizes are 0.
fn raw(file: &[u8], room: usize, report_room: usize) -> (u32, Vec<u8>, Vec<u8>) {
    let (mut out, mut report, mut size, mut report_size) = (vec![9; room], vec![8; report_room], 7, 7);
    let (op, rp) = (out.as_mut_ptr(), report.as_mut_ptr());
    // SAFETY: each pointer is to that many bytes, all apart.
    let answer = unsafe { sys::wes_salvage(file.as_ptr(), file.len(), op, room, rp, report_room, &mut size, &mut report_size) };
    let stays = size == 0 && report_size == 0 && out.iter().all(|&byte| byte == 9) && report.iter().all(|&byte| byte == 8);
    assert!(answer == 0 || stays, "{answer} leaves the bytes");
    assert!(out[size..].iter().all(|&byte| byte == 9) && report[report_size..].iter().all(|&byte| byte == 8), "bytes beyond stay");
    out.truncate(size);
    report.truncate(report_size);
    (answer, out, report)
}

/// A file that is cleaned as it should be: by the safe call, by the raw one in just the room, and not in a byte less of either; and again.
fn cleaned(file: &[u8], expected: &Salvaged) {
    assert!(salvage(file).as_ref() == Ok(expected), "{}", expected.report);
    let (room, report_room) = (expected.file.len(), expected.report.len());
    assert!(raw(file, room, report_room) == (0, expected.file.clone(), expected.report.clone().into_bytes()));
    assert_eq!(raw(file, room - 1, report_room), (4, vec![], vec![]));
    assert_eq!(raw(file, room, report_room - 1), (4, vec![], vec![]));
    assert_eq!(raw(file, 0, 0), (4, vec![], vec![]));
    let again = Salvaged { dropped: vec![], report: format!("KEPT {} DROPPED 0\n", expected.kept), ..expected.clone() };
    assert!(salvage(&expected.file) == Ok(again), "cleaned again: {}", expected.report);
}

#[test]
fn each_cause_by_hand() {
    let (most, above) = (1e6, f64::from_bits(1e6f64.to_bits() + 1));
    let traces: [(&[(f64, f64)], &str); 9] = [
        (&[], "KEPT 0 DROPPED 0\n"),
        (&[(1.0, f64::NAN)], "KEPT 0 DROPPED 1\nDROP 0 RANGE\n"),
        (&[(1.0, 2.0), (1.0, 2.0), (1.0, 2.0), (2.0, 2.0), (1.0, 2.0)], "KEPT 3 DROPPED 2\nDROP 1 EQUAL\nDROP 2 EQUAL\n"),
        (&[(0.0, 1.0), (-0.0, 1.0), (1.0, -0.0), (1.0, 0.0)], "KEPT 2 DROPPED 2\nDROP 1 EQUAL\nDROP 3 EQUAL\n"),
        (&[(most, -most), (above, 0.0), (0.0, -above)], "KEPT 1 DROPPED 2\nDROP 1 RANGE\nDROP 2 RANGE\n"),
        (&[(f64::INFINITY, 0.0), (0.0, f64::NEG_INFINITY), (3.0, 3.0)], "KEPT 1 DROPPED 2\nDROP 0 RANGE\nDROP 1 RANGE\n"),
        // equal to the last one kept, and not to the mark before
        (&[(3.0, 3.0), (f64::NAN, 3.0), (3.0, 3.0)], "KEPT 1 DROPPED 2\nDROP 1 RANGE\nDROP 2 EQUAL\n"),
        // equal to one that was dropped, and told as out of range
        (&[(above, 0.0), (above, 0.0)], "KEPT 0 DROPPED 2\nDROP 0 RANGE\nDROP 1 RANGE\n"),
        (&[(f64::from_bits(1), 0.0), (0.0, 0.0)], "KEPT 2 DROPPED 0\n"),
    ];
    for (marks, report) in traces {
        let marks: Vec<Point> = marks.iter().copied().map(Point::from).collect();
        for tolerance in TOLERANCES {
            let expected = salvaged(tolerance, &marks);
            assert_eq!(expected.report, report, "by the rule");
            cleaned(&marks_file(tolerance, &marks), &expected);
        }
    }
}

/// The marks' bits stay, those of zeros too.
#[test]
fn bits_of_the_marks_kept() {
    let marks = [(-0.0, 0.0), (0.0, -0.0), (5.0, -0.0)].map(Point::from);
    let kept = read_file(&salvage(&marks_file(HALF, &marks)).unwrap().file).unwrap().marks;
    let bits: Vec<u64> = crate::common::flat(&kept).into_iter().map(f64::to_bits).collect();
    assert_eq!(bits, [-0.0, 0.0, 5.0, -0.0].map(f64::to_bits));
}

/// Whatever curves a file has, none is looked at.
#[test]
fn each_kind_of_file() {
    for n in [3, 4096, 4097, 100_000] {
        for kind in KINDS.into_iter().filter(|&kind| suits(kind, n)) {
            let mut house = house(kind, n);
            house.marks[1] = house.marks[0];
            house.marks[2].y = OUT[n % OUT.len()];
            let expected = salvaged(house.tolerance.to_bits(), &house.marks);
            assert_eq!(expected.kept, n - 2);
            cleaned(&file_of(&house, kind), &expected);
            cleaned(&packed(&house), &expected);
        }
    }
}

/// More marks than any other call takes, and the longest lists.
#[test]
fn any_number_of_marks() {
    let mut marks = wave(250_000);
    for i in (0..marks.len()).step_by(3) {
        marks[i] = if i % 2 == 0 { Point::new(f64::NAN, 1.0) } else { marks[i - 1] };
    }
    for marks in [&marks[..5000], &marks[..100_001], &marks, &vec![Point::new(1.0, 1.0); 100_000], &vec![Point::new(1e7, 1.0); 100_000]] {
        cleaned(&marks_file(HALF, marks), &salvaged(HALF, marks));
    }
}

/// 9 comes before 4.
#[test]
fn files_that_are_refused() {
    let whole = file_of(&house(6, 9), 6);
    let unsuited = file_of(&house(5, 9), 5);
    let more = [whole.as_slice(), b"x"].concat();
    for bad in [&whole[..0], &whole[..19], &whole[..whole.len() - 1], &more, &unsuited, b"REFUSED 5\n"] {
        assert_eq!(salvage(bad), Err(Refusal::BadlyFormed));
        assert_eq!(raw(bad, 1000, 1000), (9, vec![], vec![]));
        assert_eq!(raw(bad, 0, 0), (9, vec![], vec![]));
    }
}

/// What a fit says of a trace before and after: nothing is promised.
#[test]
fn a_fit_may_still_refuse() {
    // at rest for longer than a block
    let mut rested = wave(700);
    rested[150..600].fill(wave(151)[150]);
    let mut lost = wave(40);
    lost[7].x = f64::NAN;
    let near = [0.0, 1e-200, 2e-200].map(|x| Point::new(x, 0.0)).to_vec();
    let traces = [
        (HALF, rested, Some(Refusal::NotFinite), None),
        (HALF, lost, Some(Refusal::OutOfRange), None),
        (HALF, vec![Point::new(7.0, 7.0); 3], Some(Refusal::NotFinite), Some(Refusal::TooFew)),
        (HALF, near, Some(Refusal::NotFinite), Some(Refusal::NotFinite)),
        (f64::NAN.to_bits(), wave(40), Some(Refusal::OutOfRange), Some(Refusal::OutOfRange)),
    ];
    for (tolerance, marks, before, after) in traces {
        let file = marks_file(tolerance, &marks);
        let clean = salvage(&file).unwrap().file;
        assert_eq!((save_fit(&file).err(), save_fit(&clean).err()), (before, after));
    }
}

/// The examples of a trace that went wrong, and those that stay as they are, by what their lists begin with.
#[test]
fn the_examples() {
    for (name, report, fitted) in [
        ("pressed", "KEPT 1 DROPPED 2\nDROP 1 EQUAL\nDROP 2 EQUAL\n", Some(Refusal::TooFew)),
        ("rested", "KEPT 250 DROPPED 230\nDROP 186 EQUAL\nDROP 187 EQUAL\n", None),
        ("lost", "KEPT 23 DROPPED 1\nDROP 11 RANGE\n", None),
        ("cover", "KEPT 142 DROPPED 0\n", None),
        ("cushion", "KEPT 85 DROPPED 0\n", None),
    ] {
        let path = format!("{}/../../examples/{name}.house", env!("CARGO_MANIFEST_DIR"));
        let file = std::fs::read(path).unwrap();
        let House { tolerance, marks, .. } = read_file(&file).unwrap();
        let expected = salvaged(tolerance.to_bits(), &marks);
        assert!(expected.report.starts_with(report), "{name}: {}", expected.report);
        cleaned(&file, &expected);
        assert_eq!(save_fit(&expected.file).err(), fitted, "{name}");
    }
}
