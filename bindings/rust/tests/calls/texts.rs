//! The calls from a file's bytes to a text or to another file, and the repository's examples through all of them.
use crate::wave;
use wesalondo::*;

fn file(marks: Vec<Point>) -> Vec<u8> {
    write_file(&House::new(0.5, marks)).unwrap()
}

/// Files and why each of the three calls refuses them.
fn refused_files() -> [(Vec<u8>, [Option<Refusal>; 3]); 8] {
    use Refusal::*;
    let mut lost = wave(5);
    lost[2].x = f64::NAN;
    [
        (vec![], [Some(BadlyFormed); 3]),
        (vec![0; 434_121], [Some(BadlyFormed); 3]),
        (file(wave(1)), [Some(TooFew), Some(TooFew), None]),
        (file(wave(513)), [Some(TooMany), None, None]),
        // the most marks in 434,120 bytes, and one more; both are longer than the listing reads
        (file(wave(27_131)), [Some(BadlyFormed), Some(TooMany), Some(TooMany)]),
        (file(wave(27_132)), [Some(BadlyFormed); 3]),
        (file(lost), [Some(OutOfRange), Some(OutOfRange), None]),
        (file(vec![Point::new(1.0, 1.0); 3]), [Some(NotFinite), Some(NotFinite), None]),
    ]
}

/// A raw call into so many bytes: its answer, and what it wrote. Where it refuses, the bytes stay and the size is 0.
pub fn raw(call: sys::FileCall, file: &[u8], room: usize) -> (u32, Vec<u8>) {
    let (mut out, mut size) = (vec![9; room], 7);
    // SAFETY: each pointer is to that many bytes, all apart.
    let answer = unsafe { call(file.as_ptr(), file.len(), out.as_mut_ptr(), out.len(), &mut size) };
    assert!(answer == 0 || (size == 0 && out.iter().all(|&byte| byte == 9)), "{answer} leaves the bytes");
    out.truncate(size);
    (answer, out)
}

#[test]
fn files_are_refused_by_a_text() {
    for (file, [listed, saved, judged]) in refused_files() {
        assert_eq!(list_outline(&file).err(), listed);
        assert_eq!(save_fit(&file).err(), saved);
        assert_eq!(judge_file(&file).err(), judged);
        for (call, refusal) in [(sys::wes_list_outline as sys::FileCall, listed), (sys::wes_save_fit, saved), (sys::wes_judge_file, judged)] {
            if let Some(refusal) = refusal {
                let text = format!("REFUSED {}\n", refusal.number()).into_bytes();
                assert_eq!(raw(call, &file, 64), (0, text.clone()));
                assert_eq!(raw(call, &file, text.len() - 1), (4, vec![]));
            }
        }
    }
}

#[test]
fn texts_in_just_their_room() {
    let file = file(wave(40));
    let calls: [sys::FileCall; 3] = [sys::wes_list_outline, sys::wes_save_fit, sys::wes_judge_file];
    for call in calls {
        let (answer, text) = raw(call, &file, 434_120);
        assert_eq!((answer, raw(call, &file, text.len())), (0, (0, text.clone())));
        assert_eq!(raw(call, &file, text.len() - 1), (4, vec![]));
        assert_eq!(raw(call, &file, 0), (4, vec![]));
    }
}

#[test]
fn a_listing() {
    let marks = wave(40);
    let fit = fit_joined(&marks, 0.5).unwrap();
    let mut expected = format!("OUTLINE 40 {}\n", fit.len());
    for piece in &fit {
        let numbers = <[f64; 8]>::from(piece.curve).map(|x| format!("{:016X}", x.to_bits()));
        expected += &format!("PIECE {} {}\n", piece.first, numbers.join(" "));
    }
    assert_eq!(list_outline(&file(marks)), Ok(expected));
}

#[test]
fn judgements() {
    let marks = wave(40);
    let fit = fit_joined(&marks, 0.5).unwrap();
    let mut house = House::with_fit(0.5, &marks, &fit);
    assert_eq!(judge_file(&write_file(&house).unwrap()), Ok(Judgement::Passed { marks: 40, curves: fit.len() }));
    assert_eq!(judge_file(&file(marks)), Ok(Judgement::NoCurves { marks: 40 }));
    let changes: [fn(&mut House); 5] = [
        |house| house.worsts[0] += 1,
        |house| house.tolerance = 0.0,
        |house| house.params[0] = 0.5,
        |house| house.curves[0] += 1.0,
        |house| house.firsts[0] = 1,
    ];
    // Each fault comes before the one that was there already.
    for (change, kind) in changes.into_iter().zip([FaultKind::E, FaultKind::D, FaultKind::C, FaultKind::B, FaultKind::A]) {
        change(&mut house);
        let found = judge_file(&write_file(&house).unwrap()).unwrap();
        let fault = house.check().unwrap().fault().unwrap();
        assert_eq!((found, fault.kind), (Judgement::Faulty(fault), kind));
    }
    house.tolerance = -1.0;
    assert_eq!(judge_file(&write_file(&house).unwrap()), Err(Refusal::OutOfRange));
}

#[test]
fn the_examples() {
    let folder = concat!(env!("CARGO_MANIFEST_DIR"), "/../../examples");
    let (mut passed, mut with_curves, mut refused) = (0, 0, vec![]);
    for entry in std::fs::read_dir(folder).unwrap() {
        let path = entry.unwrap().path();
        if path.extension().is_none_or(|extension| extension != "house") {
            continue;
        }
        let file = std::fs::read(&path).unwrap();
        let house = read_file(&file).unwrap();
        // One example has curves, and that one is packed; all others stay as they are.
        assert_eq!(write_file(&house), unpack_file(&file), "{}", path.display());
        assert_eq!(pack_file(&write_file(&house).unwrap()).as_ref(), Ok(&file), "{}", path.display());
        let (marks, curves) = (house.marks.len(), house.len());
        with_curves += usize::from(curves > 0);
        let judged = if curves > 0 { Judgement::Passed { marks, curves } } else { Judgement::NoCurves { marks } };
        assert_eq!(judge_file(&file), if marks > 4096 { Err(Refusal::TooMany) } else { Ok(judged) });
        match save_fit(&file) {
            Ok(saved) => {
                let fit = fit_joined(&house.marks, house.tolerance).unwrap();
                assert_eq!(judge_file(&saved), Ok(Judgement::Passed { marks: house.marks.len(), curves: fit.len() }), "{}", path.display());
                assert_eq!(write_file(&House::with_fit(house.tolerance, &house.marks, &fit)), Ok(saved.clone()));
                assert_eq!(write_file(&read_file(&saved).unwrap()), Ok(saved));
                passed += 1;
            }
            Err(Refusal::TooMany) if marks > 4096 => refused.push(2),
            Err(refusal) => {
                assert_eq!(fit_joined(&house.marks, house.tolerance), Err(refusal));
                refused.push(refusal.number());
            }
        }
    }
    refused.sort_unstable();
    assert!(passed >= 8, "{passed} examples passed");
    assert_eq!(with_curves, 1, "cushion.house");
    assert_eq!(refused, [2, 5, 6, 6], "examples/README.md names those that are refused");
}
