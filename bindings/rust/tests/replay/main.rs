//! The kept cases of crates/replay, answered again through this crate and compared as text. The header of crates/replay/src/main.rt has their format.
#[path = "../common/mod.rs"]
mod common;
mod line;

use line::{answer_of, imported, Words};
use std::collections::BTreeMap;

/// How many lines of each kind there were when this test was written. More may be added; fewer would mean that lines are not compared.
const LEAST: [(&str, usize); 28] = [
    ("basis", 238),
    ("blocks", 85),
    ("check", 574),
    ("check_ring", 262),
    ("check_worst", 169),
    ("check_worst_ring", 92),
    ("coefficients", 25),
    ("de_casteljau2", 13),
    ("de_casteljau3", 19),
    ("de_casteljau4", 30),
    ("direct", 110),
    ("direct_flat", 110),
    ("export", 135),
    ("import", 282),
    ("joined", 101),
    ("joined_flat", 96),
    ("loop", 83),
    ("nearest", 140),
    ("pack", 107),
    ("refine", 46),
    ("ring", 136),
    ("ring_flat", 131),
    ("salvage", 1315),
    ("size", 89),
    ("source", 94),
    ("sqrt", 106),
    ("subdivide4", 28),
    ("unpack", 1022),
];

fn kept(name: &str) -> Vec<Vec<u8>> {
    let path = format!("{}/../../crates/replay/{name}", env!("CARGO_MANIFEST_DIR"));
    let bytes = std::fs::read(&path).unwrap_or_else(|error| panic!("{path}: {error}"));
    bytes.strip_suffix(b"\n").unwrap_or(&bytes).split(|&byte| byte == b'\n').map(<[u8]>::to_vec).collect()
}

#[test]
fn kept_cases_are_answered_as_they_were() {
    let (cases, answers) = (kept("stdin"), kept("stdout"));
    assert_eq!(cases.len(), answers.len(), "cases and answers");
    let mut compared = BTreeMap::<String, usize>::new();
    let mut different = Vec::new();
    for (number, (case, answer)) in cases.iter().zip(&answers).enumerate() {
        // What is no case is not for a library to say, and the distance is no public call.
        if answer == b"BAD" || case.starts_with(b"distance ") {
            continue;
        }
        let answer = std::str::from_utf8(answer).expect("an answer is ASCII");
        let (kind, ours) = match case.strip_prefix(b"import ") {
            // path data is all that is behind the blank, and may have any bytes
            Some(text) => ("import", imported(text)),
            None => {
                let case = std::str::from_utf8(case).expect("any other case that is answered is ASCII");
                let (kind, rest) = case.split_once(' ').expect("a case has words behind its kind");
                (kind, answer_of(kind, &mut Words::new(rest)))
            }
        };
        if ours != answer {
            let case = String::from_utf8_lossy(case);
            different.push(format!("line {}: {:.200}\n  kept {:.200}\n  ours {:.200}", number + 1, case, answer, ours));
        }
        *compared.entry(kind.to_owned()).or_default() += 1;
    }
    let first = different.iter().take(5).cloned().collect::<Vec<_>>().join("\n");
    assert!(different.is_empty(), "{} lines differ, the first of them:\n{first}", different.len());
    for (kind, least) in LEAST {
        let count = compared.remove(kind).unwrap_or(0);
        assert!(count >= least, "{count} lines of the kind {kind} were compared, and there were {least}");
    }
    assert!(compared.is_empty(), "kinds that this test does not count: {compared:?}");
}
