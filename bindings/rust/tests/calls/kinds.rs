//! The four kinds of a curve's record: 3 and 6 with mark numbers of two bytes up to 4,096 marks, 5 and 7 with four bytes above. The files are put together here
//! by the format's own rules.
use crate::wave;
use wesalondo::*;

pub const KINDS: [u16; 4] = [3, 5, 6, 7];

fn is_wide(kind: u16) -> bool {
    kind == 5 || kind == 7
}

pub fn suits(kind: u16, n: usize) -> bool {
    is_wide(kind) == (n > 4096)
}

/// A house with two curves: the largest mark numbers that a field of this kind holds, and numbers of no account.
pub fn house(kind: u16, n: usize) -> House {
    let (nine, largest) = (kind >= 6, if is_wide(kind) { u32::MAX } else { 65_535 });
    let curves = (0..if nine { 18 } else { 16 }).map(|i| f64::from(i) - 0.5).collect();
    let params = (0..n).map(|i| i as f64).collect();
    House { tolerance: 0.25, marks: wave(n), nine, curves, firsts: vec![largest, 1], worsts: if nine { vec![2, largest] } else { vec![] }, params }
}

pub fn record(kind: u16, body: &[u8]) -> Vec<u8> {
    [&(2 + body.len() as u32).to_le_bytes()[..], &kind.to_le_bytes(), body].concat()
}

pub fn bytes(numbers: &[f64]) -> Vec<u8> {
    numbers.iter().flat_map(|x| x.to_le_bytes()).collect()
}

/// The record of a house's curve number j.
fn curve(house: &House, kind: u16, j: usize) -> Vec<u8> {
    let width = if house.nine { 9 } else { 8 };
    let kept = [house.firsts.get(j), house.worsts.get(j)];
    let numbers = kept.into_iter().flatten().flat_map(|mark| mark.to_le_bytes()[..if is_wide(kind) { 4 } else { 2 }].to_vec());
    record(kind, &numbers.chain(bytes(&house.curves[width * j..width * (j + 1)])).collect::<Vec<_>>())
}

/// The bytes of a house's file, its curves in these records.
pub fn file(house: &House, records: &[Vec<u8>]) -> Vec<u8> {
    let marks = record(2, &bytes(&crate::common::flat(&house.marks)));
    [record(1, &house.tolerance.to_le_bytes()), marks, records.concat(), record(4, &bytes(&house.params))].concat()
}

pub fn file_of(house: &House, kind: u16) -> Vec<u8> {
    file(house, &[curve(house, kind, 0), curve(house, kind, 1)])
}

#[test]
fn each_kind_is_taken_where_it_suits() {
    for n in [3, 4096, 4097, 100_000] {
        for kind in KINDS {
            let house = house(kind, n);
            let file = file_of(&house, kind);
            if suits(kind, n) {
                let written = write_file(&house).unwrap();
                let head = 20 + 16 * n;
                assert_eq!(written[head + 4..head + 6], kind.to_le_bytes(), "{n} marks");
                assert!(written == file, "kind {kind} over {n} marks: other bytes");
                assert!(read_file(&file).as_ref() == Ok(&house), "kind {kind} over {n} marks: other numbers");
            } else {
                assert_eq!(read_file(&file).err(), Some(Refusal::BadlyFormed), "kind {kind} over {n} marks");
            }
        }
    }
}

#[test]
fn a_kind_that_does_not_suit_comes_before_too_many() {
    for kind in KINDS {
        let refusal = if is_wide(kind) { Refusal::TooMany } else { Refusal::BadlyFormed };
        let house = house(kind, 100_001);
        assert_eq!(read_file(&file_of(&house, kind)).err(), Some(refusal), "kind {kind}");
        assert_eq!(write_file(&house).err(), Some(Refusal::TooMany), "kind {kind}");
    }
    assert_eq!(write_file(&House::new(0.5, wave(100_001))).err(), Some(Refusal::TooMany));
}

#[test]
fn two_kinds_are_none() {
    for n in [4096, 4097] {
        for (one, other) in KINDS.into_iter().flat_map(|one| KINDS.map(|other| (one, other))).filter(|(one, other)| one != other) {
            let records = [curve(&house(one, n), one, 0), curve(&house(other, n), other, 1)];
            assert_eq!(read_file(&file(&house(one, n), &records)).err(), Some(Refusal::BadlyFormed), "{one} and {other} over {n} marks");
        }
    }
}

#[test]
fn mark_numbers_beyond_two_bytes() {
    for n in [4096, 4097] {
        for kind in KINDS.into_iter().filter(|&kind| suits(kind, n)) {
            let changes: [fn(&mut House); 2] = [|house| house.firsts[1] = 65_536, |house| house.worsts[0] = 65_536];
            for change in &changes[..if kind >= 6 { 2 } else { 1 }] {
                let mut house = house(kind, n);
                change(&mut house);
                let expected = if is_wide(kind) { Ok(file_of(&house, kind)) } else { Err(Refusal::BadlyFormed) };
                assert!(write_file(&house) == expected, "kind {kind} over {n} marks");
            }
        }
    }
}

/// The calls with room for 4,096 marks: of more, a kind that suits is 2, and any that does not is 9.
#[test]
fn the_judge_and_save_fit() {
    for n in [4096, 4097] {
        for kind in KINDS {
            let file = file_of(&house(kind, n), kind);
            let refusal = if !suits(kind, n) { Some(Refusal::BadlyFormed) } else { Some(Refusal::TooMany).filter(|_| n > 4096) };
            assert_eq!(judge_file(&file).err(), refusal, "kind {kind} over {n} marks");
            assert_eq!(save_fit(&file).err(), refusal, "kind {kind} over {n} marks");
        }
    }
}
