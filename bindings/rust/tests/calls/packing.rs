//! Packed house files: each joint once, there and back. The packed files are put together here by the format's own rules.
use crate::kinds::{bytes, file, file_of, house, record, suits, KINDS};
use crate::texts::raw;
use crate::wave;
use wesalondo::*;

/// A house with two curves that meet.
fn joined(kind: u16, n: usize) -> House {
    let mut house = house(kind, n);
    let width = house.curves.len() / 2;
    house.curves.copy_within(6..8, width);
    house
}

/// The one record of a house's curves.
fn body(house: &House) -> Vec<u8> {
    let (nexts, last) = (house.firsts.iter().skip(1).copied(), house.marks.len() as u32 - 1);
    let mut body = [&[u8::from(house.nine)][..], &house.firsts[0].to_le_bytes(), &bytes(&house.curves[..2])].concat();
    for (j, (curve, next)) in house.curves.chunks(house.curves.len() / house.len()).zip(nexts.chain([last])).enumerate() {
        body.extend([&next.to_le_bytes()[..], &bytes(&curve[2..])].concat());
        body.extend(house.worsts.get(j).into_iter().flat_map(|worst| worst.to_le_bytes()));
    }
    body
}

pub fn packed(house: &House) -> Vec<u8> {
    file(house, &[record(8, &body(house))])
}

fn refused(call: sys::FileCall, file: &[u8], room: usize, refusal: Refusal) {
    assert_eq!(raw(call, file, room), (refusal.number(), vec![]));
}

#[test]
fn each_kind_there_and_back() {
    for n in [3, 4096, 4097, 100_000] {
        for kind in KINDS.into_iter().filter(|&kind| suits(kind, n)) {
            let house = joined(kind, n);
            let (whole, small) = (file_of(&house, kind), packed(&house));
            assert!(pack_file(&whole).as_ref() == Ok(&small), "kind {kind} over {n} marks: packed");
            assert!(unpack_file(&small).as_ref() == Ok(&whole), "kind {kind} over {n} marks: unpacked");
            assert!(read_file(&small).as_ref() == Ok(&house), "kind {kind} over {n} marks: read");
            assert!(raw(sys::wes_pack_file, &whole, small.len()) == (0, small.clone()), "in just the room that it takes");
            assert!(raw(sys::wes_unpack_file, &small, whole.len()) == (0, whole.clone()), "in just the room that it takes");
            refused(sys::wes_pack_file, &whole, small.len() - 1, Refusal::NoRoom);
            refused(sys::wes_unpack_file, &small, whole.len() - 1, Refusal::NoRoom);
            assert_eq!((pack_file(&small).err(), unpack_file(&whole).err()), (Some(Refusal::BadlyFormed), Some(Refusal::BadlyFormed)));
        }
    }
}

/// A single curve becomes 5 to 9 bytes longer, which is the most.
#[test]
fn one_curve() {
    for (kind, n, more) in [(3, 9, 7), (6, 9, 9), (5, 4097, 5), (7, 4097, 5)] {
        let mut house = house(kind, n);
        let width = house.curves.len() / 2;
        house.curves.truncate(width);
        house.firsts.truncate(1);
        house.worsts.truncate(1);
        let whole = write_file(&house).unwrap();
        let small = pack_file(&whole).unwrap();
        assert_eq!((small.len(), unpack_file(&small)), (whole.len() + more, Ok(whole)), "kind {kind}");
    }
}

#[test]
fn marks_alone_stay() {
    for n in [0, 1, 2, 4096, 4097, 100_000] {
        let file = write_file(&House::new(0.5, wave(n))).unwrap();
        assert!(pack_file(&file).as_ref() == Ok(&file) && unpack_file(&file).as_ref() == Ok(&file), "{n} marks");
        refused(sys::wes_pack_file, &file, file.len() - 1, Refusal::NoRoom);
        refused(sys::wes_unpack_file, &file, file.len() - 1, Refusal::NoRoom);
    }
}

/// Bits are what must be the same: minus zero is not zero, and a NaN is itself.
#[test]
fn curves_that_do_not_meet() {
    for kind in [3, 6] {
        let (mut house, odd) = (joined(kind, 9), f64::from_bits(0x7FF0_0000_0000_0123));
        let start = house.curves.len() / 2;
        for (end, next, meets) in [(0.0, -0.0, false), (-0.0, -0.0, true), (odd, odd, true), (odd, f64::NAN, false)] {
            for place in [0, 1] {
                let mut house = house.clone();
                (house.curves[6 + place], house.curves[start + place]) = (end, next);
                assert_eq!(pack_file(&write_file(&house).unwrap()).err(), Some(Refusal::NotJoined).filter(|_| !meets));
            }
        }
        house.curves[start] += 1.0;
        let file = write_file(&house).unwrap();
        refused(sys::wes_pack_file, &file, 0, Refusal::NotJoined);
        refused(sys::wes_pack_file, &file[..file.len() - 1], file.len(), Refusal::BadlyFormed);
    }
}

/// Changes of a packed file's body, each at its place in it.
#[test]
fn unpacking_is_refused() {
    for n in [4096, 4097] {
        for kind in KINDS.into_iter().filter(|&kind| suits(kind, n)) {
            let house = joined(kind, n);
            let (whole, per) = (body(&house), if house.nine { 64 } else { 52 });
            let changed = |at: usize, number: u32, size: usize| {
                let mut body = whole.clone();
                body[at..at + size].copy_from_slice(&number.to_le_bytes()[..size]);
                unpack_file(&file(&house, &[record(8, &body)]))
            };
            let bad = Err(Refusal::BadlyFormed);
            assert_eq!(changed(0, 2, 1), bad, "a flag above 1");
            assert_eq!(changed(0, u32::from(!house.nine), 1), bad, "the other flag");
            for last in [n - 2, n] {
                assert_eq!(changed(21 + per, last as u32, 4), bad, "the last mark number");
            }
            for at in [1, 21] {
                assert_eq!(changed(at, 65_535, 4).err(), None);
                assert_eq!(changed(at, 65_536, 4).err(), bad.clone().err().filter(|_| n == 4096), "a mark number beyond two bytes");
            }
            for length in [0, 20, 21, 21 + per - 1, 21 + 2 * per - 1] {
                assert_eq!(unpack_file(&file(&house, &[record(8, &whole[..length])])), bad, "{length} bytes");
            }
        }
    }
    for bad in [&b""[..], b"REFUSED 5\n", &[0; 52]] {
        assert_eq!((pack_file(bad).err(), unpack_file(bad).err()), (Some(Refusal::BadlyFormed), Some(Refusal::BadlyFormed)));
    }
}
