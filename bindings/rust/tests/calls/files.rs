//! House files read and written.
use crate::wave;
use wesalondo::*;

/// A NaN with bits of its own.
const ODD_NAN: u64 = 0xFFF0_0000_DEAD_BEEF;

/// A house with curves of nine numbers, or of eight.
fn house(nine: bool) -> House {
    let marks = wave(60);
    let house = House::with_fit(0.05, &marks, &fit_joined(&marks, 0.05).unwrap());
    if nine {
        house
    } else {
        with_eights(house)
    }
}

/// A house without its worst marks.
fn with_eights(house: House) -> House {
    let curves = house.curves.chunks(9).flat_map(|record| &record[..8]).copied().collect();
    House { nine: false, worsts: vec![], curves, ..house }
}

/// Slices for a raw reader, filled.
struct Room {
    marks: Vec<f64>,
    firsts: Vec<u32>,
    worsts: Vec<u32>,
    curves: Vec<f64>,
    params: Vec<f64>,
}

impl Room {
    /// Just the room for such a house.
    fn of(house: &House) -> Room {
        let (firsts, worsts) = (vec![3; house.firsts.len()], vec![3; house.worsts.len()]);
        Room { marks: vec![2.5; 2 * house.marks.len()], firsts, worsts, curves: vec![2.5; house.curves.len()], params: vec![2.5; house.params.len()] }
    }

    /// Reads into it; a refused file leaves it as it was, and the single values zeros.
    fn read(&mut self, file: &[u8]) -> u32 {
        let (mut tolerance, mut marks, mut curves, mut nine) = (7.0, 7, 7, true);
        let Room { marks: m, firsts: f, worsts: w, curves: c, params: p } = self;
        let (ml, fl, wl, cl, pl) = (m.len(), f.len(), w.len(), c.len(), p.len());
        let (mp, fp, wp, cp, pp) = (m.as_mut_ptr(), f.as_mut_ptr(), w.as_mut_ptr(), c.as_mut_ptr(), p.as_mut_ptr());
        let (fb, fbl, t, mc, cc, n) = (file.as_ptr(), file.len(), &mut tolerance, &mut marks, &mut curves, &mut nine);
        // SAFETY: each pointer is to that many elements, all apart.
        let answer = unsafe { sys::wes_read_file(fb, fbl, t, mp, ml, fp, fl, wp, wl, cp, cl, pp, pl, mc, cc, n) };
        if answer != 0 {
            assert_eq!((tolerance.to_bits(), marks, curves, nine), (0, 0, 0, false), "{answer} leaves zeros");
            assert!(self.marks.iter().chain(&self.curves).chain(&self.params).all(|&x| x == 2.5), "{answer} leaves the numbers");
            assert!(self.firsts.iter().chain(&self.worsts).all(|&mark| mark == 3), "{answer} leaves the mark numbers");
        }
        answer
    }
}

/// The answer of the raw writer into so many bytes, and how many it wrote; a refused one leaves them as they were.
fn written(house: &House, marks: &[f64], count: usize, room: usize) -> (u32, usize) {
    let House { tolerance, nine, curves: c, firsts: f, worsts: w, params: p, .. } = house;
    let (mut out, mut size) = (vec![9; room], 7);
    let (fp, wp, cp, pp, op) = (f.as_ptr(), w.as_ptr(), c.as_ptr(), p.as_ptr(), out.as_mut_ptr());
    let (fl, wl, cl, pl) = (f.len(), w.len(), c.len(), p.len());
    // SAFETY: each pointer is to that many elements, all apart.
    let answer =
        unsafe { sys::wes_write_file(*nine, tolerance, marks.as_ptr(), marks.len(), count, fp, fl, wp, wl, cp, cl, pp, pl, op, room, &mut size) };
    assert!(answer == 0 || (size == 0 && out.iter().all(|&byte| byte == 9)), "{answer} leaves the bytes");
    (answer, size)
}

#[test]
fn written_and_read_again() {
    for house in [house(true), house(false), House::new(0.25, wave(7)), House::new(0.0, vec![])] {
        let file = write_file(&house).unwrap();
        assert_eq!(read_file(&file), Ok(house.clone()));
        assert_eq!(Room::of(&house).read(&file), 0, "in just the room that is asked for");
        assert_eq!(written(&house, &crate::common::flat(&house.marks), house.len(), file.len()), (0, file.len()));
    }
    assert_eq!(house(true).check(), Ok(Verdict::Sound));
    assert_eq!(house(false).check(), Ok(Verdict::Sound));
    assert_eq!((house(true).is_empty(), House::new(0.25, wave(7)).is_empty()), (false, true));
}

/// The largest that the judge and `save_fit` take; tests/long.rs has larger ones.
#[test]
fn the_largest_file() {
    let marks: Vec<Point> = (0..4096).map(|i| Point::new(f64::from(i), f64::from(i * 7919 % 101))).collect();
    let fit = fit_joined(&marks, 0.0).unwrap();
    assert!(fit.len() > 2000);
    let house = House::with_fit(0.0, &marks, &fit);
    let file = write_file(&house).unwrap();
    assert_eq!(read_file(&file).as_ref(), Ok(&house));
    assert_eq!(save_fit(&file).as_ref(), Ok(&file), "its own fit, on the stack of a thread");
    assert_eq!(judge_file(&file), Ok(Judgement::Passed { marks: 4096, curves: fit.len() }));
    let eights = with_eights(house);
    assert_eq!(read_file(&write_file(&eights).unwrap()), Ok(eights));
}

#[test]
fn a_ring_in_a_house() {
    let marks = wave(300);
    let fit = fit_ring(&marks, 0.5).unwrap();
    let file = write_file(&House::with_fit(0.5, &marks, &fit)).unwrap();
    assert_eq!(judge_file(&file), Ok(Judgement::Passed { marks: 301, curves: fit.len() }));
    // mark 0 again is the first one beyond two-byte mark numbers, and beyond the judge
    let most = wave(4096);
    let house = House::with_fit(0.5, &most, &fit_ring(&most, 0.5).unwrap());
    let file = write_file(&house).unwrap();
    assert_eq!((file[20 + 16 * 4097 + 4], judge_file(&file)), (7, Err(Refusal::TooMany)));
    assert!(read_file(&file).as_ref() == Ok(&house));
    assert_eq!(house.check(), Ok(Verdict::Sound));
}

#[test]
fn bits_are_kept() {
    let nan = f64::from_bits(ODD_NAN);
    let mut house = house(true);
    (house.tolerance, house.marks[3].y, house.curves[11], house.params[5]) = (nan, nan, nan, nan);
    let read = read_file(&write_file(&house).unwrap()).unwrap();
    let bits = [read.tolerance, read.marks[3].y, read.curves[11], read.params[5]].map(f64::to_bits);
    assert_eq!(bits, [ODD_NAN; 4]);
}

#[test]
fn reading_is_refused() {
    let whole = house(true);
    let file = write_file(&whole).unwrap();
    for bad in [&file[..0], &file[..19], &file[..file.len() - 1], &[file.as_slice(), b"x"].concat(), b"REFUSED 5\n"] {
        assert_eq!(read_file(bad), Err(Refusal::BadlyFormed));
        assert_eq!(Room::of(&whole).read(bad), 9);
    }
    let most = write_file(&House::new(0.5, wave(100_000))).unwrap();
    let mut long = [most.as_slice(), &[0; 16]].concat();
    long[14..18].copy_from_slice(&(2 + 16 * 100_001u32).to_le_bytes());
    assert!(read_file(&most).is_ok());
    assert_eq!(read_file(&long).err(), Some(Refusal::TooMany));
    assert_eq!(Room::of(&whole).read(&long), 2);
}

#[test]
fn reading_into_too_little_room() {
    for whole in [house(true), house(false)] {
        let file = write_file(&whole).unwrap();
        let refused = |cut: fn(&mut Room)| {
            let mut room = Room::of(&whole);
            cut(&mut room);
            room.read(&file)
        };
        assert_eq!(refused(|room| room.marks.truncate(room.marks.len() - 1)), 4);
        assert_eq!(refused(|room| room.firsts.truncate(room.firsts.len() - 1)), 4);
        assert_eq!(refused(|room| room.curves.truncate(room.curves.len() - 1)), 4);
        assert_eq!(refused(|room| room.params.truncate(room.params.len() - 1)), 4);
        if whole.nine {
            assert_eq!(refused(|room| room.worsts.truncate(room.worsts.len() - 1)), 4);
        }
    }
}

#[test]
fn writing_is_refused() {
    let changed = |change: fn(&mut House)| {
        let mut house = house(true);
        change(&mut house);
        write_file(&house)
    };
    assert!(changed(|_| {}).is_ok());
    assert_eq!(changed(|house| house.marks = wave(100_001)).err(), Some(Refusal::TooMany));
    assert_eq!(changed(|house| house.worsts.truncate(house.firsts.len() - 1)), Err(Refusal::NoRoom));
    assert_eq!(changed(|house| house.curves.truncate(house.curves.len() - 1)), Err(Refusal::NoRoom));
    assert_eq!(changed(|house| house.params.truncate(59)), Err(Refusal::NoRoom));
    assert_eq!(changed(|house| house.firsts[1] = 65_536), Err(Refusal::BadlyFormed));
    assert_eq!(changed(|house| house.worsts[1] = 65_536), Err(Refusal::BadlyFormed));
    assert_eq!(changed(|house| house.marks.truncate(house.firsts.len())), Err(Refusal::BadlyFormed));
    let whole = house(true);
    let (marks, size) = (crate::common::flat(&whole.marks), write_file(&whole).unwrap().len());
    assert_eq!(written(&whole, &marks[1..], whole.len(), size), (3, 0));
    assert_eq!(written(&whole, &marks, whole.len(), size - 1), (4, 0));
    assert_eq!(written(&whole, &marks, whole.len() + 1, size + 100), (4, 0));
    assert_eq!(written(&whole, &marks, usize::MAX, size), (4, 0));
}
