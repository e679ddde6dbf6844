//! Packed house files for `pack` and `unpack`, which the crate has not: written apart from the port and from Python, on the bytes themselves. No number is taken out of a file but lengths, kinds and marks.

/// A file's records, kind and body, up to its end; None where a length does not fit.
fn records(mut file: &[u8]) -> Option<Vec<(u16, &[u8])>> {
    let mut found = vec![];
    while !file.is_empty() {
        let length = u32::from_le_bytes(file.get(..4)?.try_into().ok()?) as usize;
        let whole = file.get(4..4 + length).filter(|whole| whole.len() >= 2)?;
        found.push((u16::from_le_bytes([whole[0], whole[1]]), &whole[2..]));
        file = &file[4 + length..];
    }
    Some(found)
}

/// A house file but for what its curves are: its tolerance and marks, so many marks, what stands in the curves' place, and its parameters.
struct House<'a> { front: &'a [u8], count: usize, curves: Vec<(u16, &'a [u8])>, params: &'a [u8] }

impl House<'_> {
    fn read(file: &[u8]) -> Option<House<'_>> {
        let found = records(file)?;
        let [(1, tolerance), (2, marks), rest @ ..] = &found[..] else { return None };
        let (count, front) = (marks.len() / 16, &file[..20 + marks.len()]);
        if tolerance.len() != 8 || marks.len() % 16 > 0 { return None; }
        match rest {
            [] => Some(House { front, count, curves: vec![], params: &[] }),
            [curves @ .., (4, params)] if !curves.is_empty() && params.len() == 8 * count && count > 1 => Some(House { front, count, curves: curves.to_vec(), params }),
            _ => None,
        }
    }
    /// How many bytes a mark's number has in a record of its own.
    fn wide(&self) -> usize { if self.count > 4096 { 4 } else { 2 } }
    fn kind(&self, kept: bool) -> u16 { match (self.wide(), kept) { (2, false) => 3, (2, true) => 6, (_, false) => 5, (_, true) => 7 } }
    fn last(&self) -> [u8; 4] { (self.count as u32 - 1).to_le_bytes() }
    /// The file with these records in the curves' place.
    fn with(&self, kind: u16, bodies: &[Vec<u8>]) -> Vec<u8> {
        let record = |kind: u16, body: &[u8]| [&(body.len() as u32 + 2).to_le_bytes()[..], &kind.to_le_bytes()[..], body].concat();
        let curves: Vec<u8> = bodies.iter().flat_map(|body| record(kind, body)).collect();
        [self.front, &curves, &record(4, self.params)].concat()
    }
}

/// The file with each joint once, or the refusal.
fn pack(file: &[u8]) -> Result<Vec<u8>, u8> {
    let house = House::read(file).ok_or(9)?;
    let Some((_, first)) = house.curves.first() else { return Ok(file.to_vec()) };
    let (wide, kept) = (house.wide(), house.curves[0].0 == house.kind(true));
    let at = if kept { 2 * wide } else { wide }; // where the numbers begin
    let fair = |(kind, body): &(u16, &[u8])| *kind == house.kind(kept) && body.len() == at + if kept { 72 } else { 64 };
    if !house.curves.iter().all(fair) || house.curves.len() >= house.count { return Err(9); }
    if house.curves.windows(2).any(|pair| pair[0].1[at + 48..at + 64] != pair[1].1[at..at + 16]) { return Err(12); }
    let marked = |bytes: &[u8]| [bytes, &[0; 4][bytes.len()..]].concat();
    let nexts = house.curves[1..].iter().map(|(_, body)| marked(&body[..wide])).chain([house.last().to_vec()]);
    let mut packed = [&[u8::from(kept)], &marked(&first[..wide])[..], &first[at..at + 16]].concat();
    for (next, (_, body)) in nexts.zip(&house.curves) {
        packed.extend([&next[..], &body[at + 16..]].concat());
        if kept { packed.extend(marked(&body[wide..at])); }
    }
    Ok(house.with(8, &[packed]))
}

/// The file with a record for each curve, or the refusal.
fn unpack(file: &[u8]) -> Result<Vec<u8>, u8> {
    let house = House::read(file).ok_or(9)?;
    if house.curves.is_empty() { return Ok(file.to_vec()); }
    let [(8, packed)] = house.curves[..] else { return Err(9) };
    let kept = match packed.first() { Some(0) => false, Some(1) => true, _ => return Err(9) };
    let (size, wide) = (if kept { 64 } else { 52 }, house.wide());
    let rest = packed.get(21..).filter(|rest| !rest.is_empty() && rest.len() % size == 0 && rest.len() / size < house.count).ok_or(9)?;
    let narrow = |number: &[u8]| if number[wide..].iter().any(|byte| *byte > 0) { Err(9) } else { Ok(number[..wide].to_vec()) };
    let (mut first, mut start, mut bodies) = (&packed[1..5], &packed[5..21], vec![]);
    for curve in rest.chunks(size) {
        let mut body = narrow(first)?;
        if kept { body.extend(narrow(&curve[60..])?); }
        body.extend([start, &curve[4..if kept { 60 } else { 52 }]].concat());
        bodies.push(body);
        (first, start) = (&curve[..4], &curve[36..52]);
    }
    if first != house.last() { return Err(9); }
    Ok(house.with(house.kind(kept), &bodies))
}

/// Whether bytes are a house file, packed or not: one whose curves do not meet is.
pub fn is_file(file: &[u8]) -> bool { pack(file) != Err(9) || unpack(file).is_ok() }

/// The bytes of a text, two lower-case digits each.
pub fn bytes(text: &str) -> Option<Vec<u8>> {
    let digit = |b: &u8| match b { b'0'..=b'9' => Some(b - b'0'), b'a'..=b'f' => Some(b - b'a' + 10), _ => None };
    let digits: Option<Vec<u8>> = text.as_bytes().iter().map(digit).collect();
    let digits = digits.filter(|digits| digits.len() % 2 == 0)?;
    Some(digits.chunks(2).map(|pair| 16 * pair[0] + pair[1]).collect())
}
pub fn hex(bytes: &[u8]) -> String { bytes.iter().map(|byte| format!("{:02x}", byte)).collect() }

/// `pack HEX` or `unpack HEX`.
pub fn answer(kind: &str, text: &str) -> Option<String> {
    let file = bytes(text)?;
    Some(match if kind == "pack" { pack(&file) } else { unpack(&file) } { Ok(made) => format!("0 {}", hex(&made)), Err(refusal) => refusal.to_string() })
}
