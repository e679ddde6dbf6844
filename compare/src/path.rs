//! Path data for `export` and `import`, which the crate has not: written apart from the port, in whole numbers. Only the two-mark line is the crate's own.
use super::*;

/// The largest number on either way, and the same in thousandths.
const MOST: f64 = 1e9;
const MOST_THOUSANDTHS: u128 = 1_000_000_000_000;

/// A number in thousandths: it is a whole number times 2^-down, and the half that is added rounds the magnitude up.
fn thousandths(v: f64) -> u128 {
    let (exponent, fraction) = ((v.to_bits() >> 52 & 0x7FF) as i32, u128::from(v.to_bits() << 12 >> 12));
    let (whole, down) = if exponent == 0 { (fraction, 1074) } else { (fraction | 1 << 52, 1075 - exponent) };
    if down > 100 { 0 } else { (whole * 1000 + (1 << (down - 1))) >> down } // at most 1e9, so `down` is 23 or more
}
fn written(v: f64) -> String {
    let n = thousandths(v);
    let sign = if v < 0.0 && n > 0 { "-" } else { "" };
    let text = format!("{}{}.{:03}", sign, n / 1000, n % 1000);
    text.trim_end_matches('0').trim_end_matches('.').into()
}
/// `export OPEN|RING K C8..`, behind its name.
pub fn export(w: &[&str]) -> Option<String> {
    let ring = match *w.first()? { "OPEN" => false, "RING" => true, _ => return None };
    let k = whole(w.get(1)?)?;
    if k.checked_mul(8)? != w.len() - 2 { return None; }
    let v = numbers(&w[2..])?;
    let curves: Vec<&[f64]> = v.chunks(8).collect();
    let same = |end: &[f64], start: &[f64]| (0..2).all(|i| end[6 + i].to_bits() == start[i].to_bits());
    if v.iter().any(|x| !x.is_finite()) { return Some("5".into()); }
    if v.iter().any(|x| x.abs() > MOST) { return Some("10".into()); }
    if k == 0 || !curves.windows(2).all(|c| same(c[0], c[1])) || (ring && !same(curves[k - 1], curves[0])) { return Some("12".into()); }
    let spelt = |v: &[f64]| -> String { v.iter().map(|x| format!(" {}", written(*x))).collect() };
    let body: String = curves.iter().map(|c| format!(" C{}", spelt(&c[2..]))).collect();
    Some(format!("0 M{}{}{}", spelt(&v[..2]), body, if ring { " Z" } else { "" }))
}

/// What a text is made of: a letter; a comma; or a number, by its sign, its thousandths (no more than can be told from too many) and its spelling.
enum Piece<'a> { Letter(u8), Comma, Number(bool, u128, &'a str) }
/// The pieces of a text without the white space, each taken as long as it goes; None where a byte begins none, or a number has a fourth place or no digit.
fn pieces(text: &[u8]) -> Option<Vec<Piece<'_>>> {
    let (mut found, mut at) = (vec![], 0);
    while at < text.len() {
        let (from, b) = (at, text[at]);
        at += 1;
        found.push(match b {
            b' ' | b'\t' | b'\r' | b'\n' => continue,
            b'M' | b'L' | b'C' | b'Z' => Piece::Letter(b),
            b',' => Piece::Comma,
            b'+' | b'-' | b'.' | b'0'..=b'9' => {
                let digits = |from: usize| text[from..].iter().take_while(|b| b.is_ascii_digit()).count();
                at = from + usize::from(b == b'+' || b == b'-');
                let before = digits(at);
                let point = text.get(at + before) == Some(&b'.');
                let after = if point { digits(at + before + 1) } else { 0 };
                if after > 3 || before + after == 0 { return None; }
                let (digits, places) = (&text[at..at + before], &text[at + before + usize::from(point)..][..after]);
                let value = digits.iter().chain(places).chain(&b"000"[after..]).fold(0, |n, d| (10 * n + u128::from(d - b'0')).min(10 * MOST_THOUSANDTHS));
                at += before + usize::from(point) + after;
                Piece::Number(b == b'-', value, str::from_utf8(&text[from..at]).ok()?)
            }
            _ => return None,
        });
    }
    Some(found)
}
/// The letters of a path, each with its numbers: at the front an M, Z only as the last and without numbers, a comma only between two numbers of one letter.
fn letters<'a>(found: &'a [Piece<'a>]) -> Option<Vec<(u8, Vec<(bool, u128, &'a str)>)>> {
    let mut path: Vec<(u8, Vec<_>)> = vec![];
    let mut comma = false;
    for (place, piece) in found.iter().enumerate() {
        match piece {
            Piece::Letter(b) => {
                if comma || (place == 0) != (*b == b'M') || path.last().is_some_and(|last| last.0 == b'Z') { return None; }
                path.push((*b, vec![]));
            }
            Piece::Comma => {
                if comma || path.last()?.1.is_empty() { return None; }
                comma = true;
            }
            Piece::Number(minus, value, spelt) => {
                path.last_mut()?.1.push((*minus, *value, *spelt));
                comma = false;
            }
        }
    }
    let fair = |(letter, numbers): &(u8, Vec<_>)| match letter { b'Z' => numbers.is_empty(), b'C' => !numbers.is_empty() && numbers.len() % 6 == 0, _ => !numbers.is_empty() && numbers.len() % 2 == 0 };
    if comma || path.is_empty() || !path.iter().all(fair) { None } else { Some(path) }
}
/// The number nearest to so many thousandths: whole numbers below 2^53 have a correctly rounded quotient. A minus zero is plus zero.
fn nearest(minus: bool, value: u128) -> f64 { (if minus { -(value as f64) } else { value as f64 }) / 1000.0 + 0.0 }
/// The crate's own line of two marks.
fn line(p: Coord2, q: Coord2) -> [f64; 8] {
    let made: Vec<Plain> = fit_curve_cubic(&[p, q], &Coord2(0.0, 0.0), &Coord2(0.0, 0.0), 1.0);
    eight(&made[0])
}
/// `import TEXT`: the text is all behind the first blank.
pub fn import(text: &[u8]) -> String {
    let Some(found) = pieces(text) else { return "11".into() };
    let Some(path) = letters(&found) else { return "11".into() };
    if path.iter().flat_map(|letter| &letter.1).any(|number| number.1 > MOST_THOUSANDTHS) { return "10".into(); }
    let (mut curves, mut here, mut closed): (Vec<[f64; 8]>, Vec<Coord2>, bool) = (vec![], vec![], false);
    for (letter, spelt) in &path {
        let v: Vec<f64> = spelt.iter().map(|(minus, value, _)| nearest(*minus, *value)).collect();
        // the standard library reads the same decimal to the same number
        if spelt.iter().zip(&v).any(|((_, _, text), v)| text.parse::<f64>().map(|x| (x + 0.0).to_bits()) != Ok(v.to_bits())) { return "UNLIKE".into(); }
        if *letter == b'Z' {
            closed = true;
            let (first, last) = (here[0], here[here.len() - 1]);
            if first != last { curves.push(line(last, first)); }
        }
        for step in v.chunks(if *letter == b'C' { 6 } else { 2 }) {
            let end = Coord2(step[step.len() - 2], step[step.len() - 1]);
            match (here.last(), step) {
                (Some(p), [a, b, c, d, x, y]) => curves.push([p.0, p.1, *a, *b, *c, *d, *x, *y]),
                (Some(p), _) => curves.push(line(*p, end)),
                (None, _) => {}
            }
            here.push(end);
        }
    }
    format!("0 {} {}{}", curves.len(), if closed { "CLOSED" } else { "OPEN" }, hex(&curves.concat()))
}
