//! Cleaning a house file for `salvage`, which the crate has not: written apart from the port and from Python, by the bits as whole numbers. No float is made of a mark.
use crate::pack;

const MARKS_AT: usize = 20;
/// The bits of 1,000,000. Without the sign numbers rise as their bits do, and infinities and NaNs are above all of them.
const LARGEST: u64 = 0x412E_8480_0000_0000;
const UNSIGNED: u64 = u64::MAX >> 1;

/// Equal bits, or two zeros of any signs.
fn equal(a: u64, b: u64) -> bool { a == b || (a | b) & UNSIGNED == 0 }

/// The cleaned file and the list of what was dropped; None for bytes that are no house file.
fn salvage(file: &[u8]) -> Option<(Vec<u8>, String)> {
    if !pack::is_file(file) { return None; }
    let bytes = u32::from_le_bytes(file[14..18].try_into().ok()?) as usize - 2;
    let (mut kept, mut drops, mut last): (Vec<u8>, Vec<String>, Option<[u64; 2]>) = (vec![], vec![], None);
    for (number, bytes) in file[MARKS_AT..MARKS_AT + bytes].chunks(16).enumerate() {
        let mark = [0, 8].map(|at| u64::from_le_bytes(bytes[at..at + 8].try_into().expect("eight bytes")));
        if mark.iter().any(|v| v & UNSIGNED > LARGEST) {
            drops.push(format!("DROP {} RANGE\n", number));
        } else if last.is_some_and(|last| equal(last[0], mark[0]) && equal(last[1], mark[1])) {
            drops.push(format!("DROP {} EQUAL\n", number));
        } else {
            kept.extend(bytes);
            last = Some(mark);
        }
    }
    let list = format!("KEPT {} DROPPED {}\n{}", kept.len() / 16, drops.len(), drops.concat());
    Some(([&file[..14], &(kept.len() as u32 + 2).to_le_bytes(), &[2, 0], &kept[..]].concat(), list))
}

/// `salvage HEX`: the cleaned file and the list, as bytes, or 9.
pub fn answer(text: &str) -> Option<String> {
    let file = pack::bytes(text)?;
    Some(salvage(&file).map_or("9".into(), |(made, list)| format!("0 {} {}", pack::hex(&made), pack::hex(list.as_bytes()))))
}
