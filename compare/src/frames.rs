//! Frame text with one hyperedge more, or with another list for one: a table with a list that the edits refuse is read from it.

/// The bytes of a frame without the last, from its line.
fn opened(line: &str) -> Vec<u8> {
    (0..line.len() - 2)
        .step_by(2)
        .map(|at| u8::from_str_radix(&line[at..at + 2], 16).expect("two digits"))
        .collect()
}

/// The line of a frame: the bytes, and a last one that brings the sum to a multiple of 256.
fn sealed(bytes: &[u8]) -> String {
    let sum = bytes.iter().fold(0u8, |sum, &byte| sum.wrapping_add(byte));
    let digits: String = bytes
        .iter()
        .chain([&sum.wrapping_neg()])
        .map(|byte| format!("{byte:02X}"))
        .collect();
    digits + "\n"
}

/// The line of a hyperedge.
fn hyperedge(number: &[u8], weight: &[u8], list: &[u32]) -> String {
    let members: Vec<u8> = list.iter().flat_map(|v| v.to_be_bytes()).collect();
    sealed(&[&[2], number, weight, &[list.len() as u8], &members].concat())
}

/// The text with one hyperedge more, of the next number.
pub fn with_hyperedge(text: &str, list: &[u32], weight: u32) -> String {
    let (first, records) = text.split_once('\n').expect("a head");
    let head = opened(first);
    let next = u32::from_be_bytes(head[7..11].try_into().expect("four bytes"));
    let live = u16::from_be_bytes(head[13..15].try_into().expect("two bytes"));
    let counted = [
        &head[..7],
        &(next + 1).to_be_bytes(),
        &head[11..13],
        &(live + 1).to_be_bytes(),
    ]
    .concat();
    sealed(&counted) + records + &hyperedge(&head[7..11], &weight.to_be_bytes(), list)
}

/// The text with another list for the hyperedge.
pub fn with_list(text: &str, number: u32, list: &[u32]) -> String {
    let begins = format!("02{number:08X}");
    let changed = |line: &str| {
        let frame = opened(line);
        hyperedge(&frame[1..5], &frame[5..9], list)
    };
    text.lines()
        .map(|line| {
            if line.starts_with(&begins) {
                changed(line)
            } else {
                format!("{line}\n")
            }
        })
        .collect()
}
