//! One sheet, listed by the proved library and by the second model.

use crate::proved::{list, LEAST_MEMORY};
use crate::random::Random;
use crate::tally::Tally;

/// Lengths of the memory for a listing.
const LENGTHS: [usize; 4] = [LEAST_MEMORY, LEAST_MEMORY + 1, 70_000, 2 * LEAST_MEMORY];
/// What stands before and after the longest memory, to see that nothing is
/// written there.
const MARGIN: usize = 64;
const ROOM: usize = 2 * LEAST_MEMORY + 2 * MARGIN;
const PATTERNS: usize = 256;

pub struct Checker {
    random: Random,
    /// What the room is filled with, from one of its first bytes on.
    pattern: Vec<u8>,
    /// Where the memory for listings lies.
    room: Vec<u8>,
    pub tally: Tally,
}

impl Checker {
    pub fn new(mut random: Random) -> Checker {
        let pattern = (0..ROOM + PATTERNS).map(|_| random.byte()).collect();
        Checker {
            random,
            pattern,
            room: vec![0; ROOM],
            tally: Tally::default(),
        }
    }

    /// Answers the sheet's listing, or how the two disagree.
    pub fn check(&mut self, kind: &str, sheet: &[u8]) -> Result<Vec<u8>, String> {
        let second = model::listing(sheet);
        // A new pattern each time: a byte that is written astray is then
        // seldom what stood there before.
        let start = self.random.index(PATTERNS);
        let pattern = &self.pattern[start..start + ROOM];
        self.room.copy_from_slice(pattern);
        for length in [0, self.random.index(LEAST_MEMORY), LEAST_MEMORY - 1] {
            let answer = list(sheet, &mut self.room[MARGIN..MARGIN + length]);
            if answer != 0 || self.room != pattern {
                let why = format!("memory of {length} bytes is not refused");
                return Err(report(kind, &why, sheet, &second, b""));
            }
        }
        let length = self.random.pick(&LENGTHS);
        let answer = list(sheet, &mut self.room[MARGIN..MARGIN + length]);
        let found = &self.room[MARGIN..MARGIN + answer.min(length)];
        if answer > length || found != second {
            let why = format!(
                "the listings differ in line {}",
                first_change(&second, found)
            );
            return Err(report(kind, &why, sheet, &second, found));
        }
        let end = MARGIN + answer;
        if self.room[..MARGIN] != pattern[..MARGIN] || self.room[end..] != pattern[end..] {
            let why = "memory beyond the listing is changed";
            return Err(report(kind, why, sheet, &second, found));
        }
        self.tally.add(kind, sheet, &second);
        Ok(second)
    }
}

/// The number of the first line that is not the same in both.
fn first_change(one: &[u8], other: &[u8]) -> usize {
    let same = one.iter().zip(other).take_while(|(a, b)| a == b);
    1 + same.filter(|(byte, _)| **byte == b'\n').count()
}

fn report(kind: &str, why: &str, sheet: &[u8], second: &[u8], proved: &[u8]) -> String {
    format!(
        "{why}\n== this {kind} sheet\n{}== the second model lists\n{}== the proved library lists\n{}",
        shown(sheet),
        shown(second),
        shown(proved)
    )
}

/// The bytes line by line, with those that are no plain text escaped.
fn shown(bytes: &[u8]) -> String {
    bytes
        .split_inclusive(|byte| *byte == b'\n')
        .map(|line| match line.strip_suffix(b"\n") {
            Some(line) => format!("{}\n", line.escape_ascii()),
            None => format!("{} (without its byte 10)\n", line.escape_ascii()),
        })
        .collect()
}
