//! Sheets that are damaged: what reaches a reader by a bad copy or a slip.

use crate::random::Random;

/// What a field is changed to: numbers at limits, words of the form and
/// what is nearly a number or a word of it.
const FIELDS: &str = "0 1 2 3 4 5 7 8 9 10 63 64 65 127 128 129 255 256 257 4095 4096 4097 \
    65535 65536 4294967295 4294967296 4294967297 18446744073709551616 00 01 -1 +1 1.0 0x1 1a \u{b9} \
    N E S W n NE mesh cabled switch chipper bless Bless run cables packets";

/// Bytes that a reader might take for another one, or pass over.
const BYTES: [u8; 16] = *b"\0\t\n\x0B\r \x1A+-./09:N\xFF";

type Lines = Vec<Vec<u8>>;

/// A copy of the sheet with one damage or a few.
pub fn damaged(random: &mut Random, sheet: &[u8]) -> Vec<u8> {
    let mut sheet = sheet.to_vec();
    for _ in 0..random.pick(&[1, 1, 1, 2, 3]) {
        match random.within(0..=9) {
            0..=2 => bytes(random, &mut sheet),
            3..=5 => with_lines(&mut sheet, |lines| fields(random, lines)),
            6 => with_lines(&mut sheet, |lines| whole_lines(random, lines)),
            7 => with_lines(&mut sheet, |lines| counts(random, lines)),
            8 => with_lines(&mut sheet, |lines| cycles(random, lines)),
            _ => ends(random, &mut sheet),
        }
    }
    sheet
}

/// Damages a byte, or a few that follow one another.
fn bytes(random: &mut Random, sheet: &mut Vec<u8>) {
    if sheet.is_empty() {
        return;
    }
    let place = random.index(sheet.len());
    match random.within(0..=5) {
        0 => {
            sheet.remove(place);
        }
        1 => sheet.insert(place, random.pick(&BYTES)),
        2 => sheet[place] = random.pick(&BYTES),
        3 => sheet[place] = random.byte(),
        4 => sheet.insert(place, sheet[place]),
        _ => {
            let length = random.index(8).min(sheet.len() - place);
            sheet[place..place + length].fill_with(|| random.byte());
        }
    }
}

/// Damages a field of a line, or a space beside it.
fn fields(random: &mut Random, lines: &mut Lines) {
    if lines.is_empty() {
        return;
    }
    let line = random.index(lines.len());
    let mut fields: Lines = split(&lines[line], b' ');
    // What is split has one part at least.
    let place = random.index(fields.len());
    let field = &mut fields[place];
    match random.within(0..=8) {
        0 | 1 => *field = another(random),
        2 => field.insert(0, b'0'),
        3 => *field = nearly(random, field),
        4 => {
            fields.remove(place);
        }
        5 => fields.insert(place, fields[place].clone()),
        // An empty field: two spaces, or one at an end.
        6 => fields.insert(place, Vec::new()),
        7 => fields.push(Vec::new()),
        _ => fields.swap(0, place),
    }
    let parted = if random.one_in(16) { b"\t" } else { b" " };
    lines[line] = fields.join(&parted[..]);
}

fn another(random: &mut Random) -> Vec<u8> {
    let fields: Vec<&str> = FIELDS.split(' ').collect();
    random.pick(&fields).into()
}

/// A number one above or below that of the field, if it is one.
fn nearly(random: &mut Random, field: &[u8]) -> Vec<u8> {
    let number = std::str::from_utf8(field)
        .ok()
        .and_then(|text| text.parse::<u64>().ok());
    match number {
        Some(number) if number > 0 && random.one_in(2) => (number - 1).to_string().into_bytes(),
        Some(number) => number.wrapping_add(1).to_string().into_bytes(),
        None => field.to_ascii_uppercase(),
    }
}

fn whole_lines(random: &mut Random, lines: &mut Lines) {
    if lines.is_empty() {
        return;
    }
    let (one, other) = (random.index(lines.len()), random.index(lines.len()));
    match random.within(0..=5) {
        0 => {
            lines.remove(one);
        }
        1 => lines.insert(other, lines[one].clone()),
        2 => lines.swap(one, other),
        3 => lines.insert(one, Vec::new()),
        4 => lines[one].push(b'\r'),
        _ => lines.iter_mut().for_each(|line| line.push(b'\r')),
    }
}

/// Changes a count, so that lines are missing or too many.
fn counts(random: &mut Random, lines: &mut Lines) {
    let word = random.pick(&[&b"cables"[..], b"packets"]);
    if let Some(line) = lines.iter_mut().find(|line| line.starts_with(word)) {
        let mut fields = split(line, b' ');
        if let [_, count] = &mut fields[..] {
            *count = if random.one_in(2) {
                nearly(random, count)
            } else {
                another(random)
            };
        }
        *line = fields.join(&b" "[..]);
    }
}

/// Has the last packet, or the one before it, come at another cycle.
fn cycles(random: &mut Random, lines: &mut Lines) {
    let back = random.within(1..=2) as usize;
    if let Some(line) = lines.len().checked_sub(back).map(|place| &mut lines[place]) {
        let mut fields = split(line, b' ');
        fields[0] = nearly(random, &fields[0]);
        *line = fields.join(&b" "[..]);
    }
}

/// Damages the sheet's end.
fn ends(random: &mut Random, sheet: &mut Vec<u8>) {
    match random.within(0..=4) {
        0 => sheet.truncate(random.index(sheet.len() + 1)),
        1 => {
            sheet.pop();
        }
        2 => sheet.push(b'\n'),
        3 => sheet.push(random.byte()),
        _ => sheet.extend_from_within(random.index(sheet.len() + 1)..),
    }
}

/// Bytes without any form.
pub fn noise(random: &mut Random) -> Vec<u8> {
    let length = random.within(0..=200);
    let plain = random.one_in(2);
    (0..length)
        .map(|_| {
            if plain {
                random.pick(&BYTES)
            } else {
                random.byte()
            }
        })
        .collect()
}

/// Calls `visit` with every copy of the sheet that has one byte changed to
/// any other, left out, doubled or another put before it, that is cut off
/// at any place, or that has two lines exchanged or one left out or doubled.
pub fn everywhere<E>(sheet: &[u8], mut visit: impl FnMut(&[u8]) -> Result<(), E>) -> Result<(), E> {
    for place in 0..sheet.len() {
        let (before, after) = sheet.split_at(place);
        visit(before)?;
        visit(&[before, &after[1..]].concat())?;
        visit(&[before, &after[..1], after].concat())?;
        for byte in 0..=u8::MAX {
            visit(&[before, &[byte], &after[1..]].concat())?;
        }
        for byte in BYTES {
            visit(&[before, &[byte], after].concat())?;
        }
    }
    let lines: Lines = sheet
        .split_inclusive(|byte| *byte == b'\n')
        .map(<[u8]>::to_vec)
        .collect();
    for one in 0..lines.len() {
        for other in 0..lines.len() {
            let mut changed = lines.clone();
            changed.swap(one, other);
            visit(&changed.concat())?;
            let mut changed = lines.clone();
            changed.insert(other, lines[one].clone());
            visit(&changed.concat())?;
        }
        let mut changed = lines.clone();
        changed.remove(one);
        visit(&changed.concat())?;
    }
    Ok(())
}

fn split(bytes: &[u8], at: u8) -> Lines {
    bytes
        .split(|byte| *byte == at)
        .map(<[u8]>::to_vec)
        .collect()
}

/// Changes the lines of a sheet, each of which is handed over without its
/// byte 10.
fn with_lines(sheet: &mut Vec<u8>, change: impl FnOnce(&mut Lines)) {
    let mut lines = split(sheet, b'\n');
    // What is split ends with what stands after the last byte 10.
    let rest = lines.pop().unwrap_or_default();
    change(&mut lines);
    lines.push(rest);
    *sheet = lines.join(&b'\n');
}
