//! Sheets of the right form whose layout or set-up is refused.

use crate::random::Random;
use model::layout::End;
use model::network::LONGEST_EPOCH;
use model::sheet::{Plan, Sheet};

/// Spoils a lawful sheet in one way or in several.
pub fn faulty(random: &mut Random, mut sheet: Sheet) -> Sheet {
    for _ in 0..random.pick(&[1, 1, 2, 4]) {
        match random.within(0..=7) {
            0 => size(random, &mut sheet),
            1 => tickets(random, &mut sheet),
            2 => epoch(random, &mut sheet),
            3 => seed(random, &mut sheet),
            4 => cut_off(random, &mut sheet),
            _ => cable(random, &mut sheet),
        }
    }
    sheet
}

/// Refused by 12.
fn size(random: &mut Random, sheet: &mut Sheet) {
    let wrong = random.pick(&[0, 65, 66, 65_536, u32::MAX]);
    match &mut sheet.plan {
        Plan::Cabled(nodes) => *nodes = wrong,
        Plan::Mesh(width, height) => match random.within(0..=2) {
            0 => *width = wrong,
            1 => *height = wrong,
            _ => (*width, *height) = random.pick(&[(13, 5), (65_536, 65_536), (8, 9)]),
        },
    }
}

/// Refused by 1.
fn tickets(random: &mut Random, sheet: &mut Sheet) {
    if random.one_in(2) {
        sheet.settings.tickets = random.pick(&[0, 9, u32::MAX]);
    } else {
        sheet.settings.words = random.pick(&[0, 5, u32::MAX]);
    }
}

/// Refused by 2.
fn epoch(random: &mut Random, sheet: &mut Sheet) {
    // The layout or the words may be spoilt already.
    let reach = sheet.plan.layout(&sheet.cables).map_or(0, |layout| layout.reach());
    let least = sheet.settings.words.saturating_mul(reach + 1);
    sheet.settings.epoch = random.pick(&[0, least.saturating_sub(1), LONGEST_EPOCH + 1, u32::MAX]);
}

/// Refused by 3.
fn seed(random: &mut Random, sheet: &mut Sheet) {
    sheet.settings.seed = random.pick(&[0, 65_536, 65_537, u32::MAX]);
}

/// Refused by 14, unless the node still hangs on a cable, or is the only one.
fn cut_off(random: &mut Random, sheet: &mut Sheet) {
    if let Plan::Cabled(nodes) = &mut sheet.plan {
        let node = random.within(0..=*nodes);
        if node == *nodes && node < 64 {
            *nodes += 1;
        }
        let apart = |end: &End| end.node != node;
        sheet
            .cables
            .retain(|(one, other)| apart(one) && apart(other));
    }
}

/// Refused by 13.
fn cable(random: &mut Random, sheet: &mut Sheet) {
    let Plan::Cabled(nodes) = sheet.plan else {
        return;
    };
    if sheet.cables.is_empty() {
        return;
    }
    let place = random.index(sheet.cables.len());
    let (used, _) = sheet.cables[random.index(sheet.cables.len())];
    let (one, other) = &mut sheet.cables[place];
    match random.within(0..=4) {
        0 => one.node = random.pick(&[nodes, 64, u32::MAX]).max(nodes),
        1 => other.node = random.pick(&[nodes, 64, u32::MAX]).max(nodes),
        2 => *one = *other,
        3 => *one = used,
        // The same place may be chosen twice, and the cable stays lawful.
        _ => *other = used,
    }
}
