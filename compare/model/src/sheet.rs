//! The reader of run sheets.
//!
//! Lines are read one after another, so that the earliest faulty one is
//! found first. What needs a layout or a network to judge is left to them.

use crate::layout::{Cable, End, Layout, Port};
use crate::network::Settings;
use crate::refusal::Refusal;
use crate::switch::Switch;

pub const LONGEST: usize = 65_536;
const MOST_CABLES: u32 = 128;
const MOST_PACKETS: u32 = 256;
const MOST_CYCLES: u32 = 65_535;

const RUN_LINE: usize = 3;
const CABLES_LINE: usize = 4;

/// What makes a sheet useless: a number and a line.
#[derive(Clone, Copy, PartialEq, Eq, Debug)]
pub struct Fault {
    number: u32,
    line: usize,
}

impl Fault {
    fn too_long() -> Fault {
        Fault {
            number: 15,
            line: 0,
        }
    }

    fn form(line: usize) -> Fault {
        Fault { number: 16, line }
    }

    fn count(line: usize) -> Fault {
        Fault { number: 17, line }
    }

    /// The fault of a sheet whose layout or set-up was refused.
    pub fn of(refusal: Refusal) -> Fault {
        let line = match refusal {
            Refusal::Size => 1,
            Refusal::Cable(index) => CABLES_LINE + 1 + index,
            Refusal::Apart(_) => CABLES_LINE,
            _ => RUN_LINE,
        };
        Fault {
            number: refusal.number(),
            line,
        }
    }

    /// The whole listing of a faulty sheet.
    pub fn text(self) -> String {
        let layer = match self.number {
            15..=17 => "sheet",
            12..=14 => "layout",
            _ => "network",
        };
        format!("fault {layer} {} {}\n", self.number, self.line)
    }
}

#[derive(Clone, Copy, PartialEq, Eq, Debug)]
pub enum Plan {
    Mesh(u32, u32),
    Cabled(u32),
}

impl Plan {
    /// The layout that a sheet of this plan and these cables names.
    pub fn layout(self, cables: &[Cable]) -> Result<Layout, Refusal> {
        match self {
            Plan::Mesh(width, height) => Layout::mesh(width, height),
            Plan::Cabled(nodes) => Layout::cabled(nodes, cables),
        }
    }
}

#[derive(Clone, PartialEq, Eq, Debug)]
pub struct Packet {
    pub cycle: u32,
    pub node: u32,
    pub own: u32,
    pub destination: u32,
    pub words: Vec<u32>,
}

#[derive(Clone, PartialEq, Eq, Debug)]
pub struct Sheet {
    pub plan: Plan,
    pub switch: Switch,
    pub settings: Settings,
    pub cycles: u32,
    pub cables: Vec<Cable>,
    pub packets: Vec<Packet>,
}

/// The lines not read yet, and the number of the line read last.
struct Lines<'a> {
    rest: &'a [u8],
    number: usize,
}

impl<'a> Lines<'a> {
    /// The fields of the next line. A line that is missing is faulty at
    /// the number it would have had, and so is one without its byte 10.
    fn next(&mut self) -> Result<Vec<&'a [u8]>, Fault> {
        self.number += 1;
        let end = self
            .rest
            .iter()
            .position(|byte| *byte == b'\n')
            .ok_or(self.form())?;
        let (line, rest) = self.rest.split_at(end);
        // The first byte of the rest is the byte 10 found above.
        self.rest = rest.get(1..).unwrap_or_default();
        Ok(line.split(|byte| *byte == b' ').collect())
    }

    /// The next line, which must have the form that `shape` reads.
    fn read<T>(&mut self, shape: impl Fn(&[&[u8]]) -> Option<T>) -> Result<T, Fault> {
        let fields = self.next()?;
        shape(&fields).ok_or(self.form())
    }

    fn form(&self) -> Fault {
        Fault::form(self.number)
    }
}

pub fn read(bytes: &[u8]) -> Result<Sheet, Fault> {
    if bytes.len() > LONGEST {
        return Err(Fault::too_long());
    }
    let mut lines = Lines {
        rest: bytes,
        number: 0,
    };
    let plan = lines.read(plan)?;
    let switch = lines.read(switch)?;
    let (settings, cycles) = lines.read(run)?;
    let cables = read_cables(&mut lines, plan)?;
    let packets = read_packets(&mut lines)?;
    if !lines.rest.is_empty() {
        return Err(Fault::form(lines.number + 1));
    }
    Ok(Sheet {
        plan,
        switch,
        settings,
        cycles,
        cables,
        packets,
    })
}

fn read_cables(lines: &mut Lines, plan: Plan) -> Result<Vec<Cable>, Fault> {
    let count = lines.read(|fields| count(fields, b"cables"))?;
    // A mesh has no cables: for it any other count is no matter of limits.
    if matches!(plan, Plan::Mesh(..)) && count != 0 {
        return Err(lines.form());
    }
    if count > MOST_CABLES {
        return Err(Fault::count(lines.number));
    }
    (0..count).map(|_| lines.read(cable)).collect()
}

fn read_packets(lines: &mut Lines) -> Result<Vec<Packet>, Fault> {
    let count = lines.read(|fields| count(fields, b"packets"))?;
    if count > MOST_PACKETS {
        return Err(Fault::count(lines.number));
    }
    let mut packets = Vec::new();
    let mut earliest = 0;
    for _ in 0..count {
        let packet = lines.read(packet)?;
        if packet.cycle < earliest {
            return Err(lines.form());
        }
        earliest = packet.cycle;
        packets.push(packet);
    }
    Ok(packets)
}

fn plan(fields: &[&[u8]]) -> Option<Plan> {
    match fields {
        [b"mesh", width, height] => Some(Plan::Mesh(number(width)?, number(height)?)),
        [b"cabled", nodes] => Some(Plan::Cabled(number(nodes)?)),
        _ => None,
    }
}

fn switch(fields: &[&[u8]]) -> Option<Switch> {
    match fields {
        [b"switch", b"chipper"] => Some(Switch::Chipper),
        [b"switch", b"bless"] => Some(Switch::Bless),
        _ => None,
    }
}

fn run(fields: &[&[u8]]) -> Option<(Settings, u32)> {
    let [b"run", tickets, words, epoch, seed, cycles] = fields else {
        return None;
    };
    let settings = Settings {
        tickets: number(tickets)?,
        words: number(words)?,
        epoch: number(epoch)?,
        seed: number(seed)?,
    };
    let cycles = number(cycles)?;
    (cycles <= MOST_CYCLES).then_some((settings, cycles))
}

fn count(fields: &[&[u8]], title: &[u8]) -> Option<u32> {
    match fields {
        [first, count] if *first == title => number(count),
        _ => None,
    }
}

fn cable(fields: &[&[u8]]) -> Option<Cable> {
    let [one, one_port, other, other_port] = fields else {
        return None;
    };
    Some((
        End {
            node: number(one)?,
            port: port(one_port)?,
        },
        End {
            node: number(other)?,
            port: port(other_port)?,
        },
    ))
}

fn port(field: &[u8]) -> Option<Port> {
    match field {
        b"N" => Some(Port::N),
        b"E" => Some(Port::E),
        b"S" => Some(Port::S),
        b"W" => Some(Port::W),
        _ => None,
    }
}

fn packet(fields: &[&[u8]]) -> Option<Packet> {
    let [cycle, node, own, destination, count, words @ ..] = fields else {
        return None;
    };
    // One to four words, as many as the count says.
    if !(1..=4).contains(&words.len()) || number(count)? as usize != words.len() {
        return None;
    }
    Some(Packet {
        cycle: number(cycle)?,
        node: number(node)?,
        own: number(own)?,
        destination: number(destination)?,
        words: words
            .iter()
            .map(|word| number(word))
            .collect::<Option<Vec<u32>>>()?,
    })
}

/// A decimal number without leading zeros that fits 32 bits.
fn number(field: &[u8]) -> Option<u32> {
    if field.is_empty() || (field.len() > 1 && field[0] == b'0') {
        return None;
    }
    field.iter().try_fold(0u32, |value, byte| {
        let digit = byte.checked_sub(b'0').filter(|digit| *digit <= 9)?;
        value.checked_mul(10)?.checked_add(u32::from(digit))
    })
}

#[cfg(test)]
mod tests {
    use super::*;

    #[test]
    fn numbers() {
        assert_eq!(number(b"0"), Some(0));
        assert_eq!(number(b"10"), Some(10));
        assert_eq!(number(b"4294967295"), Some(u32::MAX));
        for wrong in [
            &b""[..],
            b"00",
            b"01",
            b"4294967296",
            b"42949672950",
            b"99999999999999999999",
            b"+1",
            b"-0",
            b"-1",
            b"1a",
            b" 1",
            b"1\r",
            b"\t1",
            b"0x1",
            b"1_0",
            b"\xff",
            b"/",
            b":",
        ] {
            assert_eq!(number(wrong), None, "{wrong:?}");
        }
    }
}
