//! A second model of the network, written from docs/MODEL.md and docs/DECISIONS.md
//! alone. It is made to be compared with the first, so it shares no code
//! with it and takes the plainest way to each answer.

#![forbid(unsafe_code)]

pub mod layout;
pub mod line;
pub mod network;
pub mod refusal;
pub mod sheet;
pub mod switch;

use line::Line;
use network::{Event, Kind, Network, State, MOST_WORDS};
use sheet::{Fault, Packet, Sheet};

/// The bytes of a run sheet's listing, or its single fault line.
pub fn listing(sheet: &[u8]) -> Vec<u8> {
    let text = sheet::read(sheet).and_then(|sheet| run(&sheet));
    text.unwrap_or_else(Fault::text).into_bytes()
}

/// Builds the network of a sheet and carries the sheet out.
fn run(sheet: &Sheet) -> Result<String, Fault> {
    let layout = sheet.plan.layout(&sheet.cables).map_err(Fault::of)?;
    let nodes = layout.nodes();
    let mut network = Network::new(layout, sheet.switch);
    network.set_up(sheet.settings).map_err(Fault::of)?;
    let mut writer = Writer {
        text: String::new(),
        entered: 0,
        off: 0,
        waited: 0,
    };
    let mut packets = sheet.packets.iter().peekable();
    for cycle in 0..sheet.cycles {
        // The packets' cycles never fall, so those due come next.
        while let Some(packet) = packets.next_if(|packet| packet.cycle == cycle) {
            writer.offer(&mut network, packet);
        }
        writer.cycle(&mut network, nodes);
        writer.collect(&mut network, cycle, sheet.settings.tickets);
    }
    writer.end();
    Ok(writer.text)
}

/// The listing so far and what its last line will tell.
struct Writer {
    text: String,
    entered: u64,
    off: u64,
    /// The sum of (cycle off − entry cycle) over the flits taken off.
    waited: u64,
}

impl Writer {
    fn line(&mut self, line: &str) {
        self.text.push_str(line);
        self.text.push('\n');
    }

    fn offer(&mut self, network: &mut Network, packet: &Packet) {
        let Packet {
            cycle,
            node,
            own,
            destination,
            words,
        } = packet;
        if let Err(refusal) = network.offer(*node, *own, *destination, words) {
            self.line(&format!("{cycle} no {} {node} {own}", refusal.number()));
        }
    }

    fn cycle(&mut self, network: &mut Network, nodes: usize) {
        let mut memory = vec![Event::BLANK; 2 * nodes];
        let mut events = Line::new(&mut memory);
        // Never refused: the line has room for two events of each node,
        // and a sheet has far fewer cycles than a network can carry out.
        let _ = network.cycle(&mut events);
        while let Some(event) = events.take() {
            self.event(&event);
        }
    }

    fn event(&mut self, event: &Event) {
        let Event {
            cycle,
            kind,
            ticket,
            number,
            node,
            entry,
        } = *event;
        let kind = match kind {
            Kind::In => {
                self.entered += 1;
                "in"
            }
            Kind::Out => {
                self.off += 1;
                self.waited += u64::from(cycle - entry);
                "out"
            }
        };
        self.line(&format!("{cycle} {kind} {ticket} {number} {node}"));
    }

    fn collect(&mut self, network: &mut Network, cycle: u32, tickets: u32) {
        for ticket in 0..network.tickets() {
            let Some((State::Complete, destination)) = network.state(ticket) else {
                continue;
            };
            // There are at most 512 tickets, so all these fit 32 bits, and
            // set-up refused 0 tickets for each node.
            let (sender, own) = (ticket as u32 / tickets, ticket as u32 % tickets);
            let mut memory = [0; MOST_WORDS];
            let Ok(count) = network.collect(destination as u32, sender, own, &mut memory) else {
                continue;
            };
            let words: String = memory
                .iter()
                .take(count)
                .map(|word| format!(" {word}"))
                .collect();
            self.line(&format!("{cycle} done {ticket}{words}"));
        }
    }

    fn end(&mut self) {
        let mean = match (10 * self.waited).checked_div(self.off) {
            Some(tenths) => format!("{}.{}", tenths / 10, tenths % 10),
            None => "-".to_string(),
        };
        let (entered, off) = (self.entered, self.off);
        self.line(&format!("end {entered} {off} {mean}"));
    }
}
