//! Lawful sheets, and the text of a sheet.

use crate::random::Random;
use model::layout::{Cable, End, Port, MOST_NODES};
use model::network::{Settings, LONGEST_EPOCH, MOST_TICKETS, MOST_WORDS};
use model::sheet::{Packet, Plan, Sheet};
use model::switch::Switch;
use std::fmt::Write;

/// How large a sheet may be.
#[derive(Clone, Copy)]
pub struct Size {
    pub nodes: u32,
    pub cycles: u32,
    pub packets: u32,
}

pub const SMALL: Size = Size {
    nodes: 9,
    cycles: 60,
    packets: 24,
};

pub const LARGE: Size = Size {
    nodes: MOST_NODES as u32,
    cycles: 400,
    packets: 256,
};

/// A lawful sheet on a mesh or on a cabled layout.
pub fn lawful(random: &mut Random, size: Size) -> Sheet {
    let (plan, cables) = if random.one_in(2) {
        (mesh(random, size.nodes), Vec::new())
    } else {
        cabled(random, size.nodes)
    };
    on(random, plan, cables, size)
}

/// A lawful sheet on a lawful layout.
pub fn on(random: &mut Random, plan: Plan, cables: Vec<Cable>, size: Size) -> Sheet {
    let layout = plan.layout(&cables).expect("a lawful layout");
    let settings = settings(random, layout.reach());
    let cycles = random.within(0..=size.cycles);
    let traffic = Traffic {
        nodes: layout.nodes() as u32,
        settings,
        cycles,
    };
    let packets = if random.one_in(3) {
        traffic.rounds(random, size.packets)
    } else {
        traffic.scattered(random, size.packets)
    };
    Sheet {
        plan,
        switch: random.pick(&[Switch::Chipper, Switch::Bless]),
        settings,
        cycles,
        cables,
        packets,
    }
}

fn mesh(random: &mut Random, most: u32) -> Plan {
    // A width from the whole range leaves most meshes very flat.
    let widest = random.pick(&[most, most.isqrt()]);
    let width = random.within(1..=widest);
    let height = random.within(1..=most / width);
    if random.one_in(2) {
        Plan::Mesh(width, height)
    } else {
        Plan::Mesh(height, width)
    }
}

/// Cables that join all nodes, and more at ports that are left: between any
/// two of them, so that some nodes are joined twice and some to themselves.
fn cabled(random: &mut Random, most: u32) -> (Plan, Vec<Cable>) {
    let count = random.within(1..=most);
    let mut nodes: Vec<u32> = (0..count).collect();
    random.shuffle(&mut nodes);
    let chain = random.one_in(4);
    let mut free: Vec<End> = Vec::new();
    let mut cables = Vec::new();
    for node in nodes {
        let mut ports = Port::ALL.map(|port| End { node, port });
        random.shuffle(&mut ports);
        let [one, others @ ..] = ports;
        // Each node brings four ports and each cable takes two, so from the
        // second node on some port is free.
        match free.len() {
            0 => free.push(one),
            // The last free port is one of the node before.
            length if chain => cables.push((one, free.swap_remove(length - 1))),
            length => cables.push((one, free.swap_remove(random.index(length)))),
        }
        free.extend(others);
    }
    random.shuffle(&mut free);
    let more = match random.within(0..=2) {
        0 => 0,
        1 => random.index(free.len() / 2 + 1),
        _ => free.len() / 2,
    };
    cables.extend(
        free.chunks_exact(2)
            .take(more)
            .map(|ends| (ends[0], ends[1])),
    );
    random.shuffle(&mut cables);
    (Plan::Cabled(count), cables)
}

fn settings(random: &mut Random, reach: u32) -> Settings {
    let words = random.within(1..=MOST_WORDS as u32);
    let least = words * (reach + 1);
    let epoch = match random.within(0..=3) {
        0 => least,
        1 => random.within(least..=LONGEST_EPOCH.min(least + 8)),
        2 => random.within(least..=LONGEST_EPOCH),
        _ => LONGEST_EPOCH,
    };
    Settings {
        tickets: random.within(1..=MOST_TICKETS),
        words,
        epoch,
        seed: random.within(1..=65_535),
    }
}

/// What the packets of a sheet are made for.
struct Traffic {
    nodes: u32,
    settings: Settings,
    cycles: u32,
}

impl Traffic {
    /// Every ticket of every node in turn, and again after a gap that is
    /// often too short, so that offers are refused.
    fn rounds(&self, random: &mut Random, count: u32) -> Vec<Packet> {
        let tickets = self.nodes * self.settings.tickets;
        let gap = random.within(1..=40);
        let meeting = self.meeting(random);
        (0..count)
            .map(|turn| {
                let (round, ticket) = (turn / tickets, turn % tickets);
                let node = ticket % self.nodes;
                Packet {
                    cycle: round * gap,
                    node,
                    own: ticket / self.nodes,
                    destination: meeting.unwrap_or(self.another(random, node)),
                    words: words(random, self.settings.words),
                }
            })
            .collect()
    }

    /// Any packets, now and then one that will be refused.
    fn scattered(&self, random: &mut Random, most: u32) -> Vec<Packet> {
        let count = random.within(0..=most);
        let longest_gap = random.pick(&[0, 1, 3, 2 * self.cycles / (count + 1)]);
        let wrong = random.pick(&[None, Some(3), Some(12)]);
        let meeting = self.meeting(random);
        let mut packets = Vec::new();
        let mut cycle = 0;
        for _ in 0..count {
            cycle += random.within(0..=longest_gap);
            let node = random.within(0..=self.nodes - 1);
            let count = random.within(1..=self.settings.words);
            let mut packet = Packet {
                cycle,
                node,
                own: random.within(0..=self.settings.tickets - 1),
                destination: meeting.unwrap_or(self.another(random, node)),
                words: words(random, count),
            };
            if wrong.is_some_and(|chances| random.one_in(chances)) {
                self.spoil(random, &mut packet);
            }
            packets.push(packet);
        }
        if random.one_in(8) {
            self.delay(random, &mut packets);
        }
        packets
    }

    /// The destination of all packets, in some sheets.
    fn meeting(&self, random: &mut Random) -> Option<u32> {
        random.one_in(4).then(|| random.within(0..=self.nodes - 1))
    }

    /// A node that is not this one, if there are several.
    fn another(&self, random: &mut Random, node: u32) -> u32 {
        let last = self.nodes - 1;
        (node + random.within(last.min(1)..=last)) % self.nodes
    }

    /// Has the packet refused by 4, 5 or 6.
    fn spoil(&self, random: &mut Random, packet: &mut Packet) {
        let beyond = random.pick(&[0, 1, 65_536, u32::MAX - 64]);
        match random.within(0..=4) {
            0 => packet.node = self.nodes + beyond,
            1 => packet.own = self.settings.tickets + beyond,
            2 => packet.destination = self.nodes + beyond,
            3 => packet.destination = packet.node,
            _ => packet.words = words(random, MOST_WORDS as u32),
        }
    }

    /// Has the last packets come when the run is over, or nearly so.
    fn delay(&self, random: &mut Random, packets: &mut [Packet]) {
        let from = random.index(packets.len() + 1);
        let late = random.pick(&[self.cycles.saturating_sub(1), self.cycles, 65_536, u32::MAX]);
        for packet in &mut packets[from..] {
            packet.cycle = packet.cycle.max(late);
        }
    }
}

fn words(random: &mut Random, count: u32) -> Vec<u32> {
    (0..count)
        .map(|_| match random.within(0..=2) {
            0 => random.within(0..=9),
            1 => u32::MAX - random.within(0..=9),
            _ => random.number(),
        })
        .collect()
}

/// The sheet as bytes. Counts are those of the lists, lawful or not.
pub fn text(sheet: &Sheet) -> Vec<u8> {
    let plan = match sheet.plan {
        Plan::Mesh(width, height) => format!("mesh {width} {height}"),
        Plan::Cabled(nodes) => format!("cabled {nodes}"),
    };
    let switch = match sheet.switch {
        Switch::Chipper => "chipper",
        Switch::Bless => "bless",
    };
    let Settings {
        tickets,
        words,
        epoch,
        seed,
    } = sheet.settings;
    let cycles = sheet.cycles;
    let mut lines = vec![
        plan,
        format!("switch {switch}"),
        format!("run {tickets} {words} {epoch} {seed} {cycles}"),
        format!("cables {}", sheet.cables.len()),
    ];
    lines.extend(sheet.cables.iter().map(cable_line));
    lines.push(format!("packets {}", sheet.packets.len()));
    lines.extend(sheet.packets.iter().map(packet_line));
    lines.push(String::new());
    lines.join("\n").into_bytes()
}

fn cable_line((one, other): &Cable) -> String {
    format!(
        "{} {:?} {} {:?}",
        one.node, one.port, other.node, other.port
    )
}

fn packet_line(packet: &Packet) -> String {
    let Packet {
        cycle,
        node,
        own,
        destination,
        words,
    } = packet;
    let mut line = format!("{cycle} {node} {own} {destination} {}", words.len());
    for word in words {
        // Writing to a string cannot fail.
        let _ = write!(line, " {word}");
    }
    line
}
