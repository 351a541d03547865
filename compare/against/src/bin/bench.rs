//! How fast the proved library is beside the second model.
//!
//! What is timed is the whole listing of a sheet: reading it, building the
//! layout, every cycle and writing the listing. A light load is a packet of
//! one word now and then. A saturating one is eight tickets a node and four
//! words a packet, each ticket offered again and again at short gaps; its
//! run ends with the last flit, so that most cycles are busy. A sheet has
//! at most 256 packets, so these runs are short and called many times.

use against::proved::{list, LEAST_MEMORY};
use against::random::Random;
use against::sheets::text;
use model::network::Settings;
use model::sheet::{Packet, Plan, Sheet};
use model::switch::Switch;
use std::hint::black_box;
use std::process::ExitCode;
use std::time::{Duration, Instant};

/// The two are timed in turn, so many times each; the best time counts.
/// Many short turns: some then pass undisturbed on a busy machine.
const TURNS: usize = 100;
/// About how long one turn of the second model takes.
const TURN: Duration = Duration::from_millis(4);

fn main() -> ExitCode {
    println!("million cycles a second, of whole listings; above 1 the proved library is faster");
    println!("nodes  load        switch   cycles   proved    model  proved/model");
    for side in [2, 4, 8] {
        for saturating in [false, true] {
            for switch in [Switch::Chipper, Switch::Bless] {
                let sheet = if saturating {
                    ended_early(saturated(side, switch))
                } else {
                    light(side, switch)
                };
                let Some((proved, model)) = speeds(&sheet) else {
                    println!("the listings differ");
                    return ExitCode::FAILURE;
                };
                println!(
                    "{:5}  {:10}  {:7}  {:6}  {proved:7.3}  {model:7.3}  {:12.2}",
                    side * side,
                    if saturating { "saturating" } else { "light" },
                    format!("{switch:?}").to_lowercase(),
                    sheet.cycles,
                    proved / model
                );
            }
        }
    }
    ExitCode::SUCCESS
}

/// Million cycles a second of the proved library and of the second model;
/// none if their listings differ.
fn speeds(sheet: &Sheet) -> Option<(f64, f64)> {
    let bytes = text(sheet);
    let mut memory = vec![0; LEAST_MEMORY];
    let length = list(&bytes, &mut memory);
    let began = Instant::now();
    if memory[..length] != model::listing(&bytes) {
        return None;
    }
    let calls = 1 + (TURN.as_nanos() / began.elapsed().as_nanos().max(1)) as u32;
    let (mut proved, mut model) = (Duration::MAX, Duration::MAX);
    for _ in 0..TURNS {
        proved = proved.min(timed(calls, || {
            black_box(list(black_box(&bytes), &mut memory));
        }));
        model = model.min(timed(calls, || {
            black_box(model::listing(black_box(&bytes)));
        }));
    }
    let cycles = f64::from(calls) * f64::from(sheet.cycles) / 1e6;
    Some((cycles / proved.as_secs_f64(), cycles / model.as_secs_f64()))
}

fn timed(calls: u32, mut call: impl FnMut()) -> Duration {
    let began = Instant::now();
    for _ in 0..calls {
        call();
    }
    began.elapsed()
}

fn sheet(side: u32, switch: Switch, tickets: u32, words: u32) -> Sheet {
    Sheet {
        plan: Plan::Mesh(side, side),
        switch,
        settings: Settings {
            tickets,
            words,
            epoch: words * (2 * side - 1),
            seed: 1,
        },
        cycles: 2_000,
        cables: Vec::new(),
        packets: Vec::new(),
    }
}

fn light(side: u32, switch: Switch) -> Sheet {
    let mut sheet = sheet(side, switch, 1, 1);
    let mut random = Random::new(1);
    let nodes = side * side;
    for turn in 0..100 {
        let node = turn % nodes;
        sheet.packets.push(Packet {
            cycle: 20 * turn,
            node,
            own: 0,
            destination: (node + random.within(1..=nodes - 1)) % nodes,
            words: vec![random.number()],
        });
    }
    sheet
}

fn saturated(side: u32, switch: Switch) -> Sheet {
    let mut sheet = sheet(side, switch, 8, 4);
    let mut random = Random::new(1);
    let nodes = side * side;
    for turn in 0..256 {
        let (round, ticket) = (turn / (8 * nodes), turn % (8 * nodes));
        let node = ticket % nodes;
        sheet.packets.push(Packet {
            // Eight packets of four words take a node 32 cycles to enter, and
            // some more until the first tickets of all nodes are free again.
            cycle: 48 * round,
            node,
            own: ticket / nodes,
            destination: (node + random.within(1..=nodes - 1)) % nodes,
            words: (0..4).map(|_| random.number()).collect(),
        });
    }
    sheet
}

/// The same sheet with its run ended by the last event.
fn ended_early(mut sheet: Sheet) -> Sheet {
    let listing = String::from_utf8_lossy(&model::listing(&text(&sheet))).into_owned();
    let last = listing.lines().rev().nth(1).unwrap_or_default();
    let cycle = last.split(' ').next().and_then(|cycle| cycle.parse().ok());
    sheet.cycles = cycle.map_or(sheet.cycles, |cycle: u32| cycle + 1);
    sheet
}
