//! A network with its calls.

use crate::layout::{Layout, Place, Port};
use crate::line::Line;
use crate::refusal::Refusal;
use crate::switch::{Flit, Places, Switch};
use std::collections::VecDeque;

pub const MOST_TICKETS: u32 = 8;
pub const MOST_WORDS: usize = 4;
pub const LONGEST_EPOCH: u32 = 4096;
pub const MOST_CYCLES: u32 = 1_073_741_823;

/// What set-up fixes.
#[derive(Clone, Copy, PartialEq, Eq, Debug)]
pub struct Settings {
    /// The tickets of each node.
    pub tickets: u32,
    /// The words a packet may have.
    pub words: u32,
    /// The cycles of an epoch.
    pub epoch: u32,
    pub seed: u32,
}

impl Settings {
    /// How a network stands before its first set-up.
    const FIRST: Settings = Settings {
        tickets: 1,
        words: 1,
        epoch: LONGEST_EPOCH,
        seed: 1,
    };

    fn judge(&self, reach: u32) -> Result<(), Refusal> {
        if !(1..=MOST_TICKETS).contains(&self.tickets)
            || !(1..=MOST_WORDS as u32).contains(&self.words)
        {
            return Err(Refusal::Counts);
        }
        if self.epoch < self.words * (reach + 1) || self.epoch > LONGEST_EPOCH {
            return Err(Refusal::Epoch);
        }
        if self.seed == 0 || self.seed > 65_535 {
            return Err(Refusal::Seed);
        }
        Ok(())
    }
}

#[derive(Clone, Copy, PartialEq, Eq, Debug)]
pub enum Kind {
    In,
    Out,
}

#[derive(Clone, Copy, PartialEq, Eq, Debug)]
pub struct Event {
    pub cycle: u32,
    pub kind: Kind,
    pub ticket: usize,
    pub number: usize,
    pub node: usize,
    pub entry: u32,
}

impl Event {
    /// What the memory of an event line holds before any event is put.
    pub const BLANK: Event = Event {
        cycle: 0,
        kind: Kind::In,
        ticket: 0,
        number: 0,
        node: 0,
        entry: 0,
    };

    fn of(flit: &Flit, kind: Kind, cycle: u32, node: usize) -> Event {
        let Flit {
            ticket,
            number,
            entry,
            ..
        } = *flit;
        Event {
            cycle,
            kind,
            ticket,
            number,
            node,
            entry,
        }
    }
}

#[derive(Clone, Copy, PartialEq, Eq, Debug)]
pub enum State {
    Free,
    Open,
    Complete,
}

/// The packet of a ticket: what was offered and what came off so far.
#[derive(Clone, Debug)]
struct Ticket {
    state: State,
    destination: usize,
    offered: Vec<u32>,
    entered: usize,
    /// The words taken off, at their flits' numbers. What is collected
    /// comes from here, not from the offer.
    record: [u32; MOST_WORDS],
    off: usize,
}

impl Ticket {
    const FREE: Ticket = Ticket {
        state: State::Free,
        destination: 0,
        offered: Vec::new(),
        entered: 0,
        record: [0; MOST_WORDS],
        off: 0,
    };

    fn receive(&mut self, number: usize, word: u32) {
        if let Some(place) = self.record.get_mut(number) {
            *place = word;
        }
        self.off += 1;
        if self.off == self.offered.len() {
            self.state = State::Complete;
        }
    }
}

pub struct Network {
    layout: Layout,
    switch: Switch,
    settings: Settings,
    draw: u32,
    /// How many cycles are carried out.
    cycles: u32,
    slots: Vec<Places>,
    tickets: Vec<Ticket>,
    /// For each node the tickets of its waiting packets, the first first.
    waiting: Vec<VecDeque<usize>>,
}

impl Network {
    pub fn new(layout: Layout, switch: Switch) -> Network {
        let mut network = Network {
            layout,
            switch,
            settings: Settings::FIRST,
            draw: 0,
            cycles: 0,
            slots: Vec::new(),
            tickets: Vec::new(),
            waiting: Vec::new(),
        };
        network.clear(Settings::FIRST);
        network
    }

    /// The state right after set-up, whatever was there before.
    fn clear(&mut self, settings: Settings) {
        let nodes = self.layout.nodes();
        self.settings = settings;
        self.draw = settings.seed;
        self.cycles = 0;
        self.slots = vec![[None; 4]; nodes];
        self.tickets = vec![Ticket::FREE; nodes * settings.tickets as usize];
        self.waiting = vec![VecDeque::new(); nodes];
    }

    pub fn set_up(&mut self, settings: Settings) -> Result<(), Refusal> {
        settings.judge(self.layout.reach())?;
        self.clear(settings);
        Ok(())
    }

    fn node(&self, node: u32) -> Option<usize> {
        usize::try_from(node)
            .ok()
            .filter(|node| *node < self.layout.nodes())
    }

    fn ticket(&self, node: u32, own: u32) -> Result<usize, Refusal> {
        let node = self.node(node).ok_or(Refusal::Missing)?;
        if own >= self.settings.tickets {
            return Err(Refusal::Missing);
        }
        Ok(node * self.settings.tickets as usize + own as usize)
    }

    pub fn offer(&mut self, node: u32, own: u32, to: u32, words: &[u32]) -> Result<(), Refusal> {
        let ticket = self.ticket(node, own)?;
        let destination = self.node(to).ok_or(Refusal::Destination)?;
        if to == node {
            return Err(Refusal::Destination);
        }
        if words.is_empty() || words.len() > self.settings.words as usize {
            return Err(Refusal::Words);
        }
        if self.tickets[ticket].state != State::Free {
            return Err(Refusal::Taken);
        }
        self.tickets[ticket] = Ticket {
            state: State::Open,
            destination,
            offered: words.to_vec(),
            ..Ticket::FREE
        };
        // The ticket exists, so its node does too.
        self.waiting[node as usize].push_back(ticket);
        Ok(())
    }

    /// Writes the words of a complete packet at the memory's front and
    /// tells how many they are.
    pub fn collect(
        &mut self,
        receiver: u32,
        sender: u32,
        own: u32,
        memory: &mut [u32],
    ) -> Result<usize, Refusal> {
        let receiver = self.node(receiver).ok_or(Refusal::Missing)?;
        let ticket = self.ticket(sender, own)?;
        let held = &mut self.tickets[ticket];
        if held.state != State::Complete || held.destination != receiver {
            return Err(Refusal::Incomplete);
        }
        let count = held.off;
        if memory.len() < count {
            return Err(Refusal::Memory);
        }
        for (place, word) in memory.iter_mut().zip(held.record).take(count) {
            *place = word;
        }
        *held = Ticket::FREE;
        Ok(count)
    }

    pub fn look(&self, node: u32, port: u32) -> Result<Option<Flit>, Refusal> {
        let node = self.node(node).ok_or(Refusal::Missing)?;
        let port = usize::try_from(port).map_err(|_| Refusal::Missing)?;
        self.slots[node].get(port).copied().ok_or(Refusal::Missing)
    }

    /// The state of a ticket and the destination of its packet; none if
    /// there is no such ticket.
    pub fn state(&self, ticket: usize) -> Option<(State, usize)> {
        self.tickets
            .get(ticket)
            .map(|held| (held.state, held.destination))
    }

    /// How many tickets there are in all.
    pub fn tickets(&self) -> usize {
        self.tickets.len()
    }

    fn golden(&self) -> usize {
        (self.cycles / self.settings.epoch) as usize % self.tickets.len()
    }

    /// Carries out one cycle and tells how many flits were taken off.
    pub fn cycle(&mut self, line: &mut Line<Event>) -> Result<u32, Refusal> {
        let nodes = self.layout.nodes();
        if self.cycles >= MOST_CYCLES {
            return Err(Refusal::Cycles);
        }
        if line.free() < 2 * nodes {
            return Err(Refusal::Events);
        }
        let golden = self.golden();
        let mut off = 0;
        // The new slots are filled apart from the old ones, since every
        // node works from the slots as they were before the cycle.
        let mut next = vec![[None; 4]; nodes];
        for node in 0..nodes {
            let mut here = self.slots[node];
            if let Some(event) = self.take_off(node, golden, &mut here) {
                off += 1;
                // At most two events for each node: the room was counted.
                line.put(event)?;
            }
            if let Some(event) = self.enter(node, &mut here) {
                line.put(event)?;
            }
            let draws = self.draw_bits();
            self.send(node, golden, draws, here, &mut next);
        }
        self.slots = next;
        self.cycles += 1;
        Ok(off)
    }

    fn take_off(&mut self, node: usize, golden: usize, here: &mut Places) -> Option<Event> {
        // Golden flits come before ordinary ones and by number; ordinary
        // ones, and equal numbers, in slot order: of several smallest ones
        // the first is found.
        let chosen = here
            .iter_mut()
            .filter(|place| place.is_some_and(|flit| flit.destination == node))
            .min_by_key(|place| match place {
                Some(flit) if flit.ticket == golden => (false, flit.number),
                _ => (true, 0),
            })?;
        let flit = chosen.take()?;
        self.tickets[flit.ticket].receive(flit.number, flit.word);
        Some(Event::of(&flit, Kind::Out, self.cycles, node))
    }

    fn enter(&mut self, node: usize, here: &mut Places) -> Option<Event> {
        let ticket = *self.waiting[node].front()?;
        let slot = here.iter_mut().find(|place| place.is_none())?;
        let held = &mut self.tickets[ticket];
        let number = held.entered;
        let flit = Flit {
            ticket,
            number,
            destination: held.destination,
            word: *held.offered.get(number)?,
            entry: self.cycles,
        };
        *slot = Some(flit);
        held.entered += 1;
        if held.entered == held.offered.len() {
            self.waiting[node].pop_front();
        }
        Some(Event::of(&flit, Kind::In, self.cycles, node))
    }

    /// Moves the draw register and answers the bits for one node.
    fn draw_bits(&mut self) -> [bool; 4] {
        let shifted_out = self.draw & 1;
        self.draw >>= 1;
        if shifted_out == 1 {
            self.draw ^= 0xB400;
        }
        [0, 1, 2, 3].map(|bit| self.draw >> bit & 1 == 1)
    }

    /// Hands one node's flits to the switch and each outgoing one to the
    /// far end of its port.
    fn send(
        &self,
        node: usize,
        golden: usize,
        draws: [bool; 4],
        here: Places,
        next: &mut [Places],
    ) {
        let wishes =
            here.map(|place| place.and_then(|flit| self.layout.wish(node, flit.destination)));
        let out = self.switch.route(here, wishes, golden, draws);
        for port in Port::ALL {
            if let Some(flit) = out[port.index()] {
                let far = self.layout.far(Place { node, port });
                next[far.node][far.port.index()] = Some(flit);
            }
        }
    }
}

#[cfg(test)]
mod tests {
    use super::*;

    fn pair() -> Network {
        Network::new(Layout::mesh(2, 1).expect("a lawful size"), Switch::Chipper)
    }

    fn settings(tickets: u32, words: u32, epoch: u32, seed: u32) -> Settings {
        Settings {
            tickets,
            words,
            epoch,
            seed,
        }
    }

    fn step(network: &mut Network) -> Result<u32, Refusal> {
        let mut memory = [Event::BLANK; 128];
        network.cycle(&mut Line::new(&mut memory))
    }

    #[test]
    fn set_up_refusals() {
        // The reach is 1.
        let mut network = pair();
        for (tickets, words, epoch, seed, expected) in [
            (0, 0, 0, 0, Err(Refusal::Counts)),
            (9, 4, 4096, 1, Err(Refusal::Counts)),
            (8, 5, 4096, 1, Err(Refusal::Counts)),
            (8, 0, 4096, 1, Err(Refusal::Counts)),
            (8, 4, 4097, 0, Err(Refusal::Epoch)),
            (8, 4, 7, 1, Err(Refusal::Epoch)),
            (8, 4, 8, 0, Err(Refusal::Seed)),
            (8, 4, 8, 65_536, Err(Refusal::Seed)),
            (u32::MAX, u32::MAX, u32::MAX, u32::MAX, Err(Refusal::Counts)),
            (8, 4, 8, 65_535, Ok(())),
            (8, 4, 4096, 1, Ok(())),
        ] {
            assert_eq!(
                network.set_up(settings(tickets, words, epoch, seed)),
                expected
            );
        }
    }

    #[test]
    fn before_the_first_set_up() {
        let mut network = pair();
        assert_eq!(network.offer(0, 1, 1, &[5]), Err(Refusal::Missing));
        assert_eq!(network.offer(0, 0, 1, &[5, 6]), Err(Refusal::Words));
        assert_eq!(network.offer(0, 0, 1, &[5]), Ok(()));
        assert_eq!(network.draw, 1);
        assert_eq!(step(&mut network), Ok(0));
        assert_eq!(step(&mut network), Ok(1));
    }

    #[test]
    fn offer_refusals_in_order() {
        let mut network = pair();
        assert_eq!(network.set_up(settings(2, 2, 4, 1)), Ok(()));
        assert_eq!(network.offer(0, 0, 1, &[5]), Ok(()));
        assert_eq!(network.offer(2, 0, 9, &[]), Err(Refusal::Missing));
        assert_eq!(network.offer(0, 2, 9, &[]), Err(Refusal::Missing));
        assert_eq!(network.offer(0, 0, 0, &[]), Err(Refusal::Destination));
        assert_eq!(network.offer(0, 0, 2, &[]), Err(Refusal::Destination));
        assert_eq!(network.offer(0, 0, 1, &[]), Err(Refusal::Words));
        assert_eq!(network.offer(0, 0, 1, &[1, 2, 3]), Err(Refusal::Words));
        assert_eq!(network.offer(0, 0, 1, &[1]), Err(Refusal::Taken));
        assert_eq!(network.offer(0, 1, 1, &[1]), Ok(()));
    }

    #[test]
    fn collect_and_look() {
        let mut network = pair();
        assert_eq!(network.set_up(settings(1, 2, 4, 1)), Ok(()));
        assert_eq!(network.offer(0, 0, 1, &[7, 9]), Ok(()));
        assert_eq!(step(&mut network), Ok(0));
        // The flit left by E and stands in slot W of node 1.
        assert!(matches!(network.look(1, 3), Ok(Some(flit)) if flit.word == 7 && flit.entry == 0));
        assert_eq!(network.look(1, 2), Ok(None));
        assert_eq!(network.look(1, 4), Err(Refusal::Missing));
        assert_eq!(network.look(2, 0), Err(Refusal::Missing));
        let mut memory = [1, 2, 3];
        assert_eq!(step(&mut network), Ok(1));
        assert_eq!(
            network.collect(1, 0, 0, &mut memory),
            Err(Refusal::Incomplete)
        );
        assert_eq!(step(&mut network), Ok(1));
        assert_eq!(network.collect(2, 0, 0, &mut memory), Err(Refusal::Missing));
        assert_eq!(network.collect(1, 2, 0, &mut memory), Err(Refusal::Missing));
        assert_eq!(network.collect(1, 0, 1, &mut memory), Err(Refusal::Missing));
        assert_eq!(
            network.collect(0, 0, 0, &mut memory[..0]),
            Err(Refusal::Incomplete)
        );
        assert_eq!(
            network.collect(1, 0, 0, &mut memory[..1]),
            Err(Refusal::Memory)
        );
        assert_eq!(network.offer(0, 0, 1, &[1]), Err(Refusal::Taken));
        assert_eq!(memory, [1, 2, 3]);
        assert_eq!(network.collect(1, 0, 0, &mut memory), Ok(2));
        assert_eq!(memory, [7, 9, 3]);
        assert_eq!(
            network.collect(1, 0, 0, &mut memory),
            Err(Refusal::Incomplete)
        );
        assert_eq!(network.offer(0, 0, 1, &[1]), Ok(()));
    }

    #[test]
    fn cycle_refusals_in_order() {
        let mut network = pair();
        let mut memory = [Event::BLANK; 4];
        assert_eq!(
            network.cycle(&mut Line::new(&mut memory[..3])),
            Err(Refusal::Events)
        );
        assert_eq!(network.cycle(&mut Line::new(&mut memory)), Ok(0));
        network.cycles = MOST_CYCLES - 1;
        assert_eq!(network.cycle(&mut Line::new(&mut memory)), Ok(0));
        assert_eq!(
            network.cycle(&mut Line::new(&mut memory)),
            Err(Refusal::Cycles)
        );
        assert_eq!(
            network.cycle(&mut Line::new(&mut memory[..0])),
            Err(Refusal::Cycles)
        );
    }

    #[test]
    fn a_repeated_set_up_drops_everything() {
        let mut network = pair();
        assert_eq!(network.offer(0, 0, 1, &[7]), Ok(()));
        assert_eq!(step(&mut network), Ok(0));
        assert_eq!(network.set_up(settings(1, 1, 2, 3)), Ok(()));
        for node in 0..2 {
            for port in 0..4 {
                assert_eq!(network.look(node, port), Ok(None));
            }
        }
        assert_eq!(network.cycles, 0);
        assert_eq!(network.offer(0, 0, 1, &[7]), Ok(()));
    }

    #[test]
    fn the_draw_register_by_hand() {
        let mut network = pair();
        for expected in [0xB400, 0x5A00, 0x2D00, 0x1680, 0x0B40] {
            let bits = network.draw_bits();
            assert_eq!(network.draw, expected);
            assert_eq!(bits, [false; 4]);
        }
        network.draw = 0b10101;
        assert_eq!(network.draw_bits(), [false, true, false, true]);
        assert_eq!(network.draw, 0xB40A);
    }

    #[test]
    fn golden_is_taken_off_first() {
        let mut network = pair();
        assert_eq!(network.set_up(settings(2, 2, 4, 1)), Ok(()));
        assert_eq!(network.offer(0, 0, 1, &[7, 9]), Ok(()));
        assert_eq!(network.offer(0, 1, 1, &[5]), Ok(()));
        let flit = |ticket, number| {
            Some(Flit {
                ticket,
                number,
                destination: 1,
                word: 0,
                entry: 0,
            })
        };
        let places = [flit(1, 0), flit(0, 1), None, flit(0, 0)];
        let mut here = places;
        assert!(network.take_off(1, 0, &mut here).is_some());
        assert_eq!(here, [places[0], places[1], None, None]);
        assert!(network.take_off(1, 0, &mut here).is_some());
        assert_eq!(here, [places[0], None, None, None]);
        // Without a golden flit slot order decides.
        let mut here = places;
        assert!(network.take_off(1, 3, &mut here).is_some());
        assert_eq!(here, [None, places[1], None, places[3]]);
        // Flits for other nodes stay.
        let mut here = places;
        assert!(network.take_off(0, 0, &mut here).is_none());
        assert_eq!(here, places);
    }
}
