//! What sends the flits at a node to its four ports.

use crate::layout::Port;

/// One word of a packet under way.
#[derive(Clone, Copy, PartialEq, Eq, Debug)]
pub struct Flit {
    pub ticket: usize,
    /// The word's place in its packet, from 0.
    pub number: usize,
    pub destination: usize,
    pub word: u32,
    pub entry: u32,
}

/// Four places in slot order, or outgoing places in port order.
pub type Places = [Option<Flit>; 4];
pub type Wishes = [Option<Port>; 4];

#[derive(Clone, Copy, PartialEq, Eq, Debug)]
pub enum Switch {
    Chipper,
    Bless,
}

impl Switch {
    pub fn route(self, places: Places, wishes: Wishes, golden: usize, draws: [bool; 4]) -> Places {
        match self {
            Switch::Chipper => chipper(places, wishes, golden, draws),
            Switch::Bless => bless(places, wishes, golden),
        }
    }
}

/// A flit on its way through the switch, with its wish.
type Guest = Option<(Flit, Option<Port>)>;

/// One of the four blocks: what lies behind its two outputs, whether
/// its draw bit is set, and which ticket is golden.
struct Block {
    behind_first: &'static [Port],
    behind_second: &'static [Port],
    draw: bool,
    golden: usize,
}

impl Block {
    fn pass(&self, first: Guest, second: Guest) -> (Guest, Guest) {
        let (winner, loser) = if self.first_wins(first, second) {
            (first, second)
        } else {
            (second, first)
        };
        if self.wants_second(winner) {
            (loser, winner)
        } else {
            (winner, loser)
        }
    }

    fn first_wins(&self, first: Guest, second: Guest) -> bool {
        let (Some((one, _)), Some((other, _))) = (first, second) else {
            // A flit alone wins; with no flit at all it does not matter.
            return first.is_some();
        };
        match (one.ticket == self.golden, other.ticket == self.golden) {
            (true, true) => one.number <= other.number,
            (true, false) => true,
            (false, true) => false,
            (false, false) => !self.draw,
        }
    }

    /// The first output is taken unless only the second leads to the wish.
    fn wants_second(&self, winner: Guest) -> bool {
        let wish = winner.and_then(|(_, wish)| wish);
        wish.is_some_and(|port| {
            !self.behind_first.contains(&port) && self.behind_second.contains(&port)
        })
    }
}

fn chipper(places: Places, wishes: Wishes, golden: usize, draws: [bool; 4]) -> Places {
    let guest = |port: Port| {
        let wish = wishes[port.index()];
        places[port.index()].map(|flit| (flit, wish))
    };
    let front = |draw| Block {
        behind_first: &[Port::N, Port::S],
        behind_second: &[Port::E, Port::W],
        draw,
        golden,
    };
    let block_3 = Block {
        behind_first: &[Port::N],
        behind_second: &[Port::S],
        draw: draws[2],
        golden,
    };
    let block_4 = Block {
        behind_first: &[Port::E],
        behind_second: &[Port::W],
        draw: draws[3],
        golden,
    };
    let (one_to_3, one_to_4) = front(draws[0]).pass(guest(Port::N), guest(Port::E));
    let (two_to_3, two_to_4) = front(draws[1]).pass(guest(Port::S), guest(Port::W));
    let (north, south) = block_3.pass(one_to_3, two_to_3);
    let (east, west) = block_4.pass(one_to_4, two_to_4);
    [north, east, south, west].map(|guest| guest.map(|(flit, _)| flit))
}

fn bless(places: Places, wishes: Wishes, golden: usize) -> Places {
    let mut ranked: Vec<(Flit, Option<Port>)> = Vec::new();
    for (place, wish) in places.into_iter().zip(wishes) {
        if let Some(flit) = place {
            ranked.push((flit, wish));
        }
    }
    // The sort keeps equal ones as they stand, which is slot order.
    ranked.sort_by_key(|(flit, _)| rank(flit, golden));
    let mut out: Places = [None; 4];
    for (flit, wish) in ranked {
        let choices = wish.into_iter().chain(Port::TRIED);
        let free = choices.into_iter().find(|port| out[port.index()].is_none());
        // At most four flits for four ports: one is always free.
        if let Some(port) = free {
            out[port.index()] = Some(flit);
        }
    }
    out
}

/// Golden flits by number, before ordinary ones by age, ticket, number.
fn rank(flit: &Flit, golden: usize) -> (bool, u32, usize, usize) {
    if flit.ticket == golden {
        (false, 0, 0, flit.number)
    } else {
        (true, flit.entry, flit.ticket, flit.number)
    }
}

#[cfg(test)]
mod tests {
    use super::*;
    use Port::{E, N, S, W};

    const GOLDEN: usize = 7;
    const NONE: Option<Flit> = None;

    /// The word tells the flits of a test apart.
    fn flit(word: u32, ticket: usize, number: usize, entry: u32) -> Option<Flit> {
        Some(Flit {
            ticket,
            number,
            destination: 0,
            word,
            entry,
        })
    }

    fn words(places: Places) -> [u32; 4] {
        places.map(|place| place.map_or(0, |flit| flit.word))
    }

    fn chipper_words(places: Places, wishes: Wishes, draws: [u8; 4]) -> [u32; 4] {
        words(Switch::Chipper.route(places, wishes, GOLDEN, draws.map(|bit| bit == 1)))
    }

    fn bless_words(places: Places, wishes: Wishes) -> [u32; 4] {
        let plain = Switch::Bless.route(places, wishes, GOLDEN, [false; 4]);
        assert_eq!(
            plain,
            Switch::Bless.route(places, wishes, GOLDEN, [true; 4])
        );
        words(plain)
    }

    #[test]
    fn chipper_alone() {
        // From every slot a lone flit reaches every wish.
        for slot in 0..4 {
            for wish in Port::ALL {
                let mut places = [NONE; 4];
                let mut wishes = [None; 4];
                places[slot] = flit(1, 0, 0, 0);
                wishes[slot] = Some(wish);
                let mut expected = [0; 4];
                expected[wish.index()] = 1;
                assert_eq!(chipper_words(places, wishes, [1, 1, 1, 1]), expected);
            }
            // Without a wish it takes first outputs only.
            let mut places = [NONE; 4];
            places[slot] = flit(1, 0, 0, 0);
            assert_eq!(chipper_words(places, [None; 4], [1, 1, 1, 1]), [1, 0, 0, 0]);
        }
        assert_eq!(chipper_words([NONE; 4], [None; 4], [0, 1, 0, 1]), [0; 4]);
    }

    #[test]
    fn chipper_draw_decides_between_ordinary_flits() {
        let places = [flit(1, 0, 0, 0), flit(2, 1, 0, 0), NONE, NONE];
        let wishes = [Some(S), Some(N), None, None];
        // The loser of block 1 finds its wish behind the other block.
        assert_eq!(chipper_words(places, wishes, [0, 1, 1, 1]), [0, 2, 1, 0]);
        assert_eq!(chipper_words(places, wishes, [1, 0, 0, 0]), [2, 1, 0, 0]);
    }

    #[test]
    fn chipper_lower_golden_number_wins() {
        let places = [NONE, NONE, flit(1, GOLDEN, 1, 0), flit(2, GOLDEN, 0, 0)];
        let wishes = [None, None, Some(W), Some(E)];
        for draws in [[0; 4], [1; 4]] {
            assert_eq!(chipper_words(places, wishes, draws), [1, 2, 0, 0]);
        }
        // Equal numbers: the first input wins whatever the draw is.
        let places = [NONE, NONE, flit(1, GOLDEN, 1, 0), flit(2, GOLDEN, 1, 0)];
        for draws in [[0; 4], [1; 4]] {
            assert_eq!(chipper_words(places, wishes, draws), [2, 0, 0, 1]);
        }
    }

    #[test]
    fn chipper_full() {
        let places = [
            flit(1, 0, 0, 0),
            flit(2, 1, 0, 0),
            flit(3, GOLDEN, 2, 0),
            flit(4, 3, 0, 0),
        ];
        let wishes = [Some(E), Some(E), Some(E), None];
        // Block 1 sends 2 to block 4 and 1 to block 3; block 2 sends the
        // golden 3 to block 4 and 4 to block 3; block 3 lets 4 win, which
        // has no wish; block 4 lets 3 win.
        assert_eq!(chipper_words(places, wishes, [1, 1, 1, 1]), [4, 3, 1, 2]);
        // Block 1 now sends 1 to block 4, and block 3 lets 2 win.
        assert_eq!(chipper_words(places, wishes, [0, 0, 0, 0]), [2, 3, 4, 1]);
        // Only block 3's own bit matters there.
        assert_eq!(chipper_words(places, wishes, [0, 0, 1, 0]), [4, 3, 2, 1]);
    }

    #[test]
    fn chipper_block_4_draws() {
        let places = [NONE, flit(1, 0, 0, 0), NONE, flit(2, 1, 0, 0)];
        let wishes = [None, Some(W), None, Some(W)];
        assert_eq!(chipper_words(places, wishes, [1, 1, 1, 0]), [0, 2, 0, 1]);
        assert_eq!(chipper_words(places, wishes, [0, 0, 0, 1]), [0, 1, 0, 2]);
    }

    #[test]
    fn bless_golden_then_oldest() {
        let places = [
            flit(1, 3, 0, 5),
            flit(2, 9, 0, 4),
            flit(3, GOLDEN, 1, 9),
            flit(4, GOLDEN, 0, 9),
        ];
        let wishes = [Some(E), Some(E), Some(W), Some(W)];
        // Rank 4, 3, 2, 1: 4 gets W, 3 then E, 2 then N, 1 what is left.
        assert_eq!(bless_words(places, wishes), [2, 3, 1, 4]);
    }

    #[test]
    fn bless_ties() {
        let wishes = [Some(S); 4];
        // Same entry cycle: the lower ticket, then the lower number.
        let places = [flit(1, 5, 0, 2), flit(2, 4, 3, 2), flit(3, 4, 1, 2), NONE];
        assert_eq!(bless_words(places, wishes), [0, 2, 3, 1]);
        // All alike: slot order.
        let places = [
            flit(1, 5, 0, 2),
            flit(2, 5, 0, 2),
            flit(3, 5, 0, 2),
            flit(4, 5, 0, 2),
        ];
        assert_eq!(bless_words(places, wishes), [4, 2, 1, 3]);
        // A golden flit is not ranked by age.
        let places = [flit(1, GOLDEN, 1, 0), flit(2, GOLDEN, 0, 8), NONE, NONE];
        assert_eq!(bless_words(places, wishes), [0, 1, 2, 0]);
    }

    #[test]
    fn bless_without_wish() {
        // The older flit without a wish takes E before the other can.
        let places = [flit(1, 0, 0, 3), NONE, flit(2, 1, 0, 1), NONE];
        let wishes = [Some(E), None, None, None];
        assert_eq!(bless_words(places, wishes), [0, 2, 0, 1]);
    }
}
