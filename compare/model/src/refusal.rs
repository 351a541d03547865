//! The numbers by which calls are refused.

/// Why a call was refused. A refused call changes nothing.
#[derive(Clone, Copy, PartialEq, Eq, Debug)]
pub enum Refusal {
    /// The tickets or the words a packet may have are out of range.
    Counts,
    /// The epoch is too short for the layout or too long.
    Epoch,
    /// The seed is 0 or wider than 16 bits.
    Seed,
    /// A node, a port or an own ticket does not exist.
    Missing,
    /// The destination does not exist or is the sender.
    Destination,
    /// A packet has no words or too many.
    Words,
    /// The ticket is in use.
    Taken,
    /// The ticket is not complete, or its packet goes elsewhere.
    Incomplete,
    /// The memory is shorter than the packet.
    Memory,
    /// All cycles are carried out.
    Cycles,
    /// The event line has too little room.
    Events,
    /// The layout has no nodes or too many.
    Size,
    /// This cable, from 0, cannot be laid.
    Cable(usize),
    /// This node cannot be reached from node 0.
    Apart(usize),
    /// The line is full.
    Full,
}

impl Refusal {
    pub fn number(self) -> u32 {
        match self {
            Refusal::Counts => 1,
            Refusal::Epoch => 2,
            Refusal::Seed => 3,
            Refusal::Missing => 4,
            Refusal::Destination => 5,
            Refusal::Words => 6,
            Refusal::Taken => 7,
            Refusal::Incomplete => 8,
            Refusal::Memory => 9,
            Refusal::Cycles => 10,
            Refusal::Events => 11,
            Refusal::Size => 12,
            Refusal::Cable(_) => 13,
            Refusal::Apart(_) => 14,
            Refusal::Full => 18,
        }
    }
}
