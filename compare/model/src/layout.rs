//! How the nodes are joined.
//!
//! Both kinds of layout are worked out once, when they are built, into
//! the same tables; the questions only look things up.

use crate::refusal::Refusal;
use std::collections::VecDeque;

pub const MOST_NODES: usize = 64;

#[derive(Clone, Copy, PartialEq, Eq, Debug)]
pub enum Port {
    N,
    E,
    S,
    W,
}

impl Port {
    /// Slot order.
    pub const ALL: [Port; 4] = [Port::N, Port::E, Port::S, Port::W];
    /// The order in which ports are tried where several would do.
    pub const TRIED: [Port; 4] = [Port::E, Port::W, Port::N, Port::S];

    /// The port's number in slot order.
    pub fn index(self) -> usize {
        match self {
            Port::N => 0,
            Port::E => 1,
            Port::S => 2,
            Port::W => 3,
        }
    }
}

/// A port of a node, or the slot behind it.
#[derive(Clone, Copy, PartialEq, Eq, Debug)]
pub struct Place {
    pub node: usize,
    pub port: Port,
}

/// One end of a cable as the caller names it; the node may be missing.
#[derive(Clone, Copy, PartialEq, Eq, Debug)]
pub struct End {
    pub node: u32,
    pub port: Port,
}

pub type Cable = (End, End);

#[derive(Clone, Debug)]
pub struct Layout {
    far: Vec<[Place; 4]>,
    distance: Vec<Vec<u32>>,
    wish: Vec<Vec<Option<Port>>>,
    reach: u32,
}

impl Layout {
    pub fn mesh(width: u32, height: u32) -> Result<Layout, Refusal> {
        // Two 32-bit numbers cannot overflow a 64-bit product.
        let nodes = u64::from(width) * u64::from(height);
        if nodes == 0 || nodes > MOST_NODES as u64 {
            return Err(Refusal::Size);
        }
        // The product is at most 64, so each factor fits.
        let (width, height) = (width as usize, height as usize);
        let nodes = width * height;
        let table = |from: usize| (0..nodes).map(move |to| (from, to));
        Ok(Layout {
            far: (0..nodes)
                .map(|node| mesh_far_ends(node, width, height))
                .collect(),
            distance: (0..nodes)
                .map(|from| {
                    table(from)
                        .map(|(a, b)| mesh_distance(a, b, width))
                        .collect()
                })
                .collect(),
            wish: (0..nodes)
                .map(|from| table(from).map(|(a, b)| mesh_wish(a, b, width)).collect())
                .collect(),
            reach: (width + height - 2) as u32,
        })
    }

    pub fn cabled(nodes: u32, cables: &[Cable]) -> Result<Layout, Refusal> {
        if nodes == 0 || nodes > MOST_NODES as u32 {
            return Err(Refusal::Size);
        }
        let nodes = nodes as usize;
        let far = lay_cables(nodes, cables)?;
        let mut distance = Vec::new();
        for from in 0..nodes {
            let mut row = Vec::new();
            for (to, found) in distances_from(from, &far).into_iter().enumerate() {
                // The first row is that of node 0, and cables lead both
                // ways: what node 0 reaches, every node reaches.
                row.push(found.ok_or(Refusal::Apart(to))?);
            }
            distance.push(row);
        }
        let wish = (0..nodes)
            .map(|from| {
                (0..nodes)
                    .map(|to| cabled_wish(from, to, &far, &distance))
                    .collect()
            })
            .collect();
        let reach = distance.iter().flatten().copied().max().unwrap_or(0);
        Ok(Layout {
            far,
            distance,
            wish,
            reach,
        })
    }

    pub fn nodes(&self) -> usize {
        self.far.len()
    }

    pub fn reach(&self) -> u32 {
        self.reach
    }

    /// The slot to which a port leads; the place itself at a missing node.
    pub fn far(&self, place: Place) -> Place {
        match self.far.get(place.node) {
            Some(ends) => ends[place.port.index()],
            None => place,
        }
    }

    pub fn distance(&self, from: usize, to: usize) -> u32 {
        self.distance
            .get(from)
            .and_then(|row| row.get(to))
            .copied()
            .unwrap_or(0)
    }

    pub fn wish(&self, from: usize, to: usize) -> Option<Port> {
        self.wish
            .get(from)
            .and_then(|row| row.get(to))
            .copied()
            .flatten()
    }
}

/// Every port of a node leading to its own slot.
fn own_slots(node: usize) -> [Place; 4] {
    Port::ALL.map(|port| Place { node, port })
}

fn mesh_far_ends(node: usize, width: usize, height: usize) -> [Place; 4] {
    let (x, y) = (node % width, node / width);
    let mut ends = own_slots(node);
    if y > 0 {
        ends[Port::N.index()] = Place {
            node: node - width,
            port: Port::S,
        };
    }
    if x + 1 < width {
        ends[Port::E.index()] = Place {
            node: node + 1,
            port: Port::W,
        };
    }
    if y + 1 < height {
        ends[Port::S.index()] = Place {
            node: node + width,
            port: Port::N,
        };
    }
    if x > 0 {
        ends[Port::W.index()] = Place {
            node: node - 1,
            port: Port::E,
        };
    }
    ends
}

fn mesh_distance(from: usize, to: usize, width: usize) -> u32 {
    let columns = (from % width).abs_diff(to % width);
    let rows = (from / width).abs_diff(to / width);
    (columns + rows) as u32
}

fn mesh_wish(from: usize, to: usize, width: usize) -> Option<Port> {
    let (x, y) = (from % width, from / width);
    let (to_x, to_y) = (to % width, to / width);
    if x < to_x {
        Some(Port::E)
    } else if x > to_x {
        Some(Port::W)
    } else if y > to_y {
        Some(Port::N)
    } else if y < to_y {
        Some(Port::S)
    } else {
        None
    }
}

/// The far ends of all ports once the cables lie, or the first cable that
/// cannot be laid.
fn lay_cables(nodes: usize, cables: &[Cable]) -> Result<Vec<[Place; 4]>, Refusal> {
    let mut far: Vec<[Place; 4]> = (0..nodes).map(own_slots).collect();
    // Told apart from the far ends, since a port without a cable and a
    // port joined to itself would look alike there.
    let mut used = vec![[false; 4]; nodes];
    for (index, (one, other)) in cables.iter().enumerate() {
        let refusal = Refusal::Cable(index);
        let one = claim(one, &mut used).ok_or(refusal)?;
        let other = claim(other, &mut used).ok_or(refusal)?;
        far[one.node][one.port.index()] = other;
        far[other.node][other.port.index()] = one;
    }
    Ok(far)
}

/// Marks a cable's end as used, if it exists and was not used yet.
fn claim(end: &End, used: &mut [[bool; 4]]) -> Option<Place> {
    let node = usize::try_from(end.node).ok()?;
    let mark = &mut used.get_mut(node)?[end.port.index()];
    if *mark {
        return None;
    }
    *mark = true;
    Some(Place {
        node,
        port: end.port,
    })
}

/// Breadth-first search: the fewest cables from one node to each.
fn distances_from(start: usize, far: &[[Place; 4]]) -> Vec<Option<u32>> {
    let mut found = vec![None; far.len()];
    found[start] = Some(0);
    let mut queue = VecDeque::from([(start, 0)]);
    while let Some((node, steps)) = queue.pop_front() {
        for end in far[node] {
            if found[end.node].is_none() {
                found[end.node] = Some(steps + 1);
                queue.push_back((end.node, steps + 1));
            }
        }
    }
    found
}

fn cabled_wish(from: usize, to: usize, far: &[[Place; 4]], distance: &[Vec<u32>]) -> Option<Port> {
    Port::TRIED.into_iter().find(|port| {
        let next = far[from][port.index()].node;
        distance[next][to] + 1 == distance[from][to]
    })
}

#[cfg(test)]
mod tests {
    use super::*;

    fn cable(a: u32, p: Port, b: u32, q: Port) -> Cable {
        (End { node: a, port: p }, End { node: b, port: q })
    }

    fn keeps_laws(layout: &Layout) {
        assert!(layout.reach() <= 63);
        for node in 0..layout.nodes() {
            for port in Port::ALL {
                let place = Place { node, port };
                assert!(layout.far(place).node < layout.nodes());
                assert_eq!(layout.far(layout.far(place)), place);
            }
            for to in 0..layout.nodes() {
                let distance = layout.distance(node, to);
                assert_eq!(distance == 0, node == to);
                assert!(distance <= layout.reach());
                match layout.wish(node, to) {
                    None => assert_eq!(distance, 0),
                    Some(port) => {
                        let next = layout.far(Place { node, port }).node;
                        assert_eq!(layout.distance(next, to) + 1, distance);
                    }
                }
            }
        }
    }

    #[test]
    fn mesh_sizes() {
        for (width, height) in [(1, 1), (64, 1), (1, 64), (8, 8), (3, 2), (21, 3)] {
            let layout = Layout::mesh(width, height).expect("a lawful size");
            assert_eq!(layout.reach(), width + height - 2);
            keeps_laws(&layout);
        }
        let most = u32::MAX;
        for (width, height) in [
            (13, 5),
            (0, 5),
            (5, 0),
            (0, 0),
            (65, 1),
            (65536, 65536),
            (most, most),
        ] {
            assert_eq!(Layout::mesh(width, height).err(), Some(Refusal::Size));
        }
    }

    #[test]
    fn mesh_by_hand() {
        // 0 1 2
        // 3 4 5
        let layout = Layout::mesh(3, 2).expect("a lawful size");
        assert_eq!(
            layout.far(Place {
                node: 1,
                port: Port::S
            }),
            Place {
                node: 4,
                port: Port::N
            }
        );
        assert_eq!(
            layout.far(Place {
                node: 2,
                port: Port::E
            }),
            Place {
                node: 2,
                port: Port::E
            }
        );
        assert_eq!(layout.wish(0, 5), Some(Port::E));
        assert_eq!(layout.wish(2, 5), Some(Port::S));
        assert_eq!(layout.wish(5, 0), Some(Port::W));
        assert_eq!(layout.wish(3, 0), Some(Port::N));
        assert_eq!(layout.distance(0, 5), 3);
    }

    #[test]
    fn missing_nodes() {
        let layout = Layout::mesh(2, 2).expect("a lawful size");
        let place = Place {
            node: 4,
            port: Port::E,
        };
        assert_eq!(layout.far(place), place);
        for (from, to) in [(0, 4), (4, 0), (4, 4)] {
            assert_eq!(layout.distance(from, to), 0);
            assert_eq!(layout.wish(from, to), None);
        }
    }

    #[test]
    fn cabled_by_hand() {
        // A ring of four; node 0 reaches node 2 either way, and E is
        // tried before W. A cable joins two ports of node 3.
        let cables = [
            cable(0, Port::W, 1, Port::N),
            cable(1, Port::S, 2, Port::N),
            cable(2, Port::S, 3, Port::N),
            cable(3, Port::E, 0, Port::E),
            cable(3, Port::S, 3, Port::W),
        ];
        let layout = Layout::cabled(4, &cables).expect("a lawful cabling");
        keeps_laws(&layout);
        assert_eq!(layout.reach(), 2);
        assert_eq!(layout.wish(0, 2), Some(Port::E));
        assert_eq!(layout.wish(0, 1), Some(Port::W));
        assert_eq!(layout.wish(2, 0), Some(Port::N));
        assert_eq!(
            layout.far(Place {
                node: 3,
                port: Port::S
            }),
            Place {
                node: 3,
                port: Port::W
            }
        );
    }

    #[test]
    fn two_cables_between_two_nodes() {
        let cables = [cable(0, Port::S, 1, Port::N), cable(1, Port::S, 0, Port::W)];
        let layout = Layout::cabled(2, &cables).expect("a lawful cabling");
        keeps_laws(&layout);
        assert_eq!(layout.wish(0, 1), Some(Port::W));
        assert_eq!(layout.wish(1, 0), Some(Port::N));
    }

    #[test]
    fn cabled_refusals() {
        let refusal = |nodes, cables: &[Cable]| Layout::cabled(nodes, cables).err();
        let missing = cable(0, Port::N, 2, Port::S);
        let good = cable(0, Port::E, 1, Port::W);
        let again = cable(1, Port::W, 0, Port::N);
        let own = cable(1, Port::N, 1, Port::N);
        assert_eq!(refusal(0, &[missing]), Some(Refusal::Size));
        assert_eq!(refusal(65, &[missing]), Some(Refusal::Size));
        assert_eq!(refusal(2, &[good, missing]), Some(Refusal::Cable(1)));
        assert_eq!(refusal(2, &[good, again, missing]), Some(Refusal::Cable(1)));
        assert_eq!(refusal(2, &[own]), Some(Refusal::Cable(0)));
        assert_eq!(refusal(3, &[good, own]), Some(Refusal::Cable(1)));
        assert_eq!(refusal(3, &[good]), Some(Refusal::Apart(2)));
        assert!(refusal(2, &[good]).is_none());
        assert!(refusal(1, &[]).is_none());
    }
}
