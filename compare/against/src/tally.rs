//! What came up in the comparison.

use std::collections::BTreeMap;

/// What must come up, in the order in which it is told.
const WANTED: [&str; 22] = [
    "boundary sheets",
    "lawful sheets",
    "faulty sheets",
    "damaged sheets",
    "mesh chipper runs",
    "mesh bless runs",
    "cabled chipper runs",
    "cabled bless runs",
    "packets done",
    "no 4",
    "no 5",
    "no 6",
    "no 7",
    "fault 1",
    "fault 2",
    "fault 3",
    "fault 12",
    "fault 13",
    "fault 14",
    "fault 15",
    "fault 16",
    "fault 17",
];

#[derive(Default)]
pub struct Tally(BTreeMap<String, u64>);

impl Tally {
    fn count(&mut self, what: String) {
        *self.0.entry(what).or_default() += 1;
    }

    /// Counts a sheet of this kind and what its listing has.
    pub fn add(&mut self, kind: &str, sheet: &[u8], listing: &[u8]) {
        self.count(format!("{kind} sheets"));
        for line in String::from_utf8_lossy(listing).lines() {
            match line.split(' ').collect::<Vec<_>>()[..] {
                ["fault", _, number, _] => self.count(format!("fault {number}")),
                ["end", ..] => self.count(run(sheet)),
                [_, "no", number, ..] => self.count(format!("no {number}")),
                [_, "done", ..] => self.count("packets done".to_string()),
                _ => {}
            }
        }
    }

    /// One line with all the numbers, or what never came up.
    pub fn summary(&self) -> Result<String, String> {
        let mut parts = Vec::new();
        for what in WANTED {
            match self.0.get(what) {
                Some(number) => parts.push(format!("{what}: {number}")),
                None => return Err(format!("the comparison met no case of: {what}")),
            }
        }
        Ok(parts.join(", "))
    }
}

/// The kind of the run of a sheet that has one.
fn run(sheet: &[u8]) -> String {
    let text = String::from_utf8_lossy(sheet);
    let mut words = text.split_ascii_whitespace();
    let plan = words.next().unwrap_or_default();
    let switch = words.skip_while(|word| *word != "switch").nth(1);
    format!("{plan} {} runs", switch.unwrap_or_default())
}
