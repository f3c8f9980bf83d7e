//! Counts of what ran and what was answered, and the differences.

use std::collections::BTreeMap;
use std::fmt::{Debug, Display, Formatter};

/// The original's answer, or ours: a refusal is its number.
pub type Answer<T> = Result<T, u32>;

/// The answer if a part of so many bytes is within the limit, and 1 if it is not.
pub fn fitting<T>(length: usize, answer: T) -> Answer<T> {
    match length <= fetulombo::LIMIT {
        true => Ok(answer),
        false => Err(1),
    }
}

/// How many differences are printed in full.
const SHOWN: u64 = 20;

/// Of what kind an answer is.
#[derive(Clone, Copy, PartialEq, Eq, PartialOrd, Ord)]
enum Kind {
    Given(&'static str),
    Refused(u32),
}

impl Display for Kind {
    fn fmt(&self, to: &mut Formatter<'_>) -> std::fmt::Result {
        match self {
            Kind::Given(kind) => write!(to, "{kind}"),
            Kind::Refused(number) => write!(to, "refused {number}"),
        }
    }
}

struct Tally {
    name: &'static str,
    inputs: u64,
    kinds: BTreeMap<Kind, u64>,
    differences: u64,
}

/// The tallies of the entry points, in the order in which they were met.
pub struct Report {
    tallies: Vec<Tally>,
}

impl Report {
    pub fn new() -> Self {
        Report {
            tallies: Vec::new(),
        }
    }

    /// Holds two answers together and counts. `kind` says of what kind an answer is; `input` writes
    /// the input out, and is called for a difference alone.
    pub fn same<T: PartialEq + Debug>(
        &mut self,
        name: &'static str,
        ours: Answer<T>,
        original: Answer<T>,
        kind: impl FnOnce(&T) -> &'static str,
        input: impl FnOnce() -> String,
    ) {
        let kind = match &ours {
            Ok(value) => Kind::Given(kind(value)),
            Err(number) => Kind::Refused(*number),
        };
        let tally = self.tally(name);
        tally.inputs += 1;
        *tally.kinds.entry(kind).or_default() += 1;
        if ours != original {
            tally.differences += 1;
            if tally.differences <= SHOWN {
                println!("DIFFERENT {name}: ours {ours:?}, the original's {original:?}");
                println!("    {}", input());
            }
        }
    }

    fn tally(&mut self, name: &'static str) -> &mut Tally {
        let at = self.tallies.iter().position(|tally| tally.name == name);
        let at = at.unwrap_or_else(|| {
            self.tallies.push(Tally {
                name,
                inputs: 0,
                kinds: BTreeMap::new(),
                differences: 0,
            });
            self.tallies.len() - 1
        });
        &mut self.tallies[at]
    }

    /// Another's tallies after these; those of an entry point that is here are added.
    pub fn append(&mut self, other: Report) {
        for other in other.tallies {
            let tally = self.tally(other.name);
            tally.inputs += other.inputs;
            tally.differences += other.differences;
            for (kind, count) in other.kinds {
                *tally.kinds.entry(kind).or_default() += count;
            }
        }
    }

    pub fn differences(&self) -> u64 {
        self.tallies.iter().map(|tally| tally.differences).sum()
    }

    pub fn print(&self) {
        println!("| entry point | inputs | answers | differences |");
        println!("|---|---:|---|---:|");
        for tally in &self.tallies {
            let kinds = tally.kinds.iter();
            let kinds: Vec<String> = kinds.map(|(kind, n)| format!("{kind}: {n}")).collect();
            println!(
                "| {} | {} | {} | {} |",
                tally.name,
                tally.inputs,
                kinds.join(", "),
                tally.differences
            );
        }
        let inputs: u64 = self.tallies.iter().map(|tally| tally.inputs).sum();
        println!("| all | {inputs} | | {} |", self.differences());
        println!();
        self.print_refusals();
    }

    /// In how many answers each refusal came, over all entry points.
    fn print_refusals(&self) {
        println!("| refusal | answers |");
        println!("|---:|---:|");
        for number in 1..=37 {
            let kind = Kind::Refused(number);
            let counts = self.tallies.iter();
            let count: u64 = counts.filter_map(|tally| tally.kinds.get(&kind)).sum();
            println!("| {number} | {count} |");
        }
    }
}

/// Bytes in hex; long ones by their length and their ends.
pub fn hex(bytes: &[u8]) -> String {
    let all = |bytes: &[u8]| -> String { bytes.iter().map(|b| format!("{b:02x}")).collect() };
    if bytes.len() <= 4096 {
        return all(bytes);
    }
    let end = &bytes[bytes.len() - 64..];
    format!(
        "{}..{} ({} bytes)",
        all(&bytes[..64]),
        all(end),
        bytes.len()
    )
}
