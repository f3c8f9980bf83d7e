//! Feeds the original (`oracle`) and the archive (`fetulombo`) the same inputs, and prints for each
//! entry point how many ran, how many answers of each kind and each refusal number came, and every
//! difference with its input in hex. Exits with 1 if an answer differs.
//!
//!     compare [--seed N] [--long | --short | --edges | --blocks]
//!     compare --blocks-probe
//!     compare --record FOLDER
//!     compare --cost
//!     compare --speed [ROUNDS [TEXT]]
//!     compare --survey FOLDER...
//!     compare --damage LIBRARY FOLDER
//!
//! `--long` runs five times as many random inputs and more parts around the limit, `--short` an eighth
//! of the random inputs and of the parts around the limit those that are refused: it is for an emulator.
//! `--edges` runs a twentieth of the random inputs twice: every part that the archive is lent ends where
//! a page without access begins, and then begins where one ends. `--blocks` runs a thousandth of them,
//! fewer of the short ones and no long part, each part in a block of the heap of exactly its size, and is
//! for a run under a memory checker; `--blocks-probe` reads one byte past such a block, which the checker
//! must report.
//! `--record` writes the lists that the replay programs read, below FOLDER (the repository's crates/),
//! and compares nothing. `--cost` times both on the inputs that cost version parsing and lookups the most,
//! and the checkers on tables of n and 4n symbols. `--speed` times both on the same questions, with TEXT those
//! rows alone whose name holds it. `--survey` says what the checkers find in the libraries below the
//! folders. `--damage` writes copies of a library below FOLDER, each with one rule broken, and says what
//! the checkers find in them.

mod checks;
mod cost;
mod edges;
mod hashes;
mod inputs;
mod libraries;
mod limits;
mod lookups;
mod memory;
mod notes;
mod plain;
mod record;
mod record_tables;
mod report;
mod segments;
mod speed;
mod strings;
mod survey;
mod symbols;
mod tables;
mod versions;
mod words;

use edges::Placing;
use fetulombo::{Class, Order};
use inputs::Random;
use limits::Limits;
use report::Report;
use std::process::ExitCode;
use std::sync::Mutex;
use std::sync::atomic::{AtomicUsize, Ordering};

/// What every comparison is run with.
pub struct Run {
    pub random: Random,
    /// How many times the random inputs of a default run, and which part of that.
    pub scale: (usize, usize),
    pub limits: Limits,
    pub libraries: &'static [libraries::Library],
    pub report: Report,
}

impl Run {
    /// How many random inputs there are where a default run has so many.
    pub fn times(&self, count: usize) -> usize {
        (count * self.scale.0).div_ceil(self.scale.1)
    }

    /// The same, but never more than in a default run.
    pub fn at_most(&self, count: usize) -> usize {
        self.times(count).min(count)
    }

    /// Whether this is a run of a part, in which each call copies what it is lent.
    pub fn is_part(&self) -> bool {
        self.scale.1 > 1
    }

    /// The classes and orders in which long parts are lent: one, where they are copied.
    pub fn kinds(&self) -> &'static [(Class, Order)] {
        match self.is_part() && self.limits.answered() {
            true => &inputs::KINDS[..1],
            false => &inputs::KINDS,
        }
    }

    /// Of every short input each so many-th is run.
    pub fn step(&self) -> usize {
        (self.scale.1 / 20).max(1)
    }
}

/// The comparisons, in the order of the report; the last, which takes the longest, is begun first.
const MODULES: [fn(&mut Run); 10] = [
    words::compare,
    strings::compare,
    symbols::compare,
    hashes::compare,
    notes::compare,
    versions::compare,
    lookups::compare,
    checks::compare,
    segments::compare,
    limits::compare,
];

/// How many of them run at a time.
const THREADS: usize = 2;

fn main() -> ExitCode {
    let mut seed = 1;
    let mut scale = (1, 1);
    let mut limits = Limits::Some;
    let mut placings = vec![Placing::Anywhere];
    let mut folder = None;
    let mut words = std::env::args().skip(1);
    while let Some(word) = words.next() {
        match word.as_str() {
            "--seed" => seed = number(words.next()),
            "--long" => {
                scale = (5, 1);
                limits = Limits::All;
            }
            "--short" => {
                scale = (1, 8);
                limits = Limits::Refusals;
            }
            "--edges" => {
                edges::try_guards();
                scale = (1, 20);
                placings = vec![Placing::End, Placing::Start];
            }
            "--blocks" => {
                scale = (1, 1000);
                limits = Limits::None;
                placings = vec![Placing::Blocks];
            }
            "--blocks-probe" => {
                edges::read_past_block();
                return ExitCode::SUCCESS;
            }
            "--cost" => {
                cost::print();
                cost::print_lookups();
                cost::print_checkers();
                return ExitCode::SUCCESS;
            }
            "--speed" => {
                let rounds = words.next().map(|word| number(Some(word)));
                speed::print(rounds, &words.next().unwrap_or_default());
                return ExitCode::SUCCESS;
            }
            "--survey" => {
                survey::print(&words.collect::<Vec<String>>());
                return ExitCode::SUCCESS;
            }
            "--damage" => {
                let mut word = || words.next().expect("--damage wants a library and a folder");
                survey::damage(&word(), &word());
                return ExitCode::SUCCESS;
            }
            "--record" => folder = Some(words.next().expect("--record wants a folder")),
            _ => panic!("unknown word {word}"),
        }
    }
    if let Some(folder) = folder {
        record::write(folder.as_ref(), seed);
        return ExitCode::SUCCESS;
    }
    let libraries = libraries::found().leak();
    println!("seed {seed}, {} libraries", libraries.len());
    let mut same = true;
    for placing in placings {
        edges::place_parts(placing);
        same &= compare(seed, scale, limits, libraries);
    }
    if let Some(peak) = memory::peak() {
        println!("the most memory in use: {peak} MiB");
    }
    match same {
        true => ExitCode::SUCCESS,
        false => ExitCode::FAILURE,
    }
}

/// Everything once, and whether all answers are the same. Each comparison has random numbers of its
/// own, so that a seed gives the same inputs whichever ends first.
fn compare(
    seed: u64,
    scale: (usize, usize),
    limits: Limits,
    libraries: &'static [libraries::Library],
) -> bool {
    let next = AtomicUsize::new(0);
    let reports = MODULES.map(|_| Mutex::new(Report::new()));
    let work = || {
        loop {
            let turn = next.fetch_add(1, Ordering::Relaxed);
            if turn >= MODULES.len() {
                return;
            }
            // The last comparison, and then the others in their order.
            let which = (turn + MODULES.len() - 1) % MODULES.len();
            let mut run = Run {
                random: Random::new(seed.wrapping_add((which as u64) << 40)),
                scale,
                limits,
                libraries,
                report: Report::new(),
            };
            MODULES[which](&mut run);
            *reports[which].lock().expect("a comparison that ended") = run.report;
        }
    };
    std::thread::scope(|scope| {
        for _ in 0..THREADS {
            scope.spawn(work);
        }
    });
    let mut all = Report::new();
    for report in reports {
        all.append(report.into_inner().expect("a comparison that ended"));
    }
    all.print();
    all.differences() == 0
}

fn number(word: Option<String>) -> u64 {
    word.and_then(|word| word.parse().ok())
        .expect("a number is wanted here")
}
