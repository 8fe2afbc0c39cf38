//! The runs of a test: recorded lists, short random runs, long ones; each is made on the Rust, or on a copy of it.

use oracle::random::{run_of, Shape};
use oracle::replay::Session;
use oracle::text::{Entry, Line};
use oracle::Driver;

/// Which runs are made.
pub struct Runs {
    pub files: Vec<String>,
    pub seed: u64,
    pub short: u64,
    /// The calls of a short run.
    pub length: u32,
    pub long: u64,
    /// Buffers of 1,024 bytes.
    pub wide: bool,
    pub begun: bool,
    pub arms: bool,
    /// Where the runs are written for the chip.
    pub chip: Option<String>,
}

/// The calls of a long run.
const LONG: u32 = 60_000;

/// What of the arguments is asked for: FILE.. [--seed N] [--runs N] [--length N] [--long N] [--wide] [--begun]
/// [--arms] [--chip FILE].
pub fn asked(args: impl Iterator<Item = String>) -> Runs {
    let mut runs = Runs {
        files: vec![],
        seed: 1,
        short: u64::MAX,
        length: 300,
        long: 0,
        wide: false,
        begun: false,
        arms: false,
        chip: None,
    };
    let mut args = args;
    while let Some(a) = args.next() {
        let mut number = || args.next().and_then(|n| n.parse().ok()).expect("a number");
        match a.as_str() {
            "--seed" => runs.seed = number(),
            "--runs" => runs.short = number(),
            "--length" => runs.length = number() as u32,
            "--long" => runs.long = number(),
            "--wide" => runs.wide = true,
            "--begun" => runs.begun = true,
            "--arms" => runs.arms = true,
            "--chip" => runs.chip = Some(args.next().expect("a file")),
            _ => runs.files.push(a),
        }
    }
    if runs.short == u64::MAX {
        runs.short = if runs.files.is_empty() && runs.long == 0 { 1000 } else { 0 };
    }
    runs
}

impl Runs {
    fn shape(&self, long: bool) -> Shape {
        let length = if long { LONG } else { self.length };
        Shape { length, buffer: None, size: self.wide.then_some(1024), ep0: Some(64), long }
    }

    /// The calls of a recorded list, made on the Rust.
    pub fn recorded(&self, rust: &mut dyn Driver, file: &str) -> Vec<Entry> {
        let text = std::fs::read_to_string(file).unwrap_or_else(|e| panic!("{file}: {e}"));
        let list = oracle::text::parse(&text).unwrap_or_else(|e| panic!("{file}: {e}"));
        let mut session = Session::new(rust);
        let calls = list.iter().filter_map(|(_, l)| match l {
            Line::Call { call, .. } => Some(call),
            _ => None,
        });
        calls.map(|call| session.call(call)).collect()
    }

    fn random(&self, rust: &mut dyn Driver, seed: u64, long: bool) -> Vec<Entry> {
        let entries = run_of(rust, seed, self.shape(long));
        if self.begun {
            crate::begun::made(rust, &entries)
        } else {
            entries
        }
    }

    /// Makes each run on the Rust and hands it on, with its name, up to the first error: the recorded ones, some
    /// short ones, the long ones, the other short ones.
    pub fn each(
        &self,
        rust: &mut dyn Driver,
        mut then: impl FnMut(&str, &[Entry]) -> Result<(), String>,
    ) -> Result<(), String> {
        for file in &self.files {
            let entries = self.recorded(rust, file);
            then(file, &entries)?;
        }
        let some = self.short.min(500);
        let order = [(0..some, false), (0..self.long, true), (some..self.short, false)];
        for (seeds, long) in order {
            for seed in seeds.map(|n| self.seed + n) {
                let entries = self.random(rust, seed, long);
                then(&format!("{} run of seed {seed}", if long { "long" } else { "short" }), &entries)?;
            }
        }
        Ok(())
    }
}
