//! mutants [--each] [FILE..] [--runs N] [--long N]: whether the comparison would notice. In place of the Rust stands
//! a changed copy: each change of `mutations.txt`, and the Rust with an arm of `branches.txt` turned (where it is
//! due, the other one is taken). The runs are those of `compare` with the same arguments; they stop at the first
//! difference. Ends with 1 if a copy is not told from the Rust.
//!
//! --each: says also which run noticed each copy. Each copy runs in a process of its own: one that crashes or hangs
//! is noticed too.

use std::panic::{catch_unwind, AssertUnwindSafe};
use std::process::{Command, ExitCode};
use std::sync::Mutex;

use compare::{runs, Compared, Port};
use oracle::Driver;

extern "C" {
    fn alarm(seconds: u32) -> u32;
}

/// No copy takes so many seconds, unless it hangs.
const HANGS: u32 = 120;

const NOTICED: i32 = 3;

/// A changed copy: its word in the arguments, its number, its name.
#[derive(Clone)]
struct Copy {
    of: &'static str,
    number: usize,
    name: String,
}

/// The part of an arm's name in brackets that begins so.
fn note<'a>(name: &'a str, word: &str) -> Option<&'a str> {
    let from = name.find(word)? + word.len();
    Some(&name[from..from + name[from..].find(')')?])
}

/// What the papers replaced is held against the Rust's own answers: those of the sample.
fn replaced(name: &str) -> bool {
    name.contains("(request Eight")
}

fn copies() -> Vec<Copy> {
    let changes = mutants::CHANGES.iter().enumerate();
    let changes = changes.map(|(number, name)| Copy { of: "--change", number, name: name.to_string() });
    // where turning an arm would change nothing, or not the Rust alone, a change says what it would be
    let turned = traced::ARMS.iter().enumerate().filter(|(_, name)| {
        !traced::outside(name) && note(name, "(by: ").is_none() && note(name, "(no effect: ").is_none()
    });
    let turned = turned.map(|(number, name)| Copy { of: "--arm", number, name: format!("turned: {name}") });
    changes.chain(turned).collect()
}

/// The first difference with this copy in place of the Rust.
fn noticed(copy: &Copy, runs: &runs::Runs) -> Result<(), String> {
    let mut rust: Box<dyn Driver> = match copy.of {
        "--change" => Box::new(mutants::Rust::new()),
        _ => Box::new(traced::Rust::new()),
    };
    match copy.of {
        "--change" => seam::mutate(copy.number),
        _ => seam::turn(copy.number),
    }
    if replaced(&copy.name) {
        for file in &runs.files {
            let list = std::fs::read_to_string(file).unwrap();
            if let (_, Some(wrong)) = oracle::replay::replay(rust.as_mut(), &list)? {
                return Err(format!("# {file}: {wrong}"));
            }
        }
        return Ok(());
    }
    let mut port = Port::new();
    let mut compared = Compared::default();
    runs.each(rust.as_mut(), |name, entries| compared.check(&mut port, name, entries))
}

/// In a process of its own.
fn one(copy: &Copy, runs: &runs::Runs) -> i32 {
    std::panic::set_hook(Box::new(|_| {}));
    // SAFETY: ends this process if it takes too long
    unsafe { alarm(HANGS) };
    match catch_unwind(AssertUnwindSafe(|| noticed(copy, runs))) {
        Ok(Ok(())) => 0,
        Ok(Err(said)) => {
            println!("{}", said.lines().next().unwrap_or("").trim_start_matches("# "));
            NOTICED
        }
        Err(_) => {
            println!("a panic");
            NOTICED
        }
    }
}

/// What a process says of a copy: nothing, if it does not tell it from the Rust.
fn told(copy: &Copy, args: &[String]) -> Option<String> {
    let mut process = Command::new(std::env::current_exe().unwrap());
    let done = process.arg(copy.of).arg(copy.number.to_string()).args(args).output().unwrap();
    match done.status.code() {
        Some(0) => None,
        Some(NOTICED) => Some(String::from_utf8_lossy(&done.stdout).trim().to_string()),
        code => Some(format!("a crash ({code:?})")),
    }
}

fn main() -> ExitCode {
    let mut args: Vec<String> = std::env::args().skip(1).collect();
    let each = args.first().is_some_and(|a| a == "--each");
    if each {
        args.remove(0);
    }
    let all = copies();
    if let Some(of) = args.first().filter(|a| ["--change", "--arm"].contains(&a.as_str())) {
        let number = args[1].parse().unwrap();
        let copy = all.iter().find(|c| c.of == of && c.number == number).expect("a copy");
        return ExitCode::from(one(copy, &runs::asked(args.into_iter().skip(2))) as u8);
    }
    let next = Mutex::new(all.iter().enumerate());
    let lines = Mutex::new(vec![]);
    std::thread::scope(|s| {
        for _ in 0..std::thread::available_parallelism().map_or(2, Into::into) {
            s.spawn(|| loop {
                let Some((i, copy)) = next.lock().unwrap().next() else { break };
                let said = told(copy, &args);
                lines.lock().unwrap().push((i, copy.name.clone(), said));
            });
        }
    });
    let mut lines = lines.into_inner().unwrap();
    lines.sort();
    for (_, name, said) in lines.iter().filter(|l| each || l.2.is_none()) {
        println!("{name}: {}", said.as_deref().unwrap_or("NOT NOTICED"));
    }
    // an arm that is not turned names a change, or is one of those without an effect
    let is_change = |by: &str| mutants::CHANGES.iter().any(|c| c.trim_end_matches(" (request Eight)") == by);
    let unknown: Vec<_> = traced::ARMS.iter().filter(|a| note(a, "(by: ").is_some_and(|by| !is_change(by))).collect();
    for arm in &unknown {
        println!("{arm}: there is no such change");
    }
    let missed = lines.iter().filter(|l| l.2.is_none()).count();
    let eight = lines.iter().filter(|l| replaced(&l.1)).count();
    let by = traced::ARMS.iter().filter(|a| note(a, "(by: ").is_some()).count();
    let dead = traced::ARMS.iter().filter(|a| note(a, "(no effect: ").is_some()).count();
    let turned = lines.iter().filter(|l| l.1.starts_with("turned: ")).count();
    println!(
        "{} changes and {turned} arms turned: {missed} not noticed ({eight} of them, which request Eight replaced, are \
         held against the sample; {by} arms stand for a change, {dead} have no effect)",
        lines.len() - turned
    );
    ExitCode::from((missed + unknown.len() > 0) as u8)
}
