//! wrong FILE...: for each wrong drop-in, a process of its own in which the recorded lists, random runs, live runs and
//! the tests of what is new must notice it. Ends with 1 if one is not noticed, or if the right one is called wrong.

use std::process::{Command, Stdio};
use std::time::{Duration, Instant};

use compare::runs::asked;
use wrong::compared::Compared;
use wrong::{live, new, TITLES};

/// No drop-in: nothing is changed.
const RIGHT: usize = usize::MAX;
const RANDOM: u64 = 200;
const LIVE: u64 = 300;
/// After so long it hangs, and is noticed.
const PATIENCE: Duration = Duration::from_secs(10);

const STAGES: [&str; 4] = ["sample", "random", "live", "new"];

/// The stage that notices this one, by the exit's status.
fn child(number: usize, files: &[String]) {
    seam::mutate(number);
    let stages: [&dyn Fn() -> Result<(), String>; 4] = [
        &|| Compared::default().batch(&asked(files.iter().cloned())),
        &|| Compared::default().batch(&asked(["--runs".into(), RANDOM.to_string()].into_iter())),
        &|| (1..=LIVE).try_for_each(|seed| live::run(seed).map(|_| ())),
        &|| {
            new::all();
            Ok(())
        },
    ];
    for (k, stage) in stages.iter().enumerate() {
        let noticed = std::panic::catch_unwind(std::panic::AssertUnwindSafe(stage)).map_or(true, |r| r.is_err());
        if noticed {
            std::process::exit(10 + k as i32);
        }
    }
}

fn stage(number: usize, files: &[String]) -> Option<&'static str> {
    let me = std::env::current_exe().unwrap();
    let mut process = Command::new(me)
        .arg(format!("--number={number}"))
        .args(files)
        .stdout(Stdio::null())
        .stderr(Stdio::null())
        .spawn()
        .unwrap();
    let begin = Instant::now();
    loop {
        match process.try_wait().unwrap() {
            Some(status) if status.success() => return None,
            Some(status) => {
                return Some(match status.code() {
                    Some(code @ 10..=13) => STAGES[code as usize - 10],
                    _ => "crash",
                })
            }
            None if begin.elapsed() > PATIENCE => {
                process.kill().unwrap();
                process.wait().unwrap();
                return Some("hangs");
            }
            None => std::thread::sleep(Duration::from_millis(5)),
        }
    }
}

fn main() {
    let mut files: Vec<String> = std::env::args().skip(1).collect();
    if let Some(number) = files.first().and_then(|a| a.strip_prefix("--number=")) {
        let number = number.parse().expect("a number");
        files.remove(0);
        return child(number, &files);
    }
    let mut missed = 0;
    if let Some(by) = stage(RIGHT, &files) {
        println!("the drop-in as it is: called wrong ({by})");
        missed += 1;
    }
    for (number, title) in TITLES.iter().enumerate() {
        let by = stage(number, &files);
        println!("{:<8}{title}", by.unwrap_or("MISSED"));
        missed += by.is_none() as usize;
    }
    println!("{} wrong drop-ins, {missed} not noticed", TITLES.len());
    std::process::exit((missed != 0) as i32);
}
