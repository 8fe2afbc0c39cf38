//! Random runs: the log of a run depends on its seed alone.

use oracle::random::{run, run_in};
use oracle::text::{parse, print};

const RUNS: u64 = 3000;

/// A run's log in short.
fn log(driver: &mut dyn oracle::Driver, seed: u64) -> u64 {
    digest(&print(&run(driver, seed, 250)))
}

fn digest(text: &str) -> u64 {
    text.bytes().fold(0xCBF2_9CE4_8422_2325, |h, b| (h ^ b as u64).wrapping_mul(0x100_0000_01B3))
}

/// Thousands of runs in one process, forwards and backwards, and each traced: the same logs.
#[test]
fn any_order() {
    let forwards: Vec<u64> = {
        let mut rust = original::Rust::new();
        (0..RUNS).map(|seed| log(&mut rust, seed)).collect()
    };
    let mut backwards: Vec<u64> = {
        let mut rust = original::Rust::new();
        (0..RUNS).rev().map(|seed| log(&mut rust, seed)).collect()
    };
    backwards.reverse();
    assert!(forwards == backwards);
    let mut rust = traced::Rust::new();
    assert!((0..RUNS).all(|seed| log(&mut rust, seed) == forwards[seed as usize]));
}

/// An array of `count` buffers gives the same log as the last `count` of the longest array.
#[test]
fn exact_arrays() {
    for (i, buffer) in original::EXACT.into_iter().enumerate() {
        for seed in 0..200 {
            let seed = seed + 1000 * i as u64;
            let longest = print(&run_in(&mut original::Rust::new(), seed, 250, Some(buffer)));
            let exact = print(&run_in(&mut original::Rust::exact(), seed, 250, Some(buffer)));
            assert!(longest == exact, "seed {seed}");
        }
    }
}

/// A printed log is a list that replays to itself; nothing in front of the buffer is touched.
#[test]
fn logs_replay() {
    let mut rust = original::Rust::new();
    for seed in 0..200 {
        let text = print(&run(&mut rust, seed, 250));
        assert!(rust.front_untouched());
        assert!(parse(&text).is_ok());
        let (again, wrong) = oracle::replay::replay(&mut rust, &text).unwrap();
        assert_eq!(wrong, None, "seed {seed}");
        assert!(again == text, "seed {seed}");
    }
}
