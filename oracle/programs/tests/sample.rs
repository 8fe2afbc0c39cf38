//! The recorded sample: it is what the Rust answers, and it reaches every arm.

use std::path::PathBuf;

use oracle::replay::replay;
use oracle::Driver;

/// Replays each list, which must be what the driver answers. `then` is told after each whether it is as `run` prints it.
fn replayed<D: Driver>(driver: &mut D, then: impl Fn(&D, &str, bool)) {
    let runs = concat!(env!("CARGO_MANIFEST_DIR"), "/../runs");
    let mut files: Vec<PathBuf> = std::fs::read_dir(runs).unwrap().map(|f| f.unwrap().path()).collect();
    files.sort();
    assert!(files.len() >= 12);
    for file in files {
        let (name, list) = (file.display().to_string(), std::fs::read_to_string(file).unwrap());
        let (text, wrong) = replay(driver, &list).unwrap();
        assert_eq!(wrong, None, "{name}");
        then(driver, &name, text == list);
    }
}

#[test]
fn the_rust_answers_so() {
    replayed(&mut original::Rust::new(), |rust, name, printed| {
        assert!(printed, "{name} is not as `run` prints it");
        assert!(rust.front_untouched());
    });
}

#[test]
fn every_arm_is_reached() {
    replayed(&mut traced::Rust::new(), |_, _, _| ());
    let (table, all) = programs::branch_table();
    assert!(all, "{table}");
}
