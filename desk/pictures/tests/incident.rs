//! The incident: its counts, the one answer that differs, the recorded list, and the pictures that are committed.

use std::path::{Path, PathBuf};
use std::process::Command;

use oracle::replay::replay_entries;
use pictures::incident::{flat_topped, run, samples};
use pictures::picture;

fn root() -> PathBuf {
    concat!(env!("CARGO_MANIFEST_DIR"), "/../..").into()
}

fn list() -> String {
    std::fs::read_to_string(root().join("oracle/runs/incident.txt")).unwrap()
}

#[test]
fn sent_212_the_rust_228_the_port_212() {
    let run = run(&list()).unwrap();
    let counts = [&run.sent, &run.rust.packets, &run.port.packets].map(|packets| {
        let all = samples(packets);
        (packets.len(), all.len(), flat_topped(&all))
    });
    assert_eq!(counts, [(96, 3_056, 212), (96, 3_072, 228), (96, 3_056, 212)]);
    // the port exports what was sent, byte for byte; the Rust sixteen samples more, those of the packet that had
    // the slot before
    assert!(run.port.packets == run.sent);
    assert_eq!(run.before(58), Some(42));
    let mut with_old = run.sent.clone();
    with_old[58].extend(&run.sent[42][32..]);
    assert!(run.rust.packets == with_old);
    assert!(samples(&run.sent)[42 * 32 + 16..43 * 32].iter().all(|s| *s == i16::MAX));
}

#[test]
fn one_answer_differs() {
    let run = run(&list()).unwrap();
    assert_eq!(run.answers, 1_051);
    let [one] = &run.differences[..] else { panic!("{} answers differ", run.differences.len()) };
    assert_eq!(one.rust, "open 1 -> shown 0x280 64");
    assert_eq!(one.port, "open 1 -> shown 0x280 32");
    assert_eq!(one.packet, Some(58));
}

#[test]
fn the_list_is_what_the_rust_answers() {
    let list = list();
    let replayed = replay_entries(&mut original::Rust::new(), &list).unwrap();
    assert_eq!(replayed.wrong, None);
    assert!(replayed.text == list, "not as `run` prints it");
    // the program of the port alone reads the same list as bytes
    let bytes = std::fs::read(root().join("crates/app_incident/stdin")).unwrap();
    assert!(bytes == oracle::number::bytes(&replayed.entries), "crates/app_incident/stdin is another list");
}

#[test]
fn the_readme_and_the_sample_card_say_the_same() {
    let run = run(&list()).unwrap();
    let readme = std::fs::read_to_string(root().join("README.md")).unwrap();
    for line in run.told().lines().filter(|l| !l.is_empty()) {
        assert!(readme.contains(&format!("    {line}\n")), "README.md: {line}");
    }
    assert!(std::fs::read(root().join("desk/samples/survey.card")).unwrap() == run.port.card, "survey.card");
}

#[test]
fn a_list_that_is_not_the_rusts_is_turned_down() {
    let other = list().replacen("shown 0x280 64", "shown 0x280 60", 1);
    assert!(run(&other).is_err_and(|e| e.contains("the list is not what the Rust answers")));
    assert!(run("open\n").is_err());
}

/// A picture as it is committed.
fn committed(name: &str) -> String {
    std::fs::read_to_string(root().join("docs/pictures").join(name)).unwrap()
}

#[test]
fn the_pictures_are_those_that_are_drawn() {
    assert!(picture::svg(&run(&list()).unwrap()) == committed("incident.svg"), "docs/pictures/incident.svg");
    let folder = Path::new(env!("CARGO_TARGET_TMPDIR"));
    let drawn = |name: &str, mut command: Command| {
        assert!(command.stdout(std::process::Stdio::null()).status().unwrap().success(), "{name}");
        std::fs::read_to_string(folder.join(name)).unwrap()
    };
    let mut share = Command::new(env!("CARGO_BIN_EXE_share"));
    share.arg(root().join("docs/pictures/share-chip.txt")).arg(folder.join("share-chip.svg"));
    assert!(drawn("share-chip.svg", share) == committed("share-chip.svg"), "docs/pictures/share-chip.svg");
}

#[test]
fn the_timeline_is_the_one_that_is_drawn() {
    let list = std::fs::read_to_string(root().join("desk/samples/missed-visit.calls.txt")).unwrap();
    assert!(
        usbhs::replay::drawn(&list, "A missed visit").unwrap() == committed("replay.svg"),
        "docs/pictures/replay.svg"
    );
}
