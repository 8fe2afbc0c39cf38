//! A device's trace: replayed, damaged, cut, from a card, as a capture.

mod common;

use std::process::Command;

use common::{refused, samples, stream, usbhs, Folder, Numbers};

const ENTRY: usize = 12;

fn ring() -> Vec<u8> {
    std::fs::read(samples().join("device.trace")).unwrap()
}

/// The ring's front: its length, and how many entries were ever made.
fn front(size: usize, count: usize) -> Vec<u8> {
    [&b"USTR"[..], &(size as u32).to_le_bytes(), &(count as u32).to_le_bytes()].concat()
}

/// The answer's first lines, without the input's name.
fn told(words: &[&str], input: &[u8]) -> (i32, String) {
    let ran = usbhs(words, input);
    let text = ran.text().split_once(": ").map_or("", |t| t.1).to_string();
    assert_eq!(ran.err, "");
    (ran.status, text)
}

#[test]
fn the_port_answers_as_on_the_device() {
    let (status, text) = told(&["replay", "--trace", "device.trace"], b"");
    assert_eq!(status, 0);
    assert!(text.contains("recorded answers: the port answers the same\n"), "{text}");
    assert!(text.contains("setup 80 06 00 01"), "{text}");
    let json = usbhs(&["replay", "--trace", "device.trace", "--json"], b"");
    assert!(json.text().contains("\"what\":\"overrun\""));
    let svg = usbhs(&["replay", "--trace", "device.trace", "--svg", "-", "--title", "a device"], b"");
    assert!(svg.text().contains("<title>a device"));
}

#[test]
fn a_ring_that_went_round() {
    let all = ring();
    let entries = &all[ENTRY..];
    let (plain, n) = (told(&["replay", "--trace", "device.trace"], b"").1, entries.len() / ENTRY);
    // 100 entries that were written over, and the newest in front of the oldest
    for turn in [1, 100, n - 1] {
        let turned = [&front(n, n + turn)[..], &entries[(n - turn) * ENTRY..], &entries[..(n - turn) * ENTRY]].concat();
        // as many places as the count is above a whole turn
        assert_eq!(told(&["replay", "--trace", "-"], &turned), (0, plain.clone()), "{turn}");
    }
    // the start-up is gone: it is shown as it was noted
    for kept in [n - 1, 1_000, 3] {
        let cut = [&front(kept, kept)[..], &entries[(n - kept) * ENTRY..]].concat();
        let ran = usbhs(&["replay", "--trace", "-"], &cut);
        assert_eq!(ran.status, 1);
        assert!(ran.err.contains("the trace has no start-up: shown as it was noted, and not compared"), "{}", ran.err);
        if kept == n - 1 {
            assert!(ran.text().contains("58 arrivals, 58 opens"), "{}", ran.text());
            assert!(ran.text().contains("OUT 1   comes   ..1111"), "{}", ran.text());
        }
    }
}

#[test]
fn from_a_card() {
    let all = ring();
    let plain = told(&["replay", "--trace", "device.trace"], b"").1;
    let card = card_of(all[ENTRY..].chunks(84 * ENTRY));
    assert_eq!(told(&["replay", "--trace", "-"], &card), (0, plain));
    let check = usbhs(&["card", "check", "-"], &card);
    assert_eq!(check.status, 0, "{}", check.text());
    refused(&["replay", "--trace", "survey.card"], b"", "neither a ring of a trace nor a card that has one");
    refused(&["replay", "--trace", "-", "--recorder", "3"], &card, "neither a ring");
}

/// A card of records with these entries, and packets between them.
fn card_of<'a>(records: impl Iterator<Item = &'a [u8]>) -> Vec<u8> {
    let mut packets = vec![(15, vec![1, 0, 9, 0, 0, 0])];
    for entries in records {
        packets.push((1, vec![7; 33]));
        packets.push((15, [&[4, 0, 9, 0, 0, 0], entries].concat()));
    }
    packets.push((15, vec![3, 1, 9, 0, 0, 0, 0, 0, 0, 0]));
    stream(packets.iter().map(|(e, p)| (*e, p.as_slice())))
}

/// What did not reach the card is told, and the trace is made again up to there.
#[test]
fn entries_that_are_missing() {
    let all = ring();
    let entries = &all[ENTRY..];
    let lost = [&[13, 0, 0, 0][..], &40u32.to_le_bytes(), &[0; 4]].concat();
    let (before, behind) = (&entries[..900 * ENTRY], &entries[940 * ENTRY..]);
    let broken = [before, &lost, behind].concat();
    let ran = usbhs(&["replay", "--trace", "-"], &card_of(broken.chunks(84 * ENTRY)));
    assert_eq!(ran.status, 1);
    let told = "40 entries behind entry 900 were written over before they reached the card: made again up to there";
    assert!(ran.err.contains(told), "{}", ran.err);
    let whole = usbhs(&["replay", "--trace", "-"], &card_of(before.chunks(84 * ENTRY)));
    assert_eq!((whole.status, ran.text()), (0, whole.text()));
    assert!(ran.text().contains("the port answers the same"), "{}", ran.text());
    // a block that is dropped
    let mut card = card_of(entries.chunks(30 * ENTRY));
    let at = card.len() / 512 / 2 * 512 + 99;
    card[at] ^= 1;
    let ran = usbhs(&["replay", "--trace", "-"], &card);
    assert_eq!(ran.status, 1);
    assert!(ran.err.contains(" are missing, in dropped blocks: made again up to there"), "{}", ran.err);
    assert!(ran.text().contains("the port answers the same"), "{}", ran.text());
    // behind the start-up's loss there is nothing to begin with
    let ran = usbhs(&["replay", "--trace", "-"], &card_of([&lost[..], behind].concat().chunks(84 * ENTRY)));
    assert_eq!(ran.status, 1);
    assert!(ran.err.contains("shown as it was noted"), "{}", ran.err);
}

#[test]
fn an_answer_that_is_not_the_ports_is_told() {
    // the value of the last write of a register
    let mut all = ring();
    let at = (ENTRY..all.len()).step_by(ENTRY).rfind(|i| all[*i] == 2).unwrap();
    all[at + 4] ^= 1;
    let (status, text) = told(&["replay", "--trace", "-"], &all);
    assert_eq!(status, 1);
    assert!(text.contains("the port answers 1 otherwise\n"), "{text}");
}

#[test]
fn any_bytes() {
    let all = ring();
    refused(&["replay", "--trace", "-"], b"", "the image is empty");
    refused(&["replay", "--trace", "-"], b"USTR\x01\0", "the ring's front is cut");
    refused(&["replay", "--trace", "-"], &front(0, 0), "a ring of 0 entries is none");
    refused(&["replay", "--trace", "-"], &all[..600], "only 49 are here");
    assert_eq!(usbhs(&["replay", "--trace", "-"], &front(4, 0)).status, 1);
    refused(&["replay", "missed-visit.calls.txt", "--pcap", "x"], b"", "--pcap and --recorder are for a trace");
    let mut numbers = Numbers(41);
    let mut ran = [0; 3];
    for _ in 0..150 {
        let mut bytes = all[..ENTRY * (2 + numbers.below(900))].to_vec();
        let n = bytes.len() / ENTRY - 1;
        bytes[..ENTRY].copy_from_slice(&front(n, n));
        for _ in 0..1 + numbers.below(4) {
            let at = ENTRY + numbers.below(bytes.len() - ENTRY);
            match numbers.below(3) {
                0 => bytes[at] ^= 1 << numbers.below(8),
                1 => bytes[at] = numbers.below(256) as u8,
                _ => bytes.copy_within(at / ENTRY * ENTRY..(at / ENTRY + 1) * ENTRY, ENTRY),
            }
        }
        // an answer or an error, and no end otherwise
        let status = usbhs(&["replay", "--trace", "-", "--pcap", "/dev/null"], &bytes).status;
        ran[status as usize] += 1;
    }
    assert!(ran.iter().all(|n| *n > 3), "well, not compared or otherwise, bad: {ran:?}");
}

/// Wireshark's own reader must open the capture. It is Debian's package tshark; without it the test says so, and fails
/// where CI is set.
#[test]
fn a_capture_that_tshark_opens() {
    let folder = Folder::new("pcap");
    let path = folder.file("device.pcap");
    let ran = usbhs(&["replay", "--trace", "device.trace", "--pcap", &path], b"");
    assert_eq!(ran.status, 0);
    assert!(ran.err.contains("device.pcap: ") && ran.err.ends_with(" packets\n"), "{}", ran.err);
    let tshark = |words: &[&str]| {
        let ran = Command::new("tshark").args(["-r", &path]).args(words).output().unwrap();
        assert!(ran.status.success(), "{}", String::from_utf8_lossy(&ran.stderr));
        String::from_utf8(ran.stdout).unwrap()
    };
    if Command::new("tshark").arg("--version").output().is_err() {
        assert!(std::env::var_os("CI").is_none(), "tshark is not there (Debian: tshark)");
        eprintln!("SKIPPED: tshark is not there (Debian: tshark), and the capture is not opened");
        return;
    }
    let lines = tshark(&[]);
    let count = |words: &str| lines.lines().filter(|l| l.contains(words)).count();
    assert!(count(" SETUP") > 10 && count(" SOF") > 50 && count(" OUT") > 50 && count(" IN") > 50, "{lines}");
    assert_eq!(count("SET ADDRESS Request"), 2, "{lines}");
    // every check is right, nothing is malformed
    assert_eq!(tshark(&["-Y", "_ws.malformed || _ws.expert"]), "");
}
