//! A survey on a card that was used before: where it ends, what was turned away, and when its packets came.

mod common;
#[path = "../examples/made_up.rs"]
#[allow(dead_code)]
mod made_up;

use common::{refused, samples, stream, usbhs, Numbers};
use usbhs::recorder::{Kind, Record, ENDPOINT};
use usbhs::survey::BLOCK;

fn record(survey: u32, kind: Kind) -> (u32, Vec<u8>) {
    (ENDPOINT.into(), Record { survey, kind }.bytes())
}

/// A survey of so many packets of 60 bytes that all say its number, with its records; without them, plain.
fn survey(number: u8, packets: usize, recorded: bool, end: bool) -> Vec<(u32, Vec<u8>)> {
    let mut all = vec![];
    if recorded {
        all.push(record(number.into(), Kind::Begin));
    }
    for n in 0..packets {
        if recorded && n % 64 == 0 {
            let microframe = (n * 8 % 16_384) as u16;
            all.push(record(number.into(), Kind::Stamp { endpoint: 2, microframe, overruns: 0 }));
        }
        all.push((2, vec![number; 60]));
    }
    if end {
        all.push(record(number.into(), Kind::End { overruns: 0, finished: true }));
    }
    all
}

fn written(packets: &[(u32, Vec<u8>)]) -> Vec<u8> {
    stream(packets.iter().map(|(e, p)| (*e, p.as_slice())))
}

/// The new card's blocks over the old one's.
fn over(new: &[u8], old: &[u8]) -> Vec<u8> {
    let mut card = old.to_vec();
    card[..new.len()].copy_from_slice(new);
    card
}

/// The packets that extract gives: how many of this survey, and bytes of any other.
fn extracted(card: &[u8], number: u8) -> (usize, usize) {
    let ran = usbhs(&["card", "extract", "--endpoint", "2", "-"], card);
    let own = ran.out.iter().filter(|b| **b == number).count();
    (own / 60, ran.out.len() - own)
}

#[test]
fn a_survey_over_an_older_one_is_given_alone() {
    for old_recorded in [true, false] {
        let old = written(&survey(6, 1_000, old_recorded, old_recorded));
        for packets in [0, 1, 45, 48, 63, 64, 65, 130, 500] {
            let new = written(&survey(7, packets, true, true));
            let card = over(&new, &old);
            assert_eq!(extracted(&card, 7), (packets, 0), "{packets}");
            let check = usbhs(&["card", "check", "-"], &card);
            assert_eq!(check.status, 0, "{}", check.text());
            assert!(check.text().contains(": the end record\n"), "{}", check.text());
            let behind = (old.len() - new.len()) / BLOCK;
            let says = format!("{behind} blocks behind it, {behind} good and not read (an older survey?)\n");
            assert!(check.text().ends_with(&says), "{}", check.text());
        }
    }
}

#[test]
fn packets_alone_end_at_filler_or_not_for_certain() {
    let old = written(&survey(6, 1_000, false, false));
    // 47 packets: filler follows, and 125 blocks of the older survey are not read
    let card = over(&written(&survey(7, 47, false, false)), &old);
    assert_eq!(extracted(&card, 7), (47, 0));
    let check = usbhs(&["card", "check", "-"], &card);
    assert_eq!(check.status, 0);
    assert!(check.text().contains(": filler\n") && check.text().contains("(an older survey?)"), "{}", check.text());
    // 48 packets of 60 bytes fill 6 blocks: nothing says that the older survey is another. The number of blocks does
    let new = written(&survey(7, 48, false, false));
    assert_eq!(new.len(), 6 * BLOCK);
    let card = over(&new, &old);
    let check = usbhs(&["card", "check", "--blocks", "6", "-"], &card);
    assert_eq!(check.status, 0, "{}", check.text());
    assert!(check.text().contains("endpoint 2: 48 packets"), "{}", check.text());
    let check = usbhs(&["card", "check", "-"], &new);
    assert_eq!(check.status, 1);
    let says = "the end, in block 6 at byte 6, is not certain: the image ends there, without an end record or filler\n";
    assert!(check.text().ends_with(says), "{}", check.text());
    // the blocks asked for end in the midst of a packet
    let card = written(&(0..48).map(|_| (2, vec![7; 100])).collect::<Vec<_>>());
    let check = usbhs(&["card", "check", "--blocks", "5", "-"], &card);
    assert_eq!(check.status, 1);
    assert!(check.text().contains("the image ends in the midst of a packet"), "{}", check.text());
}

#[test]
fn a_seam_is_seen_and_never_passed() {
    let mut numbers = Numbers(5);
    let mut seams = 0;
    for round in 0..60 {
        let recorded = round % 3 != 0;
        let old = survey(6, 1_000, recorded, true);
        let packets = 20 + numbers.below(400);
        // the end record never came, and the last block is whole: the older survey follows at once
        let new = written(&survey(7, packets, true, false));
        let whole = new.len() / BLOCK * BLOCK - BLOCK;
        let mut card = over(&new[..whole], &written(&old));
        if round % 2 == 0 && whole != 0 {
            // or its last blocks are damaged
            let at = whole - 1 - numbers.below(BLOCK);
            card[at] ^= 0x10;
        }
        let (own, others) = extracted(&card, 7);
        assert_eq!(others, 0, "round {round}");
        assert!(
            own <= packets && (whole < 20 * BLOCK || own + 80 > whole / 63 - 70),
            "round {round}: {own} of {packets}"
        );
        for command in ["check", "list", "extract"] {
            let ran = usbhs(&["card", command, "-"], &card);
            assert_eq!(ran.status, 1, "round {round}: {command}");
            if command != "check" {
                assert!(ran.err.contains("is not certain"), "{}", ran.err);
            } else {
                seams += usize::from(ran.text().contains("a record of another survey follows"));
                assert!(ran.text().contains("is not certain"), "{}", ran.text());
            }
        }
    }
    assert!(seams > 20, "{seams}");
}

#[test]
fn packets_without_records_before_a_recorders_survey() {
    // an older recorder's survey behind a new one without records, 504 packets of 61 bytes in 64 blocks
    let new: Vec<(u32, Vec<u8>)> = (0..1_008).map(|_| (2, vec![7; 61])).collect();
    let new = written(&new);
    assert_eq!(new.len(), 128 * BLOCK);
    let card = over(&new, &written(&survey(6, 2_000, true, true)));
    let check = usbhs(&["card", "check", "-"], &card);
    assert_eq!(check.status, 1);
    assert!(check.text().contains("a recorder's record follows packets that have none"), "{}", check.text());
}

#[test]
fn records_may_be_on_another_endpoint_or_none() {
    let card = written(&survey(7, 100, true, true));
    let check = usbhs(&["card", "check", "-", "--recorder", "0"], &card);
    assert!(check.text().contains("endpoint 15: 4 packets, 40 bytes\n"), "{}", check.text());
    let raw = usbhs(&["card", "extract", "-", "--endpoint", "15"], &card);
    assert_eq!(raw.out.len(), 40);
    let all = usbhs(&["card", "extract", "-"], &card);
    assert_eq!((all.out.len(), all.err.as_str()), (6_000, ""));
    let moved: Vec<(u32, Vec<u8>)> =
        survey(7, 100, true, true).into_iter().map(|(e, p)| (if e == 15 { 4 } else { e }, p)).collect();
    let check = usbhs(&["card", "check", "-", "--recorder", "4"], &written(&moved));
    assert!(check.text().contains("survey 7, 4 records of its recorder"), "{}", check.text());
}

#[test]
fn bytes_that_are_no_records_are_packets() {
    let bad = [vec![2, 1, 0, 0, 0, 0, 0, 0xFF, 0, 0, 0, 0], vec![9; 6], vec![1, 0, 7, 0, 0], vec![]];
    let packets: Vec<(u32, Vec<u8>)> = bad.into_iter().map(|b| (15, b)).collect();
    let check = usbhs(&["card", "check", "-"], &written(&packets));
    assert_eq!(check.status, 0);
    assert!(check.text().contains("endpoint 15: 4 packets, 23 bytes\n"), "{}", check.text());
}

#[test]
fn what_was_turned_away_is_told_and_placed() {
    let card = made_up::card();
    assert!(card == std::fs::read(samples().join("overrun.card")).unwrap(), "desk/samples/overrun.card");
    let rows = |words: &[&str]| {
        let ran = usbhs(&[&["card", "extract", "--samples", "overrun.card"], words].concat(), b"");
        assert_eq!((ran.status, ran.err.as_str()), (0, ""));
        ran.text().lines().skip(1).map(|l| l.split(',').map(String::from).collect::<Vec<_>>()).collect::<Vec<_>>()
    };
    let plain = rows(&[]);
    assert_eq!(plain.len(), 1_210 * 4);
    // the gap stands at the first sample of packet 515
    let gaps: Vec<_> = plain.iter().filter(|r| !r[3].is_empty()).collect();
    assert_eq!(gaps.len(), 1);
    assert_eq!(gaps[0][..5], ["515", "1", "14504", "40", "0"]);
    // a record every 64 packets, and before those that follow the loss
    let stamped = plain.iter().filter(|r| !r[2].is_empty()).count() / 4;
    assert_eq!(stamped, 35);
    // by the records' step every packet has the microframe at which it was sent
    for row in rows(&["--interpolate"]) {
        let n: u64 = row[0].parse().unwrap();
        let sent = if n < 515 { n } else { n + 40 };
        assert_eq!(row[2].parse::<u64>().unwrap(), (9_000 + sent * 128) % 16_384, "packet {n}");
    }
}

#[test]
fn damage_is_marked_as_a_gap() {
    let mut card = std::fs::read(samples().join("overrun.card")).unwrap();
    card[5 * BLOCK + 100] ^= 1;
    let ran = usbhs(&["card", "extract", "--csv", "-"], &card);
    assert_eq!(ran.status, 1);
    let gaps: Vec<&str> =
        ran.text().lines().skip(1).filter_map(|l| l.split(',').nth(5)).filter(|g| !g.is_empty()).collect();
    assert_eq!(gaps, ["?", "40"]);
    // the last block with the end record is gone: the older survey is not given
    let mut card = std::fs::read(samples().join("overrun.card")).unwrap();
    card[27 * BLOCK + 9] ^= 1;
    let ran = usbhs(&["card", "check", "-"], &card);
    assert_eq!(ran.status, 1);
    assert!(ran.text().contains("a record of another survey follows"), "{}", ran.text());
    let mut given = 0;
    for row in usbhs(&["card", "extract", "--csv", "-"], &card).text().lines().skip(1) {
        let block: usize = row.split(',').nth(1).unwrap().parse().unwrap();
        assert!(block < 27, "{row}");
        given += 1;
    }
    assert!(given > 1_100 && given < 1_210, "{given}");
}

#[test]
fn padding_and_an_end_that_is_not_the_last_word() {
    // the power went: the end record stands, and the survey is not finished; padding is no packet
    let mut all = survey(7, 70, true, false);
    all.insert(5, (15, vec![]));
    all.insert(9, (15, vec![0; 17]));
    all.push(record(7, Kind::End { overruns: 0, finished: false }));
    let check = usbhs(&["card", "check", "-"], &over(&written(&all), &written(&survey(6, 1_000, true, true))));
    assert_eq!(check.status, 0, "{}", check.text());
    assert!(check.text().contains(": an end record, but the survey was not finished\n"), "{}", check.text());
    assert!(check.text().contains("endpoint 2: 70 packets, 4,200 bytes\n"), "{}", check.text());
    assert!(!check.text().contains("endpoint 15"), "{}", check.text());
}

#[test]
fn any_records() {
    // records and packets in any order and with any numbers: an answer, and nothing behind another survey's record
    let mut numbers = Numbers(77);
    for round in 0..300 {
        let mut all = vec![];
        let mut expected = 0;
        let (mut own, mut since) = (None, 0);
        let mut over = false;
        for _ in 0..numbers.below(60) {
            let survey = if numbers.below(12) == 0 { 8 } else { 7 };
            let kind = match numbers.below(8) {
                0 if numbers.below(8) == 0 => {
                    Kind::End { overruns: numbers.below(9) as u32, finished: numbers.below(2) == 0 }
                }
                0 | 1 => Kind::Stamp {
                    endpoint: 1 + numbers.below(3) as u8,
                    microframe: numbers.below(16_384) as u16,
                    overruns: numbers.below(1_000) as u32,
                },
                _ => {
                    all.push((1 + numbers.below(3) as u32, vec![7; numbers.below(9)]));
                    since += usize::from(!over);
                    continue;
                }
            };
            all.push(record(survey, kind));
            if !over && own.is_none_or(|o| o == survey) {
                (own, expected, since) = (Some(survey), expected + since, 0);
                over = matches!(kind, Kind::End { .. });
            } else {
                over = true;
            }
        }
        let expected = if own.is_none() { expected + since } else { expected };
        if all.is_empty() {
            continue;
        }
        let card = written(&all);
        let ran = usbhs(&["card", "extract", "--csv", "--interpolate", "-"], &card);
        assert!(ran.status < 2, "round {round}: {}", ran.err);
        assert_eq!(ran.text().lines().count() - 1, expected, "round {round}");
        if expected != 0 {
            let drawn = usbhs(&["card", "picture", "-"], &card);
            assert!(drawn.status < 2 && drawn.text().ends_with("</svg>\n") || drawn.err.contains("no samples"));
        }
        assert!(usbhs(&["card", "check", "--json", "-"], &card).status < 2);
    }
}

#[test]
fn a_picture_of_the_survey() {
    let words = ["card", "picture", "overrun.card", "--speed", "2", "--every", "9.6"];
    let title = ["--title", "A made-up survey: a weld every 9.6 metres, 40 packets turned away"];
    let ran = usbhs(&[&words[..], &title].concat(), b"");
    assert_eq!((ran.status, ran.err.as_str()), (0, ""));
    let there = std::fs::read_to_string(samples().join("../../docs/pictures/survey.svg")).unwrap();
    assert!(ran.text() == there, "docs/pictures/survey.svg");
    refused(&["card", "picture", "overrun.card", "--endpoint", "3"], b"", "no samples to draw");
}
