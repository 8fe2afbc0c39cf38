//! `usbhs descriptor`, `channels`, `visits` and `replay` over good, bad and empty inputs.

mod common;

use common::{refused, samples, usbhs, Numbers};
use usbhs::descriptor::{bytes_of, fault};
use usbhs::survey;

fn board() -> Vec<u8> {
    bytes_of(&std::fs::read(samples().join("board.hex")).unwrap()).unwrap()
}

#[test]
fn a_descriptor_written_back_is_the_same_list() {
    let shown = |input: &[u8]| {
        let ran = usbhs(&["descriptor", "show", "--json", "-"], input);
        assert_eq!(ran.status, 0, "{}", ran.err);
        let at = ran.text().find("endpoints").unwrap();
        ran.text()[at..].to_string()
    };
    let written = usbhs(&["descriptor", "write", "board.hex"], b"");
    assert_eq!((written.status, written.out.len()), (0, 18 + 7 * 5));
    assert_eq!(shown(&written.out), shown(&board()));
    let digits = usbhs(&["descriptor", "write", "--hex", "board.hex"], b"");
    assert_eq!(shown(&digits.out), shown(&board()));
}

#[test]
fn every_fault_has_its_words() {
    let good = board();
    let show = |bytes: &[u8], says: &str| refused(&["descriptor", "show", "-"], bytes, says);
    show(b"", "refused with 17: there are no bytes");
    show(&good[..70], "the total length says 80, and there are 70 bytes");
    show(&good[9..], "do not begin with a configuration descriptor");
    show(&vec![9; 5_000], "there are 5000 bytes, and at most 4,096 may be");
    let with = |at: usize, value: u8| {
        let mut bytes = good.clone();
        bytes[at] = value;
        bytes
    };
    show(&with(18, 6), "the descriptor at byte 18, of kind 5, has length 6, below 7");
    show(&with(71, 200), "the descriptor at byte 71 has length 200 and runs past the end");
    show(&with(19, 2), "has length 7, below 9");
    show(&with(20, 0x12), "the endpoint at byte 18 has address 0x12");
    show(&with(10, 6), "the endpoint at byte 18 precedes every interface");
    show(&with(10, 2), "a second configuration descriptor stands at byte 9");
    // OUT 1 once isochronous, once bulk
    show(&with(20, 1), "refused with 18: one address has two transfer types: 0x01");
    show(b"09 02 5", "line 1: 5 is not two hexadecimal digits a byte");
    refused(&["descriptor", "preview", "board.hex", "--size", "7"], b"", "refused with 2");
    refused(&["descriptor", "preview", "board.hex", "--size", "many"], b"", "--size: many is no number");
}

#[test]
fn the_words_find_a_fault_exactly_where_the_archive_refuses() {
    let (good, mut numbers) = (board(), Numbers(3));
    let mut refusals = 0;
    for _ in 0..20_000 {
        let mut bytes = good.clone();
        for _ in 0..1 + numbers.below(3) {
            let at = numbers.below(bytes.len());
            bytes[at] = [0, 1, 2, 4, 5, 7, 9, 0x81, 0x91, 255][numbers.below(10)];
        }
        let refused = survey::write_descriptor(&bytes) == Err(17);
        assert_eq!(refused, fault(&bytes) != "no fault is found", "{bytes:02x?}: {}", fault(&bytes));
        refusals += usize::from(refused);
    }
    assert!(refusals > 1_000 && refusals < 19_000, "{refusals}");
}

#[test]
fn a_preview_is_what_the_allocations_give() {
    for count in 1..40 {
        let ran = usbhs(&["descriptor", "preview", "board.hex", "--count", &count.to_string()], b"");
        assert_eq!(ran.status, i32::from(count < 22), "{count}: {}{}", ran.text(), ran.err);
    }
}

#[test]
fn channels() {
    let run = |list: &str| usbhs(&["channels", "-", "--json"], list.as_bytes());
    let ran = run("");
    assert_eq!(ran.status, 0);
    assert!(ran.text().contains("\"total\":0") && ran.text().contains("\"sets\":1"), "{}", ran.text());
    let ran = run("a 3000 3000\nb 3001 3001 # together they do not fit\n\nc 2999 2999\n");
    assert!(ran.text().contains("\"total\":6000,\"charge\":6000,\"bound\":6000,\"looked\":8"), "{}", ran.text());
    refused(&["channels", "-"], b"a 12", "standard input: line 1: a charge is missing");
    refused(&["channels", "-"], b"\na 12 1 1", "line 2: 1 is too much");
    refused(&["channels", "-"], b"a 70000 1", "70000 is no number from 0 to 65,535");
    refused(&["channels", "-"], b"a 65530 iso", "above 65,535");
    refused(&["channels", "-"], &[0xFF, 0xFE], "not a text");
    refused(&["channels", "-"], "a 1 1\n".repeat(17).as_bytes(), "refused with 20");
    refused(&["channels", "-", "--budget", "0"], b"a 1 1", "refused with 20");
}

#[test]
fn coding() {
    for words in ["12", "12 --signed", "12 --offset", "10", "14", "15 --signed", "12 --left --big-endian"] {
        let ran = usbhs(&["coding"].into_iter().chain(words.split(' ')).collect::<Vec<_>>(), b"");
        assert!(ran.status == 0 && ran.text().contains("no packet of whole samples is short"), "{words}");
    }
    for words in ["16", "16 --signed", "12 --left", "12 --big-endian", "15"] {
        assert_eq!(usbhs(&["coding"].into_iter().chain(words.split(' ')).collect::<Vec<_>>(), b"").status, 1, "{words}");
    }
    assert!(usbhs(&["coding", "16"], b"").text().contains("4n bytes loses its last byte, 5A, for 256 of 65,536 samples"));
    refused(&["coding", "17"], b"", "17 is no number of bits");
    refused(&["coding", "12", "--left", "--signed"], b"", "exclude each other");
    refused(&["coding"], b"", "BITS is missing");
}

#[test]
fn visits() {
    assert_eq!(usbhs(&["visits", "1", "15", "1", "1"], b"").status, 0);
    assert_eq!(usbhs(&["visits", "1", "16", "1", "1"], b"").status, 1);
    refused(&["visits", "5", "4", "1", "1"], b"", "refused with 23");
    refused(&["visits", "1", "2", "1"], b"", "D is missing");
    refused(&["visits", "1", "2", "1", "-3"], b"", "-3 is no option here");
    refused(&["visits", "1", "2", "1", "3", "4"], b"", "4 is too much");
}

#[test]
fn replay() {
    let ran = usbhs(&["replay", "-"], b"");
    assert_eq!((ran.status, ran.text()), (0, "standard input: 0 calls, 0 microframes\n"));
    for (list, says) in [
        ("open", "line 1: word missing: open"),
        ("jump 3", "line 1: call jump: jump 3"),
        ("start_up 64 18 < ", "line 1: a reading is missing"),
        ("start_up 64 18 < 3 4", "line 1: a reading is left"),
        ("store 0x0 01", "line 1: a store of 1 bytes at 0 of 0"),
        ("continue -> W nowhere 3", "line 1: register nowhere"),
    ] {
        refused(&["replay", "-"], list.as_bytes(), says);
    }
    // a start-up above 65,536 bytes, a call before any start-up
    let ran = usbhs(&["replay", "-"], b"start_up 1024 4000000\nopen 3\n");
    assert_eq!(ran.status, 0);
    assert!(ran.text().contains("start-up: refused with 2") && ran.text().contains("open: refused with 4"));
    // every recorded list is made; the one whose late length is not the Rust's, and those in which the port refuses
    // what the Rust takes, say so
    let runs = samples().join("../../oracle/runs");
    for file in std::fs::read_dir(runs).unwrap() {
        let path = file.unwrap().path();
        let ran = usbhs(&["replay", "--svg", "/dev/null", path.to_str().unwrap()], b"");
        assert!(ran.status < 2, "{}: {}", path.display(), ran.err);
        if path.ends_with("incident.txt") {
            assert_eq!(ran.status, 1);
        }
    }
}

#[test]
fn replay_takes_any_list() {
    // lists with words changed, lines left out or said twice: a timeline or an error, and no end otherwise
    let mut numbers = Numbers(11);
    let runs = samples().join("../../oracle/runs");
    let (mut lists, mut drawn, mut bad) = (0, 0, 0);
    for file in std::fs::read_dir(runs).unwrap() {
        lists += 1;
        let list = std::fs::read_to_string(file.unwrap().path()).unwrap();
        for _ in 0..20 {
            let mut lines: Vec<String> = list.lines().map(Into::into).collect();
            for _ in 0..1 + numbers.below(4) {
                let at = numbers.below(lines.len());
                match numbers.below(4) {
                    0 => drop(lines.remove(at)),
                    1 => lines.insert(at, lines[numbers.below(lines.len())].clone()),
                    2 => lines[at] = lines[at].replacen(['1', '2', '4'], ["15", "0", "255"][numbers.below(3)], 1),
                    _ => lines[at] = lines[at].replacen("out", "in", 1),
                }
            }
            match usbhs::replay::drawn(&lines.join("\n"), "any") {
                Ok(svg) => drawn += usize::from(svg.ends_with("</svg>\n")),
                Err(_) => bad += 1,
            }
        }
    }
    assert!(drawn > 100 && drawn + bad == lists * 20, "{lists} lists, {drawn} drawn, {bad} bad");
}

#[test]
fn the_command_line() {
    refused(&[], b"", "a command is missing");
    refused(&["wash"], b"", "wash is no command");
    refused(&["--fast"], b"", "--fast is no option here");
    // the header's version
    let header = include_str!("../../../include/usbhs.h");
    assert!(header.contains(concat!("#define USBHS_VERSION \"", env!("CARGO_PKG_VERSION"), "\"\n")));
    let help = usbhs(&["card", "--help"], b"");
    assert_eq!((help.status, help.text().lines().next()), (0, usbhs(&["-h"], b"").text().lines().next()));
    for line in help.text().lines() {
        assert!(line.len() <= 112, "{line}");
    }
    assert_eq!(usbhs(&["help"], b"").text(), help.text());
    let version = usbhs(&["--version"], b"");
    assert_eq!((version.status, version.text()), (0, concat!("usbhs ", env!("CARGO_PKG_VERSION"), "\n")));
    assert!(usbhs(&["--version", "--json"], b"").text().starts_with("{\"version\":\""));
    // alone it says what there is
    assert!(usbhs(&[], b"").err.contains(help.text()));
}
