//! Nothing is lost at the desk: outputs, names of files, options that contradict each other.
#![cfg(unix)]

mod common;

use std::ffi::OsString;
use std::os::unix::ffi::OsStringExt;
use std::os::unix::fs::symlink;
use std::process::Command;

use common::{refused, samples, stream, usbhs, Folder};

fn card() -> Vec<u8> {
    std::fs::read(samples().join("survey.card")).unwrap()
}

#[test]
fn an_input_is_never_written_over() {
    let folder = Folder::new("over");
    let x = folder.write("x", &card());
    let part = folder.write("y.part", &card());
    symlink(&x, folder.file("link")).unwrap();
    std::fs::hard_link(&x, folder.file("hard")).unwrap();
    let list = folder.write("list", &std::fs::read(samples().join("missed-visit.calls.txt")).unwrap());
    let board = folder.write("board", &std::fs::read(samples().join("board.hex")).unwrap());
    let words = "this is the input, and would be lost";
    for out in ["x", "link", "hard"] {
        for input in ["x", "link", "hard"] {
            let (input, out) = (&folder.file(input), &folder.file(out));
            refused(&["card", "extract", input, "--out", out], b"", words);
            refused(&["card", "picture", input, "--svg", out], b"", words);
        }
    }
    refused(&["card", "extract", &part, "--out", &folder.file("y")], b"", words);
    refused(&["replay", &list, "--svg", &list], b"", words);
    refused(&["descriptor", "write", &board, "--out", &board], b"", words);
    // through standard input, and onto standard output
    let shell = |script: &str| {
        let tool = env!("CARGO_BIN_EXE_usbhs");
        Command::new("sh").args(["-c", script, tool, &x]).output().unwrap()
    };
    let ran = shell("\"$0\" card extract - --out \"$1\" <\"$1\"");
    assert!(ran.status.code() == Some(2) && String::from_utf8(ran.stderr).unwrap().contains(words));
    let ran = shell("\"$0\" card extract \"$1\" >>\"$1\"");
    let says = "standard output is the input, and would be lost";
    assert!(ran.status.code() == Some(2) && String::from_utf8(ran.stderr).unwrap().contains(says));
    for (file, bytes) in [(&x, card()), (&part, card())] {
        assert!(std::fs::read(file).unwrap() == bytes, "{file}");
    }
    assert!(std::fs::read(&list).unwrap() == std::fs::read(samples().join("missed-visit.calls.txt")).unwrap());
    assert!(std::fs::read(&board).unwrap() == std::fs::read(samples().join("board.hex")).unwrap());
}

#[test]
fn an_output_gets_its_name_when_it_is_whole() {
    let folder = Folder::new("part");
    let out = folder.write("out", b"before");
    // an image that ends in the midst of a block comes through a pipe: it is found out at the end
    let cut = &card()[..6_000];
    let ran = usbhs(&["card", "extract", "-", "--out", &out], cut);
    assert_eq!(ran.status, 2);
    assert!(ran.err.contains(&format!("(what was written is in {out}.part)")), "{}", ran.err);
    assert_eq!(std::fs::read(&out).unwrap(), b"before");
    // what work before left is not written over
    refused(&["card", "extract", "survey.card", "--out", &out], b"", "out.part: it is there already");
    std::fs::remove_file(folder.file("out.part")).unwrap();
    let ran = usbhs(&["card", "extract", "survey.card", "--out", &out], b"");
    assert_eq!((ran.status, ran.text(), ran.err.as_str()), (0, "", ""));
    assert_eq!(std::fs::read(&out).unwrap(), usbhs(&["card", "extract", "survey.card"], b"").out);
    assert!(!std::fs::exists(folder.file("out.part")).unwrap());
    // a link's file is replaced, not the link
    symlink(&out, folder.file("link")).unwrap();
    let ran = usbhs(&["card", "extract", "--csv", "survey.card", "--out", &folder.file("link")], b"");
    assert_eq!(ran.status, 0);
    assert!(std::fs::symlink_metadata(folder.file("link")).unwrap().is_symlink());
    assert!(std::fs::read(&out).unwrap().starts_with(b"packet,block"));
    // a device stays one
    assert_eq!(usbhs(&["card", "extract", "survey.card", "--out", "/dev/null"], b"").status, 0);
    assert!(!std::fs::metadata("/dev/null").unwrap().is_file());
    let full = usbhs(&["card", "extract", "survey.card", "--out", "/dev/full"], b"");
    assert_eq!(full.status, 2);
    assert!(full.err.contains("/dev/full: cannot be written: No space left on device"), "{}", full.err);
}

#[test]
fn a_closed_output_is_an_error() {
    let shell = |script: &str| {
        let tool = env!("CARGO_BIN_EXE_usbhs");
        let ran = Command::new("sh").args(["-c", script, tool]).current_dir(samples()).output().unwrap();
        (ran.status.code(), String::from_utf8(ran.stderr).unwrap())
    };
    for words in ["visits 1 2 1 1", "card check survey.card", "card list survey.card", "--help", "--version"] {
        let (status, says) = shell(&format!("\"$0\" {words} >&-"));
        assert!(status == Some(2) && says.contains("standard output is closed"), "{words}: {says}");
        // but the null device may be meant
        assert_eq!(shell(&format!("\"$0\" {words} >/dev/null")).0, Some(0), "{words}");
        assert_eq!(shell(&format!("\"$0\" {words} 1<>/dev/null")).0, Some(0), "{words}");
    }
    // nothing is written there
    let (status, says) = shell("\"$0\" card extract survey.card --out /dev/null >&-");
    assert_eq!((status, says.as_str()), (Some(0), ""));
}

#[test]
fn a_file_may_have_any_name() {
    let folder = Folder::new("name");
    let name = |bytes: &[u8]| folder.0.join(OsString::from_vec(bytes.to_vec()));
    let image = name(b"run \xFF\xFE\n.card");
    std::fs::write(&image, card()).unwrap();
    let run = |words: &[&std::ffi::OsStr]| {
        let ran = Command::new(env!("CARGO_BIN_EXE_usbhs")).args(words).output().unwrap();
        (ran.status.code(), ran.stdout, String::from_utf8(ran.stderr).unwrap())
    };
    let out = name(b"out \xC0=");
    let (card_, extract, check) = ("card".as_ref(), "extract".as_ref(), "check".as_ref());
    assert_eq!(run(&[card_, check, image.as_os_str()]).0, Some(0));
    let mut option = OsString::from("--out=");
    option.push(&out);
    assert_eq!(run(&[card_, extract, image.as_os_str(), &option]), (Some(0), vec![], String::new()));
    assert!(std::fs::read(&out).unwrap() == usbhs(&["card", "extract", "survey.card"], b"").out);
    let (status, _, says) = run(&[card_, check, name(b"none \xFF").as_os_str()]);
    assert!(status == Some(2) && says.contains("No such file"), "{says}");
    let bad = OsString::from_vec(b"\xFF".to_vec());
    let (status, _, says) = run(&[&bad]);
    assert!(status == Some(2) && says.contains("is not a text"), "{says}");
    let (status, _, says) = run(&[card_, "list".as_ref(), "survey.card".as_ref(), "--endpoint".as_ref(), &bad]);
    assert!(status == Some(2) && says.contains("is not a text"), "{says}");
}

#[test]
fn options_that_contradict_or_cannot_be() {
    refused(&["card", "extract", "survey.card", "--csv", "--samples"], b"", "--csv and --samples: one of them");
    refused(&["card", "extract", "survey.card", "--json"], b"", "card extract has no --json");
    refused(&["card", "picture", "survey.card", "--json"], b"", "card picture has no --json");
    refused(&["card", "extract", "survey.card", "--interpolate"], b"", "--interpolate: the bytes alone");
    refused(&["descriptor", "write", "board.hex", "--hex", "--json"], b"", "--hex and --json: one of them");
    refused(&["help", "--json"], b"", "help has no --json");
    refused(&["--help", "--json"], b"", "--help has no --json");
    refused(&["help", "me"], b"", "me is too much");
    for what in ["check", "list", "extract"] {
        for endpoint in ["0", "16", "99"] {
            let says = format!("--endpoint: {endpoint} is no endpoint from 1 to 15");
            refused(&["card", what, "survey.card", "--endpoint", endpoint], b"", &says);
        }
        refused(&["card", what, "survey.card", "--recorder", "16"], b"", "--recorder: 16 is no endpoint from 0 to 15");
        refused(&["card", what, "survey.card", "--blocks", "0"], b"", "--blocks: 0 are none");
        refused(&["card", what, "survey.card", "--blocks", "14"], b"", "--blocks: the image has 13 blocks");
        refused(&["card", what, "-", "--blocks", "14"], &card(), "--blocks: the image has 13 blocks");
        refused(&["card", what, "survey.card", "--blocks", "3", "--cut"], b"", "--blocks and --cut");
    }
    refused(&["card", "picture", "survey.card", "--speed", "0"], b"", "--speed: 0 is no number above 0");
    refused(&["card", "picture", "survey.card", "--every", "-1"], b"", "--every: -1 is no number above 0");
    refused(&["replay", "missed-visit.calls.txt", "--svg"], b"", "--svg needs a value");
    refused(&["card", "list", "survey.card", "--blocks", "1", "--blocks=2"], b"", "--blocks stands twice");
}

#[test]
fn what_a_form_leaves_out_is_told() {
    let odd = stream([(1, &[1u8, 2, 3][..]), (1, &[4, 5])].into_iter());
    let ran = usbhs(&["card", "extract", "--samples", "-"], &odd);
    assert_eq!(ran.text(), "packet,endpoint,microframe,gap,sample,value\n0,1,,,0,513\n1,1,,,0,1284\n");
    assert!(ran.err.contains("1 packet of an odd length, whose last byte is no sample"), "{}", ran.err);
    let mixed = stream([(1, &[1u8, 2][..]), (3, &[4, 5])].into_iter());
    let ran = usbhs(&["card", "extract", "-"], &mixed);
    assert!(ran.err.contains("packets of several endpoints are mixed; --endpoint keeps one"), "{}", ran.err);
    assert_eq!(usbhs(&["card", "extract", "-", "--endpoint", "3"], &mixed).err, "");
}

#[test]
fn every_picture_has_a_title() {
    for words in [
        &["card", "picture", "survey.card", "--title", "a < b"][..],
        &["replay", "missed-visit.calls.txt", "--svg", "-", "--title", "a < b"],
    ] {
        let ran = usbhs(words, b"");
        assert!(ran.text().contains("<title>a &lt; b"), "{words:?}");
    }
    for file in ["incident", "replay", "share-chip", "survey"] {
        let svg = std::fs::read_to_string(samples().join(format!("../../docs/pictures/{file}.svg"))).unwrap();
        assert_eq!(svg.matches("<title>").count(), 1, "{file}");
    }
}
