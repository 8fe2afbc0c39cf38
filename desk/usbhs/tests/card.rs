//! `usbhs card` over good, damaged and empty images.

mod common;

use std::fs::File;
use std::io::Read;
use std::process::{Command, Stdio};

use common::{image, refused, stream, usbhs, Numbers};
use usbhs::stream::{block, go_through_by, Dropped, End, Extent, Packet, Sink, Stop};
use usbhs::survey::{Reader, BLOCK, DATA};
use usbhs::Done;

fn packets(n: usize, numbers: &mut Numbers) -> Vec<(u32, Vec<u8>)> {
    (0..n).map(|_| (1 + numbers.below(15) as u32, numbers.below(200))).map(|(e, l)| (e, vec![e as u8; l])).collect()
}

fn borrowed(all: &[(u32, Vec<u8>)]) -> impl Iterator<Item = (u32, &[u8])> {
    all.iter().map(|(e, p)| (*e, p.as_slice()))
}

#[test]
fn what_is_written_comes_back() {
    let all = packets(2_000, &mut Numbers(1));
    let card = stream(borrowed(&all));
    let ran = usbhs(&["card", "check", "-"], &card);
    assert_eq!((ran.status, ran.err.as_str()), (0, ""));
    let blocks = card.len() / BLOCK;
    assert!(ran.text().starts_with(&format!("standard input: {blocks} blocks, {blocks} good, 0 dropped\n")));
    let raw = usbhs(&["card", "extract", "-"], &card);
    assert_eq!((raw.status, raw.out), (0, all.iter().flat_map(|p| p.1.clone()).collect()));
    let one = usbhs(&["card", "extract", "--endpoint", "3", "-"], &card);
    assert_eq!(one.out, all.iter().filter(|p| p.0 == 3).flat_map(|p| p.1.clone()).collect::<Vec<u8>>());
    let list = usbhs(&["card", "list", "-"], &card);
    assert_eq!(list.text().lines().count(), all.len() + 1);
    let csv = usbhs(&["card", "extract", "--csv", "-"], &card);
    let row = csv.text().lines().nth(8).unwrap();
    let hex: String = all[7].1.iter().map(|b| format!("{b:02x}")).collect();
    assert!(row.starts_with("7,") && row.ends_with(&format!(",{},,,{},{hex}", all[7].0, all[7].1.len())), "{row}");
}

#[test]
fn an_image_of_some_stretches() {
    // more than two stretches of 4 MiB, with blocks damaged on both sides of their ends
    let packet = vec![0x5A; 1_000];
    let mut card = stream((0..10_000).map(|_| (4, packet.as_slice())));
    assert!(card.len() > 9 << 20);
    for block in [8_190, 8_191, 8_192, 8_193, 16_383, 16_384] {
        card[block * BLOCK + 77] ^= 1;
    }
    let given = count(&card);
    let ran = usbhs(&["card", "check", "-"], &card);
    assert_eq!((ran.status, ran.err.as_str()), (1, ""));
    assert!(ran.text().contains("6 dropped (6 by the check, 0 by the number)"), "{}", ran.text());
    assert!(ran.text().contains("blocks 8190 to 8193: their checks fail"), "{}", ran.text());
    let given = usbhs::output::thousands(given as u64);
    assert!(ran.text().contains(&format!("endpoint 4: {given} packets")), "{}", ran.text());
}

/// The packets that the reader gives of the whole stream.
fn count(card: &[u8]) -> usize {
    let mut reader = Reader::new(card).unwrap();
    std::iter::from_fn(|| reader.next(card).map(|_| ())).count()
}

/// Each packet's place, endpoint and bytes, read one at a time.
fn one_by_one(card: &[u8]) -> Vec<(usize, u32, Vec<u8>)> {
    let mut reader = Reader::one_by_one(card).unwrap();
    std::iter::from_fn(|| reader.next(card).map(|p| (p.begin, p.endpoint, p.bytes.to_vec()))).collect()
}

#[test]
fn any_damage() {
    let mut numbers = Numbers(7);
    for round in 0..200 {
        let all = packets(numbers.below(120), &mut numbers);
        let mut card = stream(borrowed(&all));
        for _ in 0..numbers.below(5) {
            let blocks = card.len() / BLOCK;
            if blocks == 0 {
                break;
            }
            let (a, b) = (numbers.below(blocks) * BLOCK, numbers.below(blocks) * BLOCK);
            match numbers.below(4) {
                0 => card[a + numbers.below(BLOCK)] ^= 1 << numbers.below(8),
                1 => card.copy_within(b..b + BLOCK, a),
                2 => card[a..a + BLOCK].fill(0),
                _ => card.truncate(a),
            }
        }
        if card.is_empty() {
            refused(&["card", "list", "-"], &card, "the image is empty");
            continue;
        }
        let ran = usbhs(&["card", "list", "--quiet", "-"], &card);
        assert_eq!(ran.text().lines().count(), 1 + count(&card), "round {round}");
        let check = usbhs(&["card", "check", "--json", "-"], &card);
        let says = |words: &str| check.text().contains(words);
        let well = says("\"dropped\":[]") && says("\"certain\":true");
        assert_eq!((ran.status, check.status), (i32::from(!well), i32::from(!well)), "round {round}");
    }
}

/// All that a sink is told.
#[derive(Default)]
struct All {
    packets: Vec<(usize, u32, Vec<u8>)>,
    damage: Vec<bool>,
    blocks: Vec<Option<Dropped>>,
    behind: usize,
    most: usize,
}

impl Sink for All {
    fn packet(&mut self, p: &Packet) -> Done<bool> {
        if self.packets.len() == self.most {
            return Ok(false);
        }
        self.packets.push((p.begin as usize, p.endpoint.into(), p.bytes.to_vec()));
        self.damage.push(p.behind_damage);
        Ok(true)
    }

    fn block(&mut self, place: u64, dropped: Option<Dropped>) {
        assert_eq!(place as usize, self.blocks.len());
        self.blocks.push(dropped);
    }

    fn behind(&mut self, _: Option<Dropped>) -> bool {
        self.behind += 1;
        true
    }
}

fn by_windows(card: &[u8], window: usize, most: usize) -> (All, End) {
    let mut all = All { most, ..All::default() };
    let end = go_through_by(&mut image(card), Extent::default(), window, &mut all).unwrap();
    assert_eq!((all.blocks.len() + all.behind) * BLOCK, card.len());
    (all, end)
}

#[test]
fn windows_give_what_the_reader_gives_of_the_whole() {
    let mut numbers = Numbers(23);
    let mut stops = std::collections::BTreeMap::new();
    for round in 0..300 {
        // up to 20 windows of 132 blocks, the least that holds the longest packet
        let n = numbers.below(4_000);
        let all: Vec<(u32, Vec<u8>)> = (0..n)
            .map(|_| {
                let most = [3, 80, 1_025][numbers.below(3)];
                let length = numbers.below(most);
                (1 + numbers.below(14) as u32, numbers.bytes(length))
            })
            .collect();
        let mut card = stream(borrowed(&all));
        let blocks = card.len() / BLOCK;
        for _ in 0..numbers.below(8) {
            if blocks == 0 {
                break;
            }
            let (a, b) = (numbers.below(blocks), numbers.below(blocks));
            let most = [2, 400][numbers.below(2)];
            let run = (1 + numbers.below(most)).min(blocks - a.max(b));
            match numbers.below(5) {
                0 => card[a * BLOCK + numbers.below(BLOCK)] ^= 1 << numbers.below(8),
                1 => card.copy_within(b * BLOCK..(b + run) * BLOCK, a * BLOCK),
                2 => card[a * BLOCK..(a + run) * BLOCK].fill(0),
                3 if numbers.below(4) == 0 => card.truncate((a + 1) * BLOCK),
                _ => {
                    // a good block that says something else: a long packet, filler, another begin
                    let at = a * BLOCK;
                    let byte = at + 4 + numbers.below(506);
                    card[byte] = [0, 255, 6, 16][numbers.below(4)];
                    let check = usbhs::survey::data_crc(&card[at..at + BLOCK - 2]);
                    card[at + BLOCK - 2..at + BLOCK].copy_from_slice(&check.to_le_bytes());
                }
            }
            if card.len() < blocks * BLOCK {
                break;
            }
        }
        if card.is_empty() {
            continue;
        }
        let whole = one_by_one(&card);
        for window in [132, 150, 2_048] {
            let (given, end) = by_windows(&card, window, usize::MAX);
            assert!(given.packets == whole, "round {round}, windows of {window}");
            let places = card.chunks_exact(BLOCK).zip(0u64..).map(|(b, i)| block(b, i).err());
            assert!(given.blocks.iter().copied().eq(places.take(given.blocks.len())), "round {round}");
            // the end is behind the last packet, in the last block that is told
            let behind = whole.last().map_or(0, |p| p.0 + 3 + p.2.len());
            assert!(end.place as usize >= behind, "round {round}");
            if end.why == Stop::Filler {
                assert_eq!(end.place as usize / DATA + 1, given.blocks.len(), "round {round}");
            }
            *stops.entry(format!("{:?}", end.why)).or_insert(0) += 1;
            // a packet is behind damage where it does not begin at the end of the one before
            let mut at = 0;
            for ((begin, _, bytes), damage) in given.packets.iter().zip(&given.damage) {
                assert_eq!(*damage, *begin != at, "round {round}, windows of {window}, packet at {begin}");
                at = begin + 3 + bytes.len();
            }
            // as many as are wanted
            let half = whole.len() / 2;
            let (given, end) = by_windows(&card, window, half);
            assert!(given.packets[..] == whole[..half], "round {round}");
            if half < whole.len() {
                assert_eq!((end.place as usize, end.why), (whole[half].0, Stop::Asked));
                assert_eq!(given.blocks.len(), whole[half].0.div_ceil(DATA));
            }
        }
    }
    for stop in ["Filler", "RunsOut", "Cut", "Lost"] {
        assert!(stops.contains_key(stop), "{stops:?}");
    }
}

#[test]
fn misplaced_blocks_are_told_together() {
    let packet = [7u8; 400];
    let mut card = stream((0..40).map(|_| (1, packet.as_slice())));
    card.copy_within(2 * BLOCK..6 * BLOCK, 20 * BLOCK);
    let ran = usbhs(&["card", "check", "-"], &card);
    assert!(ran.text().contains("  blocks 20 to 23: their numbers are 2 on\n"), "{}", ran.text());
}

#[test]
fn empty() {
    refused(&["card", "check", "-"], b"", "standard input: the image is empty");
    refused(&["card", "list", "--json", "/dev/null"], b"", "/dev/null: the image is empty");
    // blocks, but no packet
    let card = stream(std::iter::empty());
    assert!(card.is_empty());
    let mut card = stream([(1, &[0u8; 0][..])].into_iter());
    card[6..].fill(0);
    let check = usbhs::survey::data_crc(&card[..BLOCK - 2]);
    card[BLOCK - 2..].copy_from_slice(&check.to_le_bytes());
    let ran = usbhs(&["card", "check", "-"], &card);
    let says = "standard input: 1 block, 1 good, 0 dropped\nno packet\nthe stream ends in block 0 at byte 6: filler\n";
    assert_eq!((ran.status, ran.text()), (0, says));
}

#[test]
fn no_image() {
    refused(&["card", "check", "no-such-file"], b"", "no-such-file: No such file or directory");
    refused(&["card", "check", "."], b"", ".: is a directory");
    refused(&["card", "check", "-"], &[0; 700], "700 bytes are not whole blocks of 512");
    refused(&["card", "check"], b"", "IMAGE is missing");
    refused(&["card", "mend", "survey.card"], b"", "card mend: check, list, extract or picture");
    refused(&["card", "check", "survey.card", "--csv"], b"", "--csv is no option here");
    refused(&["card", "extract", "survey.card", "--out", "no/such/folder"], b"", "no/such/folder: ");
    let cut = usbhs(&["card", "check", "--cut", "-"], &[0; 700]);
    assert_eq!(cut.status, 1);
    assert!(cut.text().contains("1 block, 0 good, 1 dropped"), "{}", cut.text());
}

#[test]
fn cut_short_meanwhile() {
    // the tool has begun, and waits for its output to be read, when the image is cut behind its first blocks
    let packet = [7u8; 1_000];
    let path = std::env::temp_dir().join(format!("usbhs-cut-{}.card", std::process::id()));
    std::fs::write(&path, stream((0..12_000).map(|_| (1, packet.as_slice())))).unwrap();
    let mut child = Command::new(env!("CARGO_BIN_EXE_usbhs"))
        .args(["card", "extract", path.to_str().unwrap()])
        .stdout(Stdio::piped())
        .stderr(Stdio::piped())
        .spawn()
        .unwrap();
    child.stdout.as_mut().unwrap().read_exact(&mut [0]).unwrap();
    File::options().write(true).open(&path).unwrap().set_len(8 * BLOCK as u64).unwrap();
    let ran = child.wait_with_output().unwrap();
    std::fs::remove_file(&path).unwrap();
    assert_eq!(ran.status.code(), Some(2));
    let says = String::from_utf8(ran.stderr).unwrap();
    assert!(says.starts_with(&format!("usbhs: {}: cannot be read at byte ", path.display())), "{says}");
    assert!(says.ends_with(": it was cut short meanwhile, or its device fails\n"), "{says}");
}

#[test]
fn output_that_nobody_reads() {
    let ran = Command::new("sh")
        .args(["-c", "\"$0\" card list survey.card | head -1", env!("CARGO_BIN_EXE_usbhs")])
        .current_dir(common::samples())
        .output()
        .unwrap();
    assert!(ran.status.success() && ran.stderr.is_empty());
}
