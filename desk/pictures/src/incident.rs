//! A recorded list of calls through the unchanged Rust and through the port: what each shows, on the card and back,
//! and where the two differ.

use oracle::replay::Session;
use oracle::text::{parse, print, Entry, Line};
use oracle::{Answer, Call, Driver};
use usbhs::survey::{Reader, Writer};

/// The endpoint whose packets are exported.
pub const ENDPOINT: u8 = 1;

/// One side's run: every entry, the packets that were opened, the card that they were written to, and what was read
/// back from it.
pub struct Side {
    pub entries: Vec<Entry>,
    pub card: Vec<u8>,
    pub packets: Vec<Vec<u8>>,
}

/// An answer that is not the same on both sides.
pub struct Difference {
    pub rust: String,
    pub port: String,
    /// The packet whose length it is, counted from 0, where the answer is an open's.
    pub packet: Option<usize>,
}

pub struct Incident {
    /// The packets as the chip stored them: what was sent.
    pub sent: Vec<Vec<u8>>,
    /// Where each was stored.
    pub slots: Vec<u32>,
    pub rust: Side,
    pub port: Side,
    pub answers: usize,
    pub differences: Vec<Difference>,
}

/// A packet's samples: 16 bits, lowest byte first.
pub fn samples(packets: &[Vec<u8>]) -> Vec<i16> {
    packets.iter().flat_map(|p| p.chunks_exact(2)).map(|b| i16::from_le_bytes([b[0], b[1]])).collect()
}

/// A sample at full scale.
pub fn flat(sample: i16) -> bool {
    sample == i16::MAX || sample <= -i16::MAX
}

pub fn flat_topped(samples: &[i16]) -> usize {
    samples.iter().filter(|s| flat(**s)).count()
}

/// The packets as a stream of blocks.
fn written(packets: &[Vec<u8>]) -> Vec<u8> {
    let (mut writer, mut card) = (Writer::default(), vec![]);
    for packet in packets {
        writer.write(ENDPOINT.into(), packet, |block| card.extend(block)).expect("a packet that the card takes");
    }
    writer.finish(|block| card.extend(block)).expect("the last block");
    card
}

/// The packets that the reader gives.
fn read_back(card: &[u8]) -> Vec<Vec<u8>> {
    let mut reader = Reader::new(card).expect("whole blocks");
    std::iter::from_fn(|| reader.next(card).map(|p| p.bytes.to_vec())).collect()
}

fn side(driver: &mut dyn Driver, calls: &[Call]) -> Side {
    let mut session = Session::new(driver);
    let (mut entries, mut opened) = (vec![], vec![]);
    for call in calls {
        let entry = session.call(call);
        if let (Call::Open(ENDPOINT), Answer::Shown { offset, length }) = (call, &entry.answer) {
            let at = *offset as usize;
            opened.push(session.driver.slots()[at..at + *length as usize].to_vec());
        }
        entries.push(entry);
    }
    let card = written(&opened);
    let packets = read_back(&card);
    Side { entries, card, packets }
}

/// An entry's line, without the slot bytes that it changed: the port marks other words (request Eight).
fn line(entry: &Entry) -> String {
    print(&[Entry { changed: vec![], ..entry.clone() }]).trim_end().into()
}

/// Runs a recorded list. An error: it is no list, or not what the Rust answers.
pub fn run(list: &str) -> Result<Incident, String> {
    let lines = parse(list)?;
    let (wrong, calls): (Option<String>, Vec<Call>) = (
        oracle::replay::replay(&mut original::Rust::new(), list)?.1,
        lines
            .into_iter()
            .filter_map(|(_, l)| match l {
                Line::Call { call, .. } => Some(call),
                _ => None,
            })
            .collect(),
    );
    if let Some(wrong) = wrong {
        return Err(format!("the list is not what the Rust answers: {wrong}"));
    }
    let rust = side(&mut original::Rust::new(), &calls);
    let port = side(&mut usbhs::port::Port::new(), &calls);
    let stores = calls.iter().filter_map(|c| match c {
        Call::Store { offset, data } => Some((*offset, data.clone())),
        _ => None,
    });
    let (slots, sent) = stores.unzip();
    let mut opens = 0;
    let (mut answers, mut differences) = (0, vec![]);
    for (r, p) in rust.entries.iter().zip(&port.entries) {
        answers += usize::from(r.answer != Answer::Stored);
        let shown = matches!((&r.call, &r.answer), (Call::Open(ENDPOINT), Answer::Shown { .. }));
        if r.answer != p.answer {
            differences.push(Difference { rust: line(r), port: line(p), packet: shown.then_some(opens) });
        }
        opens += usize::from(shown);
    }
    Ok(Incident { sent, slots, rust, port, answers, differences })
}

impl Incident {
    /// The packet that had the same slot before this one.
    pub fn before(&self, packet: usize) -> Option<usize> {
        (0..packet).rev().find(|&k| self.slots[k] == self.slots[packet])
    }

    /// The table, and the answers that differ.
    pub fn told(&self) -> String {
        let mut text = format!("{:16} {:>8} {:>8} {:>12}\n", "", "packets", "samples", "flat-topped");
        for (name, packets) in
            [("sent", &self.sent), ("the Rust exports", &self.rust.packets), ("the port exports", &self.port.packets)]
        {
            let all = samples(packets);
            text += &format!("{name:16} {:>8} {:>8} {:>12}\n", packets.len(), all.len(), flat_topped(&all));
        }
        text += &format!("\nof {} answers {} differ", self.answers, self.differences.len());
        if self.differences.len() == 1 {
            text += "s";
        }
        text += if self.differences.is_empty() { "\n" } else { ":\n" };
        for d in &self.differences {
            text += &format!("  the Rust  {}\n  the port  {}\n", d.rust, d.port);
            let Some(k) = d.packet else { continue };
            let (own, shown) = (self.sent[k].len() / 2, self.rust.packets[k].len() / 2);
            text += &format!("packet {k} has {own} samples; the Rust shows {} more", shown - own);
            if let Some(before) = self.before(k) {
                text += &format!(", which packet {before} left in the slot");
            }
            text += "\n";
        }
        text
    }
}
