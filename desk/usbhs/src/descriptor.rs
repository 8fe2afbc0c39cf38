//! `usbhs descriptor show|write FILE`: the endpoints of a configuration descriptor (USB 2.0, 9.6).

use std::path::Path;

use crate::args::{usage, Args};
use crate::image::Image;
use crate::json::Json;
use crate::output::{count, write_to, Output};
use crate::{bad, image, preview, rows, survey, Done};

/// A descriptor has at most so many bytes.
pub const MOST: usize = 4_096;
/// Byte-times that an endpoint is charged above its maximum.
pub const ISOCHRONOUS: u16 = 38;
pub const INTERRUPT: u16 = 55;
const KINDS: [&str; 4] = ["control", "isochronous", "bulk", "interrupt"];

/// An endpoint of the list.
#[derive(Clone, Debug, PartialEq, Eq)]
pub struct Endpoint {
    pub address: u8,
    pub kind: u8,
    pub maximum: u16,
    pub interval: u8,
}

impl Endpoint {
    pub fn is_in(&self) -> bool {
        self.address & 0x80 != 0
    }

    /// `OUT 1`, `IN 2`.
    pub fn name(&self) -> String {
        format!("{} {}", if self.is_in() { "IN" } else { "OUT" }, self.address & 15)
    }

    pub fn kind_name(&self) -> &'static str {
        KINDS[self.kind as usize & 3]
    }

    /// Byte-times that it is charged once a microframe while it is enabled.
    pub fn charge(&self) -> u32 {
        match self.kind {
            1 => u32::from(self.maximum) + u32::from(ISOCHRONOUS),
            3 => u32::from(self.maximum) + u32::from(INTERRUPT),
            _ => 0,
        }
    }

    pub fn json(&self) -> Vec<(&'static str, Json)> {
        vec![
            ("address", self.address.into()),
            ("direction", if self.is_in() { "in" } else { "out" }.into()),
            ("kind", self.kind_name().into()),
            ("maximum", self.maximum.into()),
            ("interval", self.interval.into()),
            ("charge", self.charge().into()),
        ]
    }
}

/// The bytes, or the bytes that the text's hexadecimal digits are: no configuration descriptor begins with a digit.
pub fn bytes_of(file: &[u8]) -> Result<Vec<u8>, String> {
    let begins = |b: &u8| b.is_ascii_hexdigit() || b"# \r\n".contains(b);
    if file.is_empty() || !begins(&file[0]) {
        return Ok(file.to_vec());
    }
    let text = std::str::from_utf8(file).map_err(|_| "begins as a text and is none".to_string())?;
    let mut all = vec![];
    for (i, line) in text.lines().enumerate() {
        for word in line.split('#').next().unwrap_or("").split_whitespace() {
            let digits = word.strip_prefix("0x").unwrap_or(word).trim_end_matches(',');
            if digits.len() % 2 != 0 || !digits.bytes().all(|b| b.is_ascii_hexdigit()) {
                return Err(format!("line {}: {word} is not two hexadecimal digits a byte", i + 1));
            }
            all.extend((0..digits.len() / 2).map(|k| u8::from_str_radix(&digits[2 * k..2 * k + 2], 16).unwrap()));
        }
    }
    Ok(all)
}

/// The endpoints of the list as it is written out.
pub fn listed(written: &[u8]) -> Vec<Endpoint> {
    written[18..]
        .chunks_exact(7)
        .map(|d| Endpoint { address: d[2], kind: d[3] & 3, maximum: u16::from_le_bytes([d[4], d[5]]), interval: d[6] })
        .collect()
}

/// What is wrong with bytes that are refused with 17, the first fault in their order.
pub fn fault(bytes: &[u8]) -> String {
    let at = |i: usize| bytes.get(i).copied().unwrap_or(0) as usize;
    if bytes.is_empty() {
        return "there are no bytes".into();
    }
    if bytes.len() > MOST {
        return format!("there are {} bytes, and at most 4,096 may be", bytes.len());
    }
    if bytes.len() < 9 || at(0) < 9 || at(1) != 2 {
        return "the bytes do not begin with a configuration descriptor (9 or more, then 2)".into();
    }
    let total = at(2) + at(3) * 256;
    if total != bytes.len() {
        return format!("the total length says {total}, and there are {} bytes", bytes.len());
    }
    let (mut d, mut inside) = (0, false);
    while d < bytes.len() {
        let (length, kind) = (at(d), at(d + 1));
        let least = match kind {
            2 | 4 => 9,
            5 => 7,
            _ => 2,
        };
        if length < least {
            return format!("the descriptor at byte {d}, of kind {kind}, has length {length}, below {least}");
        }
        if d + length > bytes.len() {
            return format!("the descriptor at byte {d} has length {length} and runs past the end");
        }
        match kind {
            2 if d != 0 => return format!("a second configuration descriptor stands at byte {d}"),
            4 => inside = true,
            5 if !inside => return format!("the endpoint at byte {d} precedes every interface"),
            5 if at(d + 2) & 0x70 != 0 => {
                return format!("the endpoint at byte {d} has address {:#04x}, with a bit of 4 to 6 set", at(d + 2))
            }
            _ => {}
        }
        d += length;
    }
    "no fault is found".into()
}

/// The address that has two transfer types.
fn two_types(bytes: &[u8]) -> Option<u8> {
    let mut types = [None; 256];
    let mut d = 0;
    while let [length, kind, rest @ ..] = &bytes[d..] {
        if let (5, [address, attributes, ..]) = (*kind, rest) {
            match types[*address as usize].replace(attributes & 3) {
                Some(before) if before != attributes & 3 => return Some(*address),
                _ => {}
            }
        }
        d = (d + (*length).max(2) as usize).min(bytes.len());
    }
    None
}

/// A refused reading in words.
pub fn why(row: u8, bytes: &[u8]) -> String {
    match (row, two_types(bytes)) {
        (17, _) => format!("refused with 17: {}", fault(bytes)),
        (18, Some(address)) => format!("{}: {address:#04x}", rows::refused(18)),
        _ => rows::refused(row),
    }
}

/// What the descriptor in this file holds: its bytes, and the list written out.
pub fn read(path: &Path) -> Done<(Vec<u8>, Vec<u8>)> {
    read_from(Image::open(path)?)
}

fn read_from(image: Image) -> Done<(Vec<u8>, Vec<u8>)> {
    let name = image::name(&image.path);
    // as text a byte may take some more
    let bytes = match bytes_of(&image.small(1 << 20)?) {
        Ok(bytes) => bytes,
        Err(e) => return bad(format!("{name}: {e}")),
    };
    match survey::write_descriptor(&bytes) {
        Ok(written) => Ok((bytes, written)),
        Err(row) => bad(format!("{name}: {}", why(row, &bytes))),
    }
}

fn show(path: &Path, bytes: &[u8], all: &[Endpoint]) -> String {
    let charge: u32 = all.iter().map(Endpoint::charge).sum();
    let mut t = format!(
        "{}: {}, {}\n\n  endpoint  address  kind         maximum  interval  byte-times\n",
        image::name(path),
        count(bytes.len() as u64, "byte"),
        count(all.len() as u64, "endpoint")
    );
    for e in all {
        t += &format!(
            "  {:8}     {:#04x}  {:11}  {:7}  {:8}  {:10}\n",
            e.name(),
            e.address,
            e.kind_name(),
            e.maximum,
            e.interval,
            e.charge()
        );
    }
    t + &format!("\nall enabled: {charge} of 6,000 byte-times a microframe\n")
}

pub fn run(mut args: Args, as_json: bool, out: &mut Output) -> Done<bool> {
    let what = args.word("show, preview or write")?;
    match what.as_str() {
        "show" => {
            let path = args.path("FILE")?;
            args.end()?;
            let (bytes, list) = read(&path)?;
            let all = listed(&list);
            let answer = if as_json {
                let one = |e: &Endpoint| Json::Object(e.json());
                let endpoints: Vec<Json> = all.iter().map(one).collect();
                format!("{}\n", Json::Object(vec![("length", bytes.len().into()), ("endpoints", endpoints.into())]))
            } else {
                show(&path, &bytes, &all)
            };
            out.write(answer.as_bytes())?;
            Ok(true)
        }
        "preview" => preview::run(args, as_json, out),
        "write" => {
            let (hex, to) = (args.flag("--hex"), args.file("--out")?);
            if hex && as_json {
                return usage("--hex and --json: one of them");
            }
            let path = args.path("FILE")?;
            args.end()?;
            let image = Image::open(&path)?;
            let identity = image.identity.clone();
            let (_, list) = read_from(image)?;
            let written_out = if as_json {
                format!("{}\n", Json::Object(vec![("bytes", list.clone().into())])).into_bytes()
            } else if hex {
                lines(&list).into_bytes()
            } else {
                list
            };
            match to {
                Some(to) => write_to(Some(&to), &[identity], &written_out)?,
                None => out.write(&written_out)?,
            }
            Ok(true)
        }
        _ => usage(format!("descriptor {what}: show, preview or write")),
    }
}

/// A line for each descriptor.
fn lines(list: &[u8]) -> String {
    let mut t = String::new();
    let mut d = 0;
    while d < list.len() {
        let end = d + list[d] as usize;
        t += &list[d..end].iter().map(|b| format!("{b:02x}")).collect::<Vec<_>>().join(" ");
        t += "\n";
        d = end;
    }
    t
}
