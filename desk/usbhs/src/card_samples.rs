//! Samples as lines of digits, fast: a line is put together of its front, which a packet's lines share, the sample's
//! place and its value, each as characters that stand ready in a number, the first one lowest, with how many they are
//! in its highest byte. What is stored in pieces and loaded as a whole would make the processor wait.

use crate::recorder::Gap;

/// Up to seven characters, and how many.
type Few = u64;

fn few(text: &str) -> Few {
    let mut all = [0; 8];
    all[..text.len()].copy_from_slice(text.as_bytes());
    all[7] = text.len() as u8;
    Few::from_le_bytes(all)
}

/// Up to sixteen characters.
#[derive(Clone, Copy)]
struct Some16 {
    bytes: u128,
    length: usize,
}

impl Some16 {
    /// `None`: there are more.
    fn of(text: &str) -> Option<Self> {
        let mut bytes = [0; 16];
        bytes.get_mut(..text.len())?.copy_from_slice(text.as_bytes());
        Some(Self { bytes: u128::from_le_bytes(bytes), length: text.len() })
    }
}

/// Places that stand ready: those of 1,024 bytes, the longest packet that a card's writer takes.
const PLACES: usize = 512;
/// Room for a short line: a front of 16 characters, a place of 4, a value of 8.
const SHORT: usize = 32;
/// Room for any line: 20 digits of a packet's number, 3 and 5 and 11 of what follows, four commas; a place, a value.
const LINE: usize = 96;

/// A packet's number. The packet that follows mostly has the next one: one digit changes, or few.
struct Counted {
    number: u64,
    /// `None`: more than 16.
    digits: Option<Some16>,
}

impl Counted {
    fn set(&mut self, number: u64) {
        let next = self.number.checked_add(1) == Some(number);
        if !(next && self.digits.as_mut().is_some_and(one_more)) {
            self.digits = Some16::of(&number.to_string());
        }
        self.number = number;
    }
}

/// `false` where all were nines: there is one digit more.
fn one_more(digits: &mut Some16) -> bool {
    for at in (0..digits.length).rev() {
        if (digits.bytes >> (8 * at)) as u8 != b'9' {
            digits.bytes += 1 << (8 * at);
            return true;
        }
        digits.bytes -= 9 << (8 * at);
    }
    false
}

/// Endpoint, microframe and a gap that is none: the same for many packets of an endpoint.
struct Between {
    of: Option<u16>,
    words: Some16,
}

impl Between {
    fn new(endpoint: u8, microframe: Option<u16>) -> Self {
        let text = format!(",{endpoint},{},,", microframe.map(|m| m.to_string()).unwrap_or_default());
        Self { of: microframe, words: Some16::of(&text).expect("at most 12") }
    }
}

pub struct Samples {
    /// By the two bytes of a sample: its value, and the line's end.
    values: Vec<Few>,
    /// A sample's place in its packet, and a comma.
    places: Vec<Few>,
    number: Counted,
    /// By the endpoint.
    between: Vec<Between>,
    /// The lines so far, and how many bytes they take.
    room: Vec<u8>,
    used: usize,
}

impl Default for Samples {
    fn default() -> Self {
        Self::new()
    }
}

impl Samples {
    pub fn new() -> Self {
        Self {
            values: (0..=u16::MAX).map(|v| few(&format!("{}\n", v as i16))).collect(),
            places: (0..PLACES).map(|i| few(&format!("{i},"))).collect(),
            number: Counted { number: 0, digits: None },
            between: (0..=255).map(|endpoint| Between::new(endpoint, None)).collect(),
            room: vec![0; 1 << 18],
            used: 0,
        }
    }

    /// The lines since they were last forgotten.
    pub fn lines(&self) -> &[u8] {
        &self.room[..self.used]
    }

    pub fn forget(&mut self) {
        self.used = 0;
    }

    /// A packet's samples; its gap stands at the first.
    #[inline]
    pub fn packet(&mut self, n: u64, endpoint: u8, microframe: Option<u16>, gap: Gap, bytes: &[u8]) {
        let most = self.used + bytes.len() / 2 * LINE + LINE;
        if most > self.room.len() {
            self.room.resize(most, 0);
        }
        self.number.set(n);
        let between = &mut self.between[usize::from(endpoint)];
        if between.of != microframe {
            *between = Between::new(endpoint, microframe);
        }
        let (between, plain) = (between.words, gap == Gap::default() && bytes.len() <= 2 * PLACES);
        match self.number.digits {
            Some(digits) if plain && digits.length + between.length <= 16 => {
                let bytes_of_front = digits.bytes | between.bytes << (8 * digits.length);
                self.short(bytes_of_front, digits.length + between.length, bytes);
            }
            _ => self.any(n, endpoint, microframe, gap, bytes),
        }
    }

    /// Lines with a front of at most 16 characters and places that stand ready.
    fn short(&mut self, front: u128, length: usize, bytes: &[u8]) {
        let mut to = self.used;
        for (s, place) in bytes.chunks_exact(2).zip(&self.places) {
            let line: &mut [u8; SHORT] = (&mut self.room[to..to + SHORT]).try_into().expect("so many bytes");
            let value = self.values[usize::from(u16::from_le_bytes([s[0], s[1]]))];
            let end = length + (place >> 56) as usize;
            line[..16].copy_from_slice(&front.to_le_bytes());
            line[length..length + 8].copy_from_slice(&place.to_le_bytes());
            line[end..end + 8].copy_from_slice(&value.to_le_bytes());
            to += end + (value >> 56) as usize;
        }
        self.used = to;
    }

    /// Any others.
    #[cold]
    fn any(&mut self, n: u64, endpoint: u8, microframe: Option<u16>, gap: Gap, bytes: &[u8]) {
        use std::io::Write;
        let microframe = microframe.map(|m| m.to_string()).unwrap_or_default();
        for (i, s) in bytes.chunks_exact(2).enumerate() {
            let gap = if i == 0 { crate::card::gap_words(gap) } else { String::new() };
            let value = i16::from_le_bytes([s[0], s[1]]);
            let mut room = &mut self.room[self.used..];
            let before = room.len();
            let written = writeln!(room, "{n},{endpoint},{microframe},{gap},{i},{value}");
            written.expect("there is room for the line");
            self.used += before - room.len();
        }
    }
}

#[cfg(test)]
mod tests {
    use super::*;

    #[test]
    fn as_it_would_be_written() {
        let mut all = Samples::new();
        let bytes: Vec<u8> = (0..u16::MAX).flat_map(|n| n.wrapping_mul(40_503).to_le_bytes()).chain([7]).collect();
        for (n, bytes) in [(0, &bytes[..0]), (7, &bytes[..9]), (u64::MAX, &bytes[..]), (1 << 40, &bytes[..2_000])] {
            let gap = Gap { turned_away: u32::MAX, damage: true };
            all.forget();
            all.packet(3, 255, None, Gap::default(), &[1, 0, 9]);
            all.packet(n, 255, Some(65_535), gap, bytes);
            let lines = bytes.chunks_exact(2).enumerate().map(|(i, s)| {
                let gap = if i == 0 { "4294967295?" } else { "" };
                format!("{n},255,65535,{gap},{i},{}\n", i16::from_le_bytes([s[0], s[1]]))
            });
            assert!(all.lines() == format!("3,255,,,0,1\n{}", lines.collect::<String>()).into_bytes());
        }
    }
    /// Numbers that follow each other, and those that do not, over every number of digits.
    #[test]
    fn numbers() {
        let (mut all, mut expected) = (Samples::new(), String::new());
        let near = |n: u64| (0..4u64).map(move |i| n.wrapping_sub(2).wrapping_add(i));
        for n in (0..20).flat_map(|p| near(10u64.pow(p))).chain(near(u64::MAX)).chain(995..1_005).chain([0, 5, 6, 6]) {
            all.packet(n, 2, (n % 3 == 0).then_some(4), Gap::default(), &[9, 0]);
            let microframe = if n % 3 == 0 { "4" } else { "" };
            expected += &format!("{n},2,{microframe},,0,9\n");
        }
        assert_eq!(String::from_utf8_lossy(all.lines()), expected);
    }
}
