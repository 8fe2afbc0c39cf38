//! The recorder's records: packets on an endpoint of its own that say which survey this is, at which microframe a
//! packet came, how many were turned away, and where the survey ends. Lowest byte first:
//!
//! | byte | |
//! |---|---|
//! | 0 | kind: 0 padding, all zeros or no byte at all, 1 begin of a survey, 2 stamp and losses, 3 end, 4 trace |
//! | 1 | of a stamp, the endpoint that it speaks of; of an end, 1 once the survey is finished |
//! | 2-5 | the survey's number |
//! | kind 2 | 6-7 the microframe index of the next packet on that endpoint, 8-11 its overruns so far |
//! | kind 3 | 6-9 the overruns of all endpoints so far; zeros may follow |
//! | kind 4 | 6.. entries of a trace, 12 bytes each |

use std::collections::BTreeMap;

use crate::Done;

/// The recorder's endpoint, if not said otherwise.
pub const ENDPOINT: u8 = 15;
/// Microframe indexes count modulo this.
pub const INDEXES: u64 = 16_384;
/// Between two records there are at most 64 packets of each of the fourteen other endpoints.
const UNCONFIRMED: usize = 64 * 14;
/// An entry of a trace.
pub const ENTRY: usize = 12;

#[derive(Clone, Copy, PartialEq, Eq, Debug)]
pub enum Kind {
    Begin,
    Stamp {
        endpoint: u8,
        microframe: u16,
        overruns: u32,
    },
    End {
        overruns: u32,
        finished: bool,
    },
    Trace,
    /// Of no survey.
    Padding,
}

#[derive(Clone, Copy, PartialEq, Eq, Debug)]
pub struct Record {
    pub survey: u32,
    pub kind: Kind,
}

impl Record {
    /// What these bytes say, if they are a record.
    pub fn of(bytes: &[u8]) -> Option<Self> {
        if bytes.iter().all(|b| *b == 0) {
            return Some(Self { survey: 0, kind: Kind::Padding });
        }
        let (head, rest) = bytes.split_at_checked(6)?;
        let survey = u32::from_le_bytes([head[2], head[3], head[4], head[5]]);
        let kind = match (head[0], head[1], rest) {
            (1, 0, []) => Kind::Begin,
            (2, endpoint @ 1..=15, [a, b, n @ ..]) => {
                let microframe = u16::from_le_bytes([*a, *b]);
                let overruns = u32::from_le_bytes(n.try_into().ok()?);
                (u64::from(microframe) < INDEXES).then_some(Kind::Stamp { endpoint, microframe, overruns })?
            }
            (3, finished @ 0..=1, [a, b, c, d, zeros @ ..]) if zeros.iter().all(|z| *z == 0) => {
                Kind::End { overruns: u32::from_le_bytes([*a, *b, *c, *d]), finished: finished == 1 }
            }
            (4, 0, entries) if entries.len() % ENTRY == 0 => Kind::Trace,
            _ => return None,
        };
        Some(Self { survey, kind })
    }

    /// The record as bytes; a trace's entries are to be added.
    pub fn bytes(&self) -> Vec<u8> {
        let (kind, endpoint) = match self.kind {
            Kind::Begin => (1, 0),
            Kind::Stamp { endpoint, .. } => (2, endpoint),
            Kind::End { finished, .. } => (3, finished.into()),
            Kind::Trace => (4, 0),
            Kind::Padding => return vec![],
        };
        let mut bytes = vec![kind, endpoint];
        bytes.extend(self.survey.to_le_bytes());
        match self.kind {
            Kind::Stamp { microframe, overruns, .. } => {
                bytes.extend(microframe.to_le_bytes());
                bytes.extend(overruns.to_le_bytes());
            }
            Kind::End { overruns, .. } => bytes.extend(overruns.to_le_bytes()),
            Kind::Begin | Kind::Trace | Kind::Padding => {}
        }
        bytes
    }

    pub fn words(&self) -> String {
        let survey = self.survey;
        match self.kind {
            Kind::Begin => format!("survey {survey} begins"),
            Kind::Stamp { endpoint, microframe, overruns } => {
                format!(
                    "survey {survey}: endpoint {endpoint} at microframe {microframe}, {overruns} turned away so far"
                )
            }
            Kind::End { overruns, finished } => {
                let ends = if finished { "is finished" } else { "ends" };
                format!("survey {survey} {ends}, {overruns} turned away in all")
            }
            Kind::Padding => "padding".into(),
            Kind::Trace => format!("survey {survey}: a trace"),
        }
    }
}

/// What is missing before a packet.
#[derive(Clone, Copy, PartialEq, Eq, Debug, Default)]
pub struct Gap {
    /// Packets that were turned away since the last packet with a known microframe.
    pub turned_away: u32,
    /// Blocks were dropped: what is missing is not known.
    pub damage: bool,
}

/// A packet that is not the recorder's own.
#[derive(Clone, Copy, PartialEq, Eq, Debug)]
pub struct Sampled {
    /// Counted over all endpoints, and over its own.
    pub number: u64,
    pub of_endpoint: u64,
    pub endpoint: u8,
    pub begin: u64,
    /// The microframe index that a record gives.
    pub microframe: Option<u16>,
    /// Microframes since the endpoint's first record, where a record or the packets' step gives them, and the index.
    pub time: Option<u64>,
    pub by_step: Option<u16>,
    pub gap: Gap,
}

/// Packets that were turned away between two packets of an endpoint whose microframes are known.
#[derive(Clone, Copy, PartialEq, Eq, Debug)]
pub struct Loss {
    pub endpoint: u8,
    pub packets: u32,
    pub after: u64,
    /// None: behind the last packet that has a record.
    pub before: Option<u64>,
}

/// A packet whose microframe is known.
#[derive(Clone, Copy)]
struct Known {
    packet: u64,
    /// Since the first one.
    time: u64,
    index: u16,
    overruns: u32,
}

/// One endpoint through a survey.
#[derive(Clone, Default)]
pub struct Track {
    pub packets: u64,
    pub bytes: u64,
    known: Option<Known>,
    /// The first packet that has a record, and its index.
    first: Option<(u64, u16)>,
    /// Overruns that the records count and no step between stamps has shown yet.
    owed: u32,
    /// How many packets came at each distance.
    steps: BTreeMap<u64, u64>,
    /// Blocks were dropped since the packet whose microframe is known.
    damage: bool,
    /// What the next packet is to be told.
    microframe: Option<u16>,
    gap: Gap,
    pub turned_away: u64,
}

impl Track {
    /// The distance at which most packets came.
    pub fn step(&self) -> Option<u64> {
        self.steps.iter().max_by_key(|(_, packets)| **packets).map(|(step, _)| *step)
    }

    /// The next packet's microframe and the overruns so far; where packets are missing, how many.
    fn stamp(&mut self, endpoint: u8, index: u16, overruns: u32) -> Option<Loss> {
        self.microframe = Some(index);
        let Some(before) = self.known else {
            self.known = Some(Known { packet: self.packets, time: 0, index, overruns });
            self.first = Some((self.packets, index));
            return None;
        };
        // a count that falls began anew
        let more = overruns.checked_sub(before.overruns).unwrap_or(overruns);
        self.owed = self.owed.saturating_add(more);
        self.turned_away += u64::from(more);
        let passed = (u64::from(index) + INDEXES - u64::from(before.index)) % INDEXES;
        let packets = self.packets - before.packet;
        let time = before.time + passed;
        self.known = Some(Known { packet: self.packets, time, index, overruns });
        if packets == 0 {
            return None;
        }
        if passed % packets == 0 && !self.damage {
            *self.steps.entry(passed / packets).or_default() += packets;
        }
        let damage = std::mem::take(&mut self.damage);
        let step = self.step().filter(|s| *s != 0)?;
        let missing = ((passed + step / 2) / step).saturating_sub(packets);
        let away = missing.min(self.owed.into()) as u32;
        if away == 0 || damage {
            return None;
        }
        self.owed -= away;
        self.gap.turned_away += away;
        Some(Loss { endpoint, packets: away, after: before.packet, before: Some(before.packet + packets) })
    }

    /// No record speaks of it, and nothing is missing.
    #[inline]
    fn is_bare(&self) -> bool {
        self.known.is_none() && self.microframe.is_none() && self.gap == Gap::default()
    }

    /// The next packet's time by the last record and the step.
    #[inline]
    fn time(&self) -> Option<(u64, u16)> {
        let known = self.known?;
        let passed = match self.packets - known.packet {
            0 => 0,
            n => n * self.step()?,
        };
        Some((known.time + passed, ((u64::from(known.index) + passed) % INDEXES) as u16))
    }

    /// A packet behind the first record came before the step was known: its time by the step.
    fn late(&self, sampled: &mut Sampled) {
        let (None, Some(step), Some((packet, index))) = (sampled.time, self.step(), self.first) else { return };
        let Some(n) = sampled.of_endpoint.checked_sub(packet) else { return };
        sampled.time = Some(n * step);
        sampled.by_step = Some(((u64::from(index) + n * step) % INDEXES) as u16);
    }

    #[inline]
    fn packet(&mut self, number: u64, endpoint: u8, begin: u64, bytes: &[u8], damaged: bool) -> Sampled {
        self.gap.damage = damaged;
        let time = self.time();
        let sampled = Sampled {
            number,
            of_endpoint: self.packets,
            endpoint,
            begin,
            microframe: self.microframe.take(),
            time: time.map(|t| t.0),
            by_step: time.map(|t| t.1),
            gap: std::mem::take(&mut self.gap),
        };
        self.packets += 1;
        self.bytes += bytes.len() as u64;
        sampled
    }
}

/// Who is told of a survey's packets and records, each as soon as it is certain that they are this survey's.
pub trait Listener {
    fn packet(&mut self, packet: &Sampled, bytes: &[u8]) -> Done<()>;
    fn record(&mut self, _record: &Record, _begin: u64, _bytes: &[u8]) -> Done<()> {
        Ok(())
    }
    fn loss(&mut self, _loss: &Loss) {}
}

/// A packet that waits for the next record: a stream that runs on into an older survey shows it there.
enum Held {
    Packet { sampled: Sampled, bytes: usize },
    Loss(Loss),
}

/// How a survey ends.
#[derive(Clone, Copy, PartialEq, Eq, Debug)]
pub enum Seam {
    /// A record of another survey.
    Other(u32),
    /// A record behind packets that have none: a recorder's survey.
    Record(u32),
    /// More packets than the recorder leaves without a record.
    Without,
    /// A packet behind the end record.
    BehindEnd,
}

/// A survey that is gone through.
pub struct Survey<L: Listener> {
    pub listener: L,
    recorder: Option<u8>,
    /// Its number, once a record gives it.
    pub number: Option<u32>,
    /// There are packets without any record: no recorder wrote this.
    pub plain: bool,
    pub ended: Option<u32>,
    pub finished: bool,
    pub seam: Option<Seam>,
    held: Vec<Held>,
    bytes: Vec<u8>,
    tracks: Vec<Track>,
    packets: u64,
    pub records: u64,
    /// Packets that no record confirms, and which are not given.
    pub left_out: u64,
}

impl<L: Listener> Survey<L> {
    /// Whose recorder has this endpoint; 0: there is none.
    pub fn new(listener: L, recorder: u8) -> Self {
        Self {
            listener,
            recorder: (recorder != 0).then_some(recorder),
            number: None,
            plain: recorder == 0,
            ended: None,
            finished: false,
            seam: None,
            held: vec![],
            bytes: vec![],
            tracks: vec![Track::default(); 256],
            packets: 0,
            records: 0,
            left_out: 0,
        }
    }

    /// The endpoints that have packets.
    pub fn endpoints(&self) -> impl Iterator<Item = (u8, &Track)> {
        (0..=255).zip(&self.tracks).filter(|(_, t)| t.packets != 0)
    }

    /// What waits is this survey's.
    fn confirm(&mut self) -> Done<()> {
        let mut from = 0;
        for held in self.held.drain(..) {
            match held {
                Held::Packet { mut sampled, bytes } => {
                    self.tracks[sampled.endpoint as usize].late(&mut sampled);
                    self.listener.packet(&sampled, &self.bytes[from..from + bytes])?;
                    from += bytes;
                }
                Held::Loss(loss) => self.listener.loss(&loss),
            }
        }
        self.bytes.clear();
        Ok(())
    }

    fn hold(&mut self, held: Held, bytes: &[u8]) {
        self.held.push(held);
        self.bytes.extend_from_slice(bytes);
    }

    fn stop(&mut self, seam: Seam) -> Done<bool> {
        self.seam = Some(seam);
        Ok(false)
    }

    fn record(&mut self, record: Record, begin: u64, bytes: &[u8]) -> Done<bool> {
        if self.plain {
            return self.stop(Seam::Record(record.survey));
        }
        match self.number {
            Some(number) if number != record.survey => return self.stop(Seam::Other(record.survey)),
            _ => self.number = Some(record.survey),
        }
        if record.kind == Kind::Begin && self.records != 0 {
            return self.stop(Seam::Other(record.survey));
        }
        self.records += 1;
        let loss = match record.kind {
            Kind::Stamp { endpoint, microframe, overruns } => {
                self.tracks[endpoint as usize].stamp(endpoint, microframe, overruns)
            }
            Kind::End { overruns, finished } => {
                (self.ended, self.finished) = (Some(overruns), finished);
                None
            }
            Kind::Begin | Kind::Trace | Kind::Padding => None,
        };
        self.confirm()?;
        self.listener.record(&record, begin, bytes)?;
        // it stands before the packet, which waits for a record
        self.held.extend(loss.map(Held::Loss));
        Ok(true)
    }

    /// The stream's next packet. `false`: the survey has ended before it.
    #[inline]
    pub fn next(&mut self, endpoint: u8, begin: u64, damaged: bool, bytes: &[u8]) -> Done<bool> {
        if self.ended.is_some() {
            return self.stop(Seam::BehindEnd);
        }
        if damaged {
            self.tracks.iter_mut().for_each(|t| t.damage = true);
        }
        let track = &mut self.tracks[endpoint as usize];
        if self.plain && !damaged && track.is_bare() && Some(endpoint) != self.recorder {
            let (number, of_endpoint) = (self.packets, track.packets);
            track.packets += 1;
            track.bytes += bytes.len() as u64;
            self.packets += 1;
            let (microframe, time, by_step, gap) = (None, None, None, Gap::default());
            let sampled = Sampled { number, of_endpoint, endpoint, begin, microframe, time, by_step, gap };
            self.listener.packet(&sampled, bytes)?;
            return Ok(true);
        }
        if Some(endpoint) == self.recorder {
            match Record::of(bytes) {
                // without a survey zeros are a packet as any other
                Some(Record { kind: Kind::Padding, .. }) if self.number.is_none() => {}
                Some(Record { kind: Kind::Padding, .. }) => return Ok(true),
                Some(record) => return self.record(record, begin, bytes),
                None => {}
            }
        }
        let sampled = self.tracks[endpoint as usize].packet(self.packets, endpoint, begin, bytes, damaged);
        self.packets += 1;
        if !self.plain {
            self.hold(Held::Packet { sampled, bytes: bytes.len() }, bytes);
            if self.held.len() <= UNCONFIRMED {
                return Ok(true);
            }
            if self.number.is_some() {
                return self.stop(Seam::Without);
            }
            self.plain = true;
            self.confirm()?;
            return Ok(true);
        }
        self.listener.packet(&sampled, bytes)?;
        Ok(true)
    }

    /// The stream has no more packet.
    pub fn finish(&mut self) -> Done<()> {
        if self.number.is_none() {
            self.plain = true;
            return self.confirm();
        }
        // what no record of this survey follows is left out
        for held in self.held.drain(..) {
            if let Held::Packet { sampled, bytes } = held {
                let track = &mut self.tracks[sampled.endpoint as usize];
                track.packets -= 1;
                track.bytes -= bytes as u64;
                self.left_out += 1;
            }
        }
        self.bytes.clear();
        // what the counts tell and no stamp shows stands behind the last packets
        let mut all = 0;
        for (endpoint, track) in (0..).zip(&mut self.tracks) {
            let Some(known) = track.known else { continue };
            all = u32::wrapping_add(all, known.overruns);
            if track.owed != 0 {
                let loss = Loss { endpoint, packets: track.owed, after: known.packet, before: None };
                self.listener.loss(&loss);
            }
        }
        if let Some(overruns) = self.ended {
            let more = overruns.wrapping_sub(all);
            let only = self.tracks.iter().filter(|t| t.known.is_some()).count() == 1;
            let one = (0..).zip(&mut self.tracks).find(|(_, t)| only && more != 0 && t.known.is_some());
            if let Some((endpoint, track)) = one {
                track.turned_away += u64::from(more);
                let after = track.packets.saturating_sub(1);
                self.listener.loss(&Loss { endpoint, packets: more, after, before: None });
            }
        }
        Ok(())
    }
}

#[cfg(test)]
mod tests {
    use super::*;

    #[test]
    fn records_are_read_as_they_are_written() {
        for kind in [
            Kind::Begin,
            Kind::Stamp { endpoint: 3, microframe: 16_383, overruns: 70_000 },
            Kind::End { overruns: u32::MAX, finished: true },
            Kind::Trace,
        ] {
            let record = Record { survey: 0x0102_0304, kind };
            assert_eq!(Record::of(&record.bytes()), Some(record));
            let mut longer = record.bytes();
            longer.extend([0; 3]);
            assert_eq!(Record::of(&longer).is_some(), matches!(kind, Kind::End { .. }));
            longer.extend([7; 9]);
            assert_eq!(Record::of(&longer).is_some(), kind == Kind::Trace);
            assert_eq!(Record::of(&record.bytes()[..5]), None);
        }
        // an index has 14 bits, an endpoint four
        assert_eq!(Record::of(&[2, 1, 0, 0, 0, 0, 0, 0x40, 0, 0, 0, 0]), None);
        assert_eq!(Record::of(&[2, 16, 0, 0, 0, 0, 0, 0, 0, 0, 0, 0]), None);
        assert_eq!(Record::of(&[5, 0, 0, 0, 0, 0]), None);
    }

    #[test]
    fn a_step_between_stamps_is_a_loss_where_the_count_has_risen() {
        let mut t = Track::default();
        let mut losses = vec![];
        // 80 packets at a distance of 8; behind packet 53 three are turned away, and counted before packet 40
        for packet in 0..80u64 {
            let time = packet * 8 + if packet > 53 { 24 } else { 0 };
            if packet % 16 == 0 || (40..=56).contains(&packet) {
                let overruns = if packet >= 40 { 5 } else { 2 };
                losses.extend(t.stamp(1, ((16_000 + time) % INDEXES) as u16, overruns));
            }
            let sampled = t.packet(packet, 1, 0, &[], false);
            assert_eq!(sampled.time, (packet > 16 || packet % 16 == 0).then_some(time));
            assert_eq!(sampled.gap.turned_away, if packet == 54 { 3 } else { 0 });
        }
        assert_eq!(losses, [Loss { endpoint: 1, packets: 3, after: 53, before: Some(54) }]);
        assert_eq!((t.step(), t.owed, t.turned_away), (Some(8), 0, 3));
    }
}
