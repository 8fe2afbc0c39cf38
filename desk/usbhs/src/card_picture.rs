//! `usbhs card picture IMAGE --svg FILE`: a survey of one endpoint, time across and samples up. Above, the packets one
//! behind the other, as they stand on the card; below, each at its microframe, so that what was turned away leaves its
//! gap.

use crate::args::{usage, Args};
use crate::output::{count, thousands};
use crate::recorder::{Listener, Loss, Sampled};
use crate::svg::{Anchor, Svg, AMBER, BLUE, GREY, INK, RED, RULE};
use crate::{bad, Done};

/// A microframe's seconds.
const MICROFRAME: f64 = 125e-6;
/// More parts are not kept: two become one.
const MOST: usize = 1 << 15;
const LEFT: f64 = 64.0;
const WIDE: f64 = 1_000.0;
const RIGHT: f64 = 24.0;
const LANE: f64 = 170.0;
const TOP: f64 = 100.0;
const BETWEEN: f64 = 64.0;

/// Packets in a row: when they came, and the least and the greatest of their samples.
#[derive(Clone, Copy)]
struct Part {
    packet: f64,
    time: f64,
    /// Of its first and last sample.
    ends: (i16, i16),
    least: i16,
    greatest: i16,
    /// Something is missing before it: packets that were turned away, or blocks that were dropped.
    turned_away: u32,
    damage: bool,
}

pub struct Collected {
    only: Option<u8>,
    endpoint: Option<u8>,
    others: bool,
    parts: Vec<Part>,
    /// Packets that a part has, and those of the last part.
    each: usize,
    last: usize,
    packets: u64,
    /// The last packet's time, and the distance from packet to packet.
    time: Option<u64>,
    step: Option<u64>,
    pub losses: Vec<Loss>,
    turned_away: u64,
}

impl Collected {
    pub fn new(only: Option<u8>) -> Self {
        Self {
            only,
            endpoint: None,
            others: false,
            parts: vec![],
            each: 1,
            last: 0,
            packets: 0,
            time: None,
            step: None,
            losses: vec![],
            turned_away: 0,
        }
    }

    /// Two parts become one, but none across a gap.
    fn halve(&mut self) {
        let mut all: Vec<Part> = vec![];
        let mut alone = false;
        for part in &self.parts {
            match all.last_mut() {
                Some(last) if alone && part.turned_away == 0 && !part.damage => {
                    last.least = last.least.min(part.least);
                    last.greatest = last.greatest.max(part.greatest);
                    last.ends.1 = part.ends.1;
                    alone = false;
                }
                _ => {
                    all.push(*part);
                    alone = true;
                }
            }
        }
        self.parts = all;
        self.each *= 2;
    }
}

impl Listener for Collected {
    fn packet(&mut self, p: &Sampled, bytes: &[u8]) -> Done<()> {
        if self.only.or(self.endpoint).is_some_and(|e| e != p.endpoint) {
            self.others |= self.only.is_none();
            return Ok(());
        }
        self.endpoint = Some(p.endpoint);
        // without a record, packet by packet
        let time = p.time.unwrap_or(self.time.map_or(0, |t| t + self.step.unwrap_or(1)));
        if let Some(before) = self.time.filter(|b| time > *b && p.gap.turned_away == 0 && !p.gap.damage) {
            self.step = Some(time - before);
        }
        self.time = Some(time);
        self.packets += 1;
        self.turned_away += u64::from(p.gap.turned_away);
        let samples = bytes.chunks_exact(2).map(|s| i16::from_le_bytes([s[0], s[1]]));
        let (Some(first), Some(last)) = (samples.clone().next(), samples.clone().next_back()) else { return Ok(()) };
        let (least, greatest) = samples.fold((i16::MAX, i16::MIN), |(a, b), s| (a.min(s), b.max(s)));
        let gap = p.gap.turned_away != 0 || p.gap.damage;
        match self.parts.last_mut() {
            Some(part) if self.last < self.each && !gap => {
                part.least = part.least.min(least);
                part.greatest = part.greatest.max(greatest);
                part.ends.1 = last;
                self.last += 1;
            }
            _ => {
                let (turned_away, damage) = (p.gap.turned_away, p.gap.damage);
                let packet = p.of_endpoint as f64;
                self.parts.push(Part {
                    packet,
                    time: time as f64,
                    ends: (first, last),
                    least,
                    greatest,
                    turned_away,
                    damage,
                });
                self.last = 1;
            }
        }
        if self.parts.len() >= MOST {
            self.halve();
        }
        Ok(())
    }

    fn loss(&mut self, loss: &Loss) {
        if self.losses.len() < 100 {
            self.losses.push(*loss);
        }
    }
}

/// How it is to be drawn.
pub struct Drawing {
    title: Option<String>,
    /// Metres that are passed in a second.
    speed: Option<f64>,
    /// Lines so far apart, in the axis's unit.
    every: Option<f64>,
}

struct Lane<'a> {
    name: &'a str,
    words: String,
    top: f64,
    /// Of a part, and of what follows the last one.
    at: Box<dyn Fn(&Part) -> f64 + 'a>,
    end: f64,
    gaps: bool,
}

fn round_step(range: f64) -> f64 {
    let rough = (range / 10.0).max(1e-9);
    let power = 10f64.powf(rough.log10().floor());
    [1.0, 2.0, 5.0, 10.0].into_iter().map(|n| n * power).find(|n| *n >= rough).unwrap_or(10.0 * power)
}

fn number(n: f64, step: f64) -> String {
    let decimals = (-step.log10().floor()).max(0.0) as usize;
    if decimals == 0 {
        thousands(n.round() as u64)
    } else {
        format!("{n:.decimals$}")
    }
}

impl Drawing {
    pub fn asked(args: &mut Args) -> Done<Self> {
        let (speed, every) = (args.fraction("--speed")?, args.fraction("--every")?);
        if every.is_some_and(|e| e < 1e-3) {
            return usage("--every: less than 0.001 is too near");
        }
        Ok(Self { title: args.value("--title")?, speed, every })
    }

    fn unit(&self) -> (f64, &'static str) {
        match self.speed {
            Some(speed) => (MICROFRAME * speed, "metres"),
            None => (MICROFRAME, "seconds"),
        }
    }

    pub fn svg(&self, all: &Collected, name: &str) -> Done<String> {
        let (Some(endpoint), Some(last)) = (all.endpoint, all.parts.last()) else {
            return bad(format!("{name}: no samples to draw"));
        };
        let step = all.step.unwrap_or(1) as f64;
        let (unit, unit_name) = self.unit();
        let (by_packet, by_time) =
            ((last.packet + all.each as f64) * step * unit, (last.time + all.each as f64 * step) * unit);
        let end = by_packet.max(by_time).max(1e-9);
        let (low, high) = all.parts.iter().fold((0, 0), |(a, b), p| (a.min(p.least), b.max(p.greatest)));
        let height = TOP + 2.0 * LANE + BETWEEN + 74.0 + 17.0 * all.losses.len().min(8) as f64;
        let mut svg = Svg::new(LEFT + WIDE + RIGHT, height);
        let title = self.title.clone().unwrap_or_else(|| format!("{name}, endpoint {endpoint}"));
        svg.title(&title);
        svg.bold(16.0, 30.0, 18.0, INK, &title);
        let lost = match all.turned_away {
            0 => "none was turned away".into(),
            n => format!("{} turned away", thousands(n)),
        };
        let others = if all.others { "; other endpoints are not drawn, --endpoint names one" } else { "" };
        let words = format!("{}, {lost}{others}", count(all.packets, "packet"));
        svg.words(16.0, 50.0, 12.0, GREY, Anchor::Start, &words);
        let lanes = [
            Lane {
                name: "one behind the other",
                words: "the packets alone: what follows a gap sits early".into(),
                top: TOP,
                at: Box::new(move |p| p.packet * step * unit),
                end: by_packet,
                gaps: false,
            },
            Lane {
                name: "by the records' microframes",
                words: "the gap is where packets were turned away".into(),
                top: TOP + LANE + BETWEEN,
                at: Box::new(move |p| p.time * unit),
                end: by_time,
                gaps: true,
            },
        ];
        let x = |t: f64| LEFT + t / end * WIDE;
        for lane in &lanes {
            self.lane(&mut svg, lane, &all.parts, (low, high), end, &x);
        }
        let bottom = TOP + 2.0 * LANE + BETWEEN;
        let marks = round_step(end);
        for n in 0..=(end / marks) as usize {
            let t = n as f64 * marks;
            for bottom in [bottom, TOP + LANE] {
                svg.line((x(t), bottom), (x(t), bottom + 5.0), GREY, 1.0);
                svg.words(x(t), bottom + 18.0, 11.0, GREY, Anchor::Middle, &number(t, marks));
            }
        }
        svg.words(LEFT + WIDE, bottom + 34.0, 11.0, GREY, Anchor::End, unit_name);
        for (i, loss) in all.losses.iter().take(8).enumerate() {
            let where_ = match loss.before {
                Some(before) => format!("between packets {} and {}", thousands(loss.after), thousands(before)),
                None => "where no stamp shows".into(),
            };
            let words = format!("{} turned away {where_}", count(loss.packets.into(), "packet"));
            svg.words(LEFT, bottom + 56.0 + 17.0 * i as f64, 12.0, RED, Anchor::Start, &words);
        }
        Ok(svg.finish())
    }

    fn lane(
        &self,
        svg: &mut Svg,
        lane: &Lane,
        parts: &[Part],
        (low, high): (i16, i16),
        end: f64,
        x: &dyn Fn(f64) -> f64,
    ) {
        let (top, bottom) = (lane.top, lane.top + LANE);
        let range = (f64::from(high) - f64::from(low)).max(1.0);
        let y = |s: i16| bottom - 10.0 - (f64::from(s) - f64::from(low)) / range * (LANE - 20.0);
        svg.bold(LEFT, top - 20.0, 13.0, INK, lane.name);
        svg.words(LEFT, top - 6.0, 11.0, GREY, Anchor::Start, &lane.words);
        svg.rect(LEFT, top, WIDE, LANE, "#fbfcfd", RULE);
        for s in [low, high] {
            svg.words(LEFT - 6.0, y(s) + 4.0, 11.0, GREY, Anchor::End, &s.to_string());
        }
        if let Some(every) = self.every.filter(|e| end / e < 500.0) {
            for n in 1..=(end / every) as usize {
                let at = x(n as f64 * every);
                svg.dashes((at, top), (at, bottom), AMBER);
            }
        }
        // where the times leave one out, nothing is drawn
        let mut from = 0;
        for to in 1..=parts.len() {
            if to != parts.len() && parts[to].turned_away == 0 && !parts[to].damage {
                continue;
            }
            let run = &parts[from..to];
            let next = parts.get(to).map_or(lane.end, |p| (lane.at)(p));
            let width = if run.len() > 1 {
                ((lane.at)(&run[run.len() - 1]) - (lane.at)(&run[0])) / (run.len() - 1) as f64
            } else {
                0.0
            };
            let after = ((lane.at)(&run[run.len() - 1]) + width).min(next);
            let points = run.iter().flat_map(|p| {
                let t = x((lane.at)(p));
                // up and down through the part's samples
                [(t, y(p.ends.0)), (t, y(p.least)), (t, y(p.greatest)), (t, y(p.ends.1))]
            });
            svg.polyline(points, BLUE, 1.2);
            if let (true, Some(gap)) = (lane.gaps, parts.get(to)) {
                let wide = (x(next) - x(after)).max(2.0);
                svg.shade(x(after), top, wide, LANE, if gap.turned_away != 0 { RED } else { GREY }, 0.22);
                let words = match gap.turned_away {
                    0 => "blocks dropped".into(),
                    n => format!("{} turned away", thousands(n.into())),
                };
                svg.words(x(after) + wide / 2.0, top + 16.0, 11.0, RED, Anchor::Middle, &words);
            } else if parts.get(to).is_some() {
                svg.line((x(next), top), (x(next), bottom), RED, 1.2);
            }
            from = to;
        }
    }
}
