//! The timeline as a picture: microframes across, endpoints down; what is notable is numbered and told below.

use super::events::{Event, Lane, Place, Timeline, What};
use crate::output::count;
use crate::svg::{Anchor, Svg, AMBER, BLUE, GREEN, GREY, INK, PALE, RED, RULE};

const LEFT: f64 = 196.0;
const RIGHT: f64 = 24.0;
const TOP: f64 = 96.0;
const ISOCHRONOUS: f64 = 92.0;
const OTHER: f64 = 40.0;
const GAP: f64 = 12.0;
/// So many notable events are told below the picture.
const TOLD: usize = 16;
/// What a ring of sixteen slots holds.
const FULL: f64 = 15.0;

struct Drawing<'a> {
    t: &'a Timeline,
    svg: Svg,
    step: f64,
    /// The notable events by place and microframe, in their order: each has a number.
    notes: Vec<(Place, usize, Vec<&'a Event>)>,
}

fn height(lane: &Lane) -> f64 {
    if lane.isochronous {
        ISOCHRONOUS
    } else {
        OTHER
    }
}

/// What is told: all that is notable once the first frame reading has come; before it only refusals and differences.
fn told(e: &Event) -> bool {
    e.what.notable() && (e.column != 0 || matches!(e.what, What::Refused | What::Differs))
}

fn colour(what: What) -> &'static str {
    match what {
        What::Overrun | What::Differs | What::Refused => RED,
        What::Reset => AMBER,
        _ => GREY,
    }
}

impl Drawing<'_> {
    fn x(&self, column: usize) -> f64 {
        LEFT + column as f64 * self.step
    }

    fn axis(&mut self, bottom: f64) {
        let every = [1, 2, 5, 10, 20, 50, 100, 200, 500, 1000, 5000, 20000]
            .into_iter()
            .find(|n| *n as f64 * self.step >= 56.0)
            .unwrap_or(50000);
        for (c, m) in self.t.columns.iter().enumerate() {
            let (x, Some(m)) = (self.x(c) + self.step / 2.0, m) else { continue };
            // where the index does not go on by one the scale is broken
            let jumps = c > 1 && self.t.columns[c - 1].is_some_and(|b| (b + 1) % 16_384 != *m);
            if jumps && self.step >= 3.0 {
                let x = self.x(c);
                self.svg.dashes((x, TOP - 6.0), (x, bottom), RULE);
            }
            if (c - 1) % every == 0 {
                self.svg.line((x, TOP - 8.0), (x, bottom), RULE, 0.6);
                self.svg.words(x, TOP - 13.0, 12.0, GREY, Anchor::Middle, &m.to_string());
            }
        }
        self.svg.words(LEFT - 12.0, TOP - 13.0, 12.0, GREY, Anchor::End, "microframe");
    }

    fn area(&mut self, lane: &Lane, top: f64, height: f64) {
        let most = lane.levels.iter().copied().max().unwrap_or(0).max(1) as f64;
        let most = if matches!(lane.place, Place::Out(_)) { most.clamp(4.0, FULL) } else { most.max(2.0) };
        let bottom = top + height - 16.0;
        let scale = (height - 34.0) / most;
        let mut d = format!("M{:.1} {bottom:.1}", self.x(0));
        for (c, n) in lane.levels.iter().enumerate() {
            let y = bottom - *n as f64 * scale;
            d += &format!("L{:.1} {y:.1}L{:.1} {y:.1}", self.x(c), self.x(c + 1));
        }
        d += &format!("L{:.1} {bottom:.1}Z", self.x(lane.levels.len()));
        self.svg.path(&d, PALE, "none", 0.0);
        for n in [0.0, most] {
            let y = bottom - n * scale;
            self.svg.words(LEFT - 6.0, y + 4.0, 11.0, GREY, Anchor::End, &format!("{n}"));
            self.svg.line((LEFT, y), (self.x(lane.levels.len()), y), RULE, 0.8);
        }
    }

    fn lane(&mut self, lane: &Lane, top: f64) {
        let height = height(lane);
        let right = self.x(self.t.columns.len());
        self.svg.rect(LEFT, top, right - LEFT, height, "#fbfcfd", RULE);
        self.svg.bold(16.0, top + 18.0, 14.0, INK, &lane.place.name());
        self.svg.words(16.0, top + 34.0, 11.0, GREY, Anchor::Start, &lane.words);
        if lane.isochronous {
            let holds = if matches!(lane.place, Place::Out(_)) { "packets held" } else { "packets queued" };
            self.svg.words(16.0, top + 49.0, 11.0, GREY, Anchor::Start, holds);
            self.area(lane, top, height);
        }
        let middle = top + height / 2.0;
        let wide = (self.step * 0.34).clamp(0.6, 4.0);
        for e in self.t.events.iter().filter(|e| e.place == lane.place) {
            let x = self.x(e.column) + self.step / 2.0;
            match e.what {
                What::Arrival | What::Queued => {
                    self.svg.line((x, top + 5.0), (x, top + 13.0), BLUE, wide);
                }
                What::Overrun => {
                    self.svg.line((x, top + 3.0), (x, top + 15.0), RED, wide.max(1.6));
                }
                What::Opened | What::Sent if lane.isochronous => {
                    self.svg.line((x, top + height - 12.0), (x, top + height - 4.0), GREEN, wide);
                }
                What::Opened | What::Sent => self.svg.circle(x, middle, wide.max(2.0), GREEN, "none"),
                What::Transfer => self.svg.circle(x, middle, wide.max(2.0), BLUE, "none"),
                _ => {}
            }
        }
    }

    /// The numbers at the notable events; those too near to the one before are left to the list.
    fn numbers(&mut self, tops: &[f64]) {
        let notes = std::mem::take(&mut self.notes);
        let mut last: Vec<f64> = vec![f64::MIN; self.t.lanes.len()];
        for (i, (place, column, events)) in notes.iter().enumerate().take(TOLD) {
            let Some(lane) = self.t.lanes.iter().position(|l| l.place == *place) else { continue };
            let x = self.x(*column) + self.step / 2.0;
            let y = tops[lane] + height(&self.t.lanes[lane]) / 2.0;
            if x - last[lane] < 19.0 {
                continue;
            }
            last[lane] = x;
            self.svg.circle(x, y, 9.0, "#ffffff", colour(gravest(events)));
            self.svg.words(x, y + 4.0, 11.0, colour(gravest(events)), Anchor::Middle, &(i + 1).to_string());
        }
        self.notes = notes;
    }

    fn list(&mut self, top: f64) {
        let notes = std::mem::take(&mut self.notes);
        for (i, (place, column, events)) in notes.iter().enumerate().take(TOLD) {
            let y = top + i as f64 * 19.0;
            let at = self.t.columns[*column].map_or("before".into(), |m| m.to_string());
            let mut words = vec![];
            for e in events {
                if words.last() != Some(&e.words.as_str()) {
                    words.push(&e.words);
                }
            }
            let mut words = words.join("; ");
            if let Some((cut, _)) = words.char_indices().nth(118) {
                words.truncate(cut);
                words += "...";
            }
            let fill = colour(gravest(events));
            self.svg.words(36.0, y, 12.0, fill, Anchor::End, &(i + 1).to_string());
            self.svg.words(48.0, y, 12.0, GREY, Anchor::Start, &at);
            self.svg.words(108.0, y, 12.0, INK, Anchor::Start, &place.name());
            self.svg.words(LEFT - 20.0, y, 12.0, fill, Anchor::Start, &words);
        }
        if notes.len() > TOLD {
            let y = top + TOLD as f64 * 19.0;
            let more = format!("and {} more", notes.len() - TOLD);
            self.svg.words(LEFT - 20.0, y, 12.0, GREY, Anchor::Start, &more);
        }
    }
}

fn gravest(events: &[&Event]) -> What {
    let all = [What::Differs, What::Overrun, What::Refused, What::Reset];
    all.into_iter().find(|w| events.iter().any(|e| e.what == *w)).unwrap_or(What::Change)
}

fn legend(svg: &mut Svg, x: f64, y: f64) {
    let mut at = x;
    for (fill, words, wide) in [(BLUE, "arrives, or is queued", 158.0), (RED, "turned away", 104.0)] {
        svg.line((at, y - 9.0), (at, y), fill, 3.0);
        svg.words(at + 8.0, y, 12.0, GREY, Anchor::Start, words);
        at += wide;
    }
    svg.line((at, y - 9.0), (at, y), GREEN, 3.0);
    svg.words(at + 8.0, y, 12.0, GREY, Anchor::Start, "opened, or sent");
    at += 124.0;
    svg.rect(at, y - 9.0, 12.0, 9.0, PALE, "none");
    svg.words(at + 18.0, y, 12.0, GREY, Anchor::Start, "held");
    at += 60.0;
    svg.circle(at + 4.0, y - 4.0, 3.0, BLUE, "none");
    svg.words(at + 14.0, y, 12.0, GREY, Anchor::Start, "a transfer that is not isochronous");
}

pub fn svg(t: &Timeline, title: &str) -> String {
    let columns = t.columns.len().max(1);
    let step = (960.0 / columns as f64).clamp(2.0, 48.0);
    let width = (LEFT + columns as f64 * step + RIGHT).max(1_000.0);
    let mut notes: Vec<(Place, usize, Vec<&Event>)> = vec![];
    for e in t.events.iter().filter(|e| told(e)) {
        match notes.iter_mut().find(|n| n.0 == e.place && n.1 == e.column) {
            Some(n) => n.2.push(e),
            None => notes.push((e.place, e.column, vec![e])),
        }
    }
    let mut tops = vec![];
    let mut y = TOP;
    for lane in &t.lanes {
        tops.push(y);
        y += height(lane) + GAP;
    }
    let rows = notes.len().min(TOLD) + usize::from(notes.len() > TOLD);
    let total = y + 18.0 + rows as f64 * 19.0 + if rows == 0 { 0.0 } else { 10.0 };
    let mut d = Drawing { t, svg: Svg::new(width, total), step, notes };
    let microframes = t.columns.iter().filter(|c| c.is_some()).count() as u64;
    let head = format!("{title}: {}, {}", count(t.calls as u64, "call"), count(microframes, "microframe"));
    d.svg.title(&head);
    d.svg.bold(16.0, 30.0, 18.0, INK, &head);
    legend(&mut d.svg, 18.0, 54.0);
    d.axis(y - GAP);
    for (lane, top) in t.lanes.iter().zip(&tops) {
        d.lane(lane, *top);
    }
    d.numbers(&tops);
    d.list(y + 18.0);
    d.svg.finish()
}
