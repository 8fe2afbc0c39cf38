//! The incident as a picture: both exports along the run, then the place where they part.

use usbhs::output::thousands;
use usbhs::svg::{Anchor, Svg, BLUE as PORT, GREY, INK, RULE};

use crate::incident::{flat, flat_topped, samples, Incident};

const WIDTH: f64 = 1000.0;
const LEFT: f64 = 74.0;
const RIGHT: f64 = 22.0;
const FULL: f64 = 32_767.0;

const RUST: &str = "#6b4a33";
const RED: &str = "#d3222a";
const FLAT: &str = "#e08a00";

struct Panel<'a> {
    samples: &'a [i16],
    colour: &'a str,
    /// The samples that are not the packet's own.
    old: std::ops::Range<usize>,
    from: usize,
    to: usize,
    top: f64,
    height: f64,
}

impl Panel<'_> {
    fn x(&self, n: f64) -> f64 {
        LEFT + (n - self.from as f64) * (WIDTH - LEFT - RIGHT) / (self.to - self.from) as f64
    }

    fn y(&self, s: f64) -> f64 {
        self.top + self.height / 2.0 - s / FULL * (self.height / 2.0 - 5.0)
    }

    fn point(&self, n: usize) -> (f64, f64) {
        (self.x(n as f64), self.y(self.samples[n] as f64))
    }

    fn frame(&self, svg: &mut Svg) {
        svg.rect(LEFT, self.top, WIDTH - LEFT - RIGHT, self.height, "#fbfcfd", RULE);
        for (s, label) in [(FULL, "32,767"), (0.0, "0"), (-FULL, "-32,767")] {
            let y = self.y(s);
            svg.line((LEFT, y), (WIDTH - RIGHT, y), RULE, 0.8);
            svg.words(LEFT - 6.0, y + 4.0, 11.0, GREY, Anchor::End, label);
        }
    }

    fn shade(&self, svg: &mut Svg) {
        if !self.old.is_empty() {
            let (a, b) = (self.x(self.old.start as f64 - 0.5), self.x(self.old.end as f64 - 0.5));
            let (a, b) = if b - a < 6.0 { (a - 1.0, b + 1.0) } else { (a, b) };
            svg.shade(a, self.top, b - a, self.height, RED, 0.22);
        }
    }

    fn axis(&self, svg: &mut Svg, step: usize) {
        let y = self.top + self.height;
        for n in (self.from.div_ceil(step) * step..self.to).step_by(step) {
            let x = self.x(n as f64);
            svg.line((x, y), (x, y + 4.0), GREY, 1.0);
            svg.words(x, y + 16.0, 11.0, GREY, Anchor::Middle, &thousands(n as u64));
        }
    }

    /// The whole run: the wave, its flat tops on it.
    fn whole(&self, svg: &mut Svg) {
        self.frame(svg);
        self.shade(svg);
        let end = self.to.min(self.samples.len());
        svg.polyline((self.from..end).map(|n| self.point(n)), self.colour, 0.8);
        let mut n = self.from;
        while n < end {
            let top = (n..end).take_while(|&i| flat(self.samples[i])).count();
            if top != 0 {
                let (a, y) = self.point(n);
                let old = self.old.contains(&n);
                let half = if old { 3.0 } else { 0.0 };
                let ends = ((a - half, y), (self.x((n + top - 1) as f64) + half, y));
                svg.line(ends.0, ends.1, if old { RED } else { FLAT }, 3.4);
            }
            n += top.max(1);
        }
        self.axis(svg, 256);
    }

    /// A part of it: every sample a dot, packets apart.
    fn part(&self, svg: &mut Svg, packets: &[(usize, usize)]) {
        self.frame(svg);
        self.shade(svg);
        let bottom = self.top + self.height;
        for &(k, n) in packets.iter().filter(|p| p.1 >= self.from && p.1 < self.to) {
            let x = self.x(n as f64 - 0.5);
            svg.line((x, self.top), (x, bottom + 4.0), "#b4bec9", 0.8);
            if x < WIDTH - RIGHT - 60.0 {
                svg.words(x + 3.0, bottom + 14.0, 11.0, GREY, Anchor::Start, &format!("packet {k}"));
            }
        }
        let end = self.to.min(self.samples.len());
        svg.polyline((self.from..end).map(|n| self.point(n)), self.colour, 1.0);
        for n in self.from..end {
            let (x, y) = self.point(n);
            let (fill, r) = match (self.old.contains(&n), flat(self.samples[n])) {
                (true, _) => (RED, 2.8),
                (_, true) => (FLAT, 2.6),
                _ => (self.colour, 1.6),
            };
            svg.circle(x, y, r, fill, "none");
        }
    }
}

/// Each packet with the place of its first sample.
fn begins(packets: &[Vec<u8>]) -> Vec<(usize, usize)> {
    let mut n = 0;
    let place = |(k, p): (usize, &Vec<u8>)| {
        let at = n;
        n += p.len() / 2;
        (k, at)
    };
    packets.iter().enumerate().map(place).collect()
}

fn heading(svg: &mut Svg, y: f64, colour: &str, words: &str) {
    svg.bold(LEFT, y, 14.0, colour, words);
}

pub fn svg(run: &Incident) -> String {
    let (sent, rust, port) = (samples(&run.sent), samples(&run.rust.packets), samples(&run.port.packets));
    let mut svg = Svg::new(WIDTH, 700.0);
    let head = format!(
        "{} flat-topped samples were sent. The Rust exports {}, the port {}.",
        flat_topped(&sent),
        flat_topped(&rust),
        flat_topped(&port)
    );
    svg.title(&head);
    svg.bold(16.0, 28.0, 18.0, INK, &head);
    let late = run.differences.iter().find_map(|d| d.packet).unwrap_or(0);
    let first = begins(&run.rust.packets)[late].1 + run.sent[late].len() / 2;
    let old = first..first + rust.len().saturating_sub(sent.len());
    let why = format!(
        "The same host traffic through both. Packet {late} is short, and its length does not come with the interrupt: \
         behind its {} samples the Rust shows {} old ones.",
        run.sent[late].len() / 2,
        old.len()
    );
    svg.words(16.0, 48.0, 12.0, GREY, Anchor::Start, &why);

    let panel = |samples, colour, old, from, to, top, height| Panel { samples, colour, old, from, to, top, height };
    let whole = rust.len() + 16;
    let text = |n: usize, flat: usize| format!("{} samples, {flat} flat-topped", thousands(n as u64));
    heading(&mut svg, 80.0, RUST, &format!("The Rust's export: {}", text(rust.len(), flat_topped(&rust))));
    let above = panel(&rust, RUST, old.clone(), 0, whole, 90.0, 112.0);
    above.whole(&mut svg);
    heading(&mut svg, 246.0, PORT, &format!("The port's export: {}", text(port.len(), flat_topped(&port))));
    panel(&port, PORT, 0..0, 0, whole, 256.0, 112.0).whole(&mut svg);
    svg.words(WIDTH - RIGHT, 246.0, 11.0, GREY, Anchor::End, "across: sample number; up: its value");
    svg.words(WIDTH - RIGHT, 80.0, 11.0, GREY, Anchor::End, "orange: flat-topped; red: old samples");

    // from the packet that had the slot before to the copy
    if let Some(before) = run.before(late) {
        let from = begins(&run.rust.packets)[before].1 + (run.sent[late].len() + old.len()) / 2;
        let (a, b) = (above.x(from as f64), above.x((old.start + old.len() / 2) as f64));
        let (top, low) = (above.top + 10.0, above.top + above.height - 22.0);
        let d = format!("M{a:.1} {top:.1}C{a:.1} {low:.1} {b:.1} {low:.1} {b:.1} {top:.1}m-4 8l4-8l4 8");
        svg.path(&d, "none", RED, 1.4);
        let words = format!("left by packet {before}");
        svg.words((a + b) / 2.0, low + 4.0, 11.0, RED, Anchor::Middle, &words);
    }

    let (from, to) = (old.start.saturating_sub(70), old.start + 150);
    let place = format!("{} to {}", thousands(from as u64), thousands(to as u64 - 1));
    heading(&mut svg, 414.0, RUST, &format!("The Rust, samples {place}"));
    let above = panel(&rust, RUST, old.clone(), from, to, 424.0, 100.0);
    above.part(&mut svg, &begins(&run.rust.packets));
    let words = format!("{} old samples: what follows is told {} samples late", old.len(), old.len());
    svg.words(above.x(old.end as f64) + 4.0, above.y(-24_000.0), 12.0, RED, Anchor::Start, &words);
    heading(&mut svg, 572.0, PORT, "The port, the same samples");
    panel(&port, PORT, 0..0, from, to, 582.0, 92.0).part(&mut svg, &begins(&run.port.packets));
    svg.finish()
}
