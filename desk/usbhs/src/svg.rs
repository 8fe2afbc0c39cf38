//! A picture as SVG: lines, areas, words. Coordinates are pixels, one decimal.

use std::fmt::Write;

/// Colours.
pub const INK: &str = "#1d2733";
pub const GREY: &str = "#6b7785";
pub const RULE: &str = "#d5dbe2";
pub const BLUE: &str = "#1f5fa8";
pub const PALE: &str = "#bcd6f2";
pub const GREEN: &str = "#2a8a4a";
pub const RED: &str = "#c8202a";
pub const AMBER: &str = "#c77700";

pub struct Svg {
    width: f64,
    height: f64,
    title: String,
    body: String,
}

/// Where words stand to their place.
#[derive(Clone, Copy)]
pub enum Anchor {
    Start,
    Middle,
    End,
}

fn escaped(text: &str) -> String {
    text.replace('&', "&amp;").replace('<', "&lt;").replace('>', "&gt;")
}

impl Svg {
    pub fn new(width: f64, height: f64) -> Self {
        Self { width, height, title: String::new(), body: String::new() }
    }

    /// What it shows, for those who do not see it.
    pub fn title(&mut self, words: &str) {
        self.title = words.into();
    }

    fn add(&mut self, element: String) {
        self.body += &element;
        self.body.push('\n');
    }

    pub fn rect(&mut self, x: f64, y: f64, width: f64, height: f64, fill: &str, stroke: &str) {
        self.add(format!(
            r#"<rect x="{x:.1}" y="{y:.1}" width="{width:.1}" height="{height:.1}" fill="{fill}" stroke="{stroke}"/>"#
        ));
    }

    /// A rectangle through which what is behind it can be seen.
    pub fn shade(&mut self, x: f64, y: f64, width: f64, height: f64, fill: &str, opacity: f64) {
        self.add(format!(
            r#"<rect x="{x:.1}" y="{y:.1}" width="{width:.1}" height="{height:.1}" fill="{fill}" opacity="{opacity}"/>"#
        ));
    }

    pub fn line(&mut self, from: (f64, f64), to: (f64, f64), stroke: &str, width: f64) {
        let ((a, b), (c, d)) = (from, to);
        self.add(format!(
            r#"<line x1="{a:.1}" y1="{b:.1}" x2="{c:.1}" y2="{d:.1}" stroke="{stroke}" stroke-width="{width}"/>"#
        ));
    }

    pub fn dashes(&mut self, from: (f64, f64), to: (f64, f64), stroke: &str) {
        let ((a, b), (c, d)) = (from, to);
        self.add(format!(
            r#"<line x1="{a:.1}" y1="{b:.1}" x2="{c:.1}" y2="{d:.1}" stroke="{stroke}" stroke-dasharray="4 3"/>"#
        ));
    }

    pub fn circle(&mut self, x: f64, y: f64, r: f64, fill: &str, stroke: &str) {
        self.add(format!(r#"<circle cx="{x:.1}" cy="{y:.1}" r="{r:.1}" fill="{fill}" stroke="{stroke}"/>"#));
    }

    pub fn path(&mut self, d: &str, fill: &str, stroke: &str, width: f64) {
        self.add(format!(
            r#"<path d="{d}" fill="{fill}" stroke="{stroke}" stroke-width="{width}" stroke-linejoin="round"/>"#
        ));
    }

    pub fn polyline(&mut self, points: impl Iterator<Item = (f64, f64)>, stroke: &str, width: f64) {
        let mut d = String::new();
        for (i, (x, y)) in points.enumerate() {
            let _ = write!(d, "{}{x:.1} {y:.1}", if i == 0 { "M" } else { "L" });
        }
        self.path(&d, "none", stroke, width);
    }

    pub fn words(&mut self, x: f64, y: f64, size: f64, fill: &str, anchor: Anchor, text: &str) {
        let anchor = match anchor {
            Anchor::Start => "start",
            Anchor::Middle => "middle",
            Anchor::End => "end",
        };
        self.add(format!(
            r#"<text x="{x:.1}" y="{y:.1}" font-size="{size}" fill="{fill}" text-anchor="{anchor}">{}</text>"#,
            escaped(text)
        ));
    }

    pub fn bold(&mut self, x: f64, y: f64, size: f64, fill: &str, text: &str) {
        self.add(format!(
            r#"<text x="{x:.1}" y="{y:.1}" font-size="{size}" fill="{fill}" font-weight="bold">{}</text>"#,
            escaped(text)
        ));
    }

    pub fn finish(self) -> String {
        let Svg { width, height, title, body } = self;
        let title = escaped(&title);
        format!(
            "<svg xmlns=\"http://www.w3.org/2000/svg\" viewBox=\"0 0 {width} {height}\" width=\"{width}\" \
             height=\"{height}\" font-family=\"DejaVu Sans, Verdana, sans-serif\" role=\"img\">\n\
             <title>{title}</title>\n\
             <rect width=\"{width}\" height=\"{height}\" fill=\"#ffffff\"/>\n{body}</svg>\n"
        )
    }
}
