//! share DATA SVG: the share of a microframe that each operation takes, from a table of figures
//! (docs/pictures/share-chip.txt).

use std::path::Path;
use std::process::ExitCode;

use usbhs::output::thousands;
use usbhs::svg::{Anchor, Svg, BLUE as PORT, GREY, INK, RULE};

const WIDTH: f64 = 1000.0;
const LEFT: f64 = 330.0;
const RIGHT: f64 = 96.0;
const TOP: f64 = 92.0;
const ROW: f64 = 34.0;

const RUST: &str = "#b08968";

/// The file: `title` and `note` with words, then `microframe NS` and lines `NAME | CALLS | PORT NS A CALL | RUST NS A
/// CALL`; or `table FILE`, beside this one, and lines `NAME | OPERATION`: the share that stands last in the operation's
/// line there, in whole percents. `#` begins a comment.
#[derive(Default)]
struct Data {
    title: String,
    note: String,
    microframe: f64,
    table: Option<String>,
    rows: Vec<Row>,
}

/// An operation's shares in percents: the port's with its words, and the Rust's.
struct Row {
    name: String,
    port: f64,
    words: String,
    rust: Option<f64>,
}

/// The last number of percents in an operation's line of a table.
fn share_in(table: &str, operation: &str) -> Option<f64> {
    let line = table.lines().find(|l| l.starts_with(&format!("| {operation} |")))?;
    line.split('|').filter_map(|cell| cell.trim().strip_suffix('%')).next_back()?.trim().rsplit(' ').next()?.parse().ok()
}

fn read(text: &str, folder: &Path) -> Result<Data, String> {
    let mut data = Data::default();
    for (i, raw) in text.lines().enumerate() {
        let line = raw.split('#').next().unwrap_or("").trim();
        let at = |e: &str| format!("line {}: {e}", i + 1);
        let number = |w: &str| w.trim().parse::<f64>().map_err(|_| at(&format!("{w} is no number")));
        if let Some(words) = line.strip_prefix("title ") {
            data.title = words.into();
        } else if let Some(words) = line.strip_prefix("note ") {
            data.note = words.into();
        } else if let Some(n) = line.strip_prefix("microframe ") {
            data.microframe = number(n)?;
        } else if let Some(name) = line.strip_prefix("table ") {
            data.table = Some(std::fs::read_to_string(folder.join(name)).map_err(|e| at(&format!("{name}: {e}")))?);
        } else if !line.is_empty() {
            let parts: Vec<&str> = line.split('|').map(str::trim).collect();
            let row = match (&parts[..], &data.table) {
                (&[name, operation], Some(table)) => {
                    let share = share_in(table, operation).ok_or(at(&format!("{operation} is not in the table")))?;
                    Row { name: name.into(), port: share.round(), words: format!("{} %", share.round()), rust: None }
                }
                (&[name, calls, port, rust], None) if data.microframe > 0.0 => {
                    let whole = |ns: &str| Ok::<f64, String>(number(calls)? * number(ns)?);
                    let share = |ns: f64| ns / data.microframe * 100.0;
                    let (port, rust) = (whole(port)?, whole(rust)?);
                    let words = format!("{} ({} ns)", percent(share(port)), port.round());
                    Row { name: name.into(), port: share(port), words, rust: Some(share(rust)) }
                }
                _ => return Err(at("after `microframe NS` four parts apart by |, after `table FILE` two")),
            };
            data.rows.push(row);
        }
    }
    if data.rows.is_empty() {
        return Err("no operation".into());
    }
    Ok(data)
}

fn percent(share: f64) -> String {
    if share < 0.1 {
        format!("{share:.3} %")
    } else {
        format!("{share:.2} %")
    }
}

fn svg(data: &Data) -> String {
    // one bar to a row needs less room than two, and no legend
    let (top, row) = if data.table.is_none() { (TOP, ROW) } else { (TOP - 24.0, ROW - 10.0) };
    let height = top + data.rows.len() as f64 * row + 46.0;
    let mut svg = Svg::new(WIDTH, height);
    svg.title(&data.title);
    svg.bold(16.0, 28.0, 18.0, INK, &data.title);
    svg.words(16.0, 48.0, 12.0, GREY, Anchor::Start, &data.note);
    let two = data.rows.iter().any(|r| r.rust.is_some());
    if two {
        svg.rect(18.0, 60.0, 12.0, 10.0, PORT, "none");
        svg.words(36.0, 69.0, 12.0, GREY, Anchor::Start, "the port's calls, one for each access");
        svg.rect(290.0, 60.0, 12.0, 10.0, RUST, "none");
        svg.words(308.0, 69.0, 12.0, GREY, Anchor::Start, "the Rust in one go");
    }
    let most = data.rows.iter().map(|r| r.port.max(r.rust.unwrap_or(0.0))).fold(0.0, f64::max);
    let steps = [0.01, 0.02, 0.05, 0.1, 0.2, 0.5, 1.0, 2.0, 5.0, 10.0, 20.0];
    let step = steps.into_iter().find(|s| most / s <= 6.0).unwrap_or(50.0);
    let end = (most / step).ceil() * step;
    let x = |share: f64| LEFT + share / end * (WIDTH - LEFT - RIGHT);
    let bottom = top + data.rows.len() as f64 * row;
    for i in 0..=(end / step).round() as u32 {
        let at = x(i as f64 * step);
        svg.line((at, top), (at, bottom + 4.0), RULE, 1.0);
        let words = if step < 1.0 { format!("{:.2} %", i as f64 * step) } else { format!("{} %", i as f64 * step) };
        svg.words(at, bottom + 19.0, 11.0, GREY, Anchor::Middle, &words);
    }
    let what = match data.microframe {
        0.0 => "share of a microframe".into(),
        ns => format!("share of a microframe of {} ns", thousands(ns as u64)),
    };
    svg.words(x(end / 2.0), bottom + 37.0, 12.0, GREY, Anchor::Middle, &what);
    for (i, Row { name, port, words, rust }) in data.rows.iter().enumerate() {
        let y = top + i as f64 * row;
        svg.words(LEFT - 10.0, y + if two { 20.0 } else { 16.0 }, 12.0, INK, Anchor::End, name);
        svg.rect(LEFT, y + 5.0, x(*port) - LEFT, 13.0, PORT, "none");
        if let Some(rust) = rust {
            svg.rect(LEFT, y + 20.0, x(*rust) - LEFT, 7.0, RUST, "none");
        }
        svg.rect(x(*port) + 2.0, y + 4.0, words.len() as f64 * 6.4 + 4.0, 14.0, "#ffffff", "none");
        svg.words(x(*port) + 6.0, y + 16.0, 11.0, PORT, Anchor::Start, words);
    }
    svg.finish()
}

fn run() -> Result<(), String> {
    let words: Vec<String> = std::env::args().skip(1).collect();
    let [data, to] = &words[..] else { return Err("share DATA SVG".into()) };
    let text = std::fs::read_to_string(data).map_err(|e| format!("{data}: {e}"))?;
    let folder = Path::new(data).parent().unwrap_or(Path::new("."));
    let drawn = svg(&read(&text, folder).map_err(|e| format!("{data}: {e}"))?);
    std::fs::write(to, drawn).map_err(|e| format!("{to}: {e}"))
}

fn main() -> ExitCode {
    pictures::ended("share", run())
}
