//! The timeline as text, a strip of microframes after the other, and as JSON.

use super::events::{Event, Lane, Place, Timeline, What};
use crate::json::Json;
use crate::output::{count, thousands};

/// Microframes of a strip.
const STRIP: usize = 80;
/// So many lines of words, unless all are asked for.
const TOLD: usize = 40;

/// What a lane's lines show.
#[derive(Clone, Copy, PartialEq)]
enum Line {
    Comes,
    Holds,
    Goes,
    Calls,
}

impl Line {
    fn name(self, place: Place) -> &'static str {
        match (self, place) {
            (Line::Comes, Place::Out(_)) => "comes",
            (Line::Comes, Place::In(_)) => "queued",
            (Line::Comes, _) => "stages",
            (Line::Holds, _) => "holds",
            (Line::Goes, Place::Out(_)) => "opened",
            (Line::Goes, _) => "sent",
            (Line::Calls, _) => "calls",
        }
    }

    fn of(what: What) -> Self {
        match what {
            What::Arrival | What::Overrun | What::Queued | What::Transfer => Line::Comes,
            What::Opened | What::Sent => Line::Goes,
            What::Change | What::Reset | What::Refused | What::Differs => Line::Calls,
        }
    }
}

fn digit(n: u32) -> char {
    match n {
        0 => '.',
        1..=9 => (b'0' + n as u8) as char,
        10..=35 => (b'a' + (n - 10) as u8) as char,
        _ => '*',
    }
}

/// One mark for the events of a lane's line in one microframe: the gravest, or how many.
fn mark(events: &[&Event]) -> char {
    let has = |what: What| events.iter().any(|e| e.what == what);
    if has(What::Overrun) {
        '!'
    } else if has(What::Differs) {
        '#'
    } else if has(What::Refused) {
        'x'
    } else if has(What::Reset) {
        'R'
    } else if has(What::Change) {
        ':'
    } else {
        digit(events.len() as u32)
    }
}

fn marks(t: &Timeline, lane: &Lane, line: Line) -> Option<Vec<char>> {
    if line == Line::Holds {
        return lane.isochronous.then(|| lane.levels.iter().map(|&n| digit(n)).collect());
    }
    let mut columns: Vec<Vec<&Event>> = vec![vec![]; t.columns.len()];
    for e in t.events.iter().filter(|e| e.place == lane.place && Line::of(e.what) == line) {
        columns[e.column].push(e);
    }
    columns.iter().any(|c| !c.is_empty()).then(|| columns.iter().map(|c| mark(c)).collect())
}

fn label(microframe: Option<u16>) -> String {
    microframe.map_or("start".into(), |m| m.to_string())
}

fn strips(t: &Timeline) -> String {
    let rows: Vec<(String, Vec<char>)> = t
        .lanes
        .iter()
        .flat_map(|lane| {
            let lines = [Line::Comes, Line::Holds, Line::Goes, Line::Calls];
            let rows = lines.into_iter().filter_map(|line| Some((line, marks(t, lane, line)?)));
            rows.enumerate().map(|(i, (line, marks))| {
                let name = if i == 0 { lane.place.name() } else { String::new() };
                (format!("{name:7} {:7}", line.name(lane.place)), marks)
            })
        })
        .collect();
    let mut text = String::new();
    for from in (0..t.columns.len()).step_by(STRIP) {
        let to = (from + STRIP).min(t.columns.len());
        let mut labels = String::new();
        for c in (from..to).step_by(10) {
            labels += &format!("{:10}", label(t.columns[c]));
        }
        text += &format!("\n{:15} {}\n", "microframe", labels.trim_end());
        for (name, marks) in &rows {
            let part: String = marks[from..to].iter().collect();
            text += &format!("{name} {part}\n");
        }
    }
    text
}

/// Notable events in words; equal ones of one endpoint in a row are told once.
fn told(t: &Timeline, all: bool) -> String {
    let mut lines: Vec<(String, String, usize)> = vec![];
    for e in t.events.iter().filter(|e| all || e.what.notable()) {
        let words = format!("{:7} {}", e.place.name(), e.words);
        match lines.last_mut() {
            Some((_, before, times)) if *before == words => *times += 1,
            _ => lines.push((format!("{:>6} {:>6}", e.line, label(t.columns[e.column])), words, 1)),
        }
    }
    if lines.is_empty() {
        return String::new();
    }
    let shown = if all { lines.len() } else { lines.len().min(TOLD) };
    let mut text = format!("\n{:>6} {:>6}\n", "line", "micro.");
    for (at, words, times) in &lines[..shown] {
        let times = if *times == 1 { String::new() } else { format!(" ({times} times)") };
        text += &format!("{at}  {words}{times}\n");
    }
    if shown < lines.len() {
        text += &format!("and {} more; --all tells every event\n", thousands((lines.len() - shown) as u64));
    }
    text
}

fn sums(t: &Timeline) -> String {
    let of = |what: What| t.events.iter().filter(|e| e.what == what).count() as u64;
    let mut parts = vec![];
    let named = [
        (What::Arrival, "arrival"),
        (What::Overrun, "overrun"),
        (What::Opened, "open"),
        (What::Queued, "packet queued"),
        (What::Reset, "reset"),
        (What::Refused, "refusal"),
    ];
    for (what, name) in named {
        match (of(what), name) {
            (0, _) => {}
            (n, "packet queued") => parts.push(format!("{} queued", count(n, "packet"))),
            (n, name) => parts.push(count(n, name)),
        }
    }
    parts.join(", ")
}

pub fn text(t: &Timeline, name: &str, all: bool) -> String {
    let microframes = t.columns.iter().filter(|c| c.is_some()).count() as u64;
    let mut text = format!("{name}: {}, {}\n", count(t.calls as u64, "call"), count(microframes, "microframe"));
    let sums = sums(t);
    if !sums.is_empty() {
        text += &format!("{sums}\n");
    }
    if t.recorded != 0 {
        text += &match t.differing {
            0 => format!("{}: the port answers the same\n", count(t.recorded as u64, "recorded answer")),
            n => format!(
                "{}: the port answers {} otherwise\n",
                count(t.recorded as u64, "recorded answer"),
                thousands(n as u64)
            ),
        };
    }
    if t.calls != 0 {
        text += &strips(t);
        text += "\na digit or letter counts (a is 10); ! overrun, # not as recorded, x refused, R reset, : a change\n";
    }
    text + &told(t, all)
}

pub fn json(t: &Timeline) -> Json {
    let lane = |l: &Lane| {
        Json::Object(vec![
            ("place", l.place.name().into()),
            ("words", l.words.as_str().into()),
            ("holds", l.levels.clone().into()),
        ])
    };
    let event = |e: &Event| {
        Json::Object(vec![
            ("line", e.line.into()),
            ("column", e.column.into()),
            ("microframe", t.columns[e.column].into()),
            ("place", e.place.name().into()),
            ("what", e.what.name().into()),
            ("words", e.words.as_str().into()),
        ])
    };
    Json::Object(vec![
        ("calls", t.calls.into()),
        ("recorded", t.recorded.into()),
        ("differing", t.differing.into()),
        ("microframes", t.columns.clone().into()),
        ("lanes", t.lanes.iter().map(lane).collect::<Vec<_>>().into()),
        ("events", t.events.iter().map(event).collect::<Vec<_>>().into()),
    ])
}
