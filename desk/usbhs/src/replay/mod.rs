//! `usbhs replay LIST`: a recorded list of calls (oracle/FORMAT.md), or with `--trace` a device's trace, as a timeline:
//! microframes across, endpoints down.

mod drive;
mod events;
mod pcap;
mod picture;
mod strip;
pub mod trace;

use crate::args::{usage, Args};
use crate::image::{self, Image};
use crate::output::{count, write_to, Output};
use crate::{bad, recorder, Done};

pub use events::{timeline, timeline_of, Event, Lane, Place, Timeline, What};
pub use picture::svg;

/// The longest list that is read.
const MOST: usize = 256 << 20;

/// `false` where a recorded answer is not the port's, or a trace cannot be compared.
pub fn run(mut args: Args, as_json: bool, out: &mut Output) -> Done<bool> {
    let picture = args.file("--svg")?;
    let title = args.value("--title")?;
    let all = args.flag("--all");
    let capture = args.file("--pcap")?;
    let recorder = args.number("--recorder")?;
    let traced = args.flag("--trace");
    let path = args.path(if traced { "TRACE" } else { "LIST" })?;
    args.end()?;
    if !traced && (capture.is_some() || recorder.is_some()) {
        return usage("--pcap and --recorder are for a trace: --trace");
    }
    if recorder.is_some_and(|n| !(1..=15).contains(&n)) {
        return usage("--recorder: an endpoint from 1 to 15");
    }
    let name = &image::name(&path);
    let image = Image::open(&path)?;
    let inputs = [image.identity.clone()];
    let mut compared = true;
    let mut isochronous = vec![];
    let steps = if traced {
        let entries = trace::read(image, recorder.map_or(recorder::ENDPOINT, |n| n as u8))?;
        if let Some(to) = &capture {
            let capture = pcap::capture(&entries, &trace::setups(&entries));
            write_to(Some(to), &inputs, capture.bytes())?;
            eprintln!("usbhs: {}: {}", image::name(to), count(capture.packets as u64, "packet"));
        }
        let (entries, lost) = trace::unbroken(&entries);
        if let Some((at, n)) = lost {
            let missing = match n {
                0 => format!("entries behind entry {at} are missing, in dropped blocks"),
                n => format!("{n} entries behind entry {at} were written over before they reached the card"),
            };
            let shown = if trace::has_start_up(entries) { ": made again up to there" } else { "" };
            eprintln!("usbhs: {name}: {missing}{shown}");
            compared = false;
        }
        if trace::has_start_up(entries) {
            trace::drive(entries)
        } else {
            eprintln!("usbhs: {name}: the trace has no start-up: shown as it was noted, and not compared");
            let (steps, places) = trace::as_noted(entries);
            (compared, isochronous) = (false, places);
            Ok(steps)
        }
    } else {
        drive::drive(&image.text(MOST)?)
    };
    let steps = match steps {
        Ok(steps) => steps,
        Err(e) => return bad(format!("{name}: {}", shortened(&e))),
    };
    let timeline = timeline_of(&steps, &isochronous);
    if let Some(to) = &picture {
        let drawn = svg(&timeline, title.as_deref().unwrap_or(name));
        write_to(Some(to), &inputs, drawn.as_bytes())?;
    }
    let answer = if as_json { format!("{}\n", strip::json(&timeline)) } else { strip::text(&timeline, name, all) };
    out.write(answer.as_bytes())?;
    Ok(compared && timeline.differing == 0)
}

/// The picture of a list.
pub fn drawn(list: &str, title: &str) -> Result<String, String> {
    Ok(svg(&timeline(&drive::drive(list)?), title))
}

/// A line of a list may be long.
fn shortened(words: &str) -> String {
    match words.char_indices().nth(160) {
        Some((at, _)) => format!("{}...", &words[..at]),
        None => words.into(),
    }
}
