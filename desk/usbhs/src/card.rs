//! `usbhs card check|list|extract|picture IMAGE`: packets on the card.
//!
//! The image is gone through once (stream.rs). Which packets are given is the archive's reader's to say; which of them
//! are this survey's, the recorder's records (recorder.rs).

use std::path::Path;

use crate::args::{usage, Args};
use crate::card_picture;
use crate::card_samples::Samples;
use crate::image::{name, Image};
use crate::json::Json;
use crate::output::{count, thousands, Output};
use crate::progress::Progress;
use crate::recorder::{self, Gap, Listener, Loss, Record, Sampled, Seam, Survey};
use crate::stream::{go_through, Dropped, End, Extent, Packet, Sink, Stop};
use crate::survey::DATA;
use crate::Done;

/// So many runs of dropped blocks, and so many losses, are named.
const NAMED: usize = 20;

/// Blocks in a row that are dropped for the same reason.
#[derive(Clone, Copy, PartialEq, Eq, Debug)]
pub struct Run {
    pub from: u64,
    pub blocks: u64,
    pub why: Dropped,
}

impl Run {
    /// Does this block, behind it, belong to it? By their numbers, blocks of another place go on together.
    fn goes_on(&self, next: &Run) -> bool {
        let number = match self.why {
            Dropped::Check => Dropped::Check,
            Dropped::Number(n) => Dropped::Number(n.wrapping_add(self.blocks as u32)),
        };
        self.from + self.blocks == next.from && number == next.why
    }
}

/// What is counted of the blocks.
#[derive(Default, Debug)]
pub struct Summary {
    pub blocks: u64,
    pub failed: u64,
    pub misplaced: u64,
    /// The first of the runs of dropped blocks, and how many runs there are.
    pub runs: Vec<Run>,
    pub run_count: usize,
    last: Option<Run>,
    /// Blocks behind the stream's end, and the good ones of them.
    pub behind: u64,
    pub good_behind: u64,
}

impl Summary {
    pub fn dropped(&self) -> u64 {
        self.failed + self.misplaced
    }

    fn block(&mut self, place: u64, dropped: Option<Dropped>) {
        self.blocks += 1;
        let Some(why) = dropped else { return };
        match why {
            Dropped::Check => self.failed += 1,
            Dropped::Number(_) => self.misplaced += 1,
        }
        let run = Run { from: place, blocks: 1, why };
        match &mut self.last {
            Some(last) if last.goes_on(&run) => last.blocks += 1,
            last => {
                *last = Some(run);
                self.run_count += 1;
            }
        }
        // the last run, if it is among those named
        self.runs.truncate(self.run_count - 1);
        if self.run_count <= NAMED {
            self.runs.extend(self.last);
        }
    }
}

/// An image on its way to a listener.
struct Going<'a, L: Listener> {
    survey: &'a mut Survey<L>,
    summary: Summary,
    progress: Progress,
    /// Are blocks behind the end looked at?
    behind: bool,
}

impl<L: Listener> Sink for Going<'_, L> {
    fn packet(&mut self, p: &Packet) -> Done<bool> {
        self.survey.next(p.endpoint, p.begin, p.behind_damage, p.bytes)
    }

    fn block(&mut self, place: u64, dropped: Option<Dropped>) {
        self.summary.block(place, dropped);
    }

    fn behind(&mut self, dropped: Option<Dropped>) -> bool {
        self.summary.behind += 1;
        self.summary.good_behind += u64::from(dropped.is_none());
        self.behind
    }

    fn progress(&mut self, bytes: u64) {
        self.progress.at(bytes);
    }
}

/// What came of an image.
pub struct Outcome {
    pub summary: Summary,
    pub end: End,
    /// Is it certain that the survey ends there?
    pub certain: bool,
    why: &'static str,
}

/// Goes through an image; its survey's packets go to the listener.
fn heard<L: Listener>(image: &mut Image, with: &With, behind: bool, survey: &mut Survey<L>) -> Done<Outcome> {
    let progress = Progress::new("card", image.length, with.quiet);
    let mut going = Going { survey, summary: Summary::default(), progress, behind };
    let end = go_through(image, with.extent, &mut going)?;
    let summary = std::mem::take(&mut going.summary);
    drop(going);
    survey.finish()?;
    let (certain, why) = certainty(survey, end.why, with.extent.blocks.is_some());
    Ok(Outcome { summary, end, certain, why })
}

/// Is the end certain, and why?
fn certainty<L: Listener>(survey: &Survey<L>, stop: Stop, asked: bool) -> (bool, &'static str) {
    match (survey.seam, survey.ended, stop) {
        (Some(Seam::Other(_)), _, _) => (false, "a record of another survey follows"),
        (Some(Seam::Record(_)), _, _) => (false, "a recorder's record follows packets that have none"),
        (Some(Seam::Without), _, _) => (false, "more packets follow than a recorder leaves without a record"),
        (_, Some(_), _) if survey.finished => (true, "the end record"),
        (_, Some(_), _) => (true, "an end record, but the survey was not finished"),
        (_, None, Stop::Filler) if survey.number.is_none() => (true, "filler"),
        (_, None, Stop::Filler) => (false, "filler, but the recorder wrote no end record"),
        (_, None, Stop::RunsOut) if asked && survey.number.is_none() => (true, "as many blocks as --blocks says"),
        (_, None, Stop::RunsOut) => (false, "the image ends there, without an end record or filler"),
        (_, None, Stop::Cut) => (false, "the image ends in the midst of a packet"),
        (_, None, _) => (false, "behind the dropped blocks no packet begins"),
    }
}

fn why(run: &Run) -> String {
    match run.why {
        Dropped::Check if run.blocks == 1 => "its check fails".into(),
        Dropped::Check => "their checks fail".into(),
        Dropped::Number(n) if run.blocks == 1 => format!("its number is {n}"),
        Dropped::Number(n) => format!("their numbers are {n} on"),
    }
}

/// The losses of a survey.
#[derive(Default)]
struct Losses {
    named: Vec<Loss>,
    all: u64,
}

impl Listener for Losses {
    fn packet(&mut self, _: &Sampled, _: &[u8]) -> Done<()> {
        Ok(())
    }

    fn loss(&mut self, loss: &Loss) {
        self.all += 1;
        if self.named.len() < NAMED {
            self.named.push(*loss);
        }
    }
}

fn lost(loss: &Loss) -> String {
    let (packets, was) = (count(loss.packets.into(), "packet"), if loss.packets == 1 { "was" } else { "were" });
    match loss.before {
        Some(before) => {
            let (a, b) = (thousands(loss.after), thousands(before));
            format!("{packets} {was} turned away between packets {a} and {b}")
        }
        None => format!("{packets} {was} turned away, and no stamp shows where"),
    }
}

/// Block and byte of a place.
fn at(place: u64) -> (u64, u64) {
    (place / DATA as u64, place % DATA as u64 + 6)
}

fn text(path: &Path, survey: &Survey<Losses>, outcome: &Outcome, only: Option<u8>) -> String {
    let all = &outcome.summary;
    let mut t = format!(
        "{}: {}, {} good, {} dropped",
        name(path),
        count(all.blocks, "block"),
        thousands(all.blocks - all.dropped()),
        thousands(all.dropped())
    );
    if all.dropped() != 0 {
        t += &format!(" ({} by the check, {} by the number)", thousands(all.failed), thousands(all.misplaced));
    }
    t += "\n";
    for run in &all.runs {
        t += &match run.blocks {
            1 => format!("  block {}: {}\n", run.from, why(run)),
            n => format!("  blocks {} to {}: {}\n", run.from, run.from + n - 1, why(run)),
        };
    }
    if all.run_count > all.runs.len() {
        t += &format!("  and {} more places\n", thousands((all.run_count - all.runs.len()) as u64));
    }
    if let Some(number) = survey.number {
        t += &format!("survey {number}, {} of its recorder\n", count(survey.records, "record"));
    }
    let shown = |e: u8| only.is_none_or(|o| o == e);
    for (endpoint, track) in survey.endpoints().filter(|(e, _)| shown(*e)) {
        t += &format!("endpoint {endpoint}: {}, {}\n", count(track.packets, "packet"), count(track.bytes, "byte"));
        for loss in survey.listener.named.iter().filter(|l| l.endpoint == endpoint) {
            t += &format!("  {}\n", lost(loss));
        }
    }
    if survey.endpoints().next().is_none() {
        t += "no packet\n";
    }
    let more = survey.listener.all - survey.listener.named.len() as u64;
    if more != 0 {
        t += &format!("  and {} more losses\n", thousands(more));
    }
    let (block, byte) = at(outcome.end.place);
    t += &match outcome.certain {
        true => format!("the stream ends in block {block} at byte {byte}: {}\n", outcome.why),
        false => format!("the end, in block {block} at byte {byte}, is not certain: {}\n", outcome.why),
    };
    if survey.left_out != 0 {
        t += &format!("{} behind the last record are not given\n", count(survey.left_out, "packet"));
    }
    if all.behind != 0 {
        t += &match all.good_behind {
            0 => format!("{} behind it, none good\n", count(all.behind, "block")),
            n => format!(
                "{} behind it, {} good and not read (an older survey?)\n",
                count(all.behind, "block"),
                thousands(n)
            ),
        };
    }
    t
}

fn json(survey: &Survey<Losses>, outcome: &Outcome, only: Option<u8>) -> Json {
    let all = &outcome.summary;
    let run = |r: &Run| {
        let (why, number) = match r.why {
            Dropped::Check => ("check", None),
            Dropped::Number(n) => ("number", Some(n)),
        };
        Json::Object(vec![
            ("from", r.from.into()),
            ("blocks", r.blocks.into()),
            ("why", why.into()),
            ("number", number.into()),
        ])
    };
    let loss = |l: &Loss| {
        Json::Object(vec![
            ("endpoint", l.endpoint.into()),
            ("packets", l.packets.into()),
            ("after", l.after.into()),
            ("before", l.before.into()),
        ])
    };
    let endpoint = |(e, t): (u8, &recorder::Track)| {
        Json::Object(vec![
            ("endpoint", e.into()),
            ("packets", t.packets.into()),
            ("bytes", t.bytes.into()),
            ("turned_away", t.turned_away.into()),
        ])
    };
    let (block, byte) = at(outcome.end.place);
    let end = Json::Object(vec![
        ("block", block.into()),
        ("offset", byte.into()),
        ("certain", outcome.certain.into()),
        ("why", outcome.why.into()),
        ("blocks_behind", all.behind.into()),
        ("good_behind", all.good_behind.into()),
        ("not_given", survey.left_out.into()),
    ]);
    let shown = survey.endpoints().filter(|(e, _)| only.is_none_or(|o| o == *e));
    Json::Object(vec![
        ("blocks", all.blocks.into()),
        ("good", (all.blocks - all.dropped()).into()),
        ("dropped_by_check", all.failed.into()),
        ("dropped_by_number", all.misplaced.into()),
        ("dropped", all.runs.iter().map(run).collect::<Vec<_>>().into()),
        ("dropped_places", all.run_count.into()),
        ("survey", survey.number.into()),
        ("records", survey.records.into()),
        ("endpoints", shown.map(endpoint).collect::<Vec<_>>().into()),
        ("losses", survey.listener.named.iter().map(loss).collect::<Vec<_>>().into()),
        ("loss_places", survey.listener.all.into()),
        ("end", end),
    ])
}

/// How packets are written out.
enum Form {
    List,
    ListJson,
    Raw,
    Csv,
    Samples(Box<Samples>),
}

fn push_hex(bytes: &[u8], out: &mut Vec<u8>) {
    const DIGITS: &[u8; 16] = b"0123456789abcdef";
    out.extend(bytes.iter().flat_map(|b| [DIGITS[(b >> 4) as usize], DIGITS[(b & 15) as usize]]));
}

/// What stands in the column of gaps.
pub fn gap_words(gap: Gap) -> String {
    match (gap.turned_away, gap.damage) {
        (0, false) => String::new(),
        (0, true) => "?".into(),
        (n, false) => n.to_string(),
        (n, true) => format!("{n}?"),
    }
}

impl Form {
    fn head(&self) -> &'static str {
        match self {
            Form::List => "  packet     block  offset  endpoint  length\n",
            Form::ListJson => "[",
            Form::Raw => "",
            Form::Csv => "packet,block,offset,endpoint,microframe,gap,length,bytes\n",
            Form::Samples(_) => "packet,endpoint,microframe,gap,sample,value\n",
        }
    }

    fn foot(&self) -> &'static str {
        match self {
            Form::ListJson => "]\n",
            _ => "",
        }
    }

    fn is_list(&self) -> bool {
        matches!(self, Form::List | Form::ListJson)
    }
}

/// Packets on their way out.
struct Writing {
    form: Form,
    out: Output,
    room: Vec<u8>,
    /// The first line is written.
    headed: bool,
    only: Option<u8>,
    recorder: u8,
    interpolate: bool,
    /// Packets, and list entries, so far.
    packets: u64,
    entries: u64,
    /// Those with an odd byte.
    odd: u64,
    /// The endpoints seen.
    endpoints: u16,
}

impl Writing {
    fn flush(&mut self) -> Done<()> {
        if !std::mem::replace(&mut self.headed, true) {
            self.out.write(self.form.head().as_bytes())?;
        }
        if let Form::Samples(samples) = &mut self.form {
            self.out.write(samples.lines())?;
            samples.forget();
        }
        self.out.write(&self.room)?;
        self.room.clear();
        Ok(())
    }

    fn entry(&mut self, n: Option<u64>, p: &Sampled, bytes: &[u8], record: Option<&Record>) {
        use std::io::Write;
        let ((block, offset), length) = (at(p.begin), bytes.len());
        let endpoint = p.endpoint;
        let comma = if self.entries == 0 { "" } else { "," };
        self.entries += 1;
        let out = &mut self.room;
        let _ = match (&mut self.form, n) {
            (Form::Samples(samples), Some(n)) => {
                // records whose endpoint is asked for; packets have a way of their own
                samples.packet(n, endpoint, p.microframe, p.gap, bytes);
                Ok(())
            }
            (Form::Raw, _) => {
                out.extend_from_slice(bytes);
                Ok(())
            }
            (Form::Csv, Some(n)) => {
                let microframe = p.microframe.map(|m| m.to_string()).unwrap_or_default();
                let _ = write!(out, "{n},{block},{offset},{endpoint},{microframe},{},{length},", gap_words(p.gap));
                push_hex(bytes, out);
                writeln!(out)
            }
            (Form::ListJson, n) => {
                let _ = write!(out, "{comma}{{\"packet\":{},\"block\":{block},\"offset\":{offset}", Json::from(n));
                let _ = write!(out, ",\"endpoint\":{endpoint},\"length\":{length}");
                if let Some(microframe) = p.microframe {
                    let _ = write!(out, ",\"microframe\":{microframe}");
                }
                if p.gap != Gap::default() {
                    let Gap { turned_away, damage } = p.gap;
                    let _ = write!(out, ",\"turned_away_before\":{turned_away},\"damage_before\":{damage}");
                }
                if let Some(record) = record {
                    let _ = write!(out, ",\"record\":{}", Json::from(record.words()));
                }
                write!(out, "}}")
            }
            (_, n) => {
                let n = n.map_or("-".into(), |n| n.to_string());
                let words = match (record, p.microframe, gap_words(p.gap)) {
                    (Some(record), _, _) => format!("  {}", record.words()),
                    (None, Some(m), gap) if gap.is_empty() => format!("  microframe {m}"),
                    (None, Some(m), gap) => format!("  microframe {m}, gap {gap}"),
                    (None, None, gap) if gap.is_empty() => String::new(),
                    (None, None, gap) => format!("  gap {gap}"),
                };
                writeln!(out, "{n:>8}  {block:8}  {offset:6}  {endpoint:8}  {length:6}{words}")
            }
        };
    }
}

impl Listener for Writing {
    #[inline]
    fn packet(&mut self, p: &Sampled, bytes: &[u8]) -> Done<()> {
        if self.only.is_some_and(|e| e != p.endpoint) {
            return Ok(());
        }
        self.odd += (bytes.len() % 2) as u64;
        self.endpoints |= 1 << (p.endpoint & 15);
        let n = self.packets;
        self.packets += 1;
        let microframe = if self.interpolate { p.microframe.or(p.by_step) } else { p.microframe };
        let waiting = match &mut self.form {
            Form::Samples(samples) => {
                samples.packet(n, p.endpoint, microframe, p.gap, bytes);
                self.entries += 1;
                samples.lines().len()
            }
            _ => {
                self.entry(Some(n), &Sampled { microframe, ..*p }, bytes, None);
                self.room.len()
            }
        };
        if waiting > 1 << 16 {
            self.flush()?;
        }
        Ok(())
    }

    /// Records are listed; as packets they are given where their endpoint is asked for.
    fn record(&mut self, record: &Record, begin: u64, bytes: &[u8]) -> Done<()> {
        let endpoint = self.recorder;
        let (number, of_endpoint) = (self.packets, self.packets);
        let plain = Sampled {
            number,
            of_endpoint,
            endpoint,
            begin,
            microframe: None,
            time: None,
            by_step: None,
            gap: Gap::default(),
        };
        if self.only == Some(endpoint) {
            self.packets += 1;
            self.entry(Some(number), &plain, bytes, Some(record));
        } else if self.only.is_none() && self.form.is_list() {
            self.entry(None, &plain, bytes, Some(record));
        }
        Ok(())
    }
}

/// What every command on a card takes.
pub struct With {
    pub quiet: bool,
    pub extent: Extent,
    pub recorder: u8,
    pub only: Option<u8>,
}

fn endpoint(args: &mut Args, name: &str, least: u32) -> Done<Option<u8>> {
    match args.number(name)? {
        Some(n) if !(least..=15).contains(&n) => usage(format!("{name}: {n} is no endpoint from {least} to 15")),
        n => Ok(n.map(|n| n as u8)),
    }
}

fn with(args: &mut Args) -> Done<With> {
    let blocks = args.number("--blocks")?;
    if blocks == Some(0) {
        return usage("--blocks: 0 are none");
    }
    let cut = args.flag("--cut");
    if cut && blocks.is_some() {
        return usage("--blocks and --cut: one of them says where the stream ends");
    }
    Ok(With {
        quiet: args.flag("--quiet"),
        extent: Extent { blocks: blocks.map(u64::from), cut },
        recorder: endpoint(args, "--recorder", 0)?.unwrap_or(recorder::ENDPOINT),
        only: endpoint(args, "--endpoint", 1)?,
    })
}

/// What is to be said of an image that was listed or extracted, on standard error; `false` where something is wrong.
fn told<L: Listener>(path: &Path, survey: &Survey<L>, outcome: &Outcome) -> bool {
    let name = name(path);
    let dropped = outcome.summary.dropped();
    if dropped != 0 {
        eprintln!("usbhs: {name}: {} dropped", count(dropped, "block"));
    }
    if !outcome.certain {
        let (block, byte) = at(outcome.end.place);
        eprintln!("usbhs: {name}: the end, in block {block} at byte {byte}, is not certain: {}", outcome.why);
    }
    if survey.left_out != 0 {
        eprintln!("usbhs: {name}: {} behind the last record are not given", count(survey.left_out, "packet"));
    }
    dropped == 0 && outcome.certain
}

fn check(mut args: Args, as_json: bool, out: &mut Output) -> Done<bool> {
    let with = with(&mut args)?;
    let path = args.path("IMAGE")?;
    args.end()?;
    let mut image = Image::open(&path)?;
    let mut survey = Survey::new(Losses::default(), with.recorder);
    let outcome = heard(&mut image, &with, true, &mut survey)?;
    let answer = match as_json {
        true => format!("{}\n", json(&survey, &outcome, with.only)),
        false => text(&path, &survey, &outcome, with.only),
    };
    out.write(answer.as_bytes())?;
    Ok(outcome.summary.dropped() == 0 && outcome.certain)
}

fn form(list: bool, args: &mut Args, as_json: bool) -> Done<Form> {
    if list {
        return Ok(if as_json { Form::ListJson } else { Form::List });
    }
    if as_json {
        return usage("card extract has no --json: --csv and --samples are for programs, and card list --json");
    }
    match (args.flag("--csv"), args.flag("--samples")) {
        (true, true) => usage("--csv and --samples: one of them"),
        (false, true) => Ok(Form::Samples(Box::default())),
        (true, false) => Ok(Form::Csv),
        (false, false) => Ok(Form::Raw),
    }
}

fn write_out(list: bool, mut args: Args, as_json: bool) -> Done<bool> {
    let form = form(list, &mut args, as_json)?;
    let with = with(&mut args)?;
    let interpolate = args.flag("--interpolate");
    if interpolate && matches!(form, Form::Raw) {
        return usage("--interpolate: the bytes alone have no microframes; with --csv or --samples");
    }
    let to = if list { None } else { args.file("--out")? };
    let path = args.path("IMAGE")?;
    args.end()?;
    let mut image = Image::open(&path)?;
    let out = Output::create(to.as_deref(), &[image.identity.clone()])?;
    let (foot, raw, samples) = (form.foot(), matches!(form, Form::Raw), matches!(form, Form::Samples(_)));
    let recorder = with.recorder;
    let only = with.only;
    let (packets, entries, odd, endpoints) = (0, 0, 0, 0);
    let room = Vec::with_capacity(1 << 20);
    let headed = false;
    let writing = Writing { form, out, room, headed, only, recorder, interpolate, packets, entries, odd, endpoints };
    let mut survey = Survey::new(writing, with.recorder);
    let outcome = heard(&mut image, &with, false, &mut survey);
    let outcome = match outcome {
        Ok(outcome) => outcome,
        Err(failure) => {
            // what was read is written all the same
            let mut writing = survey.listener;
            if writing.entries != 0 {
                let _ = writing.flush();
            }
            return Err(writing.out.abandon(failure));
        }
    };
    let well = told(&path, &survey, &outcome);
    let mut writing = survey.listener;
    writing.flush()?;
    writing.out.write(foot.as_bytes())?;
    writing.out.finish()?;
    if samples && writing.odd != 0 {
        let packets = count(writing.odd, "packet");
        eprintln!("usbhs: {}: {packets} of an odd length, whose last byte is no sample", name(&path));
    }
    if raw && writing.endpoints.count_ones() > 1 {
        eprintln!("usbhs: {}: packets of several endpoints are mixed; --endpoint keeps one", name(&path));
    }
    Ok(well)
}

/// `false` where a block was dropped, or the end is not certain.
pub fn run(mut args: Args, as_json: bool, out: &mut Output) -> Done<bool> {
    let what = args.word("check, list, extract or picture")?;
    match what.as_str() {
        "check" => check(args, as_json, out),
        "list" => write_out(true, args, as_json),
        "extract" => write_out(false, args, as_json),
        "picture" if as_json => usage("card picture has no --json"),
        "picture" => {
            let drawing = card_picture::Drawing::asked(&mut args)?;
            let with = with(&mut args)?;
            let to = args.file("--svg")?;
            let path = args.path("IMAGE")?;
            args.end()?;
            let mut image = Image::open(&path)?;
            let mut out = Output::create(to.as_deref(), &[image.identity.clone()])?;
            let mut survey = Survey::new(card_picture::Collected::new(with.only), with.recorder);
            let outcome = match heard(&mut image, &with, false, &mut survey) {
                Ok(outcome) => outcome,
                Err(failure) => return Err(out.abandon(failure)),
            };
            let well = told(&path, &survey, &outcome);
            out.write(drawing.svg(&survey.listener, &name(&path))?.as_bytes())?;
            out.finish()?;
            Ok(well)
        }
        _ => usage(format!("card {what}: check, list, extract or picture")),
    }
}
