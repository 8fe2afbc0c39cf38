//! `usbhs channels FILE --in-use N --budget B`: the best set of optional channels that fits the bus time left.

use std::path::Path;

use crate::args::Args;
use crate::descriptor::{INTERRUPT, ISOCHRONOUS};
use crate::json::Json;
use crate::output::{count, thousands, Output};
use crate::{bad, image, rows, survey, Done};

/// What periodic transfers may use of a microframe, in byte-times.
const PERIODIC: u32 = 6_000;

struct Channel {
    name: String,
    maximum: u16,
    charge: u16,
}

/// A line: `NAME MAXIMUM CHARGE`, the charge being byte-times, or `iso` or `interrupt` for what the driver charges.
fn channel(line: &str) -> Result<Channel, String> {
    let mut words = line.split_whitespace();
    let mut next = |what: &str| words.next().ok_or(format!("{what} is missing"));
    let (name, maximum, charge) = (next("a name")?, next("a maximum")?, next("a charge")?);
    if let Some(more) = words.next() {
        return Err(format!("{more} is too much"));
    }
    let short = |w: &str| w.parse::<u16>().map_err(|_| format!("{w} is no number from 0 to 65,535"));
    let maximum = short(maximum)?;
    let charged = |by: u16| maximum.checked_add(by).ok_or(format!("{maximum} and {by} are above 65,535"));
    let charge = match charge {
        "iso" => charged(ISOCHRONOUS)?,
        "interrupt" => charged(INTERRUPT)?,
        number => short(number)?,
    };
    Ok(Channel { name: name.into(), maximum, charge })
}

fn channels(path: &Path) -> Done<Vec<Channel>> {
    let text = image::text(path, 1 << 20)?;
    let mut all = vec![];
    for (i, raw) in text.lines().enumerate() {
        let line = raw.split('#').next().unwrap_or("").trim();
        if !line.is_empty() {
            match channel(line) {
                Ok(c) => all.push(c),
                Err(e) => return bad(format!("{}: line {}: {e}", image::name(path), i + 1)),
            }
        }
    }
    Ok(all)
}

pub fn run(mut args: Args, json: bool, out: &mut Output) -> Done<bool> {
    let in_use = args.number("--in-use")?.unwrap_or(0);
    let budget = args.number("--budget")?.unwrap_or(65_536);
    let path = args.path("FILE")?;
    args.end()?;
    if in_use > 8_388_480 {
        return bad("--in-use: the record of bus time holds at most 8,388,480");
    }
    let all = channels(&path)?;
    let pairs: Vec<(u16, u16)> = all.iter().map(|c| (c.maximum, c.charge)).collect();
    let best = match survey::best_set(&pairs, in_use, budget) {
        Ok(best) => best,
        Err(row) => return bad(format!("{}: {}", image::name(&path), rows::refused(row))),
    };
    let chosen = |i: usize| best.set >> i & 1 == 1;
    let charge: u32 = (0..all.len()).filter(|&i| chosen(i)).map(|i| all[i].charge as u32).sum();
    let left = PERIODIC.saturating_sub(in_use);
    let every = 1u64 << all.len();
    let best_of_all = u64::from(best.looked) == every;
    if json {
        let one = |(i, c): (usize, &Channel)| {
            Json::Object(vec![
                ("name", c.name.as_str().into()),
                ("maximum", c.maximum.into()),
                ("charge", c.charge.into()),
                ("chosen", chosen(i).into()),
            ])
        };
        let answer = Json::Object(vec![
            ("left", left.into()),
            ("channels", all.iter().enumerate().map(one).collect::<Vec<_>>().into()),
            ("total", best.total.into()),
            ("charge", charge.into()),
            ("bound", best.figure.into()),
            ("looked", best.looked.into()),
            ("sets", every.into()),
        ]);
        out.write(format!("{answer}\n").as_bytes())?;
        return Ok(true);
    }
    let mut text = format!(
        "{}, {} of {} byte-times left\n\n",
        count(all.len() as u64, "channel"),
        thousands(left.into()),
        thousands(PERIODIC.into())
    );
    let width = all.iter().map(|c| c.name.chars().count()).max().unwrap_or(0).max(7);
    text += &format!("  {:width$}  maximum  charge\n", "channel");
    for (i, c) in all.iter().enumerate() {
        let (maximum, charge) = (thousands(c.maximum.into()), thousands(c.charge.into()));
        text += &format!("{} {:width$}  {maximum:>7}  {charge:>6}\n", if chosen(i) { "*" } else { " " }, c.name);
    }
    text += &format!(
        "\nchosen (*): maxima of {} in all, {} byte-times\n",
        thousands(best.total.into()),
        thousands(charge.into())
    );
    text += &if best_of_all {
        format!("all {} were looked at: no set that fits has more\n", count(every, "set"))
    } else {
        format!(
            "{} of {} were looked at: no set that fits has more than {}\n",
            thousands(best.looked.into()),
            count(every, "set"),
            thousands(best.figure.into())
        )
    };
    out.write(text.as_bytes())?;
    Ok(true)
}
