//! `usbhs visits A B C D`: how many packets arrive between a reader's visits, and whether fifteen slots do.

use crate::args::{number, Args};
use crate::json::Json;
use crate::output::{count, thousands, Output};
use crate::{bad, rows, survey, Done};

/// A ring of sixteen slots holds fifteen packets.
const SLOTS: u32 = 15;

pub fn run(mut args: Args, json: bool, out: &mut Output) -> Done<bool> {
    let mut next = |what: &str| args.word(what).and_then(|w| number(what, &w));
    let (a, b, c, d) = (next("A")?, next("B")?, next("C")?, next("D")?);
    args.end()?;
    let (least, greatest) = match survey::between_visits(a, b, c, d) {
        Ok(bounds) => bounds,
        Err(row) => return bad(rows::refused(row)),
    };
    let does = greatest.arrivals <= SLOTS;
    if json {
        let witness = |reached: &survey::Reached, span: u32| {
            Json::Object(vec![
                ("arrivals", reached.arrivals.into()),
                ("span", span.into()),
                ("first", reached.first.into()),
                ("then_every", reached.distance.into()),
            ])
        };
        let all = Json::Object(vec![
            ("least", witness(&least, a)),
            ("greatest", witness(&greatest, b)),
            ("slots", SLOTS.into()),
            ("enough", does.into()),
        ]);
        out.write(format!("{all}\n").as_bytes())?;
        return Ok(does);
    }
    let range = |lo: u32, hi: u32| {
        if lo == hi {
            format!("{} apart", count(lo.into(), "microframe"))
        } else {
            format!("{} to {} apart", thousands(lo.into()), count(hi.into(), "microframe"))
        }
    };
    let text = format!(
        "visits {}, arrivals {}
least:    {} between two visits: the first {} after the visit, then one every {}, in a span of {a}
greatest: {} between two visits: the first {} after the visit, then one every {}, in a span of {b}
{}
",
        range(a, b),
        range(c, d),
        count(least.arrivals.into(), "arrival"),
        least.first,
        least.distance,
        count(greatest.arrivals.into(), "arrival"),
        greatest.first,
        greatest.distance,
        if does {
            "fifteen slots do: a ring emptied at each visit has no overrun after the first visit".to_string()
        } else {
            format!(
                "fifteen slots do not: {} packets may come, so {} may be turned away",
                greatest.arrivals,
                thousands((greatest.arrivals - SLOTS).into())
            )
        }
    );
    out.write(text.as_bytes())?;
    Ok(does)
}
