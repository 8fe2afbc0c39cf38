//! dropin [--seed N] [--runs N] [--length N] [FILE...]: the same list of calls through the unchanged Rust and through
//! the drop-in, over the same shims. Each access of the PAC, each answer, wake-up, and changed byte of the buffers is
//! compared, call by call; recorded lists and random runs.
//! dropin --live [--seed N] [--runs N]: the same firmware over both: tasks polled only when woken, interrupts wherever
//! a critical section ends.
//! dropin --new: what the drop-in has beside the Rust's names.
//! dropin --time [--runs N]: both timed, with registers that are plain memory.

use compare::runs::{asked, Runs};
use dropin::compared::{Compared, BATCH};

fn live(seed: u64, runs: u64) -> Result<(), String> {
    for (name, run) in [("the drop-in", dropin::live::run as fn(u64) -> _), ("the Rust", rust_live::live::run)] {
        let (mut interrupts, mut midst) = (0, 0);
        for seed in seed..seed + runs {
            let (n, m) = run(seed).map_err(|e| format!("{name}: {e}"))?;
            (interrupts, midst) = (interrupts + n, midst + m);
        }
        println!(
            "{name}: {runs} live runs, {interrupts} interrupts, {midst} packets taken in the midst of one: each task \
             got what was sent, none waits"
        );
    }
    Ok(())
}

fn time(packets: u32) {
    println!("an isochronous packet of 64 bytes, interrupt and take:");
    println!(
        "the drop-in {:.0} ns, the Rust {:.0} ns",
        dropin::live::nanoseconds(packets),
        rust_live::live::nanoseconds(packets)
    );
}

fn compared(asked: Runs) -> Result<(), String> {
    let mut compared = Compared::default();
    let (seed, short) = (asked.seed, asked.short);
    compared.batch(&Runs { short: 0, ..asked })?;
    let mut done = 0;
    while done < short {
        let mut some = compare::runs::asked(std::iter::empty());
        (some.seed, some.short, some.length) = (seed + done, BATCH.min(short - done), 300);
        compared.batch(&some)?;
        done += some.short;
    }
    compared.table();
    Ok(())
}

fn main() {
    let mut args: Vec<String> = std::env::args().skip(1).collect();
    let mut flag = |name: &str| {
        let before = args.len();
        args.retain(|a| a != name);
        args.len() != before
    };
    let (is_live, is_time, is_new) = (flag("--live"), flag("--time"), flag("--new"));
    let asked = asked(args.into_iter());
    let done = match (is_live, is_time, is_new) {
        (true, ..) => live(asked.seed, asked.short),
        (_, true, _) => {
            time(asked.short as u32);
            Ok(())
        }
        (_, _, true) => {
            dropin::new::all();
            println!("what the drop-in has beside the Rust's names: as it says");
            Ok(())
        }
        _ => compared(asked),
    };
    if let Err(e) = done {
        println!("{e}");
        std::process::exit(1);
    }
}
