//! compare [FILE..] [--runs N] [--long N] [--seed N] [--length N]: recorded lists, random runs and long ones of the
//! Rust, made on the port too, call by call. Ends with 1 at the first difference.
//! compare --arms ..: counts also the arms of the Rust that the runs reach, and what rings and resets came by; ends
//! with 1 if something is left.
//! compare --wide ..: buffers of 1,024 bytes, against the Rust read with 1,024 among its sizes.
//! compare --begun ..: each random run without the interrupt and its continues.
//! compare --chip FILE ..: writes the runs for a replay on the chip's instruction set (tests/chip/run), and prints what
//! that must print.

use std::process::ExitCode;

use compare::{runs, Compared, Port};
use oracle::Driver;

/// The arms that these runs reach, counted in the traced copy.
fn arms(runs: &runs::Runs) -> Result<(), String> {
    runs.each(&mut traced::Rust::new(), |_, _| Ok(()))?;
    let (table, all) = traced::branch_table();
    let reached = traced::reached();
    println!("{} of {} arms reached ({} are outside)", reached.0, reached.1, reached.2);
    if all {
        Ok(())
    } else {
        Err(table)
    }
}

/// What the rings and the resets of these runs came by.
fn came_by(compared: &Compared) -> Result<(), String> {
    let s = &compared.seen;
    println!(
        "{} packets turned away, overruns told {} times; up to {} packets in a stretch of an OUT ring, {} of an IN \
         ring; {} queues refused with two waiting; {} resets on waiting packets, {} on open ones; {} start-ups in the \
         midst of {} calls",
        s.turned_away,
        s.overruns_told,
        s.most_out,
        s.most_in,
        s.two_wait,
        s.resets_waiting,
        s.resets_open,
        s.start_ups,
        s.midst.len()
    );
    match s.missing().as_slice() {
        [] => Ok(()),
        missing => Err(format!("the runs never came by: {}; start-ups fell on {:?}\n", missing.join(", "), s.midst)),
    }
}

fn main() -> ExitCode {
    let runs = runs::asked(std::env::args().skip(1));
    let mut port = Port::new();
    let mut compared = Compared { chip: runs.chip.is_some().then(Default::default), ..Default::default() };
    let done = {
        let mut rust: Box<dyn Driver> =
            if runs.wide { Box::new(wider::Rust::new()) } else { Box::new(original::Rust::new()) };
        runs.each(rust.as_mut(), |name, entries| compared.check(&mut port, name, entries))
    };
    let done = done.and_then(|()| if runs.arms { arms(&runs).and_then(|()| came_by(&compared)) } else { Ok(()) });
    if let Err(said) = done {
        print!("{said}");
        return ExitCode::from(1);
    }
    if let (Some(file), Some(lists)) = (&runs.chip, &compared.chip) {
        std::fs::write(file, lists.bytes()).expect("the file for the chip");
        print!("{}", lists.lines);
        return ExitCode::SUCCESS;
    }
    let Compared { lists, entries, answers, stamps, late, otherwise, turned_down, together, rows, .. } = compared;
    println!(
        "{lists} runs, {entries} entries, {answers} answers and {stamps} stamps compared, and the bus time after each \
         call ({turned_down} enablings turned down): no difference"
    );
    println!("{together} times readings that follow each other were also brought by one call: no difference");
    println!("{late} lengths told by the marks, {otherwise} of them not the Rust's");
    let refused: Vec<String> = (0..).zip(rows).filter(|r| r.1 > 0).map(|(row, n)| format!("{row}: {n}")).collect();
    println!("calls that the Rust does not have, by the row that refused them: {}", refused.join(", "));
    ExitCode::SUCCESS
}
