//! record [--seed N] [--runs N] [--length N] [--print]: random runs on the Rust, from a seed. Prints how often each arm was reached, or with --print
//! the runs themselves.
//! record FILE...: the arms that these lists reach.

fn main() {
    let (mut seed, mut runs, mut length, mut print) = (1, 1000, 300, false);
    let mut files = vec![];
    let mut args = std::env::args().skip(1);
    while let Some(a) = args.next() {
        let mut number = || args.next().and_then(|n| n.parse().ok()).expect("a number");
        match a.as_str() {
            "--seed" => seed = number(),
            "--runs" => runs = number(),
            "--length" => length = number() as u32,
            "--print" => print = true,
            _ => files.push(a),
        }
    }
    let mut rust = traced::Rust::new();
    for file in &files {
        let list = std::fs::read_to_string(file).unwrap_or_else(|e| panic!("{file}: {e}"));
        oracle::replay::replay(&mut rust, &list).unwrap_or_else(|e| panic!("{file}: {e}"));
    }
    if files.is_empty() {
        let (mut calls, start) = (0, std::time::Instant::now());
        for seed in seed..seed + runs {
            let entries = oracle::random::run(&mut rust, seed, length);
            assert!(rust.front_untouched());
            calls += entries.len();
            if print {
                println!("# seed {seed}");
                print!("{}", oracle::text::print(&entries));
            }
        }
        eprintln!("{runs} runs, {calls} calls, {:.2} s", start.elapsed().as_secs_f64());
    }
    if !print {
        print!("{}", programs::branch_table().0);
    }
}
