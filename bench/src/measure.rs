//! The measurement: the same inputs to both sides, in turn, and how the times grow with the lines.

use std::hint::black_box;
use std::time::{Duration, Instant};

use sengoruwa_bench::answers::Independent;
use sengoruwa_bench::calls::{Calls, Ended, Fault, Report, Settings, STANDING};

use crate::inputs::{self, Draft, Goal};
use crate::library::Library;

/// A round of one side takes this long, or one call if that takes longer. It is taken in slices, of which the best counts,
/// so that it matters less what else the machine does.
const ROUND: Duration = Duration::from_millis(50);
const SLICE: Duration = Duration::from_millis(1);
const ROUNDS: u32 = 5;

/// Where one call takes longer than this, fewer rounds are enough.
const LONG_CALL: Duration = Duration::from_millis(500);
const LONG_ROUNDS: u32 = 2;

/// The hosts that drafts are run on, and what a run there is called.
const HOSTS: [(&str, Settings); 3] = [
    ("run", host(0, 0)),
    ("run, verifying", host(0, 1)),
    ("run, delay 2", host(2, 0)),
];

const fn host(delay: u32, layers: u32) -> Settings {
    Settings {
        instances: 256,
        bindings: 2048,
        delay,
        layers,
    }
}

/// Seconds of one call of each side.
#[derive(Clone, Copy)]
struct Times {
    library: f64,
    rust: f64,
}

/// A row of the table.
struct Row {
    call: &'static str,
    input: String,
    lines: usize,
    times: Times,
}

/// Prints the tables, and answers on how many inputs the sides did not answer the same.
pub fn measure() -> u64 {
    println!(
        "Microseconds of one call: the best in {ROUNDS} rounds of {ROUND:?}, in which the sides take turns."
    );
    println!("Each call reads the universe file too. Buffers are not cleared between calls.");
    println!();
    println!(
        "{:<15} {:<16} {:>6} {:>12} {:>12} {:>13}",
        "call", "input", "lines", "library", "Rust", "library/Rust"
    );
    let mut differing = 0;
    for goal in inputs::goals() {
        let (row, draft) = measure_plan(&goal, &mut differing);
        row.print();
        for row in measure_draft(&draft, &mut differing) {
            row.print();
        }
    }
    let mut rows = Vec::new();
    for draft in inputs::drafts() {
        for row in measure_draft(&draft, &mut differing) {
            row.print();
            rows.push(row);
        }
    }
    print_growth(&rows);
    if differing > 0 {
        println!("{differing} inputs were not answered the same");
    }
    differing
}

impl Row {
    fn print(&self) {
        let Times { library, rust } = self.times;
        println!(
            "{:<15} {:<16} {:>6} {:>12.2} {:>12.2} {:>13.2}",
            self.call,
            self.input,
            self.lines,
            library * 1e6,
            rust * 1e6,
            library / rust
        );
    }
}

/// The times for a goal, and its script as a draft.
fn measure_plan(goal: &Goal, differing: &mut u64) -> (Row, Draft) {
    let mut library_list = vec![0; 11_136];
    let mut rust_list = library_list.clone();
    let answer = plan::<Independent>(goal, &mut rust_list);
    if answer != plan::<Library>(goal, &mut library_list) || library_list != rust_list {
        *differing += 1;
    }
    let lines = answer.1 as usize;
    let draft = Draft {
        kind: goal.kind,
        file: goal.file.clone(),
        lines: rust_list[..lines].to_vec(),
    };
    let times = times_of(
        || plan::<Library>(goal, &mut library_list),
        || plan::<Independent>(goal, &mut rust_list),
    );
    let row = Row {
        call: "plan",
        input: goal.kind.to_string(),
        lines,
        times,
    };
    (row, draft)
}

fn plan<Side: Calls>(goal: &Goal, list: &mut [u32]) -> (u32, u64) {
    let mut lines = 0;
    let refusal = Side::plan(
        black_box(&goal.file),
        black_box(&goal.goal),
        list,
        &mut lines,
    );
    (refusal, lines)
}

/// The times of the check and of the runs of a draft.
fn measure_draft(draft: &Draft, differing: &mut u64) -> Vec<Row> {
    let row = |call, times| Row {
        call,
        input: draft.kind.to_string(),
        lines: draft.lines.len(),
        times,
    };
    let answer = check::<Independent>(draft);
    if answer != check::<Library>(draft) || answer.0 != 0 {
        *differing += 1;
    }
    let times = times_of(|| check::<Library>(draft), || check::<Independent>(draft));
    let mut rows = vec![row("check", times)];
    for (call, settings) in HOSTS {
        let mut library = Places::of(draft, settings);
        let mut rust = Places::of(draft, settings);
        let answer = run::<Independent>(draft, settings, &mut rust);
        if answer != run::<Library>(draft, settings, &mut library) || library != rust {
            *differing += 1;
        }
        let times = times_of(
            || run::<Library>(draft, settings, &mut library),
            || run::<Independent>(draft, settings, &mut rust),
        );
        rows.push(row(call, times));
    }
    rows
}

fn check<Side: Calls>(draft: &Draft) -> (u32, Fault) {
    let mut fault = Fault::default();
    let refusal = Side::check(black_box(&draft.file), black_box(&draft.lines), &mut fault);
    (refusal, fault)
}

/// What a run writes to.
#[derive(PartialEq)]
struct Places {
    steps: Vec<u32>,
    standing: Vec<u32>,
}

impl Places {
    /// Places for as many steps as bring the draft to its end.
    fn of(draft: &Draft, settings: Settings) -> Self {
        Self {
            steps: vec![0; draft.lines.len() * (settings.delay as usize + 1)],
            standing: vec![0; STANDING],
        }
    }
}

fn run<Side: Calls>(draft: &Draft, settings: Settings, places: &mut Places) -> (u32, Fault, Ended) {
    let mut fault = Fault::default();
    let mut ended = Ended::default();
    let report = Report {
        steps: &mut places.steps,
        standing: &mut places.standing,
        fault: &mut fault,
        ended: &mut ended,
    };
    let refusal = Side::run(
        black_box(&draft.file),
        black_box(&draft.lines),
        black_box(&settings),
        report,
    );
    (refusal, fault, ended)
}

/// The best times in some rounds, in which the sides take turns.
fn times_of<T>(mut library: impl FnMut() -> T, mut rust: impl FnMut() -> T) -> Times {
    let (library_calls, library_call) = slice_of(&mut library);
    let (rust_calls, rust_call) = slice_of(&mut rust);
    let rounds = if library_call.max(rust_call) > LONG_CALL {
        LONG_ROUNDS
    } else {
        ROUNDS
    };
    let mut best = Times {
        library: f64::INFINITY,
        rust: f64::INFINITY,
    };
    for _ in 0..rounds {
        best.library = best.library.min(round(&mut library, library_calls));
        best.rust = best.rust.min(round(&mut rust, rust_calls));
    }
    best
}

/// How many calls make a slice, and about how long one takes.
fn slice_of<T>(call: &mut impl FnMut() -> T) -> (u32, Duration) {
    let mut calls = 1;
    loop {
        let took = time(call, calls);
        if took >= SLICE {
            return (calls, took / calls);
        }
        calls *= 2;
    }
}

/// The seconds of one call, by the best slice of a round.
fn round<T>(call: &mut impl FnMut() -> T, calls: u32) -> f64 {
    let start = Instant::now();
    let mut best = f64::INFINITY;
    while start.elapsed() < ROUND {
        best = best.min(time(call, calls).as_secs_f64() / f64::from(calls));
    }
    best
}

fn time<T>(call: &mut impl FnMut() -> T, calls: u32) -> Duration {
    let start = Instant::now();
    for _ in 0..calls {
        black_box(call());
    }
    start.elapsed()
}

/// Prints how the times grow with the lines. The rows are those of one kind after the other, each by size.
fn print_growth(rows: &[Row]) {
    println!();
    println!("Nanoseconds per line, by the number of lines. The first size has less standing.");
    println!(
        "Growth: of the time per further line, beyond 16,384 lines over beyond 4,096. 1 is linear."
    );
    print!("{:<15} {:<16} {:<8}", "call", "input", "side");
    for size in inputs::SIZES {
        print!(" {size:>9}");
    }
    println!(" {:>9}", "growth");
    let mut told: Vec<(&str, &str)> = Vec::new();
    for row in rows {
        let curve = (row.input.as_str(), row.call);
        if !told.contains(&curve) {
            told.push(curve);
            let curve: Vec<&Row> = rows
                .iter()
                .filter(|row| (row.input.as_str(), row.call) == curve)
                .collect();
            print_curve("library", &curve, |times| times.library);
            print_curve("Rust", &curve, |times| times.rust);
        }
    }
}

fn print_curve(side: &str, curve: &[&Row], of: impl Fn(Times) -> f64) {
    print!("{:<15} {:<16} {side:<8}", curve[0].call, curve[0].input);
    for row in curve {
        print!(" {:>9.2}", of(row.times) * 1e9 / row.lines as f64);
    }
    let per_further_line =
        |from: &Row, to: &Row| (of(to.times) - of(from.times)) / (to.lines - from.lines) as f64;
    match curve[curve.len() - 3..] {
        [few, more, most] => {
            let growth = per_further_line(more, most) / per_further_line(few, more);
            println!(" {growth:>9.2}");
        }
        _ => println!(),
    }
}
