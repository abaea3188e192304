//! Runs the table of edges and every entry, or those that are named, and says what was compared. DIFF_SEED, DIFF_CALLS
//! and DIFF_SECONDS (for each entry) change the run. `sample FILE` writes the fixed sample of the Rust's answers
//! instead.

use std::{
    env, fs,
    process::ExitCode,
    str::FromStr,
    sync::Mutex,
    thread,
    time::{Duration, Instant},
};

use differential::{
    edges, entries, linked,
    run::{Budget, Report, Task},
    sample,
};

const THREADS: usize = 2;

fn variable<T: FromStr>(name: &str, usual: T) -> T {
    env::var(name).ok().and_then(|v| v.parse().ok()).unwrap_or(usual)
}

fn main() -> ExitCode {
    let named: Vec<String> = env::args().skip(1).collect();
    if let [word, file] = &named[..] {
        if word == "sample" {
            let bytes: Vec<u8> = sample::words().iter().flat_map(|w| w.to_le_bytes()).collect();
            fs::write(file, &bytes).expect("a file that can be written");
            println!("{} bytes written to {file}", bytes.len());
            return ExitCode::SUCCESS;
        }
    }
    let budget = Budget {
        seed: variable("DIFF_SEED", 20_260_902),
        calls: variable("DIFF_CALLS", 1_000_000),
        time: Duration::from_secs(variable("DIFF_SECONDS", 60)),
    };
    let asked = |name: &str| named.is_empty() || named.iter().any(|n| n == name);
    let port = linked::port();
    let mut tasks = entries::all(&port);
    tasks.retain(|t| asked(t.name));
    let (calls, seconds) = (budget.calls, budget.time.as_secs());
    println!("differential: seed {}, for each entry {calls} calls or {seconds} s, whichever is less", budget.seed);
    say_linked(&tasks);
    let mut failures = Vec::new();
    if asked("edges") {
        edges::check(&port).map_or_else(|wrong| failures.push(wrong), |said| println!("{said}"));
    }
    let start = Instant::now();
    let reports = run_all(tasks, &budget);
    println!("{} s in all on {THREADS} threads", start.elapsed().as_secs());
    failures.extend(reports.into_iter().filter_map(|r| r.failure));
    for text in &failures {
        println!("FAILED: {text}");
    }
    match failures.len() {
        0 => ExitCode::SUCCESS,
        _ => ExitCode::FAILURE,
    }
}

fn say_linked(tasks: &[Task]) {
    let names = |linked: bool| -> String {
        let names: Vec<&str> = tasks.iter().filter(|t| t.linked == linked).map(|t| t.name).collect();
        if names.is_empty() {
            "none".into()
        } else {
            names.join(", ")
        }
    };
    println!("entries of the port that are linked: {}", names(true));
    println!("not linked, so that the model alone meets the Rust: {}", names(false));
}

/// Each entry taken by the next free thread, and said when it is done.
fn run_all(tasks: Vec<Task>, budget: &Budget) -> Vec<Report> {
    println!(
        "{:<32} {:>9} {:>9} {:>9} {:>9} {:>8} {:>6}  refused, by number",
        "entry", "calls", "accepted", "= Rust", "= port", "skipped", "s"
    );
    let queue = Mutex::new(tasks.iter());
    let done = Mutex::new(Vec::new());
    thread::scope(|s| {
        for _ in 0..THREADS {
            s.spawn(|| loop {
                let next = queue.lock().expect("no thread panics").next();
                let Some(task) = next else { break };
                let report = (task.run)(budget);
                say(&report);
                done.lock().expect("no thread panics").push(report);
            });
        }
    });
    done.into_inner().expect("no thread panics")
}

fn say(r: &Report) {
    let refused: Vec<String> =
        (1..r.refused.len()).filter(|n| r.refused[*n] > 0).map(|n| format!("{n}: {}", r.refused[n])).collect();
    println!(
        "{:<32} {:>9} {:>9} {:>9} {:>9} {:>8} {:>6.1}  {}",
        r.name,
        r.calls,
        r.accepted,
        r.against_rust,
        r.against_port,
        r.skipped,
        r.seconds,
        refused.join(", ")
    );
}
