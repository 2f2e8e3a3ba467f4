//! Paths between two ends of the library, in counted time: what each carries in the classic manner, by itself with no wishes, and by the
//! reference, an owner of a classic end that keeps the same rules and was written apart.
//!
//! - `rows [NAME..]` prints the table, and ends with 1 if a row misses its figure;
//! - `loopback` measures two paths over real sockets, and ends with 1 if one is far from the same path in counted time;
//! - `pictures FOLDER [NAME..]` writes of each row the course of a run, as SVG.

mod end;
mod ends;
mod frame;
mod link;
mod loopback;
mod owner;
mod picture;
mod random;
mod rows;
mod rules;
mod run;

use crate::ends::Manner;
use crate::rows::{Result, Row, rows};
use crate::run::{Load, Manners, Outcome, Sender, run};
use std::env;
use std::fs;
use std::path::Path;
use std::process::ExitCode;
use std::sync::Mutex;
use std::sync::atomic::{AtomicUsize, Ordering};
use std::thread;

fn main() -> ExitCode {
    let words: Vec<String> = env::args().skip(1).collect();
    let words: Vec<&str> = words.iter().map(String::as_str).collect();
    match words.as_slice() {
        ["rows", names @ ..] => named(names).map_or_else(refused, |rows| table(&rows)),
        ["loopback"] => loopback(),
        ["pictures", folder, names @ ..] => {
            named(names).map_or_else(refused, |rows| pictures(Path::new(folder), &rows))
        }
        _ => refused(),
    }
}

fn refused() -> ExitCode {
    eprintln!("usage: simulator rows [NAME..] | loopback | pictures FOLDER [NAME..]");
    ExitCode::from(2)
}

/// The rows of these names, or all if none is named; None if no row has one of the names.
fn named(names: &[&str]) -> Option<Vec<Row>> {
    let all = rows();
    let is_known = |name: &&str| all.iter().any(|row| row.name == **name);
    if !names.iter().all(is_known) {
        return None;
    }
    let is_wanted = |row: &Row| names.is_empty() || names.contains(&row.name.as_str());
    Some(all.into_iter().filter(is_wanted).collect())
}

/// The manners of client and server.
fn manners(row: &Row, manner: Manner) -> Manners {
    if !row.has_classic_peer {
        return (manner, manner);
    }
    match row.scenario.sender {
        Sender::Client | Sender::ToFlow => (manner, Manner::Classic),
        Sender::Server | Sender::Flow => (Manner::Classic, manner),
    }
}

/// The columns of the table: how its ends are driven.
const COLUMNS: [Manner; 3] = [Manner::Classic, Manner::Usual, Manner::Reference];

/// Whether a row has this column: a flow that sends has no owner of this program.
fn has_column(row: &Row, manner: Manner) -> bool {
    match manner {
        Manner::Classic | Manner::Usual => true,
        Manner::Reference => row.scenario.sender != Sender::Flow,
    }
}

/// The manners that a picture shows.
const PICTURED: [Manner; 2] = [Manner::Classic, Manner::Usual];

/// Runs all seeds of all rows in all columns, on as many threads as there are processors.
fn results(rows: &[Row]) -> Vec<[Result; 3]> {
    let jobs: Vec<(usize, usize, u64)> = rows
        .iter()
        .enumerate()
        .flat_map(|(row, it)| (0..COLUMNS.len()).map(move |column| (row, it, column)))
        .filter(|&(_, it, column)| has_column(it, COLUMNS[column]))
        .map(|(row, it, column)| (row, column, it.seeds))
        .flat_map(|(row, column, seeds)| (1..=seeds).map(move |seed| (row, column, seed)))
        .collect();
    let next = AtomicUsize::new(0);
    let done: Mutex<Vec<(usize, usize, Outcome)>> = Mutex::new(Vec::new());
    thread::scope(|scope| {
        for _ in 0..thread::available_parallelism().map_or(1, usize::from) {
            scope.spawn(|| {
                while let Some(&(row, column, seed)) =
                    jobs.get(next.fetch_add(1, Ordering::Relaxed))
                {
                    let it = &rows[row];
                    let outcome = run(&it.scenario, manners(it, COLUMNS[column]), seed);
                    done.lock()
                        .expect("no thread has panicked")
                        .push((row, column, outcome));
                }
            });
        }
    });
    let mut results: Vec<[Result; 3]> = Vec::new();
    results.resize_with(rows.len(), || {
        [const {
            Result {
                outcomes: Vec::new(),
            }
        }; 3]
    });
    for (row, column, outcome) in done.into_inner().expect("no thread has panicked") {
        results[row][column].outcomes.push(outcome);
    }
    results
}

/// The share and the silence of a row, or the wait of the closing end, in words.
fn figures(row: &Row, it: &Result) -> (String, String) {
    if it.outcomes.is_empty() {
        return ("-".to_owned(), "-".to_owned());
    }
    match row.scenario.load {
        Load::Close => ("-".to_owned(), format!("{:.0}", it.closing())),
        Load::Always(_) | Load::Voice(..) => (
            format!("{:.3}", it.share(&row.scenario)),
            format!("{:.0}", it.silence()),
        ),
    }
}

/// Prints the table; the status is 1 if a row misses a figure, by itself or by the reference.
fn table(rows: &[Row]) -> ExitCode {
    let mut misses = Vec::new();
    println!(
        "{:62} classic              by itself           reference",
        ""
    );
    println!(
        "{:<18} {:<42} {:>6} {:>8} {:>10} {:>8} {:>8} {:>6} {:>8} {:>10} {:>8}",
        "row",
        "path",
        "share",
        "silence",
        "share",
        "silence",
        "timeouts",
        "Syncs",
        "back",
        "share",
        "silence"
    );
    for (row, results) in rows.iter().zip(results(rows)) {
        let [classic, usual, reference] = &results;
        let (share, silence) = figures(row, classic);
        print!("{:<18} {:<42} {share:>6} {silence:>8}", row.name, row.title);
        let (share, silence) = figures(row, usual);
        print!(
            " {share:>10} {silence:>8} {:>8.1} {:>6.0} {:>8.0}",
            usual.timeouts(),
            usual.syncs(),
            usual.frames_back()
        );
        let (share, silence) = figures(row, reference);
        println!(" {share:>10} {silence:>8}");
        let missed = usual.misses(row).into_iter();
        misses.extend(missed.map(|it| format!("{}: {it}", row.name)));
        let missed = reference.misses(row).into_iter();
        misses.extend(missed.map(|it| format!("{} by the reference: {it}", row.name)));
    }
    for miss in &misses {
        println!("{miss}");
    }
    ExitCode::from(u8::from(!misses.is_empty()))
}

/// Measures two paths over sockets; the status is 1 if one is far from the same path in counted time.
fn loopback() -> ExitCode {
    match loopback::measure(10) {
        Ok(are_near) => ExitCode::from(u8::from(!are_near)),
        Err(fault) => {
            eprintln!("loopback: {fault}");
            ExitCode::from(2)
        }
    }
}

/// Writes a picture of the first seed of each row.
fn pictures(folder: &Path, rows: &[Row]) -> ExitCode {
    for row in rows {
        let courses = PICTURED.map(|manner| run(&row.scenario, manners(row, manner), 1).course);
        let drawn = picture::draw(row, &courses);
        if let Err(fault) = fs::write(folder.join(format!("{}.svg", row.name)), drawn.to_string()) {
            eprintln!("{}: {fault}", folder.display());
            return ExitCode::from(2);
        }
    }
    ExitCode::SUCCESS
}
