//! Plays DCCP ends of this library beside those of Linux, and prints a line of a table a case: interop MACHINE CAPTURES CASE.. The folder MACHINE
//! holds the sockets of a machine that `interop/linux` has started; CAPTURES takes a capture a case. Without words it prints the names of the cases.

mod cases;
mod kernel;
mod own;
mod wire;

use cases::{Case, Outcome};
use kernel::Kernel;
use own::OwnEnd;
use std::error::Error;
use std::io;
use std::path::Path;
use std::process::ExitCode;
use std::time::{Duration, Instant};
use wire::Wire;

/// How a case ended.
struct Row {
    name: &'static str,
    seconds: f64,
    outcome: Result<Outcome, String>,
    faults: Vec<String>,
}

fn played(
    case: &Case,
    wire: &mut Wire,
    kernel: &mut Kernel,
    captures: &Path,
) -> Result<Outcome, Box<dyn Error>> {
    let capture = captures.join(format!("{}.pcap", case.name));
    wire.begin(&capture, case.path)?;
    let mut told = None;
    if let Some(words) = &case.kernel {
        kernel.start(words)?;
        if words.starts_with("server") {
            kernel.wait_for_listening()?;
        }
    }
    let own = OwnEnd::new(&case.plan, wire)?;
    let has_kernel = case.kernel.is_some();
    let counts = own.play(|| {
        if told.is_none() && has_kernel {
            told = kernel.told();
        }
        told.is_some()
    })?;
    let kernel_told = if has_kernel {
        kernel.wait(told, case.patience)?
    } else {
        Default::default()
    };
    wire.end()?;
    Ok(Outcome {
        own: counts,
        kernel: kernel_told,
        sent: wire.sent.clone(),
        came: wire.came.clone(),
        speakers: wire.speakers,
    })
}

fn row(case: &Case, wire: &mut Wire, kernel: &mut Kernel, captures: &Path) -> Row {
    let begun = Instant::now();
    let outcome = played(case, wire, kernel, captures).map_err(|it| it.to_string());
    let faults = match &outcome {
        Ok(outcome) => (case.verdict)(case, outcome),
        Err(fault) => vec![fault.clone()],
    };
    Row {
        name: case.name,
        seconds: begun.elapsed().as_secs_f64(),
        outcome,
        faults,
    }
}

fn print(row: &Row) {
    let (ours, theirs, end) = row.outcome.as_ref().map_or_else(
        |_| ("-".to_string(), "-".to_string(), "-".to_string()),
        |it| {
            let code = it
                .own
                .ended
                .map_or("-".to_string(), |code| code.to_string());
            (
                format!("{} / {}", it.own.sent, it.kernel.received),
                format!("{} / {}", it.kernel.sent, it.own.received),
                format!("{code}, {}", it.kernel.end),
            )
        },
    );
    let verdict = if row.faults.is_empty() {
        "passed".to_string()
    } else {
        format!("FAILED: {}", row.faults.join("; "))
    };
    println!(
        "| {} | {ours} | {theirs} | {end} | {:.1} | {verdict} |",
        row.name, row.seconds
    );
}

fn run() -> Result<bool, Box<dyn Error>> {
    let every = cases::every();
    let words: Vec<String> = std::env::args().skip(1).collect();
    let [machine, captures, names @ ..] = words.as_slice() else {
        every.iter().for_each(|it| println!("{}", it.name));
        return Ok(true);
    };
    let (machine, captures) = (Path::new(machine), Path::new(captures));
    let mut wire = Wire::over(&machine.join("packets"))?;
    let mut kernel = Kernel::over(&machine.join("words"))?;
    let mut all_passed = true;
    for case in every
        .iter()
        .filter(|it| names.iter().any(|name| it.name == name))
    {
        // What an earlier case has left under way settles.
        std::thread::sleep(Duration::from_millis(300));
        let row = row(case, &mut wire, &mut kernel, captures);
        print(&row);
        all_passed &= row.faults.is_empty();
    }
    Ok(all_passed)
}

fn main() -> ExitCode {
    match run() {
        Ok(true) => ExitCode::SUCCESS,
        Ok(false) => ExitCode::FAILURE,
        Err(fault) => {
            let fault: &dyn Error = fault.as_ref();
            eprintln!("interop: {fault}");
            // A machine that does not answer is no verdict.
            ExitCode::from(if fault.is::<io::Error>() { 3 } else { 2 })
        }
    }
}
