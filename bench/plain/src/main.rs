//! The forms run, replay, show and campaign of the tool, written from its pages and examples, without contracts and without a look at the
//! code of the proved crates: to measure beside them (`bench/beside`). What it writes is the same, byte for byte.

mod buffer;
mod campaign;
mod congestion;
mod endpoint;
mod features;
mod lines;
mod marks;
mod numbers;
mod options;
mod packet;
mod replay;
mod run;
mod show;
mod tell;
mod world;

use crate::lines::number;
use crate::replay::ReplaySetup;
use crate::world::Side;
use std::env;
use std::io::{self, Read, Write};
use std::process::ExitCode;

const USAGE: &str = "usage: plain run | replay --side server|client [--plain] [--buffer C] | campaign --first F --seeds N --events E --workers W | show";

/// What the words ask for.
enum Form {
    Run,
    Show,
    Replay(ReplaySetup),
    Campaign {
        first: u64,
        seeds: u64,
        events: u64,
        workers: u64,
    },
}

fn main() -> ExitCode {
    let words: Vec<String> = env::args().skip(1).collect();
    let Some(form) = form(&words) else {
        eprintln!("{USAGE}");
        return ExitCode::from(2);
    };
    match play(&form) {
        Ok(true) => ExitCode::SUCCESS,
        Ok(false) => ExitCode::from(1),
        Err(fault) => {
            eprintln!("plain: {fault}");
            ExitCode::from(3)
        }
    }
}

fn play(form: &Form) -> io::Result<bool> {
    let (mut input, mut out) = (Vec::new(), Vec::new());
    if !matches!(form, Form::Campaign { .. }) {
        io::stdin().lock().read_to_end(&mut input)?;
    }
    let is_done = match *form {
        Form::Run => run::run(&input, &mut out),
        Form::Show => show::show(&input, &mut out),
        Form::Replay(makings) => replay::replay(makings, &input, &mut out),
        Form::Campaign {
            first,
            seeds,
            events,
            workers,
        } => {
            campaign::campaign(first, seeds, events, workers, &mut out);
            true
        }
    };
    io::stdout().lock().write_all(&out)?;
    Ok(is_done)
}

fn form(words: &[String]) -> Option<Form> {
    let (verb, rest) = words.split_first()?;
    match (verb.as_str(), rest) {
        ("run", []) => Some(Form::Run),
        ("show", []) => Some(Form::Show),
        ("replay", _) => {
            let [side, is_plain, buffer] = options(rest, ["--side", "--plain", "--buffer"])?;
            let side = match side?.as_str() {
                "client" => Side::Client,
                "server" => Side::Server,
                _ => return None,
            };
            let buffer = match buffer {
                None => None,
                Some(word) => Some(within(&word, 1, 1_024)? as usize),
            };
            Some(Form::Replay(ReplaySetup {
                side,
                is_plain: is_plain.is_some(),
                buffer,
            }))
        }
        ("campaign", _) => {
            let [first, seeds, events, workers] =
                options(rest, ["--first", "--seeds", "--events", "--workers"])?;
            let (first, seeds) = (within(&first?, 0, u64::MAX)?, within(&seeds?, 1, 100_000)?);
            first.checked_add(seeds - 1)?;
            let (events, workers) = (within(&events?, 1, 4_096)?, within(&workers?, 1, 16)?);
            Some(Form::Campaign {
                first,
                seeds,
                events,
                workers,
            })
        }
        _ => None,
    }
}

fn within(word: &str, least: u64, most: u64) -> Option<u64> {
    number(word).filter(|value| (least..=most).contains(value))
}

/// The values of options in any order, each once; `--plain` has none.
fn options<const N: usize>(words: &[String], names: [&str; N]) -> Option<[Option<String>; N]> {
    let mut values = [const { None }; N];
    let mut words = words.iter();
    while let Some(word) = words.next() {
        let (name, value) = match word.split_once('=') {
            Some((name, value)) => (name, Some(value.to_owned())),
            None => (word.as_str(), None),
        };
        let at = names.iter().position(|it| *it == name)?;
        let value = match (name, value) {
            ("--plain", None) => String::new(),
            ("--plain", Some(_)) => return None,
            (_, Some(value)) => value,
            (_, None) => words.next()?.clone(),
        };
        if values[at].replace(value).is_some() {
            return None;
        }
    }
    Some(values)
}
