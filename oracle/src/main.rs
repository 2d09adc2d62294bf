//! Compares librikkovan.a with the original clock code, and its tasks, guarded change,
//! reading of fit and moments with documents 01 and 02; records the answers, and measures both.

mod bench;
mod bench_calls;
mod change_inputs;
mod compare;
mod compare_booking;
mod compare_booking_refused;
mod compare_change;
mod compare_change_refused;
mod compare_config;
mod compare_config_plans;
mod compare_damaged;
mod compare_fit;
mod compare_head;
mod compare_lists;
mod compare_load;
mod compare_lpsys;
mod compare_moment;
mod compare_plan;
mod config_inputs;
mod config_plans;
mod groups;
mod heads;
mod lpsys_inputs;
mod ours;
mod plans;
mod progress;
mod read;
mod record;
mod record_change;
mod record_config;
mod record_head;
mod record_lpsys;
mod record_plan;
mod record_tasks;
mod tally;
mod task_inputs;

use compare::Extent;
use sifli::delay::Delay;
use sifli::query::Owned;
use std::env;
use std::path::Path;
use std::process::ExitCode;
use std::time::{SystemTime, UNIX_EPOCH};

const USAGE: &str = "\
usage: oracle compare [--quick] [--count N] [--seconds N] [--seed N|random]
                      [--only PART].. [--table]
       oracle query LINE
       oracle record DIR
       oracle bench

compare  every call of librikkovan.a against the original code, or against
         documents 01 and 02 where that has not the call; delays by document 02's
         rule, rounded up. Exit status 1 on a difference, an answer or a delay that
         never came, or a broken clause of demand 3.
         --quick: a bounded part. --count N: N queries of each random group.
         --seconds N: each random group goes on for N seconds at least. --seed: what
         the random groups are drawn from. --only PART: plan, heads, lpsys, config,
         tasks or change; may be given several times. --table: only the tables.
query    one query by both sides, and the delays that the original rounds down. LINE
         is one that compare printed, or a line that record wrote.
record   writes DIR/NAME.txt for each call: what it is given, in hex, and the answers
         to it.
bench    nanoseconds per call of librikkovan.a, beside the original and the models.";

fn main() -> ExitCode {
    sifli::caught::quiet();
    let arguments: Vec<String> = env::args().skip(1).collect();
    let arguments: Vec<&str> = arguments.iter().map(String::as_str).collect();
    match arguments.as_slice() {
        ["compare", options @ ..] => match extent(options) {
            Some((extent, only)) => status(compare::run(extent, &only) == 0),
            None => usage(),
        },
        ["query", words @ ..] if !words.is_empty() => query(&words.join(" ")),
        ["record", directory] => record(directory),
        ["bench"] => {
            bench::run();
            ExitCode::SUCCESS
        }
        _ => usage(),
    }
}

/// What is compared, and of which parts; nothing where an option is wrong.
fn extent<'a>(options: &[&'a str]) -> Option<(Extent, Vec<&'a str>)> {
    let mut extent = Extent::default();
    let mut only = Vec::new();
    let mut options = options.iter();
    while let Some(option) = options.next() {
        match *option {
            "--quick" => extent.quick = true,
            "--table" => extent.is_table = true,
            "--count" => extent.count = Some(options.next()?.parse().ok()?),
            "--seconds" => extent.seconds = options.next()?.parse().ok()?,
            "--seed" => extent.seed = seed(options.next()?)?,
            "--only" => only.push(
                *options
                    .next()
                    .filter(|part| compare::PARTS.contains(part))?,
            ),
            _ => return None,
        }
    }
    Some((extent, only))
}

/// A number, or one from the clock.
fn seed(text: &str) -> Option<u64> {
    match text {
        "random" => {
            let now = SystemTime::now().duration_since(UNIX_EPOCH).ok()?;
            Some(now.as_nanos() as u64)
        }
        number => number.parse().ok(),
    }
}

fn query(line: &str) -> ExitCode {
    let query = match Owned::parse(line) {
        Ok(query) => query,
        Err(error) => return fail(&error),
    };
    let (ours, wanted) = (ours::ours(&query.query()), query.query().wanted());
    println!("wanted   {}", record::answer_text(query.call, &wanted));
    println!("rikkovan {}", record::answer_text(query.call, &ours));
    if ours != wanted {
        println!("wanted where it differs   {}", ours.beside(&wanted));
        println!("rikkovan where it differs {}", wanted.beside(&ours));
    }
    for delay in wanted.delays.iter().filter(|delay| delay.is_longer()) {
        let Delay {
            place, original, ..
        } = delay;
        println!("the Rust  journal[{place}] {original:08X}, rounded down");
    }
    status(ours == wanted)
}

fn record(directory: &str) -> ExitCode {
    match record::run(Path::new(directory)) {
        Ok(()) => ExitCode::SUCCESS,
        Err(error) => fail(&error.to_string()),
    }
}

fn status(is_good: bool) -> ExitCode {
    match is_good {
        true => ExitCode::SUCCESS,
        false => ExitCode::FAILURE,
    }
}

fn fail(error: &str) -> ExitCode {
    eprintln!("oracle: {error}");
    ExitCode::FAILURE
}

fn usage() -> ExitCode {
    eprintln!("{USAGE}");
    ExitCode::from(2)
}
