//! How far a comparison is, from time to time on standard error.

use std::cell::RefCell;
use std::io::{IsTerminal, stderr};
use std::path::{Path, PathBuf};
use std::time::{Duration, Instant};
use std::{env, fs};

/// Where make keeps the times of runs; a run elsewhere keeps none.
const BUILD: &str = "build";

/// A whole run.
struct Run {
    compared: u64,
    seconds: u64,
}

struct Progress {
    /// The last run of the same name, and where it is kept.
    last: Option<Run>,
    kept: PathBuf,
    /// Of the groups that are done.
    compared: u64,
    different: u64,
    began: Instant,
    shown: Instant,
    is_moving: bool,
}

thread_local! {
    static PROGRESS: RefCell<Progress> = RefCell::new(Progress {
        last: None,
        kept: PathBuf::new(),
        compared: 0,
        different: 0,
        began: Instant::now(),
        shown: Instant::now(),
        is_moving: is_moving(),
    });
}

/// Whether standard error is a terminal on which a line can be written over.
fn is_moving() -> bool {
    stderr().is_terminal() && env::var("TERM").is_ok_and(|term| term != "dumb")
}

fn read(kept: &Path) -> Option<Run> {
    let text = fs::read_to_string(kept).ok()?;
    let mut numbers = text.split_whitespace().map(|word| word.parse().ok());
    Some(Run {
        compared: numbers.next()??,
        seconds: numbers.next()??,
    })
}

fn clock(seconds: u64) -> String {
    format!("{}:{:02}", seconds / 60, seconds % 60)
}

/// Begins a run of a name, under which the last one is looked up.
pub fn begin(name: &str) {
    PROGRESS.with_borrow_mut(|progress| {
        progress.kept = Path::new(BUILD).join("times").join(name);
        progress.last = read(&progress.kept);
    });
}

/// Ends it, and keeps how long it was. Where that cannot be written, the next run shows less.
pub fn end() {
    PROGRESS.with_borrow(|progress| {
        if !Path::new(BUILD).is_dir() {
            return;
        }
        let seconds = progress.began.elapsed().as_secs();
        let _ = progress.kept.parent().map(fs::create_dir_all);
        let _ = fs::write(&progress.kept, format!("{} {seconds}\n", progress.compared));
    });
}

/// Shows the group that is running, its queries and differences added to those before, and the
/// time so far, with what is left by the last run: each second on a terminal, else each ten.
pub fn show(group: &str, compared: u64, different: u64) {
    PROGRESS.with_borrow_mut(|progress| {
        let every = if progress.is_moving { 1 } else { 10 };
        if progress.shown.elapsed() < Duration::from_secs(every) {
            return;
        }
        progress.shown = Instant::now();
        let compared = progress.compared + compared;
        let different = progress.different + different;
        let seconds = progress.began.elapsed().as_secs();
        let (of_all, left) = match &progress.last {
            Some(last) => (
                format!(" of {}", last.compared),
                format!(
                    ", about {} left",
                    clock(last.seconds.saturating_sub(seconds))
                ),
            ),
            None => Default::default(),
        };
        let time = clock(seconds);
        let line =
            format!("{compared}{of_all} compared, {different} different ({time}{left}): {group}");
        match progress.is_moving {
            true => eprint!("\r\x1b[K{line}"),
            false => eprintln!("{line}"),
        }
    });
}

/// Adds a group that is done.
pub fn add(compared: u64, different: u64) {
    PROGRESS.with_borrow_mut(|progress| {
        progress.compared += compared;
        progress.different += different;
        if progress.is_moving {
            eprint!("\r\x1b[K");
        }
    });
}
