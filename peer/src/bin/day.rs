//! Writes a day of random messages, back to back, to standard output: `day SEED COUNT [SHAPE] [--wrong] [--counts]`.
//!
//! The same arguments always give the same day. With `--wrong` its last message is wrong; with `--counts` it says on
//! standard error how often each thing occurs in the day, right messages all, FIFO and pro-rata.

use std::io::{self, Write};
use std::process::ExitCode;

use peer::day::{Day, Shape};
use peer::policies::{fifo, pro_rata};
use peer::tally::{Tally, LABELS};

/// What the caller asks for.
struct Wanted {
    seed: u32,
    count: usize,
    shape: Option<Shape>,
    wrong: bool,
    counts: bool,
}

fn main() -> ExitCode {
    let arguments: Vec<String> = std::env::args().skip(1).collect();
    let Some(wanted) = wanted(&arguments) else {
        eprintln!("usage: day SEED COUNT [SHAPE] [--wrong] [--counts]");
        eprintln!("shapes: {}", Shape::ALL.map(Shape::name).join(" "));
        return ExitCode::from(2);
    };
    match write_day(&wanted) {
        Ok(()) => ExitCode::SUCCESS,
        Err(error) => {
            eprintln!("day: {error}");
            ExitCode::FAILURE
        }
    }
}

fn wanted(arguments: &[String]) -> Option<Wanted> {
    let (flags, plain): (Vec<&str>, Vec<&str>) =
        arguments.iter().map(String::as_str).partition(|argument| argument.starts_with('-'));
    let has = |flag| flags.contains(&flag);
    let (seed, count, shape) = match plain[..] {
        [seed, count] => (seed, count, None),
        [seed, count, shape] => (seed, count, Some(Shape::named(shape)?)),
        _ => return None,
    };
    if flags.iter().any(|flag| !["--wrong", "--counts"].contains(flag)) {
        return None;
    }
    let (seed, count) = (seed.parse().ok()?, count.parse().ok()?);
    Some(Wanted { seed, count, shape, wrong: has("--wrong"), counts: has("--counts") })
}

fn write_day(wanted: &Wanted) -> io::Result<()> {
    let day = Day::new(wanted.seed, wanted.count, wanted.shape);
    if wanted.counts {
        io::stderr().lock().write_all(counts(&day).as_bytes())?;
    }
    let messages = if wanted.wrong { day.messages_with_wrong_end(wanted.seed) } else { day.messages() };
    io::stdout().lock().write_all(&messages)
}

/// What occurs in the day, and the commands of each shape.
fn counts(day: &Day) -> String {
    let (queue, share) = (Tally::of(day, fifo), Tally::of(day, pro_rata));
    let row = |label: &str| format!("{label:<34} {:>6} {:>6}\n", queue.count(label), share.count(label));
    let shape_row = |shape: Shape| format!("commands of shape {:<16} {:>6}\n", shape.name(), queue.count(shape.name()));
    let header = format!("{:<34} {:>6} {:>6}\n", "", "queue", "share");
    header + &LABELS.map(row).concat() + &Shape::ALL.map(shape_row).concat()
}
