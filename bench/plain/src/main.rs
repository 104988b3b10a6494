//! plain: the work of chihome in plain Rust, to be timed beside it.
//!
//!     plain [run]
//!     plain race [--workers N]

use plain::engine::work;
use plain::fault::Fault;
use plain::race::race;
use plain::script::read_script;
use std::env;
use std::io::{self, BufWriter, Read, Write};
use std::process::ExitCode;

const MOST_BYTES: usize = 4_194_304;

/// What is done with a script: its requests are worked one after another, or raced by so many workers.
enum Task {
    Run,
    Race(u8),
}

impl Task {
    fn of(words: &[&str]) -> Option<Task> {
        match words {
            [] | ["run"] => Some(Task::Run),
            ["race"] => Some(Task::Race(2)),
            ["race", "--workers", count] => {
                let count = count.parse().ok()?;
                (1..=7).contains(&count).then_some(Task::Race(count))
            }
            _ => None,
        }
    }

    /// The greatest number of a requester.
    fn most_src(&self) -> u64 {
        match self {
            Task::Run => 7,
            Task::Race(workers) => u64::from(*workers),
        }
    }
}

fn read_input() -> Result<Vec<u8>, Fault> {
    let mut text = Vec::new();
    io::stdin()
        .lock()
        .take(MOST_BYTES as u64 + 1)
        .read_to_end(&mut text)
        .map_err(|_| Fault::Read)?;
    if text.len() > MOST_BYTES {
        return Err(Fault::TooLong);
    }
    Ok(text)
}

fn execute(task: &Task) -> Result<(), Fault> {
    let script = read_script(&read_input()?, task.most_src())?;
    let mut to = BufWriter::new(io::stdout().lock());
    match task {
        Task::Run => work(&script, &mut to),
        Task::Race(workers) => race(&script, *workers, &mut to),
    }
    .and_then(|()| to.flush())
    .map_err(|_| Fault::Write)
}

fn main() -> ExitCode {
    let words: Vec<String> = env::args().skip(1).collect();
    let words: Vec<&str> = words.iter().map(String::as_str).collect();
    let Some(task) = Task::of(&words) else {
        eprintln!("usage: plain [run] or plain race [--workers N]");
        return ExitCode::from(2);
    };
    match execute(&task) {
        Ok(()) => ExitCode::SUCCESS,
        Err(fault) => {
            eprintln!("chihome: {fault}");
            ExitCode::from(fault.status())
        }
    }
}
