//! Long work: one question to a proved function for each of many numbers, over the machine's cores, with the part done on a terminal.

use std::io::{self, IsTerminal, Write};
use std::sync::Mutex;
use std::sync::atomic::{AtomicUsize, Ordering};
use std::thread;
use std::time::{Duration, Instant};

/// How long nothing is shown at first, and between two lines.
const PAUSE: Duration = Duration::from_millis(200);

/// The answers for the numbers, in their order. Each core lends its own tables to the questions it asks.
pub fn ask_all<T: Send, Lent>(
    what: &str,
    numbers: &[u32],
    lent: impl Fn() -> Lent + Sync,
    ask: impl Fn(&mut Lent, u32) -> T + Sync,
) -> Vec<T> {
    let progress = Progress {
        what,
        total: numbers.len(),
        done: AtomicUsize::new(0),
        shown: Mutex::new(Instant::now()),
        is_terminal: io::stderr().is_terminal(),
    };
    let answered = &|numbers: &[u32]| {
        let mut lent = lent();
        let answer = |number: &u32| {
            let answer = ask(&mut lent, *number);
            progress.step();
            answer
        };
        numbers.iter().map(answer).collect::<Vec<T>>()
    };
    let cores = thread::available_parallelism().map_or(1, |cores| cores.get());
    let share = numbers.len().div_ceil(cores).max(1);
    let answers = thread::scope(|scope| {
        let start = |share| scope.spawn(move || answered(share));
        let shares: Vec<_> = numbers.chunks(share).map(start).collect();
        let answers = shares.into_iter().map(|share| share.join());
        answers
            .flat_map(|answers| answers.expect("a share of them"))
            .collect()
    });
    progress.end();
    answers
}

struct Progress<'a> {
    what: &'a str,
    total: usize,
    done: AtomicUsize,
    shown: Mutex<Instant>,
    is_terminal: bool,
}

impl Progress<'_> {
    fn step(&self) {
        let done = self.done.fetch_add(1, Ordering::Relaxed) + 1;
        if !self.is_terminal {
            return;
        }
        if let Ok(mut shown) = self.shown.try_lock()
            && shown.elapsed() >= PAUSE
        {
            *shown = Instant::now();
            let part = done * 100 / self.total;
            let _ = write!(io::stderr(), "\r{}: {part} % of {} ", self.what, self.total);
        }
    }

    /// Takes the line away.
    fn end(&self) {
        if self.is_terminal {
            let _ = write!(io::stderr(), "\r\x1b[K");
        }
    }
}
