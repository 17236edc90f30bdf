//! A progress line on standard error for work that takes longer than a few seconds.

use std::io::{self, IsTerminal, Write};
use std::time::{Duration, Instant};

const EVERY: Duration = Duration::from_secs(2);

/// Counts work done, and says every two seconds how far it is: on one line of a terminal, else a line each.
pub struct Progress {
    what: &'static str,
    total: u64,
    start: Instant,
    next: Instant,
    shown: bool,
}

impl Progress {
    pub fn new(what: &'static str, total: u64) -> Progress {
        let start = Instant::now();
        Progress {
            what,
            total,
            start,
            next: start + EVERY,
            shown: false,
        }
    }

    /// So much is done.
    pub fn done(&mut self, count: u64) {
        let now = Instant::now();
        if now < self.next {
            return;
        }
        self.next = now + EVERY;
        self.shown = true;
        let text = format!(
            "{} of {} {}, {} s",
            count,
            self.total,
            self.what,
            (now - self.start).as_secs()
        );
        if io::stderr().is_terminal() {
            eprint!("\r{text}");
            // A progress line that cannot be written is no failure.
            let _ = io::stderr().flush();
        } else {
            eprintln!("{text}");
        }
    }
}

/// Ends the line of a terminal.
impl Drop for Progress {
    fn drop(&mut self) {
        if self.shown && io::stderr().is_terminal() {
            eprintln!();
        }
    }
}
