//! How far a long file is, on a terminal.

use std::io::Write;
use std::time::{Duration, Instant};

/// Nothing is shown of what takes less.
const PATIENCE: Duration = Duration::from_millis(400);

pub struct Progress<'a> {
    out: &'a mut dyn Write,
    enabled: bool,
    patience: Duration,
    last: Instant,
    shown: bool,
}

impl<'a> Progress<'a> {
    pub fn new(out: &'a mut dyn Write, enabled: bool) -> Progress<'a> {
        Progress { out, enabled, patience: PATIENCE, last: Instant::now(), shown: false }
    }

    /// Says how much of the file is done, if it did not just say so. What cannot be shown is left out.
    pub fn at(&mut self, what: &str, done: usize, total: usize) {
        if self.enabled && self.last.elapsed() >= self.patience {
            let percent = done as u64 * 100 / (total as u64).max(1);
            let _ = write!(self.out, "\r{what} {percent}%\x1b[K");
            let _ = self.out.flush();
            self.last = Instant::now();
            self.shown = true;
        }
    }

    /// Makes room for a line.
    pub fn clear(&mut self) {
        if self.shown {
            let _ = write!(self.out, "\r\x1b[K");
            let _ = self.out.flush();
            self.shown = false;
        }
    }
}

#[cfg(test)]
mod tests {
    use super::*;

    fn shown(enabled: bool, patience: Duration) -> String {
        let mut out = Vec::new();
        let mut progress = Progress { patience, ..Progress::new(&mut out, enabled) };
        progress.at("reading", 1, 2);
        progress.clear();
        progress.clear();
        String::from_utf8(out).unwrap()
    }

    #[test]
    fn only_on_a_terminal_and_after_a_while() {
        assert_eq!(shown(true, Duration::ZERO), "\rreading 50%\u{1b}[K\r\u{1b}[K");
        assert_eq!(shown(false, Duration::ZERO), "");
        assert_eq!(shown(true, Duration::from_secs(60)), "");
    }
}
