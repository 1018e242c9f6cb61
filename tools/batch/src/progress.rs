//! How far a run is: one line that is written again and again on a terminal, and nothing elsewhere.

use std::io::{self, IsTerminal, Write};
use std::os::unix::process::parent_id;
use std::sync::atomic::{AtomicUsize, Ordering};
use std::thread;
use std::time::{Duration, Instant};

use crate::words::grouped;

pub struct Progress {
    all: usize,
    done: AtomicUsize,
    began: Instant,
    parent: u32,
}

impl Progress {
    pub fn of(all: usize) -> Progress {
        Progress {
            all,
            done: AtomicUsize::new(0),
            began: Instant::now(),
            parent: parent_id(),
        }
    }

    pub fn step(&self) {
        self.done.fetch_add(1, Ordering::Relaxed);
    }

    pub fn end(&self) {
        self.done.store(self.all, Ordering::Relaxed);
    }

    fn done(&self) -> usize {
        self.done.load(Ordering::Relaxed)
    }

    pub fn seconds(&self) -> f64 {
        self.began.elapsed().as_secs_f64()
    }

    /// Until all is done. Where the command that started this program is gone, so is who reads its report.
    pub fn show(&self) {
        let terminal = io::stderr().is_terminal();
        while self.done() < self.all {
            thread::park_timeout(Duration::from_millis(100));
            if parent_id() != self.parent {
                std::process::exit(2);
            }
            if terminal {
                say_over(&line(self.done(), self.all, self.seconds()));
            }
        }
        clear();
    }
}

/// Takes the line away, where there is one.
pub fn clear() {
    if io::stderr().is_terminal() {
        say_over("");
    }
}

/// Replaces the terminal's last line; a terminal that is gone is no fault.
fn say_over(text: &str) {
    let _ = write!(io::stderr(), "\r\x1b[K{text}");
}

fn line(done: usize, all: usize, seconds: f64) -> String {
    let mut text = format!("{} of {} cases", grouped(done), grouped(all));
    if done > 0 && seconds > 0.0 {
        let rate = done as f64 / seconds;
        let left = (all - done) as f64 / rate;
        text.push_str(&format!(
            ", {} a second, {} left",
            grouped(rate as usize),
            span(left)
        ));
    }
    text
}

/// A time that is still to come, rounded up.
fn span(seconds: f64) -> String {
    let seconds = seconds.ceil() as usize;
    match seconds {
        0..60 => format!("{seconds} s"),
        60..3600 => format!("{} min {} s", seconds / 60, seconds % 60),
        _ => format!("{} h {} min", grouped(seconds / 3600), seconds % 3600 / 60),
    }
}

#[cfg(test)]
mod tests {
    use super::*;

    #[test]
    fn lines() {
        assert_eq!(line(0, 1000, 0.0), "0 of 1,000 cases");
        assert_eq!(
            line(500, 1000, 1.0),
            "500 of 1,000 cases, 500 a second, 1 s left"
        );
        assert_eq!(
            line(1, 100, 1.0),
            "1 of 100 cases, 1 a second, 1 min 39 s left"
        );
        assert_eq!(span(7260.0), "2 h 1 min");
    }
}
