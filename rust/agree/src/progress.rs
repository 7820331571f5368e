//! How far a long comparison is, where someone is looking: on standard error, if that is a
//! terminal, and nowhere else.

use std::io::{IsTerminal, stderr};
use std::time::{Duration, Instant};

/// A line stands this long at least.
const PAUSE: Duration = Duration::from_millis(100);

/// Back to the line's start, and the line erased.
const ERASE: &str = "\r\x1b[K";

/// The items of a list, and a line that says how many of them are done. The line goes when the
/// list does.
pub struct Progress<I> {
    items: I,
    total: usize,
    handed_out: usize,
    start: Instant,
    /// When the line was written; `None` if nobody is looking.
    shown: Option<Instant>,
}

impl<I: Iterator> Progress<I> {
    /// The items, which should be so many.
    pub fn new(items: I, total: usize) -> Progress<I> {
        let start = Instant::now();
        Progress {
            items,
            total,
            handed_out: 0,
            start,
            shown: stderr().is_terminal().then_some(start),
        }
    }

    /// Writes the line, if there is one and the last has stood for long enough.
    fn show(&mut self) {
        if let Some(shown) = &mut self.shown
            && shown.elapsed() >= PAUSE
        {
            *shown = Instant::now();
            let line = line(self.handed_out, self.total, self.start.elapsed());
            eprint!("{ERASE}{line}");
        }
    }
}

impl<I: Iterator> Iterator for Progress<I> {
    type Item = I::Item;

    fn next(&mut self) -> Option<I::Item> {
        self.show();
        let item = self.items.next()?;
        self.handed_out += 1;
        Some(item)
    }
}

impl<I> Drop for Progress<I> {
    fn drop(&mut self) {
        if self.shown.is_some() {
            eprint!("{ERASE}");
        }
    }
}

/// So many done of all, the share, and the time left if the rest goes as fast.
fn line(done: usize, total: usize, elapsed: Duration) -> String {
    let percent = 100 * done / total.max(1);
    let mut text = format!("{done} of {total}, {percent} %");
    if done > 0 {
        let rest = total.saturating_sub(done) as f64 / done as f64;
        let seconds = elapsed.as_secs_f64() * rest;
        text += &format!(", {} left", time(seconds.ceil() as u64));
    }
    text
}

fn time(seconds: u64) -> String {
    match (seconds / 3_600, seconds / 60 % 60, seconds % 60) {
        (0, 0, seconds) => format!("{seconds} s"),
        (0, minutes, seconds) => format!("{minutes} min {seconds} s"),
        (hours, minutes, _) => format!("{hours} h {minutes} min"),
    }
}

#[cfg(test)]
mod tests {
    use super::*;

    #[test]
    fn lines() {
        let second = Duration::from_secs(1);
        assert_eq!(line(0, 200, second), "0 of 200, 0 %");
        assert_eq!(line(50, 200, 10 * second), "50 of 200, 25 %, 30 s left");
        assert_eq!(line(1, 201, second), "1 of 201, 0 %, 3 min 20 s left");
        assert_eq!(line(1, 7_201, second), "1 of 7201, 0 %, 2 h 0 min left");
        assert_eq!(line(200, 200, second), "200 of 200, 100 %, 0 s left");
        assert_eq!(line(199, 200, second), "199 of 200, 99 %, 1 s left");
        assert_eq!(line(0, 0, second), "0 of 0, 0 %");
    }

    #[test]
    fn every_item_comes_once() {
        let items: Vec<usize> = Progress::new(0..7, 7).collect();
        assert_eq!(items, [0, 1, 2, 3, 4, 5, 6]);
    }
}
