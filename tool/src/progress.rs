//! Progress of long work, for people: only on a terminal, only after a second, and cleared at the end.

use indicatif::{HumanCount, HumanDuration};
use indicatif::{ProgressBar, ProgressDrawTarget, ProgressState, ProgressStyle};
use std::fmt;
use std::sync::atomic::{AtomicU64, Ordering};
use std::sync::Arc;
use std::time::{Duration, Instant};

/// Work that takes less says nothing.
const PATIENCE: Duration = Duration::from_secs(1);
/// Between two looks at the count: the bar is not asked more often, since a call of it takes longer than a clock's.
const INTERVAL: Duration = Duration::from_millis(100);

/// Work that is counted in parts. Where nobody watches it costs nothing.
pub struct Progress(Option<Watched>);

impl Progress {
    /// Work of so many parts.
    pub fn new(what: &'static str, total: u64) -> Progress {
        let target = ProgressDrawTarget::stderr();
        Progress::on(target, PATIENCE, what, End::Parts(total))
    }

    /// Work that goes on for so long.
    pub fn timed(what: &'static str, duration: Duration) -> Progress {
        let target = ProgressDrawTarget::stderr();
        Progress::on(target, PATIENCE, what, End::Time(duration))
    }

    fn on(target: ProgressDrawTarget, patience: Duration, what: &'static str, end: End) -> Self {
        // What is no terminal is hidden from the start.
        let watched = !target.is_hidden();
        Progress(watched.then(|| Watched::new(target, patience, what, end)))
    }

    /// One more part is done.
    pub fn advance(&mut self) {
        self.advance_by(1);
    }

    /// So many more parts are done.
    pub fn advance_by(&mut self, parts: u64) {
        if let Some(watched) = &mut self.0 {
            watched.advance(parts, Instant::now());
        }
    }

    /// Prints something else while the bar is away, so that no line of it is written into the bar.
    pub fn aside<T>(&self, print: impl FnOnce() -> T) -> T {
        match &self.0 {
            Some(watched) => watched.bar.suspend(print),
            None => print(),
        }
    }

    /// Takes the bar away for good, where something else is to be printed before the work is dropped.
    pub fn finish(&mut self) {
        self.0 = None;
    }
}

/// When the work is over.
#[derive(Clone, Copy)]
enum End {
    Parts(u64),
    Time(Duration),
}

/// A bar that somebody sees, once it is due.
struct Watched {
    /// Hidden at first, but fed from the first part on, so that it knows the rate.
    bar: ProgressBar,
    /// Where the bar is shown when it is due.
    target: Option<ProgressDrawTarget>,
    end: End,
    start: Instant,
    due: Instant,
    next_look: Instant,
    count: Arc<AtomicU64>,
}

impl Watched {
    fn new(target: ProgressDrawTarget, patience: Duration, what: &'static str, end: End) -> Self {
        let start = Instant::now();
        let count = Arc::new(AtomicU64::new(0));
        let length = match end {
            End::Parts(total) => total,
            End::Time(duration) => duration.as_millis() as u64,
        };
        let bar = ProgressBar::with_draw_target(Some(length), ProgressDrawTarget::hidden());
        Watched {
            bar: bar.with_prefix(what).with_style(style(end, &count)),
            target: Some(target),
            end,
            start,
            due: start + patience,
            next_look: start + INTERVAL.min(patience),
            count,
        }
    }

    fn advance(&mut self, parts: u64, now: Instant) {
        let count = parts + self.count.fetch_add(parts, Ordering::Relaxed);
        if now < self.next_look {
            return;
        }
        self.next_look = now + INTERVAL;
        if let Some(target) = self.target.take_if(|_| now >= self.due) {
            self.bar.set_draw_target(target);
        }
        self.bar.set_position(match self.end {
            End::Parts(_) => count,
            End::Time(_) => (now - self.start).as_millis() as u64,
        });
    }
}

impl Drop for Watched {
    /// Leaves a clean line behind.
    fn drop(&mut self) {
        self.bar.finish_and_clear();
    }
}

/// The line of a bar, as wide as the terminal.
fn style(end: End, count: &Arc<AtomicU64>) -> ProgressStyle {
    let style = match end {
        End::Parts(_) => {
            let rate = |state: &ProgressState, line: &mut dyn fmt::Write| {
                let _ = line.write_str(&rate_text(state.per_sec()));
            };
            template("{prefix} {pos} of {len} [{wide_bar}] {rate}, {eta} left")
                .with_key("rate", rate)
        }
        End::Time(duration) => {
            let total = HumanDuration(duration);
            let total = format!("{total:#}");
            let number = Arc::clone(count);
            let counted = move |_: &ProgressState, line: &mut dyn fmt::Write| {
                let _ = write!(line, "{}", number.load(Ordering::Relaxed));
            };
            let number = Arc::clone(count);
            let rate = move |state: &ProgressState, line: &mut dyn fmt::Write| {
                let parts = number.load(Ordering::Relaxed) as f64;
                let _ = line.write_str(&rate_text(parts / state.elapsed().as_secs_f64()));
            };
            let whole = move |_: &ProgressState, line: &mut dyn fmt::Write| {
                let _ = line.write_str(&total);
            };
            template("{prefix} {count} [{wide_bar}] {elapsed} of {whole}, {rate}")
                .with_key("count", counted)
                .with_key("rate", rate)
                .with_key("whole", whole)
        }
    };
    style.progress_chars("=> ")
}

fn template(line: &str) -> ProgressStyle {
    ProgressStyle::with_template(line).expect("a template that indicatif reads")
}

/// Parts a second: slow work with a decimal.
fn rate_text(rate: f64) -> String {
    if rate < 10.0 {
        format!("{rate:.1}/s")
    } else {
        format!("{}/s", HumanCount(rate as u64))
    }
}

#[cfg(test)]
mod tests {
    use super::*;
    use indicatif::TermLike;
    use std::io;
    use std::sync::Mutex;
    use std::thread::sleep;

    /// A terminal of 60 columns that keeps what is written, with ! where a line is cleared.
    #[derive(Clone, Debug, Default)]
    struct Screen(Arc<Mutex<String>>);

    impl Screen {
        fn written(&self) -> String {
            self.0.lock().unwrap().clone()
        }

        fn add(&self, text: &str) -> io::Result<()> {
            self.0.lock().unwrap().push_str(text);
            Ok(())
        }

        fn progress(&self, patience: Duration, end: End) -> Progress {
            let target = ProgressDrawTarget::term_like(Box::new(self.clone()));
            Progress::on(target, patience, "job", end)
        }
    }

    impl TermLike for Screen {
        fn width(&self) -> u16 {
            60
        }
        fn move_cursor_up(&self, _: usize) -> io::Result<()> {
            Ok(())
        }
        fn move_cursor_down(&self, _: usize) -> io::Result<()> {
            Ok(())
        }
        fn move_cursor_right(&self, _: usize) -> io::Result<()> {
            Ok(())
        }
        fn move_cursor_left(&self, _: usize) -> io::Result<()> {
            Ok(())
        }
        fn write_line(&self, text: &str) -> io::Result<()> {
            self.add(text)
        }
        fn write_str(&self, text: &str) -> io::Result<()> {
            self.add(text)
        }
        fn clear_line(&self) -> io::Result<()> {
            self.add("!")
        }
        fn flush(&self) -> io::Result<()> {
            Ok(())
        }
    }

    #[test]
    fn nothing_before_it_is_due() {
        let screen = Screen::default();
        let mut progress = screen.progress(Duration::from_secs(3600), End::Parts(9));
        for _ in 0..3 {
            progress.advance();
            sleep(INTERVAL);
        }
        drop(progress);
        assert_eq!(screen.written(), "");
    }

    #[test]
    fn parts_with_their_rate_and_cleared_at_the_end() {
        let screen = Screen::default();
        let mut progress = screen.progress(Duration::ZERO, End::Parts(9));
        progress.advance();
        sleep(INTERVAL);
        progress.advance_by(3);
        let shown = screen.written();
        let last = shown.rsplit('!').next().unwrap().trim_end().to_owned();
        assert!(last.starts_with("job 4 of 9 [==="), "{last}");
        assert!(last.contains("/s, ") && last.ends_with(" left"), "{last}");
        assert!(last.chars().count() <= 60, "{last}");
        drop(progress);
        let after = screen.written()[shown.len()..].to_owned();
        assert_eq!(after.trim_matches('!'), "", "{after}");
        assert!(after.starts_with('!'), "{after}");
    }

    #[test]
    fn nothing_after_the_finish() {
        let screen = Screen::default();
        let mut progress = screen.progress(Duration::ZERO, End::Parts(9));
        progress.advance();
        assert!(screen.written().contains("job 1 of 9"));
        progress.finish();
        let shown = screen.written();
        assert!(shown.ends_with('!'), "{shown}");
        sleep(INTERVAL);
        progress.advance();
        drop(progress);
        assert_eq!(screen.written(), shown);
    }

    /// What is printed aside stands between a bar that is taken away and one that is drawn anew.
    #[test]
    fn nothing_is_printed_into_the_bar() {
        let screen = Screen::default();
        let mut progress = screen.progress(Duration::ZERO, End::Parts(9));
        progress.advance();
        let before = screen.written();
        assert!(!before.ends_with('!'), "{before}");
        let answer = progress.aside(|| screen.add("a line\n").map(|()| 7));
        assert_eq!(answer.unwrap(), 7);
        let after = screen.written()[before.len()..].to_owned();
        let (cleared, drawn) = after.split_once("a line\n").unwrap();
        assert!(
            cleared.ends_with('!') && drawn.contains("job 1 of 9"),
            "{after}"
        );
        let hidden = Progress::on(ProgressDrawTarget::hidden(), PATIENCE, "job", End::Parts(9));
        assert_eq!(hidden.aside(|| 8), 8);
    }

    #[test]
    fn time_with_count_and_rate() {
        let screen = Screen::default();
        let mut progress = screen.progress(Duration::ZERO, End::Time(Duration::from_secs(300)));
        progress.advance_by(1000);
        sleep(INTERVAL);
        progress.advance_by(1000);
        let shown = screen.written();
        let last = shown.rsplit('!').next().unwrap().trim_end().to_owned();
        assert!(last.starts_with("job 2000 [>"), "{last}");
        assert!(
            last.contains("] 0s of 5m, ") && last.ends_with("/s"),
            "{last}"
        );
    }

    #[test]
    fn rates_in_whole_numbers_unless_they_are_small() {
        for (rate, text) in [(0.25, "0.2/s"), (9.96, "10.0/s"), (12345.6, "12,345/s")] {
            assert_eq!(rate_text(rate), text);
        }
    }

    /// Where nobody watches nothing is kept, and where somebody does a part takes well below a microsecond.
    #[test]
    fn parts_are_cheap() {
        let hidden = Progress::on(ProgressDrawTarget::hidden(), PATIENCE, "job", End::Parts(9));
        assert!(hidden.0.is_none());
        let screen = Screen::default();
        let mut progress = screen.progress(PATIENCE, End::Parts(1_000_000));
        let start = Instant::now();
        for _ in 0..1_000_000 {
            progress.advance();
        }
        let taken = start.elapsed();
        assert!(taken < Duration::from_secs(1), "{taken:?}");
        println!("{taken:?} for a million parts");
    }
}
