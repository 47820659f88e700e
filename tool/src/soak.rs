//! `soak`: random mixtures of calls, every answer judged, until one differs or the time is up. The list that shows a
//! difference is written, and a shorter one that still shows it.

use crate::error::{one_line, say, Failure, Outcome};
use crate::files;
use crate::interrupt;
use crate::judge::{Counts, Judge, Verdict};
use crate::ledger::Wait;
use crate::list::{Call, Start, Store};
use crate::mixture::Mixture;
use crate::numbers::{counted, long_unsigned, whole};
use crate::progress::Progress;
use crate::rules::{Difference, Rule};
use crate::services::{proved, Opening};
use crate::shrink::{self, Shortened};
use crate::watch;
use reference::random::Random;
use reference::service::Rules;
use std::ffi::{OsStr, OsString};
use std::io::{self, IsTerminal};
use std::sync::{Arc, Mutex, MutexGuard, PoisonError};
use std::time::{Duration, Instant};

/// Run random service calls and judge every answer
#[derive(clap::Args)]
#[command(
    before_help = "\
Runs random mixtures of calls, wrong ones included, on the service and judges each
as replay does. The same seed gives the same calls. It stops at the first
difference, writes the list so far to NAME.list, and a shorter list that still
shows it to NAME-short.list. A service is opened anew after every so many calls,
the first 64 times after 500 at most. The first service and more than half of the
others open by the old rules and change over: at once, soon, anywhere, or with the
last call. Up to the change-over the independent program answers, since the earlier
release is not linked.",
    after_help = "\
Examples:
  $ vokhsaot soak --seed 1 --calls 20000"
)]
pub struct Options {
    /// The seed that names the mixtures
    #[arg(long, value_name = "S", value_parser = long_unsigned, allow_hyphen_values = true)]
    seed: u64,
    /// How many calls, 1000000 where no time is given
    #[arg(long, value_name = "N", value_parser = long_unsigned, allow_hyphen_values = true)]
    calls: Option<u64>,
    /// How long: seconds, or a number with s, m or h
    #[arg(long, value_name = "T", value_parser = duration, conflicts_with = "calls", allow_hyphen_values = true)]
    time: Option<Duration>,
    /// Calls from one opening on
    #[arg(long, value_name = "N", value_parser = life, default_value = "100000", allow_hyphen_values = true)]
    life: u64,
    /// Where lists go that show a difference; soak-S where it is not given
    #[arg(long, value_name = "NAME")]
    out: Option<OsString>,
    /// Print the verdict alone
    #[arg(short, long)]
    quiet: bool,
}

/// Calls where neither a number of them nor a time is given.
const USUAL_CALLS: u64 = 1_000_000;
/// How long a shorter list is looked for.
const PATIENCE: Duration = Duration::from_secs(30);
/// Stores that a service may be opened over: their seeds are short.
const MOST_STORES: u64 = 1_000_000;
/// A service that changes over soon does so after fewer calls than this.
const SOON: u64 = 256;
/// So many services live no more than so many calls, so that a short soak has several change-overs.
const SHORT_LIVES: u64 = 64;
const SHORT_LIFE: u64 = 500;
/// The clock is looked at so often, in calls.
const BETWEEN_LOOKS: u64 = 256;

fn life(text: &str) -> Result<u64, String> {
    whole(text, 1..=u64::MAX.into())
}

/// Seconds, or a number with its unit.
fn duration(text: &str) -> Result<Duration, String> {
    let (digits, seconds) = match text.strip_suffix(['s', 'm', 'h']) {
        None => (text, 1),
        Some(digits) if text.ends_with('s') => (digits, 1),
        Some(digits) if text.ends_with('m') => (digits, 60),
        Some(digits) => (digits, 3600),
    };
    // A hundred years are enough.
    let count = whole::<u64>(digits, 1..=100 * 366 * 24);
    let count =
        count.map_err(|_| format!("\"{text}\" is no time: seconds, or a number with s, m or h"))?;
    Ok(Duration::from_secs(count * seconds))
}

pub fn command(options: &Options) -> Result<Outcome, Failure> {
    on(options, &proved, "soak")
}

/// The same for any service, with the command that runs it.
pub fn on(options: &Options, opening: Opening, command: &str) -> Result<Outcome, Failure> {
    let lists = Lists::new(options, command)?;
    interrupt::ends_by_itself();
    let mut soak = Soak::new(options, opening);
    let log = Arc::clone(&soak.log);
    let at_hang = lists.clone();
    watch::at_hang(move || {
        let log = log.lock().unwrap_or_else(PoisonError::into_inner);
        at_hang.write_hanging(&log)
    });
    let found = soak.run();
    if io::stderr().is_terminal() {
        say(&soak.time_text());
    }
    let mut text = String::new();
    if let Some(found) = &found {
        text += &found.text();
        // What was found is told whatever becomes of the lists.
        text += &match lists.write(opening, found) {
            Ok(text) => text,
            Err(failure) => format!("NOT written: {}\n", one_line(&failure.to_string())),
        };
    }
    let verdict = soak.verdict(found.as_ref());
    if options.quiet {
        text.clear();
    }
    text += &format!("{}; {}\n", verdict.text(), soak.text());
    files::print(text.as_bytes())?;
    Ok(Outcome::good_if(verdict.is_good()))
}

/// What is left to do.
enum Limit {
    Calls(u64),
    Until(Instant),
}

/// The list of one opening so far, the call under way included.
#[derive(Clone)]
struct Log {
    opening: u64,
    start: Start,
    calls: Vec<Call>,
}

/// Where in the life of a service its change-over stands.
#[derive(Clone, Copy)]
enum Place {
    AtOnce,
    Soon,
    Anywhere,
    Last,
}

/// One of these places is drawn for each service, or none: then it opens by the new rules.
const PLACES: [Option<Place>; 8] = [
    Some(Place::AtOnce),
    Some(Place::Soon),
    Some(Place::Soon),
    Some(Place::Anywhere),
    Some(Place::Last),
    None,
    None,
    None,
];

impl Place {
    /// How many calls come before it.
    fn calls_before(self, random: &mut Random, life: u64) -> u64 {
        match self {
            Place::AtOnce => 0,
            Place::Soon => random.below(life.min(SOON)),
            Place::Anywhere => random.below(life),
            Place::Last => life - 1,
        }
    }
}

/// The services of a soak, one after the other: the same ones for the same seed.
pub struct Lives {
    seeds: Random,
    stores: Random,
    changes: Random,
    calls: u64,
    openings: u64,
}

impl Lives {
    /// With so many calls from one opening on.
    pub fn new(seed: u64, calls: u64) -> Lives {
        Lives {
            seeds: Random::new(seed),
            stores: Random::new(!seed),
            changes: Random::new(seed.rotate_left(32)),
            calls,
            openings: 0,
        }
    }

    /// The first one changes over soon, so that no soak is without a change-over.
    pub fn next(&mut self) -> Life {
        self.openings += 1;
        let place = match self.openings {
            1 => Some(Place::Soon),
            _ => self.changes.pick(&PLACES),
        };
        let calls = match self.openings {
            ..=SHORT_LIVES => self.calls.min(SHORT_LIFE),
            _ => self.calls,
        };
        Life {
            start: Start {
                rules: match place {
                    Some(_) => Rules::Old,
                    None => Rules::New,
                },
                store: Store::Seeded(self.stores.below(MOST_STORES)),
            },
            mixture: Mixture::varied(self.seeds.bits()),
            change: place.map(|place| place.calls_before(&mut self.changes, calls)),
            calls,
        }
    }
}

/// One service of a soak.
pub struct Life {
    pub start: Start,
    mixture: Mixture,
    /// After how many calls it changes over; none where it did, or opened by the new rules.
    change: Option<u64>,
    /// How many calls it lives.
    calls: u64,
}

impl Life {
    /// The next call, for a service that has done all before it; none where its life is over.
    pub fn call(&mut self, judge: &Judge) -> Option<Call> {
        let done = judge.counts().calls;
        if done >= self.calls {
            return None;
        }
        if self.change.take_if(|calls| done >= *calls).is_some() {
            return Some(Call::ChangeOver);
        }
        let end = self.change.unwrap_or(self.calls);
        Some(match self.mixture.call(judge.model().record()) {
            // Ticks of one line end with the life, and where the change-over stands.
            Call::Tick(count) => Call::Tick(u64::from(count).min(end - done) as u32),
            call => call,
        })
    }
}

/// A soak in progress.
struct Soak<'a> {
    opening: Opening<'a>,
    seed: u64,
    lives: Lives,
    limit: Limit,
    progress: Progress,
    started: Instant,
    openings: u64,
    counts: Counts,
    longest: Option<Wait>,
    /// Shared with the watch: where a call does not come back, it writes the list.
    log: Arc<Mutex<Log>>,
}

/// A list that shows a difference at its last call.
struct Found {
    log: Log,
    call: u64,
    differences: Vec<Difference>,
}

impl<'a> Soak<'a> {
    fn new(options: &Options, opening: Opening<'a>) -> Soak<'a> {
        let started = Instant::now();
        let calls = options.calls.unwrap_or(USUAL_CALLS);
        let (limit, progress) = match options.time {
            Some(time) => (Limit::Until(started + time), Progress::timed("calls", time)),
            None => (Limit::Calls(calls), Progress::new("calls", calls)),
        };
        Soak {
            opening,
            seed: options.seed,
            lives: Lives::new(options.seed, options.life),
            limit,
            progress,
            started,
            openings: 0,
            counts: Counts::default(),
            longest: None,
            log: Arc::new(Mutex::new(Log {
                opening: 0,
                start: Start::USUAL,
                calls: Vec::new(),
            })),
        }
    }

    fn is_over(&self, calls: u64) -> bool {
        if interrupt::asked() {
            return true;
        }
        match self.limit {
            Limit::Calls(most) => calls >= most,
            Limit::Until(end) => calls.is_multiple_of(BETWEEN_LOOKS) && Instant::now() >= end,
        }
    }

    fn log(&self) -> MutexGuard<'_, Log> {
        self.log.lock().unwrap_or_else(PoisonError::into_inner)
    }

    /// One service after the other, up to the first difference.
    fn run(&mut self) -> Option<Found> {
        let mut found = None;
        while found.is_none() && !self.is_over(self.counts.calls) {
            self.openings += 1;
            let life = self.lives.next();
            let start = life.start;
            *self.log() = Log {
                opening: self.openings,
                start,
                calls: Vec::new(),
            };
            let (mut judge, differences) = Judge::new(self.opening, start);
            found = self.live(&mut judge, differences, life);
            self.counts.add(judge.counts());
            self.longest = Wait::longer(self.longest, judge.longest_wait());
        }
        self.progress.finish();
        found
    }

    /// The calls of one opening.
    fn live(
        &mut self,
        judge: &mut Judge,
        mut differences: Vec<Difference>,
        mut life: Life,
    ) -> Option<Found> {
        while differences.is_empty() {
            let call = life.call(judge)?;
            let mut times = 0;
            while differences.is_empty() && times < call.times() {
                if self.is_over(self.counts.calls + judge.counts().calls) {
                    return None;
                }
                times += 1;
                self.note(&call, times);
                differences = judge.call(&call).differences;
                self.progress.advance();
            }
        }
        Some(Found {
            log: self.log().clone(),
            call: judge.counts().calls,
            differences,
        })
    }

    /// Puts a call into the log before it is done; of ticks of one line how many were begun.
    fn note(&self, call: &Call, times: u32) {
        let mut log = self.log();
        match (call, times) {
            (Call::Tick(_), 2..) => {
                *log.calls.last_mut().expect("the first tick") = Call::Tick(times)
            }
            (Call::Tick(_), _) => log.calls.push(Call::Tick(1)),
            (call, _) => log.calls.push(call.clone()),
        }
    }

    fn verdict(&self, found: Option<&Found>) -> Verdict {
        Verdict {
            counts: self.counts,
            longest: self.longest,
            first: found.map(Found::place),
        }
    }

    /// What it was, the same each time.
    fn text(&self) -> String {
        let openings = counted(self.openings, "opening");
        let stopped = match interrupt::asked() {
            true => ", stopped",
            false => "",
        };
        format!("seed {}, {openings}{stopped}", self.seed)
    }

    /// How long it took, for people.
    fn time_text(&self) -> String {
        let seconds = self.started.elapsed().as_secs_f64();
        let rate = self.counts.calls as f64 / seconds.max(1e-3);
        format!("{seconds:.1} s, {rate:.0} calls a second")
    }
}

impl Found {
    fn place(&self) -> String {
        format!("call {} of opening {}", self.call, self.log.opening)
    }

    fn text(&self) -> String {
        let place = self.place();
        let lines = self.differences.iter();
        lines.map(|found| format!("{place}: {found}\n")).collect()
    }
}

/// Where lists go, and what they are headed by.
#[derive(Clone)]
struct Lists {
    name: OsString,
    command: String,
    seed: u64,
}

impl Lists {
    /// Both lists could be written, as far as that can be known before.
    fn new(options: &Options, command: &str) -> Result<Lists, Failure> {
        let usual = || OsString::from(format!("soak-{}", options.seed));
        let name = options.out.clone().unwrap_or_else(usual);
        if ["", "-"].iter().any(|none| name == *none) {
            return Err(Failure::Usage {
                command: Some("soak"),
                message: "--out: a file's name is wanted".to_owned(),
            });
        }
        let (long, short) = (ending(&name, ".list"), ending(&name, "-short.list"));
        files::check_writable(&[&long, &short])?;
        Ok(Lists {
            name,
            command: command.to_owned(),
            seed: options.seed,
        })
    }

    /// Writes the list and a shorter one; what is said about them.
    fn write(&self, opening: Opening, found: &Found) -> Result<String, Failure> {
        let (long, short) = (
            ending(&self.name, ".list"),
            ending(&self.name, "-short.list"),
        );
        let Log { start, calls, .. } = &found.log;
        let rule = found.differences[0].rule;
        let shorter = shrink::shorten(opening, *start, calls, rule, PATIENCE);
        let all = self.list(&found.log, rule, *start, calls);
        let mut outputs = vec![(long.as_os_str(), all.into_bytes())];
        let mut text = format!("{}\n", written(&long, calls));
        let Shortened {
            start: start_left,
            calls: fewer,
            is_least,
        } = shorter;
        if fewer.is_empty() && !calls.is_empty() {
            text += "the same list shows NO difference when it is run again\n";
        } else {
            let mut list = self.list(&found.log, rule, start_left, &fewer);
            text += &written(&short, &fewer);
            let rest = shrink::rest(start_left.rules, &fewer);
            if !rest.is_empty() {
                list += "# The rest hands jobs over, so that a sound service is judged good.\n";
                list += &lines(&rest);
                let rest = counted(rest.len() as u64, "line");
                text += &format!(", and {rest} to hand jobs over");
            }
            text += match is_least {
                true => "\n",
                false => "; there was no time to drop more\n",
            };
            outputs.push((short.as_os_str(), list.into_bytes()));
        }
        files::write_all(&outputs)?;
        Ok(text)
    }

    /// Writes the list of a call that does not come back; what is said about it.
    fn write_hanging(&self, log: &Log) -> String {
        let long = ending(&self.name, ".list");
        let list = self.list(log, Rule::Ends, log.start, &log.calls);
        match files::write_all(&[(&long, list.into_bytes())]) {
            Ok(()) => format!("{}\n", written(&long, &log.calls)),
            Err(failure) => format!("{failure}\n"),
        }
    }

    /// A list with its head, whose last call shows the rule broken.
    fn list(&self, log: &Log, rule: Rule, start: Start, calls: &[Call]) -> String {
        let Lists { command, seed, .. } = self;
        let shows = format!("call {} shows {}", single_calls(calls), rule.name());
        let head = format!(
            "# vokhsaot {command} --seed {seed}, opening {}: {shows}\n",
            log.opening
        );
        head + &start.lines(calls) + &lines(calls)
    }
}

fn ending(name: &OsStr, ending: &str) -> OsString {
    let mut name = name.to_owned();
    name.push(ending);
    name
}

fn lines(calls: &[Call]) -> String {
    calls.iter().map(|call| format!("{call}\n")).collect()
}

/// Calls of the service, each tick of a line for itself.
fn single_calls(calls: &[Call]) -> u64 {
    calls.iter().map(|call| u64::from(call.times())).sum()
}

fn written(name: &OsStr, calls: &[Call]) -> String {
    let lines = counted(calls.len() as u64, "line");
    let calls = counted(single_calls(calls), "call");
    let name = one_line(&name.to_string_lossy());
    format!("written: {name}: {lines}, {calls}")
}

#[cfg(test)]
mod tests {
    use super::*;

    /// Services that open by either rules, with change-overs at once, somewhere and at the end, and lives of their length.
    #[test]
    fn lives() {
        let mut lives = Lives::new(1, 3000);
        let (mut new, mut places) = (0, Vec::new());
        for number in 1..=200 {
            let life = lives.next();
            assert_eq!(life.calls, if number <= 64 { 500 } else { 3000 });
            assert_eq!(life.change.is_some(), life.start.rules == Rules::Old);
            match life.change {
                None => new += 1,
                Some(place) => places.push((place, life.calls)),
            }
            assert!(number > 1 || life.change.is_some_and(|place| place < SOON));
        }
        assert!((50..=100).contains(&new), "{new}");
        let count = |is_one: fn(&&(u64, u64)) -> bool| places.iter().filter(is_one).count();
        assert!(count(|(place, _)| *place == 0) > 10);
        assert!(count(|(place, calls)| place + 1 == *calls) > 10);
        assert!(count(|(place, _)| (1..SOON).contains(place)) > 20);
        assert!(count(|(place, calls)| *place >= SOON && place + 1 < *calls) > 10);
        assert!(places.iter().all(|(place, calls)| place < calls));
        // The shortest life has room for the change-over alone.
        assert_eq!(Lives::new(1, 1).next().change, Some(0));
    }

    #[test]
    fn durations() {
        for (text, seconds) in [("90", 90), ("90s", 90), ("2m", 120), ("3h", 10800)] {
            assert_eq!(duration(text), Ok(Duration::from_secs(seconds)), "{text}");
        }
        for text in ["", "s", "0", "-1", "1.5", "1d", "1 m", "99999999999h"] {
            assert!(duration(text).is_err(), "{text}");
        }
    }
}
