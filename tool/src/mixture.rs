//! `mixture`: random lists of calls for `replay`, wrong calls included. The independent service follows the list while it
//! is made, so that jobs are collected under the numbers they got and mostly when they are finished.

use crate::error::{Failure, Outcome};
use crate::files;
use crate::list::{Call, Pixels, Store, Submission};
use crate::model::Model;
use crate::numbers::long_unsigned;
use crate::progress::Progress;
use crate::shape::UNITS;
use reference::random::Random;
use reference::service::{Record, Rules};
use vokhsaot::{kernel, Choice, Direction, Shape};

/// Print a random list of service calls for replay
#[derive(clap::Args)]
#[command(
    before_help = "\
Prints a list of N lines with calls for vokhsaot replay, wrong calls included: the
same list for the same numbers. With --change-over it opens by the old rules and
has one line more: the change-over, after L of the others. These are the same
wherever it stands, but that before it no submit names a choice of f, and free
counts stand for the change-overs that are refused after it.",
    after_help = "\
Examples:
  $ vokhsaot mixture --seed 6 --calls 5
  $ vokhsaot mixture --seed 6 --calls 5 --change-over 2
  $ vokhsaot mixture --seed 2 --calls 200 | vokhsaot replay --quiet"
)]
pub struct Options {
    /// The seed that names the list
    #[arg(long, value_name = "S", value_parser = long_unsigned, allow_hyphen_values = true)]
    seed: u64,
    /// The number of lines
    #[arg(long, value_name = "N", value_parser = long_unsigned, allow_hyphen_values = true)]
    calls: u64,
    /// The most jobs that are accepted in it
    #[arg(long, value_name = "M", value_parser = long_unsigned, allow_hyphen_values = true)]
    jobs: Option<u64>,
    /// Open by the old rules, and change over after this many lines, 0 to N
    #[arg(long, value_name = "L", value_parser = long_unsigned, allow_hyphen_values = true)]
    change_over: Option<u64>,
}

pub fn command(options: &Options) -> Result<Outcome, Failure> {
    let Options {
        seed,
        calls,
        jobs,
        change_over,
    } = *options;
    if change_over.is_some_and(|lines| lines > calls) {
        return Err(Failure::Usage {
            command: Some("mixture"),
            message: format!("--change-over: there are {calls} lines"),
        });
    }
    let rules = match change_over {
        Some(_) => Rules::Old,
        None => Rules::New,
    };
    let mut mixture = Mixture::new(seed, jobs.unwrap_or(u64::MAX));
    let mut model = Model::open(rules, Store::Zeros.pixels());
    let mut head = format!("# vokhsaot mixture --seed {seed} --calls {calls}");
    for (option, number) in [("jobs", jobs), ("change-over", change_over)] {
        if let Some(number) = number {
            head += &format!(" --{option} {number}");
        }
    }
    // It is printed as it is made, so it cannot be known whether a change-over stands further on.
    let rules = match rules {
        Rules::Old => "old",
        Rules::New => "new",
    };
    files::print(format!("{head}\nrules {rules}\n").as_bytes())?;
    let mut progress = Progress::new("line", calls);
    for line in 0..=calls {
        if change_over == Some(line) {
            put(&mut model, &Call::ChangeOver)?;
        }
        if line < calls {
            let call = mixture.call(model.record());
            put(&mut model, &call)?;
            progress.advance();
        }
    }
    Ok(Outcome::Good)
}

/// Prints a call, and does it.
fn put(model: &mut Model, call: &Call) -> Result<(), Failure> {
    for _ in 0..call.times() {
        follow(model, call);
    }
    files::print(format!("{call}\n").as_bytes())
}

/// Does a call, whether it is refused or not; the number that a submit gives.
pub fn follow(model: &mut Model, call: &Call) -> Option<u64> {
    match call {
        Call::Submit(submission) => {
            let picture = submission.picture();
            return model.submit(submission.lending(&picture)).ok();
        }
        Call::Tick(_) => _ = model.tick(),
        Call::Collect { number, length, .. } => {
            let own = held(model.record(), *number).map_or(0, |job| job.pixels);
            _ = model.collect(*number, &mut vec![0; length.unwrap_or(own)]);
        }
        Call::Withdraw(number) => _ = model.withdraw(*number),
        Call::Free => {}
        Call::ChangeOver => _ = model.change_over(),
    }
    None
}

/// A job that a service holds.
struct Held {
    number: u64,
    is_finished: bool,
    pixels: usize,
}

/// The jobs held, by their numbers.
fn all_held(record: &Record) -> Vec<Held> {
    let filled = record.slots.iter().filter(|slot| slot.number != 0);
    let mut held: Vec<Held> = filled
        .map(|slot| Held {
            number: slot.number,
            is_finished: slot.steps_left == 0,
            pixels: slot.width as usize * slot.height as usize,
        })
        .collect();
    held.sort_by_key(|job| job.number);
    held
}

fn held(record: &Record, number: u64) -> Option<Held> {
    all_held(record)
        .into_iter()
        .find(|job| job.number == number)
}

/// How often each kind of call comes: submit, tick, collect, withdraw, free.
type Appetite = [u64; 5];

/// Submits outnumber what collects and withdraws take, so that the service is full now and then.
const USUAL: Appetite = [8, 7, 3, 1, 1];
/// So many lines of a varied mixture have one appetite.
const PHASE: u64 = 64;
/// One of so many free counts is a change-over instead, where that is refused.
const CHANGES: u64 = 4;

/// Lists in the making.
pub struct Mixture {
    random: Random,
    most_jobs: u64,
    appetite: Appetite,
    /// Whether the appetite changes, so that the service is empty, full, busy and done in turn.
    is_varied: bool,
    lines: u64,
}

impl Mixture {
    pub fn new(seed: u64, most_jobs: u64) -> Mixture {
        Mixture {
            random: Random::new(seed),
            most_jobs,
            appetite: USUAL,
            is_varied: false,
            lines: 0,
        }
    }

    /// One for long runs.
    pub fn varied(seed: u64) -> Mixture {
        Mixture {
            is_varied: true,
            ..Mixture::new(seed, u64::MAX)
        }
    }

    /// The next call, for a service in this state.
    pub fn call(&mut self, record: &Record) -> Call {
        if self.is_varied && self.lines.is_multiple_of(PHASE) {
            self.appetite = [
                [1, 4, 8, 12],
                [2, 7, 7, 20],
                [1, 3, 3, 8],
                [0, 1, 1, 4],
                [1; 4],
            ]
            .map(|choices| self.random.pick(&choices));
        }
        self.lines += 1;
        let mut choice = self.random.below(self.appetite.iter().sum());
        let kind = self.appetite.iter().position(|share| {
            let taken = choice < *share;
            choice = choice.saturating_sub(*share);
            taken
        });
        match kind {
            Some(0) => self.submit(record),
            Some(1) => Call::Tick(self.random.pick(&[1, 1, 1, 2, 5, 12])),
            Some(2) => self.collect(record),
            Some(3) => Call::Withdraw(self.some_number(record)),
            _ => {
                // By the new rules a change-over is refused. By the old ones it comes when it is due.
                let is_change = self.random.once_in(CHANGES) && record.rules == Rules::New;
                match is_change {
                    true => Call::ChangeOver,
                    false => Call::Free,
                }
            }
        }
    }

    fn submit(&mut self, record: &Record) -> Call {
        let mut submission = self.good_submission();
        // By the old rules none is named; what follows is drawn as it would be by the new ones.
        if record.rules == Rules::Old {
            submission.choice = None;
        }
        if record.last_number >= self.most_jobs || self.random.once_in(5) {
            self.spoil(&mut submission);
        }
        Call::Submit(submission)
    }

    fn good_submission(&mut self) -> Submission {
        let random = &mut self.random;
        let steps = random.pick(&[1, 1, 2, 3, 4, 5, 8, 64]);
        // The same shapes have a kernel by either choice.
        let shape = (0..20)
            .map(|_| some_shape(random, steps))
            .find(|shape| kernel(*shape, steps).is_ok())
            .unwrap_or(Shape::Round(0.25));
        let choice = random.pick(&[
            None,
            Some(Choice::Binomial),
            Some(Choice::Smallest),
            Some(Choice::Smallest),
        ]);
        let (width, height) = match random.below(16) {
            0 => random.pick(&[(32, 32), (1024, 1), (1, 1024), (64, 16)]),
            _ => (1 + random.below(6) as u32, 1 + random.below(6) as u32),
        };
        let pixels = match width * height {
            area @ 0..=12 => Pixels::Listed(some_pixels(random, area)),
            _ => Pixels::Seeded(random.below(1_000_000)),
        };
        Submission {
            choice,
            shape,
            steps,
            width,
            height,
            pixels,
        }
    }

    /// Makes a submission one that is refused.
    fn spoil(&mut self, submission: &mut Submission) {
        let random = &mut self.random;
        match random.below(7) {
            0 => submission.shape = Shape::Round(random.pick(&[-0.5, 64.5, f64::NAN])),
            1 => {
                let (cosine, sine) = random.pick(&[(1.0, 1.0), (0.5, 0.5), (0.0, f64::NAN)]);
                submission.shape = oval(2.0, 1.0, cosine, sine);
            }
            2 => submission.steps = random.pick(&[0, 65, u32::MAX]),
            3 => submission.width = random.pick(&[0, 1025, u32::MAX]),
            4 => {
                let area = submission.width * submission.height;
                let length = random.pick(&[area - 1, area + 1]);
                submission.pixels = Pixels::Listed(some_pixels(random, length));
            }
            5 => {
                (submission.width, submission.height) = random.pick(&[(64, 17), (1024, 2)]);
                submission.pixels = Pixels::Seeded(random.below(1_000_000));
            }
            _ => {
                let (xx, xy, yy) = random.pick(&[(1000, 1001, 1000), (-1, 0, 0), (262_145, 0, 0)]);
                submission.shape = Shape::Matrix { xx, xy, yy };
            }
        }
    }

    fn collect(&mut self, record: &Record) -> Call {
        let held = all_held(record);
        let finished = held.iter().filter(|job| job.is_finished);
        let finished: Vec<u64> = finished.map(|job| job.number).collect();
        let number = match self.random.below(4) {
            0 => self.some_number(record),
            _ if finished.is_empty() => self.some_number(record),
            _ => self.random.pick(&finished),
        };
        let length = self.random.once_in(8).then(|| {
            let job = held.iter().find(|job| job.number == number);
            job.map_or(0, |job| job.pixels) + 1
        });
        Call::Collect {
            number,
            length,
            to: None,
        }
    }

    /// The number of a job, mostly of one that is held; at times one that no job has.
    fn some_number(&mut self, record: &Record) -> u64 {
        let held: Vec<u64> = all_held(record).iter().map(|job| job.number).collect();
        let accepted = record.last_number;
        match self.random.below(6) {
            0 => self.random.pick(&[0, accepted.saturating_add(1), u64::MAX]),
            1 => self.random.below(accepted.saturating_add(1)),
            _ if held.is_empty() => accepted,
            _ => self.random.pick(&held),
        }
    }
}

fn oval(long_variance: f64, short_variance: f64, cosine: f64, sine: f64) -> Shape {
    Shape::Oval {
        long_variance,
        short_variance,
        direction: Direction { cosine, sine },
    }
}

/// A shape that may have a kernel with these steps, often near the end of where one exists.
fn some_shape(random: &mut Random, steps: u32) -> Shape {
    let size = f64::from(steps);
    match random.below(3) {
        0 => {
            let m = i64::from(UNITS) * i64::from(steps);
            let (xx, yy) = (random.between(0, m), random.between(0, m));
            let end = xx.min(yy);
            let any = random.between(-end, end);
            let xy = random.pick(&[-end, 0, end, any]);
            let [xx, xy, yy] = [xx, xy, yy].map(|entry| entry as i32);
            Shape::Matrix { xx, xy, yy }
        }
        1 => Shape::Round(size * random.fraction()),
        _ => {
            // Points of the circle with short fractions.
            let (cosine, sine) = random.pick(&[(0.8, 0.6), (0.6, -0.8), (0.96, 0.28), (0.0, 1.0)]);
            let long = size * random.fraction();
            oval(long, long * random.fraction(), cosine, sine)
        }
    }
}

fn some_pixels(random: &mut Random, count: u32) -> Vec<u16> {
    let most = random.pick(&[3, 256, 65536]);
    (0..count).map(|_| random.below(most) as u16).collect()
}
