//! Demand 3 as a check of a running service: random lists of calls from one
//! opening on, and every sentence of the demand, put together from the calls
//! and their answers alone.
//!
//! A list opens by the new rules, or by the old ones and can then run on
//! through the change-over, at any place. Jobs, the steps they have left, their
//! numbers and their waits are counted across it. A job goes by the choice that
//! its submit named; one from before the change-over by the smallest.

use crate::error_code::ErrorCode;
use crate::generate::{random_half, random_pixels, random_shape};
use crate::kernel::{Choice, Kernel};
use crate::random::Random;
use crate::service::{self, Record, Rules, STORE_PIXELS};
use crate::shape::{covariance, shape_kernel_by, Shape};
use crate::smooth::{exact_run, rounded_run, within_half_per_step};
use std::collections::BTreeMap;

/// A service as its calls. Two are equal where record and store are.
pub trait Calls: Clone + PartialEq {
    /// An opening over this store, by some rules.
    fn open(rules: Rules, store: Vec<u16>) -> Self;
    /// By the old rules a submit names no choice.
    fn submit(
        &mut self,
        named: Option<Choice>,
        shape: Shape,
        steps: u32,
        width: u32,
        height: u32,
        picture: &[u16],
    ) -> Result<u64, ErrorCode>;
    fn tick(&mut self) -> Result<Option<u64>, ErrorCode>;
    fn collect(&mut self, number: u64, picture: &mut [u16]) -> Result<u64, ErrorCode>;
    fn withdraw(&mut self, number: u64) -> Result<u64, ErrorCode>;
    fn free(&self) -> Result<u32, ErrorCode>;
    /// From the old rules to the new ones; refusal 2 where it runs by these.
    fn change_over(&mut self) -> Result<(), ErrorCode>;
    fn store(&self) -> &[u16];
}

/// This program's own service.
#[derive(Clone, PartialEq)]
pub struct Model {
    pub record: Record,
    pub store: Vec<u16>,
}

impl Calls for Model {
    fn open(rules: Rules, store: Vec<u16>) -> Model {
        Model {
            record: service::opening(rules),
            store,
        }
    }

    fn submit(
        &mut self,
        named: Option<Choice>,
        shape: Shape,
        steps: u32,
        width: u32,
        height: u32,
        picture: &[u16],
    ) -> Result<u64, ErrorCode> {
        let Model { record, store } = self;
        service::submit(record, store, named, shape, steps, width, height, picture)
    }

    fn tick(&mut self) -> Result<Option<u64>, ErrorCode> {
        service::tick(&mut self.record, &mut self.store)
    }

    fn collect(&mut self, number: u64, picture: &mut [u16]) -> Result<u64, ErrorCode> {
        service::collect(&mut self.record, &self.store, number, picture)
    }

    fn withdraw(&mut self, number: u64) -> Result<u64, ErrorCode> {
        service::withdraw(&mut self.record, number)
    }

    fn free(&self) -> Result<u32, ErrorCode> {
        service::free_count(&self.record)
    }

    fn change_over(&mut self) -> Result<(), ErrorCode> {
        self.record = service::change_over(&self.record)?;
        Ok(())
    }

    fn store(&self) -> &[u16] {
        &self.store
    }
}

/// A job as the calls and their answers give it.
#[derive(Clone)]
struct Job {
    /// The rules of its submit, and the choice named there.
    rules: Rules,
    named: Option<Choice>,
    shape: Shape,
    steps: u32,
    width: u32,
    height: u32,
    picture: Vec<u16>,
    ticks: u32,
    /// Those of its ticks that came before a change-over.
    ticks_before: u32,
    held: bool,
    withdrawn: bool,
    /// The earliest number of ticks by which the wait promises its end.
    deadline: u64,
}

impl Job {
    fn left(&self) -> u32 {
        self.steps - self.ticks
    }

    fn submitted_to(
        &self,
        service: &mut impl Calls,
        named: Option<Choice>,
    ) -> Result<u64, ErrorCode> {
        service.submit(
            named,
            self.shape,
            self.steps,
            self.width,
            self.height,
            &self.picture,
        )
    }

    /// The choice that its pixels are held to, which the sentences name
    /// themselves and do not ask the service for.
    fn choice(&self) -> Choice {
        match (self.rules, self.named) {
            (Rules::Old, _) => Choice::Smallest,
            (Rules::New, Some(named)) => named,
            (Rules::New, None) => Choice::Binomial,
        }
    }

    fn kernel_by(&self, choice: Choice) -> Result<Kernel, ErrorCode> {
        shape_kernel_by(choice, self.shape, self.steps)
    }

    fn kernel(&self) -> Result<Kernel, ErrorCode> {
        self.kernel_by(self.choice())
    }

    /// The refusal from 3 to 11 that its submit meets first, put together from
    /// the sentences one by one.
    fn refusal(&self) -> Option<ErrorCode> {
        let area = u64::from(self.width) * u64::from(self.height);
        let shape_refusal = covariance(self.shape).err();
        let side_fits = |side| (1..=1024).contains(&side);
        let tests = [
            (shape_refusal == Some(3), 3),
            (shape_refusal == Some(4), 4),
            (!(1..=64).contains(&self.steps), 5),
            (!(side_fits(self.width) && side_fits(self.height)), 6),
            (self.picture.len() as u64 != area, 9),
            (area > 1024, 10),
            (self.kernel().is_err(), 11),
        ];
        tests.iter().find(|test| test.0).map(|test| test.1)
    }

    /// What it was handed over is what it gets alone, within k/2 of the exact
    /// run, and what a service opened for it only hands over.
    fn check_handed_over<S: Calls>(&self, picture: &[u16], random: &mut Random) {
        let kernel = self.kernel().unwrap();
        let alone = rounded_run(&kernel, &self.picture, self.width, self.height, self.steps);
        assert_eq!(picture, alone, "the lone run");
        let exact = exact_run(&kernel, &self.picture, self.width, self.height, self.steps);
        assert!(within_half_per_step(
            picture, &exact, kernel.sum, self.steps
        ));
        self.check_alone::<S>(self.rules, self.named, None, picture, random);
        if self.rules == Rules::Old {
            // By the new rules it would name the smallest choice. And alone, too, a
            // change-over of its service leaves its pixels as they would have been.
            let smallest = Some(Choice::Smallest);
            self.check_alone::<S>(Rules::New, smallest, None, picture, random);
            let place = random.below(u64::from(self.steps) + 1) as u32;
            self.check_alone::<S>(Rules::Old, None, Some(place), picture, random);
        }
    }

    /// A service opened for it only hands the same over, also where it changes
    /// over after so many ticks.
    fn check_alone<S: Calls>(
        &self,
        rules: Rules,
        named: Option<Choice>,
        change_over: Option<u32>,
        picture: &[u16],
        random: &mut Random,
    ) {
        let mut service = S::open(rules, random_pixels(random, STORE_PIXELS));
        assert_eq!(self.submitted_to(&mut service, named), Ok(1));
        for ticks in 0..=self.steps {
            if change_over == Some(ticks) {
                assert_eq!(service.change_over(), Ok(()));
            }
            let answer = (ticks < self.steps).then_some(1);
            assert_eq!(service.tick(), Ok(answer));
        }
        let mut lone = vec![0; picture.len()];
        assert_eq!(service.collect(1, &mut lone), Ok(1));
        assert_eq!(lone, picture, "a service opened for it only");
    }
}

/// How often each outcome came up, so that a list of nothing but refusals shows.
#[derive(Debug, Default)]
pub struct Seen {
    pub accepted: u32,
    pub refused: BTreeMap<ErrorCode, u32>,
    pub ticks: u32,
    pub idle: u32,
    pub collected: u32,
    pub withdrawn: u32,
    pub most_held: usize,
    pub changed_over: u32,
    /// The most jobs held at a change-over, and those then half done.
    pub most_carried: usize,
    pub half_done: u32,
    /// Jobs that were handed over with ticks on both sides of a change-over, and
    /// those whose choices have different kernels, by each.
    pub collected_across: u32,
    pub by_choice: [u32; 2],
}

impl Seen {
    /// Whether each kind of outcome came up often, with the service full.
    pub fn is_enough(&self) -> bool {
        self.most_held == 8
            && self.accepted > 1000
            && self.ticks > 5000
            && self.idle > 1000
            && self.collected > 500
            && self.withdrawn > 300
            && self.by_choice.iter().all(|n| *n > 100)
            && (3..=12).all(|refusal| self.refused.get(&refusal).is_some_and(|n| *n > 5))
    }

    /// Whether change-overs came up often, refused ones too, with jobs half done.
    pub fn has_change_overs(&self) -> bool {
        self.changed_over > 50
            && self.most_carried == 8
            && self.half_done > 50
            && self.collected_across > 20
            && self.refused.get(&2).is_some_and(|n| *n > 20)
    }

    fn refuse(&mut self, refusal: ErrorCode) {
        *self.refused.entry(refusal).or_default() += 1;
    }
}

/// A shape and a step count, mostly of a kernel and few steps, so that jobs are
/// finished within a list, and often of two kernels, one for each choice.
pub fn random_work(random: &mut Random, most_steps: u32) -> (Shape, u32) {
    for _ in 0..20 {
        let (shape, steps) = if random.once_in(3) {
            let (covariance, steps) = random_half(random);
            (Shape::Matrix(covariance), steps)
        } else {
            random_shape(random)
        };
        if steps <= most_steps && shape_kernel_by(Choice::Smallest, shape, steps).is_ok() {
            return (shape, steps);
        }
    }
    random_shape(random)
}

/// Sides of a submitted picture, wrong ones and the largest included.
pub fn random_sides(random: &mut Random) -> (u32, u32) {
    match random.below(28) {
        0 => (0, random.below(4) as u32),
        1 => (random.below(4) as u32, 0),
        2 => (1025, 1),
        3 => (u32::MAX, u32::MAX),
        4 => (64, 17),
        5 => (32, 32),
        6 => (1024, 1),
        7 => (1, 1024),
        8 => (1, 1),
        9 => (1, random.between(1, 40) as u32),
        10 => (random.between(1, 40) as u32, 1),
        _ => (random.between(1, 10) as u32, random.between(1, 10) as u32),
    }
}

/// Mostly the length, sometimes one off; never more than a test can lend.
pub fn random_length(random: &mut Random, area: u64) -> usize {
    let area = area.min(5000);
    let length = match random.below(16) {
        0 => area + 1,
        1 => area.saturating_sub(1),
        _ => area,
    };
    length as usize
}

/// A choice that a submit names, or none.
pub fn random_choice(random: &mut Random) -> Option<Choice> {
    random.pick(&[None, Some(Choice::Binomial), Some(Choice::Smallest)])
}

/// The course of a list through the rules.
#[derive(Clone, Debug)]
pub struct Course {
    /// By which it opens.
    pub rules: Rules,
    /// Where a change-over stands: before the call of this place, counted from
    /// 0, or at the end.
    pub change_overs: Vec<usize>,
    /// Whether its submits name no other choice than the smallest, so that it
    /// does the same by either rules.
    pub smallest_only: bool,
}

impl Course {
    pub fn new(rules: Rules, change_overs: &[usize]) -> Course {
        Course {
            rules,
            change_overs: change_overs.to_vec(),
            smallest_only: false,
        }
    }

    /// Any, for a list of so many calls: mostly with a change-over, and sometimes
    /// with more than one, of which none but the first can be accepted.
    pub fn random(random: &mut Random, calls: usize) -> Course {
        let rules = random.pick(&[Rules::Old, Rules::Old, Rules::New]);
        let count = match rules {
            Rules::Old => random.pick(&[0, 1, 1, 1, 1, 2, 3]),
            Rules::New => random.pick(&[0, 0, 1]),
        };
        let place = |random: &mut Random| match random.below(8) {
            0 => 0,
            1 => calls,
            _ => random.below(calls as u64 + 1) as usize,
        };
        let change_overs: Vec<usize> = (0..count).map(|_| place(random)).collect();
        Course::new(rules, &change_overs)
    }
}

/// A job that is submitted by some rules.
fn random_job(random: &mut Random, rules: Rules, smallest_only: bool) -> Job {
    let (shape, mut steps) = if random.once_in(8) {
        random_shape(random)
    } else {
        random_work(random, 12)
    };
    if steps == 1 && random.once_in(2) {
        // A kernel in one step is one in more: such a job is half done for a while.
        steps = random.between(2, 12) as u32;
    }
    let (width, height) = random_sides(random);
    let length = random_length(random, u64::from(width) * u64::from(height));
    // Drawn by either rules, so that the same numbers make the same list.
    let drawn = random_choice(random);
    Job {
        rules,
        named: match rules {
            Rules::Old => None,
            Rules::New if smallest_only => Some(Choice::Smallest),
            Rules::New => drawn,
        },
        shape,
        steps,
        width,
        height,
        picture: random_pixels(random, length),
        ticks: 0,
        ticks_before: 0,
        held: true,
        withdrawn: false,
        deadline: u64::MAX,
    }
}

/// A list in progress.
struct List<S> {
    service: S,
    /// Those that it opened by, until a change-over is accepted.
    rules: Rules,
    smallest_only: bool,
    /// By the number that the submit answered.
    jobs: BTreeMap<u64, Job>,
    ticks: u64,
}

impl<S: Calls> List<S> {
    fn held(&self) -> Vec<u64> {
        let held = self.jobs.iter().filter(|(_, job)| job.held);
        held.map(|(number, _)| *number).collect()
    }

    fn some_number(&self, random: &mut Random) -> u64 {
        let held = self.held();
        match random.below(8) {
            0 => random.below(4),
            1 => random.bits(),
            2 => self.jobs.len() as u64 + random.below(2),
            _ if held.is_empty() => 0,
            _ => random.pick(&held),
        }
    }

    fn submit(&mut self, random: &mut Random, seen: &mut Seen) {
        let before = self.service.clone();
        let job = random_job(random, self.rules, self.smallest_only);
        let answer = job.submitted_to(&mut self.service, job.named);
        let expected = match job.refusal() {
            Some(refusal) => Err(refusal),
            None if self.held().len() == 8 => Err(12),
            None => Ok(self.jobs.len() as u64 + 1),
        };
        assert_eq!(answer, expected, "submit");
        match answer {
            Ok(number) => {
                seen.accepted += 1;
                assert!(
                    self.jobs.insert(number, job).is_none(),
                    "a number given twice"
                );
            }
            Err(refusal) => {
                seen.refuse(refusal);
                assert!(self.service == before);
            }
        }
    }

    fn tick(&mut self, seen: &mut Seen) {
        let before = self.service.clone();
        let held = self.held();
        let waiting = held.iter().any(|number| self.jobs[number].left() > 0);
        let answer = self.service.tick().expect("a record in order");
        self.ticks += 1;
        assert_eq!(
            answer.is_some(),
            waiting,
            "idle exactly where no steps are left"
        );
        match answer {
            Some(number) => {
                seen.ticks += 1;
                let job = self.jobs.get_mut(&number).expect("a job");
                assert!(job.held && job.left() > 0);
                job.ticks += 1;
                let pixels = self.service.store().iter().zip(before.store());
                let changed = pixels.filter(|(a, b)| a != b).count();
                assert!(changed <= job.picture.len());
            }
            None => {
                seen.idle += 1;
                assert!(self.service == before);
            }
        }
    }

    fn collect(&mut self, random: &mut Random, seen: &mut Seen) {
        let before = self.service.clone();
        let number = self.some_number(random);
        let known = self.jobs.get(&number).filter(|job| job.held).cloned();
        let area = known.as_ref().map_or(5, |job| job.picture.len());
        let lent = random_length(random, area as u64);
        let lent = random_pixels(random, lent);
        let mut picture = lent.clone();
        let answer = self.service.collect(number, &mut picture);
        let expected = match &known {
            None => Err(7),
            Some(job) if job.left() > 0 => Err(8),
            Some(_) if lent.len() != area => Err(9),
            Some(_) => Ok(number),
        };
        assert_eq!(answer, expected, "collect");
        assert!(self.service.store() == before.store());
        match (answer, known) {
            (Ok(_), Some(job)) => {
                seen.collected += 1;
                let across = job.ticks_before > 0 && job.ticks_before < job.ticks;
                seen.collected_across += u32::from(across);
                let [a, b] = Choice::ALL.map(|choice| job.kernel_by(choice));
                seen.by_choice[job.choice() as usize] += u32::from(a != b);
                // With numbers of its own, so that the list goes on as it would
                // have without its change-over.
                let mut random = Random::new(number);
                job.check_handed_over::<S>(&picture, &mut random);
                self.jobs.get_mut(&number).expect("known").held = false;
            }
            (Ok(_), None) => unreachable!("7 was expected"),
            (Err(refusal), _) => {
                seen.refuse(refusal);
                assert!(self.service == before);
                assert_eq!(picture, lent);
            }
        }
    }

    fn withdraw(&mut self, random: &mut Random, seen: &mut Seen) {
        let before = self.service.clone();
        let number = self.some_number(random);
        let known = self.jobs.get_mut(&number).filter(|job| job.held);
        let answer = self.service.withdraw(number);
        assert!(self.service.store() == before.store());
        match known {
            Some(job) => {
                assert_eq!(answer, Ok(number), "withdraw");
                seen.withdrawn += 1;
                job.held = false;
                job.withdrawn = true;
            }
            None => {
                assert_eq!(answer, Err(7), "withdraw");
                assert!(self.service == before);
            }
        }
    }

    /// Accepted where no other was before it; then only the rules change. The
    /// free count is looked at on both sides of it, as everywhere.
    fn change_over(&mut self, seen: &mut Seen) {
        let before = self.service.clone();
        let answer = self.service.change_over();
        assert!(self.service.store() == before.store());
        match self.rules {
            Rules::Old => {
                assert_eq!(answer, Ok(()), "change-over");
                self.rules = Rules::New;
                seen.changed_over += 1;
                seen.most_carried = seen.most_carried.max(self.held().len());
                for job in self.jobs.values_mut().filter(|job| job.held) {
                    job.ticks_before = job.ticks;
                    seen.half_done += u32::from(job.ticks > 0 && job.left() > 0);
                }
            }
            Rules::New => {
                assert_eq!(answer, Err(2), "change-over");
                assert!(self.service == before);
                seen.refuse(2);
            }
        }
    }

    /// The free count, and the wait from every place on.
    fn check_place(&mut self, seen: &mut Seen) {
        let held = self.held().len();
        seen.most_held = seen.most_held.max(held);
        assert_eq!(self.service.free(), Ok(16 - 2 * held as u32), "free");
        for job in self.jobs.values_mut() {
            if job.held && job.left() > 0 {
                job.deadline = job.deadline.min(self.ticks + 8 * u64::from(job.left()));
            }
            assert!(
                job.left() == 0 || job.withdrawn || self.ticks < job.deadline,
                "the wait"
            );
        }
    }
}

/// Runs one random list of calls from an opening on, checks every sentence, and
/// answers the service that it leaves.
pub fn check_list<S: Calls>(
    random: &mut Random,
    calls: usize,
    course: &Course,
    seen: &mut Seen,
) -> S {
    let mut list = List {
        service: S::open(course.rules, random_pixels(random, STORE_PIXELS)),
        rules: course.rules,
        smallest_only: course.smallest_only,
        jobs: BTreeMap::new(),
        ticks: 0,
    };
    // Lists differ in how eagerly they submit and tick.
    let submits = random.between(1, 12) as u64;
    let served = random.between(1, 40) as u64;
    list.check_place(seen);
    for place in 0..=calls {
        for _ in course.change_overs.iter().filter(|at| **at == place) {
            list.change_over(seen);
            list.check_place(seen);
        }
        if place == calls {
            break;
        }
        let kind = random.below(submits + served + 6);
        if kind < submits {
            list.submit(random, seen);
        } else if kind < submits + served {
            list.tick(seen);
        } else if kind < submits + served + 4 {
            list.collect(random, seen);
        } else {
            list.withdraw(random, seen);
        }
        list.check_place(seen);
    }
    list.service
}

/// One short list with the change-over at each of its places, the first and the
/// last included. Where its submits name the smallest choice alone, the service
/// that it leaves does not depend on the place.
pub fn check_every_place<S: Calls>(random: &mut Random, calls: usize, seen: &mut Seen) {
    for smallest_only in [false, true] {
        let start = random.clone();
        let mut left = Vec::new();
        for place in 0..=calls {
            let course = Course {
                smallest_only,
                ..Course::new(Rules::Old, &[place])
            };
            *random = start.clone();
            left.push(check_list::<S>(random, calls, &course, seen));
        }
        if smallest_only {
            assert!(left.windows(2).all(|pair| pair[0] == pair[1]), "the place");
        }
    }
}
