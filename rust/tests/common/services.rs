//! The proved service beside the independent one, call by call, and as the calls that demand 3 speaks of.

use super::{numbered, shape_of};
use reference::error_code::ErrorCode;
use reference::generate::{random_pixels, random_shape};
use reference::kernel::Choice as ModelChoice;
use reference::lists::{random_choice, random_length, random_sides, random_work, Calls, Model};
use reference::random::Random;
use reference::service as model;
use reference::service::{Record, Rules};
use reference::shape::Shape as ModelShape;
use reference::words::words_of;
use std::fmt::Debug;
use vokhsaot::{Choice, Covariance, Error, Job, Service, Shape};

/// A choice as the library has it.
pub fn choice_of(choice: ModelChoice) -> Choice {
    match choice {
        ModelChoice::Binomial => Choice::Binomial,
        ModelChoice::Smallest => Choice::Smallest,
    }
}

/// A submit to the library: by the call without a choice where none is named.
pub fn submitted(
    service: &mut Service,
    named: Option<ModelChoice>,
    shape: Shape,
    steps: u32,
    width: u32,
    height: u32,
    picture: &[u16],
) -> Result<u64, Error> {
    match named {
        Some(choice) => service.submit_by(choice_of(choice), shape, steps, width, height, picture),
        None => service.submit(shape, steps, width, height, picture),
    }
}

/// The jobs of a record as the library tells them: none where it is not in order.
fn jobs_of(record: &Record) -> Vec<Job> {
    let told = model::in_order(record);
    let seats = record.slots.iter().enumerate();
    let filled = seats.filter(|(_, slot)| told && slot.number != 0);
    filled
        .map(|(seat, slot)| Job {
            number: slot.number,
            seat,
            covariance: Covariance {
                xx: slot.xx,
                xy: slot.xy,
                yy: slot.yy,
            },
            steps: slot.steps,
            steps_left: slot.steps_left,
            width: slot.width,
            height: slot.height,
            f: slot.f,
        })
        .collect()
}

/// How often each answer came up.
#[derive(Debug, Default)]
pub struct Counts {
    pub accepted: u64,
    pub idle: u64,
    pub refused: [u64; 14],
    /// Calls that both made.
    pub compared: u64,
    pub changed_over: u64,
    /// Jobs with some of their steps done and some left at a change-over.
    pub half_done: u64,
}

/// Both services side by side, from a change-over or an opening by the new rules on. Before it the independent one runs alone, by
/// the old rules: the release before is not linked.
pub struct Pair {
    pub record: Record,
    pub store: Vec<u16>,
    proved: Option<Service>,
    /// Whether submits name no other choice than the smallest, so that a list does the same by either rules.
    pub smallest_only: bool,
}

impl Pair {
    pub fn new(record: Record, store: Vec<u16>) -> Pair {
        let proved = match record.rules {
            Rules::Old => None,
            Rules::New => Some(Service::from_parts(words_of(&record), store.clone())),
        };
        let pair = Pair {
            record,
            store,
            proved,
            smallest_only: false,
        };
        pair.compare(record.last_number);
        pair
    }

    /// Takes up an answer that both gave.
    fn take<T: PartialEq + Debug>(
        counts: &mut Counts,
        call: &str,
        given: Option<Result<T, Error>>,
        expected: Result<T, ErrorCode>,
    ) {
        match &expected {
            Ok(_) => counts.accepted += 1,
            Err(refusal) => counts.refused[usize::from(*refusal)] += 1,
        }
        if let Some(given) = given {
            assert_eq!(numbered(given), expected, "{call}");
            counts.compared += 1;
        }
    }

    /// The library goes on from what the independent service did by the old rules: from its words and its store.
    pub fn change_over(&mut self, counts: &mut Counts) {
        let expected = model::change_over(&self.record);
        match (&self.proved, self.record.rules) {
            (None, Rules::Old) => {
                let given = Service::change_over(&words_of(&self.record), self.store.clone());
                counts.changed_over += u64::from(given.is_ok());
                let half_done = |slot: &&model::Slot| slot.steps_left - 1 < slot.steps - 1;
                let held = self.record.slots.iter().filter(|slot| slot.steps_left > 0);
                counts.half_done += held.filter(half_done).count() as u64;
                let changed = expected.expect("a record in order");
                self.record = changed;
                self.proved = Some(given.expect("a record in order"));
            }
            // A second one has words of the new rules before it, which are no old record.
            (Some(proved), Rules::New) => {
                let words = proved.words().to_vec();
                let refused = Service::change_over(&words, self.store.clone()).unwrap_err();
                assert_eq!(expected, Err(refused.error.number() as ErrorCode));
                assert!(refused.store == self.store, "the store comes back");
                counts.refused[2] += 1;
            }
            _ => unreachable!("the library runs by the new rules"),
        }
        self.compare(self.record.last_number);
    }

    /// One call of each, with everything that they leave compared.
    pub fn call(&mut self, random: &mut Random, counts: &mut Counts) {
        let job = match random.below(8) {
            0 => random.pick(&[0, u64::MAX, self.record.last_number.wrapping_add(1)]),
            1 => random.below(self.record.last_number.clamp(1, 1 << 40)) + 1,
            _ => random.pick(&self.record.slots).number,
        };
        match random.below(16) {
            0..=4 => self.submit(random, counts),
            5..=11 => {
                let expected = model::tick(&mut self.record, &mut self.store);
                let given = self.proved.as_mut().map(Service::tick);
                counts.idle += u64::from(expected == Ok(None));
                Pair::take(counts, "tick", given, expected);
            }
            12..=13 => self.collect(job, random, counts),
            14 => {
                let expected = model::withdraw(&mut self.record, job);
                let given = self.proved.as_mut().map(|proved| proved.withdraw(job));
                Pair::take(counts, "withdraw", given, expected);
            }
            _ => {
                let expected = model::free_count(&self.record);
                let given = self.proved.as_ref().map(Service::free_count);
                Pair::take(counts, "free count", given, expected);
            }
        }
        self.compare(job);
    }

    fn submit(&mut self, random: &mut Random, counts: &mut Counts) {
        let (shape, steps) = if random.once_in(4) {
            random_shape(random)
        } else {
            random_work(random, 6)
        };
        let (width, height) = random_sides(random);
        let length = random_length(random, u64::from(width) * u64::from(height));
        let picture = random_pixels(random, length);
        // Drawn by either rules, so that the same numbers make the same list.
        let drawn = random_choice(random);
        let named = match self.record.rules {
            Rules::Old => None,
            Rules::New if self.smallest_only => Some(ModelChoice::Smallest),
            Rules::New => drawn,
        };
        let Pair {
            record,
            store,
            proved,
            ..
        } = self;
        let expected = model::submit(record, store, named, shape, steps, width, height, &picture);
        let shape = shape_of(shape);
        let given = proved
            .as_mut()
            .map(|proved| submitted(proved, named, shape, steps, width, height, &picture));
        Pair::take(counts, "submit", given, expected);
    }

    fn collect(&mut self, job: u64, random: &mut Random, counts: &mut Counts) {
        let slot = self.record.slots.iter().find(|slot| slot.number == job);
        let area = slot.map_or(4, |slot| u64::from(slot.width) * u64::from(slot.height));
        let length = random_length(random, area);
        let mut picture = random_pixels(random, length);
        let mut lent = picture.clone();
        let expected = model::collect(&mut self.record, &self.store, job, &mut picture);
        let given = self
            .proved
            .as_mut()
            .map(|proved| proved.collect(job, &mut lent));
        if given.is_some() {
            assert_eq!(lent, picture, "the picture of collect {job}");
        }
        Pair::take(counts, "collect", given, expected);
    }

    /// The words, the jobs, the free count and the store.
    fn compare(&self, job: u64) {
        let Some(proved) = &self.proved else {
            return;
        };
        assert_eq!(proved.words(), words_of(&self.record), "record");
        let jobs = jobs_of(&self.record);
        assert_eq!(proved.jobs(), jobs, "jobs");
        let found = jobs.into_iter().find(|held| held.number == job);
        assert_eq!(proved.job(job), found, "job {job}");
        let free = model::free_count(&self.record);
        assert_eq!(numbered(proved.free_count()), free, "free count");
        assert!(proved.store() == self.store, "store");
    }
}

/// The proved service as the calls that demand 3 speaks of. What runs by the old rules is the independent one, until the library's
/// change-over: the release before is not linked.
#[derive(Clone, PartialEq)]
pub enum Proved {
    Before(Box<Model>),
    After(Service),
}

impl Calls for Proved {
    fn open(rules: Rules, store: Vec<u16>) -> Proved {
        match rules {
            Rules::Old => Proved::Before(Box::new(Model::open(rules, store))),
            Rules::New => Proved::After(Service::with_store(store)),
        }
    }

    fn submit(
        &mut self,
        named: Option<ModelChoice>,
        shape: ModelShape,
        steps: u32,
        width: u32,
        height: u32,
        picture: &[u16],
    ) -> Result<u64, ErrorCode> {
        match self {
            Proved::Before(model) => model.submit(named, shape, steps, width, height, picture),
            Proved::After(service) => {
                let shape = shape_of(shape);
                numbered(submitted(
                    service, named, shape, steps, width, height, picture,
                ))
            }
        }
    }

    fn tick(&mut self) -> Result<Option<u64>, ErrorCode> {
        match self {
            Proved::Before(model) => model.tick(),
            Proved::After(service) => numbered(service.tick()),
        }
    }

    fn collect(&mut self, number: u64, picture: &mut [u16]) -> Result<u64, ErrorCode> {
        match self {
            Proved::Before(model) => model.collect(number, picture),
            Proved::After(service) => numbered(service.collect(number, picture)),
        }
    }

    fn withdraw(&mut self, number: u64) -> Result<u64, ErrorCode> {
        match self {
            Proved::Before(model) => model.withdraw(number),
            Proved::After(service) => numbered(service.withdraw(number)),
        }
    }

    fn free(&self) -> Result<u32, ErrorCode> {
        match self {
            Proved::Before(model) => model.free(),
            Proved::After(service) => numbered(service.free_count()),
        }
    }

    fn change_over(&mut self) -> Result<(), ErrorCode> {
        let (words, store) = match self {
            Proved::Before(model) => (words_of(&model.record), model.store.clone()),
            Proved::After(service) => (service.words().to_vec(), service.store().to_vec()),
        };
        let answer = Service::change_over(&words, store);
        let changed = numbered(answer.map_err(Error::from))?;
        *self = Proved::After(changed);
        Ok(())
    }

    fn store(&self) -> &[u16] {
        match self {
            Proved::Before(model) => &model.store,
            Proved::After(service) => service.store(),
        }
    }
}
