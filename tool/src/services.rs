//! The service under test: the proved one, or one of those to practise on. One that opens by the old rules runs in two releases:
//! the earlier one up to the change-over, and the library from there on.

use crate::model::Model;
use reference::service::Rules;
use vokhsaot::{Choice, Error, Shape};

/// A submit's numbers and its lent picture.
#[derive(Clone, Copy)]
pub struct Submitted<'a> {
    /// None where none is named: by the old rules, always.
    pub choice: Option<Choice>,
    pub shape: Shape,
    pub steps: u32,
    pub width: u32,
    pub height: u32,
    pub picture: &'a [u16],
}

/// The choice of a job whose submit names this one, or none.
pub fn choice_by(rules: Rules, named: Option<Choice>) -> Choice {
    match rules {
        Rules::Old => Choice::Smallest,
        Rules::New => named.unwrap_or(Choice::Binomial),
    }
}

/// The release that runs a service.
#[derive(Clone)]
pub enum Unit {
    /// The release before the change-over. It is not linked: its calls are made by the independent program, by the old rules.
    Earlier(Box<Earlier>),
    Library(vokhsaot::Service),
}

/// The independent program in the place of the earlier release, with its words as they stand.
#[derive(Clone)]
pub struct Earlier {
    model: Model,
    words: Vec<u64>,
}

impl Earlier {
    fn open(store: Vec<u16>) -> Earlier {
        let model = Model::open(Rules::Old, store);
        let words = model.words();
        Earlier { model, words }
    }

    /// Does a call, after which the words stand anew.
    fn call<T>(&mut self, call: impl FnOnce(&mut Model) -> T) -> T {
        let answer = call(&mut self.model);
        self.words = self.model.words();
        answer
    }
}

impl Unit {
    pub fn open(rules: Rules, store: Vec<u16>) -> Unit {
        match rules {
            Rules::Old => Unit::Earlier(Box::new(Earlier::open(store))),
            Rules::New => Unit::Library(vokhsaot::Service::with_store(store)),
        }
    }

    pub fn submit(&mut self, submitted: Submitted) -> Result<u64, Error> {
        let Submitted {
            choice,
            shape,
            steps,
            width,
            height,
            picture,
        } = submitted;
        match self {
            Unit::Earlier(earlier) => earlier.call(|model| model.submit(submitted)),
            // Each of the library's two calls has its turn.
            Unit::Library(service) => match choice {
                Some(choice) => service.submit_by(choice, shape, steps, width, height, picture),
                None => service.submit(shape, steps, width, height, picture),
            },
        }
    }

    pub fn tick(&mut self) -> Result<Option<u64>, Error> {
        match self {
            Unit::Earlier(earlier) => earlier.call(Model::tick),
            Unit::Library(service) => service.tick(),
        }
    }

    pub fn collect(&mut self, number: u64, picture: &mut [u16]) -> Result<u64, Error> {
        match self {
            Unit::Earlier(earlier) => earlier.call(|model| model.collect(number, picture)),
            Unit::Library(service) => service.collect(number, picture),
        }
    }

    pub fn withdraw(&mut self, number: u64) -> Result<u64, Error> {
        match self {
            Unit::Earlier(earlier) => earlier.call(|model| model.withdraw(number)),
            Unit::Library(service) => service.withdraw(number),
        }
    }

    pub fn free(&self) -> Result<u32, Error> {
        match self {
            Unit::Earlier(earlier) => earlier.model.free(),
            Unit::Library(service) => service.free_count(),
        }
    }

    /// The library's change-over of the words that stand, whichever release left them, over the same store. A refusal leaves
    /// the unit as it is.
    pub fn change_over(&mut self) -> Result<(), Error> {
        let store = self.store().to_vec();
        let changed = vokhsaot::Service::change_over(self.words(), store)?;
        *self = Unit::Library(changed);
        Ok(())
    }

    pub fn words(&self) -> &[u64] {
        match self {
            Unit::Earlier(earlier) => &earlier.words,
            Unit::Library(service) => service.words(),
        }
    }

    pub fn store(&self) -> &[u16] {
        match self {
            Unit::Earlier(earlier) => earlier.model.store(),
            Unit::Library(service) => service.store(),
        }
    }
}

/// A service as its calls, its record's words and its store. What one does not do by itself the unit does that it has within.
pub trait Service {
    fn within(&self) -> &Unit;
    fn within_mut(&mut self) -> &mut Unit;

    fn submit(&mut self, submitted: Submitted) -> Result<u64, Error> {
        self.within_mut().submit(submitted)
    }

    /// `None` where it is idle.
    fn tick(&mut self) -> Result<Option<u64>, Error> {
        self.within_mut().tick()
    }

    fn collect(&mut self, number: u64, picture: &mut [u16]) -> Result<u64, Error> {
        self.within_mut().collect(number, picture)
    }

    fn withdraw(&mut self, number: u64) -> Result<u64, Error> {
        self.within_mut().withdraw(number)
    }

    fn free(&self) -> Result<u32, Error> {
        self.within().free()
    }

    fn change_over(&mut self) -> Result<(), Error> {
        self.within_mut().change_over()
    }

    fn words(&self) -> &[u64] {
        self.within().words()
    }

    fn store(&self) -> &[u16] {
        self.within().store()
    }
}

/// A unit alone.
impl Service for Unit {
    fn within(&self) -> &Unit {
        self
    }

    fn within_mut(&mut self) -> &mut Unit {
        self
    }
}

/// Opens a service by some rules over a store, as often as it is asked to.
pub type Opening<'a> = &'a dyn Fn(Rules, Vec<u16>) -> Box<dyn Service>;

/// The proved service.
pub fn proved(rules: Rules, store: Vec<u16>) -> Box<dyn Service> {
    Box::new(Unit::open(rules, store))
}
