//! The independent service of `reference/`, under the calls of a list.

use crate::services::Submitted;
use reference::kernel::{Choice as ReferenceChoice, Covariance};
use reference::service::{self, Record, Rules};
use reference::shape::{Direction, Shape as ReferenceShape};
use reference::words::{record_of, words_of};
use vokhsaot::{Choice, Error, Shape};

/// A shape as the independent program has it.
pub fn shape_of(shape: Shape) -> ReferenceShape {
    match shape {
        Shape::Matrix { xx, xy, yy } => ReferenceShape::Matrix(Covariance { xx, xy, yy }),
        Shape::Round(variance) => ReferenceShape::Round(variance),
        Shape::Oval {
            long_variance,
            short_variance,
            direction,
        } => ReferenceShape::Oval {
            long: long_variance,
            short: short_variance,
            direction: Direction {
                cosine: direction.cosine,
                sine: direction.sine,
            },
        },
    }
}

/// A choice of f as the independent program has it.
pub fn choice_of(choice: Choice) -> ReferenceChoice {
    match choice {
        Choice::Binomial => ReferenceChoice::Binomial,
        Choice::Smallest => ReferenceChoice::Smallest,
    }
}

/// A refusal of the independent program.
pub fn refusal(number: u8) -> Error {
    Error::from_number(number.into()).expect("the independent program refuses by numbers 1 to 14")
}

/// The independent service, by the rules that its record says.
#[derive(Clone)]
pub struct Model {
    record: Record,
    store: Vec<u16>,
}

impl Model {
    /// Opened over a store.
    pub fn open(rules: Rules, store: Vec<u16>) -> Model {
        Model {
            record: service::opening(rules),
            store,
        }
    }

    pub fn submit(&mut self, submitted: Submitted) -> Result<u64, Error> {
        let Submitted {
            choice,
            shape,
            steps,
            width,
            height,
            picture,
        } = submitted;
        let Model { record, store } = self;
        // By the old rules none can be named, whatever a list says after a change-over that was refused.
        let choice = choice.filter(|_| record.rules == Rules::New);
        let (choice, shape) = (choice.map(choice_of), shape_of(shape));
        let answer = service::submit(record, store, choice, shape, steps, width, height, picture);
        answer.map_err(refusal)
    }

    pub fn tick(&mut self) -> Result<Option<u64>, Error> {
        service::tick(&mut self.record, &mut self.store).map_err(refusal)
    }

    pub fn collect(&mut self, number: u64, picture: &mut [u16]) -> Result<u64, Error> {
        service::collect(&mut self.record, &self.store, number, picture).map_err(refusal)
    }

    pub fn withdraw(&mut self, number: u64) -> Result<u64, Error> {
        service::withdraw(&mut self.record, number).map_err(refusal)
    }

    pub fn free(&self) -> Result<u32, Error> {
        service::free_count(&self.record).map_err(refusal)
    }

    /// The store stays as it is.
    pub fn change_over(&mut self) -> Result<(), Error> {
        self.record = service::change_over(&self.record).map_err(refusal)?;
        Ok(())
    }

    pub fn rules(&self) -> Rules {
        self.record.rules
    }

    pub fn record(&self) -> &Record {
        &self.record
    }

    pub fn store(&self) -> &[u16] {
        &self.store
    }

    pub fn words(&self) -> Vec<u64> {
        words_of(&self.record)
    }

    /// Goes on from another service's state, where its words hold a record at all: how many there are tells by which rules.
    pub fn take_over(&mut self, words: &[u64], store: &[u16]) {
        let found = Rules::ALL
            .into_iter()
            .find_map(|rules| record_of(rules, words));
        if let Some(record) = found {
            self.record = record;
        }
        self.store.clear();
        self.store.extend_from_slice(store);
    }
}

#[cfg(test)]
mod tests {
    use super::*;
    use reference::service::{Slot, STORE_PIXELS};

    fn zeros() -> Vec<u16> {
        vec![0; STORE_PIXELS]
    }

    /// The words are those that the library lends, and a record comes back from them by the rules of their number.
    #[test]
    fn words_and_records() {
        let opening = Model::open(Rules::New, zeros());
        assert_eq!(opening.words(), vokhsaot::Service::new().words());
        for (rules, f) in [(Rules::Old, 0), (Rules::New, 7)] {
            let mut record = *Model::open(rules, zeros()).record();
            record.slots[7] = Slot {
                number: u64::MAX,
                xx: 4096,
                xy: -1,
                yy: i32::MIN,
                steps: 2,
                steps_left: 1,
                width: 3,
                height: 4,
                f,
            };
            record.last_number = u64::MAX;
            record.last_served = 5;
            let words = words_of(&record);
            let mut end = vec![u64::MAX, 4096, 0xffff_ffff, 0x8000_0000, 2, 1, 3, 4];
            if rules == Rules::New {
                end.push(7);
            }
            end.extend([u64::MAX, 7, 5]);
            assert!(words.ends_with(&end), "{words:?}");
            let mut model = opening.clone();
            model.take_over(&words, &zeros());
            assert_eq!(*model.record(), record);
            // Words that hold none change nothing but the store.
            let mut large = words.clone();
            large[1] = 1 << 32;
            for none in [&large[..], &words[1..], &[]] {
                let mut model = opening.clone();
                model.take_over(none, &[9]);
                assert_eq!(
                    (*model.record(), model.store()),
                    (*opening.record(), &[9][..])
                );
            }
        }
    }
}
