//! The proved service behind calls of which one kind has a fault. All that the fault does not touch is the proved
//! service's own: its record and its store are edited only where the fault acts. Up to a change-over none acts, since the
//! earlier release has no fault: it is the change-over, or what runs after it, that is to be tested.

use super::faults::{
    ChangeFault, CollectFault, Fault, FreeFault, SubmitFault, TurnFault, WithdrawFault,
};
use super::seat::Seat;
use super::wrong_steps::{Stage, Write};
use crate::services::{Service, Submitted, Unit};
use reference::kernel::{free_number, Choice as ReferenceChoice, UNITS};
use reference::service::Rules;
use vokhsaot::{
    Choice, Covariance, Error, Shape, BUFFER_PIXELS, OLD_SEAT_WORDS, OLD_WORDS, SEATS, SEAT_F,
    SEAT_STEPS_LEFT, WORD_LAST_FILLED, WORD_LAST_NUMBER, WORD_LAST_SERVED,
};

/// The seat before the first: a search that begins after it begins at seat 0.
const BEFORE_FIRST: u64 = SEATS as u64 - 1;
const MOST_FREE: u32 = 2 * SEATS as u32;

pub struct Faulty {
    unit: Unit,
    fault: Fault,
    memory: Memory,
}

/// What some faults know of earlier calls.
#[derive(Default)]
struct Memory {
    /// By seats: whether the job last submitted to it was an oval.
    is_oval: [bool; SEATS],
    /// By seats: whether it was last emptied by a withdraw after an odd number of steps.
    was_odd: [bool; SEATS],
    /// Whether the job that was submitted last was withdrawn.
    last_withdrawn: bool,
    /// Submits accepted less collects accepted.
    not_collected: u32,
    /// The last number given before the change-over; 0 where there was none.
    last_before: u64,
    /// Whether no job was submitted since the change-over.
    is_just_changed: bool,
}

/// Whether a submit's shape has a kernel and would have none if it were any wider.
fn is_at_the_end(submitted: Submitted) -> bool {
    let Ok(Covariance { xx, xy, yy }) = vokhsaot::covariance(submitted.shape) else {
        return false;
    };
    let [xx, xy, yy] = [xx, xy, yy].map(i64::from);
    free_number(xx, xy, yy, UNITS * i64::from(submitted.steps)) == xx.min(yy)
}

/// The words of the old rules, with a word more in each seat.
fn with_room_for_f(words: &[u64]) -> Vec<u64> {
    let (seats, last) = words.split_at(SEATS * OLD_SEAT_WORDS);
    let mut wider: Vec<u64> = seats
        .chunks(OLD_SEAT_WORDS)
        .flat_map(|seat| seat.iter().copied().chain([0]))
        .collect();
    wider.extend_from_slice(last);
    wider
}

impl Faulty {
    pub fn new(fault: Fault, rules: Rules, store: Vec<u16>) -> Faulty {
        Faulty {
            unit: Unit::open(rules, store),
            fault,
            memory: Memory::default(),
        }
    }

    /// Whether the earlier release still runs, which has no fault.
    fn is_earlier(&self) -> bool {
        matches!(self.unit, Unit::Earlier(_))
    }

    fn word(&self, place: usize) -> u64 {
        self.unit.words()[place]
    }

    /// A word after the seats, by either rules.
    fn last_word(&self, place: usize) -> u64 {
        let words = self.unit.words();
        words[words.len() + place - vokhsaot::WORDS]
    }

    fn set_word(&mut self, place: usize, value: u64) {
        if self.word(place) != value {
            let mut words = self.unit.words().to_vec();
            words[place] = value;
            self.set(words, self.unit.store().to_vec());
        }
    }

    /// The library goes on with this record and this store.
    fn set(&mut self, words: Vec<u64>, store: Vec<u16>) {
        self.unit = Unit::Library(vokhsaot::Service::from_parts(words, store));
    }

    fn write(&mut self, writes: &[Write]) {
        let is_there = |write: &Write| self.unit.store()[write.start..].starts_with(&write.pixels);
        if writes.iter().all(is_there) {
            return;
        }
        let mut store = self.unit.store().to_vec();
        for Write { start, pixels } in writes {
            store[*start..start + pixels.len()].copy_from_slice(pixels);
        }
        self.set(self.unit.words().to_vec(), store);
    }

    /// Submits with another value in a word of the record, which comes back where the submit is refused.
    fn submit_with(&mut self, submitted: Submitted, word: usize, value: u64) -> Result<u64, Error> {
        let kept = self.word(word);
        self.set_word(word, value);
        let answer = self.unit.submit(submitted);
        if answer.is_err() {
            self.set_word(word, kept);
        }
        answer
    }

    /// Refuses a submit that would be accepted; one that is refused keeps its refusal unless that comes later.
    fn refuse(&self, submitted: Submitted, refusal: Error) -> Result<u64, Error> {
        match self.unit.clone().submit(submitted) {
            Err(due) if due.number() < refusal.number() => Err(due),
            _ => Err(refusal),
        }
    }

    /// The seat of a job, by either rules.
    fn seat_of(&self, number: u64) -> Option<Seat> {
        let words = self.unit.words();
        match words.len() {
            OLD_WORDS => Seat::of_job(&with_room_for_f(words), number),
            _ => Seat::of_job(words, number),
        }
    }

    fn filled(&self) -> usize {
        Seat::all(self.unit.words()).count()
    }

    fn faulty_submit(&mut self, submitted: Submitted) -> Result<u64, Error> {
        let Fault::Submit(fault) = self.fault else {
            return self.unit.submit(submitted);
        };
        match fault {
            // The number is taken before a seat is looked for.
            SubmitFault::RefusalTakesNumber => {
                let answer = self.unit.submit(submitted);
                let next = self.word(WORD_LAST_NUMBER).checked_add(1);
                if let (Err(Error::NoFreeBuffers), Some(next)) = (answer, next) {
                    self.set_word(WORD_LAST_NUMBER, next);
                }
                answer
            }
            // The withdraw of the last job gives its number back.
            SubmitFault::NumberAgain if self.memory.last_withdrawn => {
                let before = self.word(WORD_LAST_NUMBER) - 1;
                self.submit_with(submitted, WORD_LAST_NUMBER, before)
            }
            // "At most" taken for "less than".
            SubmitFault::EndHasNoKernel if is_at_the_end(submitted) => {
                self.refuse(submitted, Error::NoKernel)
            }
            SubmitFault::FullBeforeKernel => match self.unit.submit(submitted) {
                Err(Error::NoKernel) if self.filled() == SEATS => Err(Error::NoFreeBuffers),
                answer => answer,
            },
            SubmitFault::FullAtSeven if self.filled() == SEATS - 1 => {
                self.refuse(submitted, Error::NoFreeBuffers)
            }
            SubmitFault::FillsFromFirst => {
                self.submit_with(submitted, WORD_LAST_FILLED, BEFORE_FIRST)
            }
            // Pixels 0 to 1022 of a buffer are taken for all of them.
            SubmitFault::LastPixelNotCopied if submitted.picture.len() == BUFFER_PIXELS => {
                self.submit_without_last_pixel(submitted)
            }
            // The choice does not reach the seat.
            SubmitFault::SmallestForBoth => self.unit.submit(Submitted {
                choice: Some(Choice::Smallest),
                ..submitted
            }),
            SubmitFault::NumberAgain
            | SubmitFault::EndHasNoKernel
            | SubmitFault::FullAtSeven
            | SubmitFault::LastPixelNotCopied => self.unit.submit(submitted),
        }
    }

    /// Submits a picture that fills a buffer, whose last pixel stays what it was.
    fn submit_without_last_pixel(&mut self, submitted: Submitted) -> Result<u64, Error> {
        let last = |seat: usize| (2 * seat + 1) * BUFFER_PIXELS - 1;
        let kept: Vec<u16> = (0..SEATS)
            .map(|seat| self.unit.store()[last(seat)])
            .collect();
        let answer = self.unit.submit(submitted);
        if answer.is_ok() {
            let seat = self.word(WORD_LAST_FILLED) as usize;
            self.write(&[Write {
                start: last(seat),
                pixels: vec![kept[seat]],
            }]);
        }
        answer
    }

    /// A tick that serves a seat.
    fn serve(&mut self, seat: Seat) -> Result<Option<u64>, Error> {
        match self.fault {
            Fault::Turn(fault) => self.serve_in_turn(fault, seat),
            Fault::Step(fault) => {
                let words = self.unit.words();
                let writes = fault.writes(&Stage {
                    store: self.unit.store(),
                    seat,
                    last_served: Seat::at(words, words[WORD_LAST_SERVED] as usize),
                    is_oval: self.memory.is_oval[seat.place],
                    was_odd: self.memory.was_odd[seat.place],
                });
                let answer = self.unit.tick();
                self.write(&writes);
                answer
            }
            _ => self.unit.tick(),
        }
    }

    fn serve_in_turn(&mut self, fault: TurnFault, seat: Seat) -> Result<Option<u64>, Error> {
        let last = self.word(WORD_LAST_SERVED);
        match fault {
            // From seat 6 the search does not come round to seat 6.
            TurnFault::IdleAtSeatSix if seat.place == 6 && last == 6 => return Ok(None),
            TurnFault::IdleHalfDone if 2 * seat.left <= seat.steps => return Ok(None),
            // From seat 7 the search goes on at seat 1, where a seat other than 0 has steps left.
            TurnFault::SkipsFirst if seat.place == 0 && last == BEFORE_FIRST => {
                let words = self.unit.words();
                if Seat::all(words).any(|other| other.place != 0 && other.left > 0) {
                    self.set_word(WORD_LAST_SERVED, 0);
                }
            }
            TurnFault::IdleUntilSubmit if self.memory.is_just_changed => return Ok(None),
            TurnFault::BeginsAtFirst => self.set_word(WORD_LAST_SERVED, BEFORE_FIRST),
            TurnFault::IdleAtSeatSix
            | TurnFault::IdleHalfDone
            | TurnFault::SkipsFirst
            | TurnFault::IdleMovesOn
            | TurnFault::IdleUntilSubmit => {}
        }
        self.unit.tick()
    }

    fn faulty_collect(&mut self, number: u64, picture: &mut [u16]) -> Result<u64, Error> {
        let seat = Seat::of_job(self.unit.words(), number);
        let (Fault::Collect(fault), Some(seat)) = (self.fault, seat) else {
            return self.unit.collect(number, picture);
        };
        match fault {
            CollectFault::RefusesAll => {
                let due = self.unit.clone().collect(number, &mut picture.to_vec());
                return due.and(Err(Error::StepsAreLeft));
            }
            CollectFault::RefusesEarlierJobs if number <= self.memory.last_before => {
                let due = self.unit.clone().collect(number, &mut picture.to_vec());
                return due.and(Err(Error::NoSuchJob));
            }
            CollectFault::TakesLonger if picture.len() > seat.area() => {
                return self.unit.collect(number, &mut picture[..seat.area()]);
            }
            _ => {}
        }
        let answer = self.unit.collect(number, picture);
        let store = self.unit.store();
        match (fault, answer) {
            (CollectFault::SecondBuffer, Ok(_)) => {
                picture.copy_from_slice(&store[seat.picture_after(1)]);
            }
            (CollectFault::StepBefore, Ok(_)) => {
                picture.copy_from_slice(&store[seat.picture_after(seat.steps - 1)]);
            }
            // The picture is copied before the steps left are looked at.
            (CollectFault::WritesUnfinished, Err(Error::StepsAreLeft))
                if picture.len() == seat.area() =>
            {
                picture.copy_from_slice(&store[seat.picture_after(seat.done())]);
            }
            (CollectFault::ClearsBuffers, Ok(_)) => {
                let clear = |steps: u32| Write {
                    start: seat.picture_after(steps).start,
                    pixels: vec![0; seat.area()],
                };
                self.write(&[clear(0), clear(1)]);
            }
            _ => {}
        }
        answer
    }

    fn faulty_withdraw(&mut self, number: u64) -> Result<u64, Error> {
        let seat = Seat::of_job(self.unit.words(), number);
        let (Fault::Withdraw(fault), Some(seat)) = (self.fault, seat) else {
            return self.unit.withdraw(number);
        };
        match fault {
            WithdrawFault::MovesTurn => {
                let answer = self.unit.withdraw(number);
                self.set_word(WORD_LAST_SERVED, seat.place as u64);
                answer
            }
            WithdrawFault::RefusesStarted if seat.left > 0 && seat.done() > 0 => {
                Err(Error::StepsAreLeft)
            }
            WithdrawFault::RefusesStarted => self.unit.withdraw(number),
        }
    }

    /// The record that a change-over left, with the fault.
    fn faulty_change(&mut self, fault: ChangeFault) {
        let mut words = self.unit.words().to_vec();
        for seat in Seat::all(self.unit.words()) {
            match fault {
                ChangeFault::OtherF => {
                    words[seat.word(SEAT_F)] = seat.f_by(ReferenceChoice::Binomial).into();
                }
                ChangeFault::ZeroF => words[seat.word(SEAT_F)] = 0,
                ChangeFault::RestartsJobs if seat.left > 0 => {
                    words[seat.word(SEAT_STEPS_LEFT)] = seat.steps.into();
                }
                ChangeFault::RestartsJobs
                | ChangeFault::ResetsNamedSeats
                | ChangeFault::RestartsNumbers
                | ChangeFault::AcceptedTwice => {}
            }
        }
        match fault {
            ChangeFault::ResetsNamedSeats => {
                words[WORD_LAST_FILLED] = BEFORE_FIRST;
                words[WORD_LAST_SERVED] = BEFORE_FIRST;
            }
            // The record stays in order, so that the next numbers are given again.
            ChangeFault::RestartsNumbers => {
                let held = Seat::all(self.unit.words()).map(|seat| seat.number);
                words[WORD_LAST_NUMBER] = held.max().unwrap_or(0);
            }
            ChangeFault::OtherF
            | ChangeFault::ZeroF
            | ChangeFault::RestartsJobs
            | ChangeFault::AcceptedTwice => {}
        }
        self.set(words, self.unit.store().to_vec());
    }

    /// A change-over of a record of the new rules, as if it were one of the old ones.
    fn change_again(&mut self) {
        let mut words = self.unit.words().to_vec();
        for seat in Seat::all(self.unit.words()) {
            words[seat.word(SEAT_F)] = seat.f_by(ReferenceChoice::Smallest).into();
        }
        self.set(words, self.unit.store().to_vec());
    }
}

impl Service for Faulty {
    fn within(&self) -> &Unit {
        &self.unit
    }

    fn within_mut(&mut self) -> &mut Unit {
        &mut self.unit
    }

    fn submit(&mut self, submitted: Submitted) -> Result<u64, Error> {
        let answer = match self.is_earlier() {
            true => self.unit.submit(submitted),
            false => self.faulty_submit(submitted),
        };
        if answer.is_ok() {
            let seat = self.last_word(WORD_LAST_FILLED) as usize;
            self.memory.is_oval[seat] = matches!(submitted.shape, Shape::Oval { .. });
            self.memory.last_withdrawn = false;
            self.memory.not_collected += 1;
            self.memory.is_just_changed = false;
        }
        answer
    }

    fn tick(&mut self) -> Result<Option<u64>, Error> {
        if self.is_earlier() {
            return self.unit.tick();
        }
        match Seat::whose_turn(self.unit.words()) {
            Some(seat) => self.serve(seat),
            None => {
                let answer = self.unit.tick();
                if self.fault == Fault::Turn(TurnFault::IdleMovesOn) {
                    let next = (self.word(WORD_LAST_SERVED) + 1) % SEATS as u64;
                    self.set_word(WORD_LAST_SERVED, next);
                }
                answer
            }
        }
    }

    fn collect(&mut self, number: u64, picture: &mut [u16]) -> Result<u64, Error> {
        let seat = self.seat_of(number);
        let answer = match self.is_earlier() {
            true => self.unit.collect(number, picture),
            false => self.faulty_collect(number, picture),
        };
        if let (Ok(_), Some(seat)) = (answer, seat) {
            self.memory.was_odd[seat.place] = false;
            self.memory.not_collected -= 1;
        }
        answer
    }

    fn withdraw(&mut self, number: u64) -> Result<u64, Error> {
        let seat = self.seat_of(number);
        let answer = match self.is_earlier() {
            true => self.unit.withdraw(number),
            false => self.faulty_withdraw(number),
        };
        if let (Ok(_), Some(seat)) = (answer, seat) {
            self.memory.was_odd[seat.place] = !seat.done().is_multiple_of(2);
            self.memory.last_withdrawn |= number == self.last_word(WORD_LAST_NUMBER);
        }
        answer
    }

    fn free(&self) -> Result<u32, Error> {
        let (Fault::Free(fault), false) = (self.fault, self.is_earlier()) else {
            return self.unit.free();
        };
        let taken = match fault {
            FreeFault::AlwaysSixteen => 0,
            FreeFault::ForgetsWithdraws => self.memory.not_collected,
            FreeFault::FinishedAreFree => {
                let unfinished = Seat::all(self.unit.words()).filter(|seat| seat.left > 0);
                unfinished.count() as u32
            }
            FreeFault::ForgetsEarlierJobs => {
                let seats = Seat::all(self.unit.words());
                let later = seats.filter(|seat| seat.number > self.memory.last_before);
                later.count() as u32
            }
        };
        Ok(MOST_FREE.saturating_sub(2 * taken))
    }

    fn change_over(&mut self) -> Result<(), Error> {
        if !self.is_earlier() && self.fault == Fault::Change(ChangeFault::AcceptedTwice) {
            self.change_again();
            return Ok(());
        }
        self.unit.change_over()?;
        self.memory.last_before = self.word(WORD_LAST_NUMBER);
        self.memory.is_just_changed = true;
        if let Fault::Change(fault) = self.fault {
            self.faulty_change(fault);
        }
        Ok(())
    }
}
