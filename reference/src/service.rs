//! The service: eight slots (the seats of docs/REFERENCE.md) over a buffer pool
//! (its store), filled and served by round robin.
//!
//! Submit, tick and collect are lent the store and check its length with the
//! record (refusal 2); withdraw and the free count are not lent it.
//!
//! There are two sets of rules, and a record says by which it runs: the old
//! ones, from before S-3, whose jobs all go by the smallest choice, and the new
//! ones, whose slots hold the f that their jobs go by. The change-over leads
//! from the old ones to the new ones while the service runs.

use crate::error_code::{
    check_length, check_sides, check_steps, require, ErrorCode, JOB_UNFINISHED, NO_FREE_BUFFERS,
    NO_KERNEL, NUMBERS_EXHAUSTED, PICTURE_TOO_LARGE, SERVICE_NOT_IN_ORDER, UNKNOWN_JOB,
};
use crate::kernel::{
    free_number, free_number_by, kernel_by, kernel_with, Choice, Covariance, Kernel, UNITS,
};
use crate::shape::{covariance, Shape};
use crate::smooth::step;

/// Number of slots.
pub const SLOTS: usize = 8;
/// Number of buffers in the pool: two for each slot.
pub const BUFFERS: usize = 16;
/// Pixels in a buffer.
pub const BUFFER_PIXELS: usize = 1024;
/// Pixels in the pool.
pub const STORE_PIXELS: usize = BUFFERS * BUFFER_PIXELS;

/// What a service runs by.
#[derive(Clone, Copy, Debug, PartialEq, Eq)]
pub enum Rules {
    /// Those from before S-3: no slot holds an f, no submit names a choice, and
    /// every job goes by the smallest one.
    Old,
    /// Those of S-3: each slot holds its job's f, and a submit can name a choice.
    New,
}

impl Rules {
    pub const ALL: [Rules; 2] = [Rules::Old, Rules::New];

    /// The choice of a job whose submit names this one or none.
    pub fn choice(self, named: Option<Choice>) -> Choice {
        match (self, named) {
            (Rules::Old, None) => Choice::Smallest,
            (Rules::Old, Some(_)) => panic!("a submit by the old rules cannot name a choice"),
            (Rules::New, named) => named.unwrap_or_default(),
        }
    }
}

/// A slot of the record; all zero where it is empty.
#[derive(Clone, Copy, Debug, Default, PartialEq, Eq)]
pub struct Slot {
    /// The job number, 0 for empty.
    pub number: u64,
    pub xx: i32,
    pub xy: i32,
    pub yy: i32,
    pub steps: u32,
    pub steps_left: u32,
    pub width: u32,
    pub height: u32,
    /// The free number of the job's kernel. A record of the old rules has no
    /// such field: it is 0 there.
    pub f: u32,
}

/// The service record.
#[derive(Clone, Copy, Debug, PartialEq, Eq)]
pub struct Record {
    pub rules: Rules,
    pub slots: [Slot; SLOTS],
    pub last_number: u64,
    pub last_filled: u32,
    pub last_served: u32,
}

impl Slot {
    fn is_filled(&self) -> bool {
        self.number != 0
    }

    fn pixels(&self) -> usize {
        self.width as usize * self.height as usize
    }

    pub fn covariance(&self) -> Covariance {
        Covariance {
            xx: self.xx,
            xy: self.xy,
            yy: self.yy,
        }
    }

    /// Steps done so far; the record is in order.
    fn steps_done(&self) -> u32 {
        self.steps - self.steps_left
    }

    /// The kernel that its ticks go by: that of its own f, if it holds one.
    fn kernel(&self, rules: Rules) -> Result<Kernel, ErrorCode> {
        match rules {
            Rules::Old => kernel_by(Choice::Smallest, self.covariance(), self.steps),
            Rules::New => {
                kernel_with(self.f.into(), self.covariance(), self.steps)?.ok_or(NO_KERNEL)
            }
        }
    }

    /// The smallest f of its shape and steps, which its job went by before S-3;
    /// the record is in order.
    fn smallest_f(&self) -> u32 {
        let [xx, xy, yy] = [self.xx, self.xy, self.yy].map(i64::from);
        unsigned(free_number(xx, xy, yy, UNITS * i64::from(self.steps)))
    }
}

/// An f of a kernel: not negative, and at most a variance.
fn unsigned(f: i64) -> u32 {
    u32::try_from(f).expect("an f of a kernel fits its field")
}

/// The record of a service just opened by some rules.
pub fn opening(rules: Rules) -> Record {
    Record {
        rules,
        slots: [Slot::default(); SLOTS],
        last_number: 0,
        last_filled: 7,
        last_served: 7,
    }
}

/// Whether a filled slot meets its limits and has a kernel; by the new rules
/// that is one with its f, which none of the nine weights is negative with.
fn slot_fits(rules: Rules, slot: &Slot) -> bool {
    check_steps(slot.steps).is_ok()
        && check_sides(slot.width, slot.height).is_ok()
        && slot.pixels() <= BUFFER_PIXELS
        && slot.kernel(rules).is_ok()
        && slot.steps_left <= slot.steps
}

/// Whether a record is in order, by its rules.
pub fn in_order(record: &Record) -> bool {
    let slots_hold = record.slots.iter().all(|slot| {
        if slot.is_filled() {
            slot_fits(record.rules, slot) && slot.number <= record.last_number
        } else {
            *slot == Slot::default()
        }
    });
    let numbers_differ = (0..SLOTS).all(|i| {
        (0..i).all(|j| {
            record.slots[i].number == 0 || record.slots[i].number != record.slots[j].number
        })
    });
    slots_hold
        && numbers_differ
        && (record.last_filled as usize) < SLOTS
        && (record.last_served as usize) < SLOTS
}

/// Refusal 2, for a call that is lent the record only.
fn check_record(record: &Record) -> Result<(), ErrorCode> {
    require(in_order(record), SERVICE_NOT_IN_ORDER)
}

/// Refusal 2, for a call that is lent the record and the store.
fn check_service(record: &Record, store: &[u16]) -> Result<(), ErrorCode> {
    check_record(record)?;
    require(store.len() == STORE_PIXELS, SERVICE_NOT_IN_ORDER)
}

/// The first slot that fits, counted on cyclically from the one after `last`.
fn round_robin(record: &Record, last: u32, fits: impl Fn(&Slot) -> bool) -> Option<usize> {
    (1..=SLOTS)
        .map(|n| (last as usize + n) % SLOTS)
        .find(|i| fits(&record.slots[*i]))
}

/// The slot of a job; refusal 7.
fn find(record: &Record, number: u64) -> Result<usize, ErrorCode> {
    record
        .slots
        .iter()
        .position(|slot| slot.is_filled() && slot.number == number)
        .ok_or(UNKNOWN_JOB)
}

fn count_free(record: &Record) -> u32 {
    let filled = record.slots.iter().filter(|slot| slot.is_filled()).count();
    (BUFFERS - 2 * filled) as u32
}

/// The first place in the store of the buffer that holds a slot's picture
/// after a number of steps done.
fn buffer_start(slot: usize, steps_done: u32) -> usize {
    (2 * slot + steps_done as usize % 2) * BUFFER_PIXELS
}

/// Submits a job and answers its number; refusals 2, 3, 4, 5, 6, 9, 10, 11, 12,
/// 13. By the old rules it names no choice.
#[allow(clippy::too_many_arguments)]
pub fn submit(
    record: &mut Record,
    store: &mut [u16],
    named: Option<Choice>,
    shape: Shape,
    steps: u32,
    width: u32,
    height: u32,
    picture: &[u16],
) -> Result<u64, ErrorCode> {
    let choice = record.rules.choice(named);
    check_service(record, store)?;
    let covariance = covariance(shape)?;
    check_steps(steps)?;
    check_sides(width, height)?;
    check_length(picture.len(), width, height)?;
    require(picture.len() <= BUFFER_PIXELS, PICTURE_TOO_LARGE)?;
    kernel_by(choice, covariance, steps)?;
    require(count_free(record) >= 2, NO_FREE_BUFFERS)?;
    let number = record.last_number.checked_add(1).ok_or(NUMBERS_EXHAUSTED)?;

    let i = round_robin(record, record.last_filled, |slot| !slot.is_filled())
        .expect("two free buffers belong to an empty slot");
    let start = buffer_start(i, 0);
    store[start..start + picture.len()].copy_from_slice(picture);
    let [xx, xy, yy] = [covariance.xx, covariance.xy, covariance.yy].map(i64::from);
    let f = free_number_by(choice, xx, xy, yy, UNITS * i64::from(steps));
    record.slots[i] = Slot {
        number,
        xx: covariance.xx,
        xy: covariance.xy,
        yy: covariance.yy,
        steps,
        steps_left: steps,
        width,
        height,
        f: match record.rules {
            Rules::Old => 0,
            Rules::New => unsigned(f),
        },
    };
    record.last_number = number;
    record.last_filled = i as u32;
    Ok(number)
}

/// Does one step of one job and answers its number, or `None` where idle; refusal 2.
pub fn tick(record: &mut Record, store: &mut [u16]) -> Result<Option<u64>, ErrorCode> {
    check_service(record, store)?;
    let Some(i) = round_robin(record, record.last_served, |slot| slot.steps_left > 0) else {
        return Ok(None);
    };
    let slot = record.slots[i];
    let kernel = slot.kernel(record.rules);
    let kernel = kernel.expect("a filled slot has a kernel");
    let done = slot.steps_done();
    let source = buffer_start(i, done);
    let target = buffer_start(i, done + 1);
    let picture = &store[source..source + slot.pixels()];
    let next = step(&kernel, picture, slot.width, slot.height);
    store[target..target + slot.pixels()].copy_from_slice(&next);
    record.slots[i].steps_left -= 1;
    record.last_served = i as u32;
    Ok(Some(slot.number))
}

/// Writes a finished job's picture out, empties its slot and answers its
/// number; refusals 2, 7, 8, 9.
pub fn collect(
    record: &mut Record,
    store: &[u16],
    number: u64,
    picture: &mut [u16],
) -> Result<u64, ErrorCode> {
    check_service(record, store)?;
    let i = find(record, number)?;
    let slot = record.slots[i];
    require(slot.steps_left == 0, JOB_UNFINISHED)?;
    check_length(picture.len(), slot.width, slot.height)?;
    let start = buffer_start(i, slot.steps_done());
    picture.copy_from_slice(&store[start..start + slot.pixels()]);
    record.slots[i] = Slot::default();
    Ok(number)
}

/// Empties a job's slot, finished or not, and answers its number; refusals 2, 7.
pub fn withdraw(record: &mut Record, number: u64) -> Result<u64, ErrorCode> {
    check_record(record)?;
    let i = find(record, number)?;
    record.slots[i] = Slot::default();
    Ok(number)
}

/// The number of free buffers: 16 less 2 for each filled slot; refusal 2.
pub fn free_count(record: &Record) -> Result<u32, ErrorCode> {
    check_record(record)?;
    Ok(count_free(record))
}

/// The change-over: the record of the new rules with which a service of the old
/// ones goes on, over the same store. Refusal 2 where the record is not in order
/// by the old rule, as one of the new rules never is.
pub fn change_over(record: &Record) -> Result<Record, ErrorCode> {
    require(record.rules == Rules::Old, SERVICE_NOT_IN_ORDER)?;
    check_record(record)?;
    let mut changed = *record;
    changed.rules = Rules::New;
    for slot in changed.slots.iter_mut().filter(|slot| slot.is_filled()) {
        slot.f = slot.smallest_f();
    }
    Ok(changed)
}
