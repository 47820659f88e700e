//! A record as the unsigned 64-bit words that callers lend: for each slot its
//! number, xx, xy, yy, steps, steps left, width and height, by the new rules
//! its f as well, and then the last number and the two named slots.
//!
//! xx, xy and yy stand as their two's complement in 32 bits. Every word but the
//! numbers has 32 bits; words with one that does not fit hold no record.

use crate::error_code::{require, ErrorCode, BAD_LENGTH, SERVICE_NOT_IN_ORDER};
use crate::service::{self, Record, Rules, Slot, SLOTS};

/// The words of one slot.
pub fn slot_words(rules: Rules) -> usize {
    match rules {
        Rules::Old => 8,
        Rules::New => 9,
    }
}

/// The words of a record: 67 by the old rules, 75 by the new ones.
pub fn record_words(rules: Rules) -> usize {
    SLOTS * slot_words(rules) + 3
}

/// The words of a record.
pub fn words_of(record: &Record) -> Vec<u64> {
    let mut words = Vec::new();
    for slot in &record.slots {
        words.push(slot.number);
        words.extend([slot.xx, slot.xy, slot.yy].map(|entry| u64::from(entry as u32)));
        words.extend([slot.steps, slot.steps_left, slot.width, slot.height].map(u64::from));
        match record.rules {
            Rules::Old => assert_eq!(slot.f, 0, "a record of the old rules holds no f"),
            Rules::New => words.push(slot.f.into()),
        }
    }
    words.push(record.last_number);
    words.extend([record.last_filled, record.last_served].map(u64::from));
    words
}

/// The record that some words hold by some rules; `None` where they are too few
/// or too many, or one does not fit.
pub fn record_of(rules: Rules, words: &[u64]) -> Option<Record> {
    if words.len() != record_words(rules) {
        return None;
    }
    let mut words = words.iter().copied();
    let mut number = || words.next().expect("they were counted");
    let mut record = service::opening(rules);
    for slot in &mut record.slots {
        *slot = slot_of(rules, &mut number)?;
    }
    record.last_number = number();
    record.last_filled = u32::try_from(number()).ok()?;
    record.last_served = u32::try_from(number()).ok()?;
    Some(record)
}

/// The slot that the next words hold.
fn slot_of(rules: Rules, next: &mut impl FnMut() -> u64) -> Option<Slot> {
    let number = next();
    let mut narrow = || u32::try_from(next()).ok();
    let [xx, xy, yy] = [narrow()?, narrow()?, narrow()?].map(|bits| bits as i32);
    Some(Slot {
        number,
        xx,
        xy,
        yy,
        steps: narrow()?,
        steps_left: narrow()?,
        width: narrow()?,
        height: narrow()?,
        f: match rules {
            Rules::Old => 0,
            Rules::New => narrow()?,
        },
    })
}

/// The change-over from lent words to lent words; refusals 2, 9.
pub fn change_over(old_words: &[u64], words: &mut [u64]) -> Result<(), ErrorCode> {
    let old = record_of(Rules::Old, old_words).ok_or(SERVICE_NOT_IN_ORDER)?;
    let changed = service::change_over(&old)?;
    require(words.len() == record_words(Rules::New), BAD_LENGTH)?;
    words.copy_from_slice(&words_of(&changed));
    Ok(())
}
