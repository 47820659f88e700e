//! The library's change-over against the independent program: records of the old rules as lists leave them, at every place, and as no
//! list does. Calls by the old rules are the independent program's, since the release before is not linked; from the change-over on
//! the library runs beside it.

mod common;

use common::services::{Counts, Pair, Proved};
use common::{inputs, times};
use reference::error_code::ErrorCode;
use reference::generate::{damage, damaged_words, random_f, random_pixels, random_shape};
use reference::lists::{check_every_place, check_list, random_sides, Course, Seen};
use reference::random::Random;
use reference::service as model;
use reference::service::{in_order, Record, Rules, Slot, SLOTS};
use reference::shape::{covariance, shape_kernel_by};
use reference::words;
use reference::words::words_of;
use vokhsaot::{Error, Service, OLD_WORDS, STORE_PIXELS, WORDS};

extern "C" {
    /// The exported call itself, which can be lent other lengths than the crate lends it.
    fn vokhsaot_change_over(
        old_words: *const u64,
        old_words_len: usize,
        words: *mut u64,
        words_len: usize,
    ) -> u32;
}

/// The exported call over slices.
fn changed_over(old_words: &[u64], words: &mut [u64]) -> Result<(), ErrorCode> {
    // SAFETY: each pointer stands with the length of its own slice, and they do not overlap.
    let code = unsafe {
        vokhsaot_change_over(
            old_words.as_ptr(),
            old_words.len(),
            words.as_mut_ptr(),
            words.len(),
        )
    };
    match code {
        0 => Ok(()),
        refusal => Err(refusal as ErrorCode),
    }
}

/// A pair of services, of which only the independent one runs yet.
fn opened_by_the_old_rules(random: &mut Random) -> Pair {
    let store = random_pixels(random, STORE_PIXELS);
    Pair::new(model::opening(Rules::Old), store)
}

#[test]
fn lists_that_change_over_anywhere() {
    let mut random = inputs(18);
    let mut counts = Counts::default();
    for list in 0..times(120) {
        let mut pair = opened_by_the_old_rules(&mut random);
        if list % 8 == 7 {
            // Near the end of the numbers.
            pair.record.last_number = u64::MAX - random.below(12);
        }
        let calls = random.below(400);
        let place = random.below(calls + 1);
        for at in 0..=calls {
            if at == place {
                pair.change_over(&mut counts);
            }
            if at > place && random.once_in(40) {
                // A second one, which is refused.
                pair.change_over(&mut counts);
            }
            pair.call(&mut random, &mut counts);
        }
    }
    assert!(counts.changed_over >= 120, "{counts:?}");
    assert!(
        counts.half_done > 40 && counts.compared > 8000,
        "{counts:?}"
    );
    assert!(counts.refused[2] > 50, "{counts:?}");
    assert!(counts.refused[3..].iter().all(|n| *n > 0), "{counts:?}");
}

/// A short list with its change-over at each place, before the first call, between all, and after the last. Where its submits name the
/// smallest choice alone, every place leaves what the one at the end leaves: calls by the new rules after it are the calls that would
/// have been made by the old ones before it.
#[test]
fn every_place_of_short_lists() {
    let mut random = inputs(19);
    let mut counts = Counts::default();
    for _ in 0..times(60) {
        let calls = random.below(45);
        let start = random.clone();
        for smallest_only in [false, true] {
            let mut left = Vec::new();
            for place in 0..=calls {
                random = start.clone();
                let mut pair = opened_by_the_old_rules(&mut random);
                pair.smallest_only = smallest_only;
                for at in 0..=calls {
                    if at == place {
                        pair.change_over(&mut counts);
                    }
                    if at < calls {
                        pair.call(&mut random, &mut counts);
                    }
                }
                left.push((pair.record, pair.store));
            }
            if smallest_only {
                assert!(left.iter().all(|other| *other == left[0]), "the place");
            }
        }
    }
    assert!(counts.changed_over > 1000, "{counts:?}");
    assert!(
        counts.half_done > 500 && counts.compared > 20_000,
        "{counts:?}"
    );
}

/// Demand 3 through the change-over: its sentences on lists that open by the old rules, at any place and at every place.
#[test]
fn the_sentences_of_demand_3() {
    let mut random = inputs(20);
    let mut seen = Seen::default();
    for _ in 0..times(250) {
        let calls = random.below(400) as usize;
        let course = Course::random(&mut random, calls);
        check_list::<Proved>(&mut random, calls, &course, &mut seen);
    }
    assert!(seen.is_enough() && seen.has_change_overs(), "{seen:?}");
    let mut seen = Seen::default();
    for _ in 0..times(40) {
        let calls = random.below(40) as usize;
        check_every_place::<Proved>(&mut random, calls, &mut seen);
    }
    assert!(seen.half_done > 200, "{seen:?}");
}

/// A slot with some job of the old rules that has a kernel, half done or not.
fn random_slot(random: &mut Random, number: u64) -> Slot {
    loop {
        let (shape, steps) = random_shape(random);
        let (width, height) = random_sides(random);
        let area = u64::from(width) * u64::from(height);
        let fits = (1..=1024).contains(&width) && (1..=1024).contains(&height) && area <= 1024;
        if !fits || shape_kernel_by(Default::default(), shape, steps).is_err() {
            continue;
        }
        let covariance = covariance(shape).unwrap();
        return Slot {
            number,
            xx: covariance.xx,
            xy: covariance.xy,
            yy: covariance.yy,
            steps,
            steps_left: random.below(u64::from(steps) + 1) as u32,
            width,
            height,
            f: 0,
        };
    }
}

/// A record in order by the old rule, mostly one that no list leads to: any numbers in any seats, any named seats.
fn random_old(random: &mut Random) -> Record {
    let mut record = model::opening(Rules::Old);
    let first = random.pick(&[1, 2, 1000, u64::MAX - 9]);
    let filled = random.pick(&[2, 5, 8]);
    for i in 0..SLOTS {
        if random.below(8) < filled {
            record.slots[i] = random_slot(random, first + (5 * i as u64) % 8);
        }
    }
    record.last_number = random.pick(&[first + 7, first + 8, u64::MAX]);
    record.last_filled = random.below(8) as u32;
    record.last_served = random.below(8) as u32;
    assert!(in_order(&record));
    record
}

/// What the change-over makes of any record in order, and that the library then goes on from there as the independent program does.
#[test]
fn any_old_record() {
    let mut random = inputs(21);
    let mut counts = Counts::default();
    for _ in 0..times(800) {
        let store = random_pixels(&mut random, STORE_PIXELS);
        let old = random_old(&mut random);
        let mut pair = Pair::new(old, store);
        pair.smallest_only = random.once_in(2);
        pair.change_over(&mut counts);
        let words = words_of(&pair.record);
        for (seat, slot) in old.slots.iter().enumerate() {
            let old_words = &words_of(&old)[8 * seat..8 * seat + 8];
            assert_eq!(words[9 * seat..9 * seat + 8], *old_words);
            let [xx, xy, yy] = [slot.xx, slot.xy, slot.yy].map(i64::from);
            let smallest = xy.abs().max(xx + yy - 4096 * i64::from(slot.steps));
            let f = if slot.number == 0 { 0 } else { smallest as u64 };
            assert_eq!(words[9 * seat + 8], f);
        }
        assert_eq!(words[72..], words_of(&old)[64..]);
        let mut by_the_old_rules = Pair::new(old, pair.store.clone());
        let numbers = random.clone();
        for _ in 0..12 {
            pair.call(&mut random, &mut counts);
        }
        if pair.smallest_only {
            // The same calls by the old rules and then the change-over.
            random = numbers;
            for _ in 0..12 {
                by_the_old_rules.call(&mut random, &mut counts);
            }
            by_the_old_rules.change_over(&mut counts);
            assert!(by_the_old_rules.record == pair.record);
            assert!(by_the_old_rules.store == pair.store);
        }
    }
    assert!(counts.half_done > 1000, "{counts:?}");
}

/// The exported call by its slices: damaged words, words of other numbers, new words of other numbers; a refusal writes nothing.
#[test]
fn damaged_old_words() {
    let mut random = inputs(22);
    let (mut accepted, mut refused) = (0, [0; 14]);
    for turn in 0..times(20_000) {
        let mut old = random_old(&mut random);
        if turn % 3 == 0 {
            damage(&mut random, &mut old);
        }
        let mut old_words = words_of(&old);
        match random.below(8) {
            0..=2 => old_words = damaged_words(&mut random, &old_words),
            3 => old_words.resize(random.between(60, 76) as usize, 0),
            4 => old_words.truncate(random.below(OLD_WORDS as u64) as usize),
            _ => {}
        }
        let length = match random.below(4) {
            0 => random.pick(&[0, 1, 67, WORDS - 1, WORDS + 1, 150]),
            _ => WORDS,
        };
        let kept: Vec<u64> = (0..length).map(|_| random.bits()).collect();
        let (mut given, mut expected) = (kept.clone(), kept.clone());
        let old_kept = old_words.clone();
        let answer = changed_over(&old_words, &mut given);
        assert_eq!(answer, words::change_over(&old_words, &mut expected));
        assert_eq!(given, expected);
        assert_eq!(old_words, old_kept, "the old words are only read");
        match answer {
            Ok(()) => accepted += 1,
            Err(refusal) => {
                assert_eq!(given, kept);
                refused[usize::from(refusal)] += 1;
            }
        }
        // The crate's own call, by the store that comes back.
        let store = vec![turn as u16; random.pick(&[STORE_PIXELS, 0, 5])];
        match Service::change_over(&old_words, store.clone()) {
            Ok(service) => {
                assert_ne!(answer, Err(2));
                assert!(service.store() == store);
                let mut words = vec![0; WORDS];
                assert_eq!(words::change_over(&old_words, &mut words), Ok(()));
                assert_eq!(service.words(), words);
            }
            Err(refused) => {
                assert_eq!(answer, Err(2));
                assert_eq!(refused.error, Error::RecordOutOfOrder);
                assert!(refused.store == store);
            }
        }
    }
    assert!(accepted > 3000, "{accepted} {refused:?}");
    assert!(refused[2] > 3000 && refused[9] > 1000, "{refused:?}");
}

/// Words of the new rules are no old record, neither the opening's nor those that a change-over made. What their first 67 are is told
/// by their words, as of any other 67.
#[test]
fn there_is_no_second_change_over() {
    let mut random = inputs(23);
    for _ in 0..times(2000) {
        let old = random_old(&mut random);
        let mut record = model::change_over(&old).unwrap();
        for slot in record.slots.iter_mut().filter(|slot| slot.number != 0) {
            slot.f = random_f(&mut random, slot);
        }
        let words = words_of(&record);
        let kept = vec![random.bits(); WORDS];
        let mut lent = kept.clone();
        assert_eq!(changed_over(&words, &mut lent), Err(2));
        assert_eq!(lent, kept);
        let mut expected = kept.clone();
        let answer = changed_over(&words[..OLD_WORDS], &mut lent);
        let due = words::change_over(&words[..OLD_WORDS], &mut expected);
        assert_eq!((answer, &lent), (due, &expected));
    }
    let opening = Service::new();
    assert_eq!(changed_over(opening.words(), &mut [0; WORDS]), Err(2));
}
