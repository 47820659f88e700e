//! The proved service against the independent program: long lists of calls, each with its answer, record, store and
//! picture compared, and the sentences of demand 3 on lists of their own. tests/change_over.rs has the lists that change over.

mod common;

use common::services::{choice_of, submitted, Counts, Pair, Proved};
use common::{inputs, shape_of, times};
use reference::generate::{damage, f_bounds, random_f, random_half, random_pixels, with_any_f};
use reference::kernel::Choice as ModelChoice;
use reference::lists::{check_list, random_choice, random_sides, random_work, Course, Seen};
use reference::service as model;
use reference::service::{Record, Rules, Slot};
use reference::shape::Shape as ModelShape;
use reference::words::words_of;
use vokhsaot::{smooth_by, Choice, Error, Service, Shape, SEAT_WORDS, STORE_PIXELS, WORDS};

/// Calls of one list.
const CALLS: u64 = 400;

#[test]
fn opening_is_the_same() {
    let opening = model::opening(Rules::New);
    assert_eq!(Service::new().words(), words_of(&opening));
}

#[test]
fn lists_of_calls() {
    let mut random = inputs(7);
    let mut counts = Counts::default();
    for list in 0..times(40) {
        let store = random_pixels(&mut random, STORE_PIXELS);
        let mut record = model::opening(Rules::New);
        if list % 4 == 3 {
            // Near the end of the numbers.
            record.last_number = u64::MAX - random.below(12);
        }
        let mut pair = Pair::new(record, store);
        for _ in 0..CALLS {
            pair.call(&mut random, &mut counts);
        }
    }
    assert!(counts.accepted > 5000 && counts.idle > 100, "{counts:?}");
    // Refusals 1 and 2 are of other tests.
    assert!(counts.refused[3..].iter().all(|n| *n > 0), "{counts:?}");
}

#[test]
fn damaged_records() {
    let mut random = inputs(8);
    let mut counts = Counts::default();
    for _ in 0..times(40) {
        let store = random_pixels(&mut random, STORE_PIXELS);
        let mut pair = Pair::new(model::opening(Rules::New), store);
        for _ in 0..40 {
            for _ in 0..4 {
                pair.call(&mut random, &mut counts);
            }
            let mut record = pair.record;
            for _ in 0..=random.below(2) {
                damage(&mut random, &mut record);
            }
            let mut store = pair.store.clone();
            match random.below(8) {
                0 => store.push(0),
                1 => store.truncate(STORE_PIXELS - 1),
                2 => store.clear(),
                _ => {}
            }
            let mut damaged = Pair::new(record, store);
            for _ in 0..6 {
                damaged.call(&mut random, &mut counts);
            }
        }
    }
    assert!(counts.refused[2] > 1000, "{counts:?}");
}

/// Records whose jobs have any f between the bounds, not only those that a choice gives: all are served, each by its own.
#[test]
fn any_f_between_the_bounds() {
    let mut random = inputs(16);
    let mut counts = Counts::default();
    let mut of_no_choice = 0;
    for _ in 0..times(60) {
        let store = random_pixels(&mut random, STORE_PIXELS);
        let mut pair = Pair::new(model::opening(Rules::New), store);
        for _ in 0..20 {
            for _ in 0..8 {
                pair.call(&mut random, &mut counts);
            }
            let record = with_any_f(&mut random, &pair.record);
            let slots = record.slots.iter().zip(&pair.record.slots);
            of_no_choice += slots.filter(|(one, other)| one != other).count();
            assert!(model::in_order(&record));
            pair = Pair::new(record, pair.store);
        }
    }
    assert!(of_no_choice > 1000, "{of_no_choice} {counts:?}");
    assert_eq!(counts.refused[2], 0);
    assert!(counts.accepted > 5000, "{counts:?}");
}

/// Every call of the library refuses this record with 2, and changes nothing.
fn refused_by_all(words: &[u64], store: &[u16], job: u64, what: &str) {
    let start = Service::from_parts(words.to_vec(), store.to_vec());
    let mut service = start.clone();
    let refused = Error::RecordOutOfOrder;
    for choice in [
        None,
        Some(ModelChoice::Binomial),
        Some(ModelChoice::Smallest),
    ] {
        for shape in [Shape::Round(1.0), Shape::Round(f64::NAN)] {
            let answer = submitted(&mut service, choice, shape, 2, 1, 1, &[5]);
            assert_eq!(answer, Err(refused), "submit: {what}");
        }
    }
    assert_eq!(service.tick(), Err(refused), "tick: {what}");
    for job in [job, 0] {
        let mut lent = vec![9; 20];
        assert_eq!(
            service.collect(job, &mut lent),
            Err(refused),
            "collect: {what}"
        );
        assert_eq!(lent, [9; 20]);
        assert_eq!(service.withdraw(job), Err(refused), "withdraw: {what}");
        assert_eq!(service.job(job), None);
    }
    assert_eq!(service.free_count(), Err(refused), "free count: {what}");
    assert_eq!(service.jobs(), []);
    assert!(service == start, "{what}");
}

/// A record with one job, of some covariance and steps, in a seat.
fn with_one_job(seat: usize, slot: Slot) -> Record {
    let mut record = model::opening(Rules::New);
    record.slots[seat] = slot;
    record.last_number = slot.number;
    record
}

/// f at each of its bounds is in order, and one below or above is refused by every call; so is any f of an empty seat.
#[test]
fn f_at_its_bounds() {
    let mut random = inputs(17);
    let store = random_pixels(&mut random, STORE_PIXELS);
    let mut counts = Counts::default();
    let (mut below, mut above) = (0, 0);
    for turn in 0..times(1500) {
        let (covariance, steps) = random_half(&mut random);
        let seat = random.below(8) as usize;
        let mut slot = Slot {
            number: random.between(1, 9) as u64,
            xx: covariance.xx,
            xy: covariance.xy,
            yy: covariance.yy,
            steps,
            steps_left: random.below(u64::from(steps) + 1) as u32,
            width: 5,
            height: 4,
            f: 0,
        };
        let (least, most) = f_bounds(&slot);
        if least > most {
            continue;
        }
        for f in [least, most, random_f(&mut random, &slot).into()] {
            slot.f = f as u32;
            let mut pair = Pair::new(with_one_job(seat, slot), store.clone());
            for _ in 0..4 {
                pair.call(&mut random, &mut counts);
            }
        }
        for f in [least - 1, most + 1] {
            // −1 stands in the word as 32 bits, and as 64, neither of which is in order.
            slot.f = f as u32;
            let mut words = words_of(&with_one_job(seat, slot));
            refused_by_all(&words, &store, slot.number, "f out of its bounds");
            if f < 0 {
                words[SEAT_WORDS * seat + 8] = f as u64;
                refused_by_all(&words, &store, slot.number, "f below 0");
            }
            below += u32::from(f >= 0 && f < least);
            above += u32::from(f > most);
        }
        if turn % 10 == 0 {
            let stale = random.pick(&[1, 2, slot.yy as u32, 1 << 31, u32::MAX]);
            for seat in 0..8 {
                let mut record = model::opening(Rules::New);
                record.slots[seat].f = stale.max(1);
                refused_by_all(&words_of(&record), &store, 0, "f of an empty seat");
            }
        }
    }
    assert_eq!(counts.refused[2], 0);
    assert!(below > 300 && above > 500, "{below} {above}");
}

/// One service for a whole life: each slot is filled again hundreds of times.
#[test]
fn slots_reused_hundreds_of_times() {
    let mut random = inputs(9);
    let mut counts = Counts::default();
    let store = random_pixels(&mut random, STORE_PIXELS);
    let mut pair = Pair::new(model::opening(Rules::New), store);
    for _ in 0..times(20_000) {
        pair.call(&mut random, &mut counts);
    }
    assert!(pair.record.last_number > 8 * 200, "{counts:?}");
}

#[test]
fn the_sentences_of_demand_3() {
    let mut random = inputs(10);
    let mut seen = Seen::default();
    for _ in 0..times(150) {
        let calls = random.below(400) as usize;
        let course = Course::new(Rules::New, &[]);
        check_list::<Proved>(&mut random, calls, &course, &mut seen);
    }
    assert!(seen.is_enough(), "{seen:?}");
}

/// A job's picture as the library's service hands it over, alone in it.
fn handed_over(
    named: Option<ModelChoice>,
    shape: Shape,
    steps: u32,
    width: u32,
    height: u32,
    picture: &[u16],
) -> Vec<u16> {
    let mut service = Service::new();
    let answer = submitted(&mut service, named, shape, steps, width, height, picture);
    assert_eq!(answer, Ok(1));
    while service.tick().unwrap().is_some() {}
    let mut lent = vec![0; picture.len()];
    assert_eq!(service.collect(1, &mut lent), Ok(1));
    lent
}

/// A job goes by its submit's choice as the library's own run by it does, and by that of a run that names none where it names none.
#[test]
fn jobs_go_by_their_choices() {
    let mut random = inputs(14);
    let mut differ = [0; 2];
    for turn in 0..times(4000) {
        let (shape, steps) = if turn % 2 == 0 {
            random_work(&mut random, 64)
        } else {
            let (covariance, steps) = random_half(&mut random);
            (ModelShape::Matrix(covariance), steps)
        };
        let (width, height) = random_sides(&mut random);
        let area = u64::from(width) * u64::from(height);
        let picture = random_pixels(&mut random, area.min(1024) as usize);
        let shape = shape_of(shape);
        let smoothed = |choice| smooth_by(choice, shape, steps, width, height, &picture);
        let Ok(smallest) = smoothed(Choice::Smallest) else {
            continue;
        };
        let binomial = smoothed(Choice::Binomial).unwrap();
        let named = random_choice(&mut random);
        let choice = named.map_or(Choice::Binomial, choice_of);
        let (expected, other) = match choice {
            Choice::Binomial => (&binomial, &smallest),
            Choice::Smallest => (&smallest, &binomial),
        };
        let handed_over = handed_over(named, shape, steps, width, height, &picture);
        assert_eq!(handed_over, *expected, "{shape:?} {steps} {width} {height}");
        differ[choice as usize] += u32::from(handed_over != *other);
    }
    assert!(differ.iter().all(|n| *n > 150), "{differ:?}");
}

/// Words that hold no record at all, which the independent program cannot be given: refusal 2, and nothing changes.
#[test]
fn words_that_are_no_record() {
    let mut random = inputs(11);
    let good = words_of(&model::opening(Rules::New));
    let mut kept: Vec<Vec<u64>> = [0, 1, 9, 66, 67, 68, 72, 74, 76, 150]
        .map(|length| {
            (0..length)
                .map(|i| good.get(i).copied().unwrap_or(0))
                .collect()
        })
        .to_vec();
    for i in (0..WORDS).filter(|i| i % SEAT_WORDS != 0) {
        for high in [1 << 32, 1 << 63, u64::MAX, (random.bits() | 1) << 32] {
            let mut words = good.clone();
            words[i] |= high;
            kept.push(words);
        }
    }
    let store = random_pixels(&mut random, STORE_PIXELS);
    for words in kept {
        refused_by_all(&words, &store, 1, "words that are no record");
    }
    // A record of the release before is none either, before its change-over.
    let old = words_of(&model::opening(Rules::Old));
    refused_by_all(&old, &store, 1, "an old record");
}
