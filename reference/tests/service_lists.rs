//! The service: lists of calls against the sentences of demand 3, and single
//! calls on records of every kind.

use reference::generate::{damage, damaged_words, f_bounds, random_pixels, with_any_f};
use reference::kernel::{kernel_by, kernel_with, Choice, Covariance};
use reference::lists::{check_every_place, check_list, Course, Model, Seen};
use reference::random::Random;
use reference::service::{
    change_over, collect, free_count, in_order, opening, submit, tick, withdraw, Record, Rules,
    Slot, STORE_PIXELS,
};
use reference::shape::{shape_kernel_by, Shape};
use reference::smooth::rounded_run;
use reference::words::{self, record_of, words_of};

/// Lists that open by the new rules or by the old ones and change over anywhere,
/// or never.
#[test]
fn random_lists() {
    let mut random = Random::new(11);
    let mut seen = Seen::default();
    for _ in 0..250 {
        let calls = random.below(400) as usize;
        let course = Course::random(&mut random, calls);
        check_list::<Model>(&mut random, calls, &course, &mut seen);
    }
    assert!(seen.is_enough() && seen.has_change_overs(), "{seen:?}");
}

#[test]
fn the_change_over_at_every_place() {
    let mut random = Random::new(12);
    let mut seen = Seen::default();
    for _ in 0..80 {
        let calls = random.below(50) as usize;
        check_every_place::<Model>(&mut random, calls, &mut seen);
    }
    assert!(seen.half_done > 1000, "{seen:?}");
    assert!(seen.collected_across > 50, "{seen:?}");
    assert!(seen.by_choice.iter().all(|n| *n > 30), "{seen:?}");
}

/// A filled slot; by the new rules with the largest of its numbers f, 0 to 2048.
fn filled(rules: Rules, number: u64) -> Slot {
    Slot {
        number,
        xx: 2048,
        xy: 0,
        yy: 2048,
        steps: 3,
        steps_left: 2,
        width: 4,
        height: 5,
        f: match rules {
            Rules::Old => 0,
            Rules::New => 2048,
        },
    }
}

const GOOD: Shape = Shape::Round(0.5);

/// Seats are taken in turn, also over seats freed in between.
#[test]
fn slots_are_filled_in_turn() {
    for rules in Rules::ALL {
        let mut record = opening(rules);
        let mut store = vec![0; STORE_PIXELS];
        let slot_of = |record: &Record, number: u64| {
            let mut slots = record.slots.iter();
            slots.position(|slot| slot.number == number)
        };
        let mut submit =
            |record: &mut Record, unit| submit(record, &mut store, None, GOOD, 1, 1, 1, &[unit]);
        for number in 1..=8 {
            assert_eq!(submit(&mut record, number as u16), Ok(number));
            assert_eq!(slot_of(&record, number), Some(number as usize - 1));
        }
        assert_eq!(submit(&mut record, 9), Err(12));
        assert_eq!(withdraw(&mut record, 3), Ok(3));
        assert_eq!(withdraw(&mut record, 7), Ok(7));
        assert_eq!(free_count(&record), Ok(4));
        assert_eq!(submit(&mut record, 9), Ok(9));
        assert_eq!(slot_of(&record, 9), Some(2));
        assert_eq!(withdraw(&mut record, 1), Ok(1));
        assert_eq!(submit(&mut record, 10), Ok(10));
        assert_eq!(slot_of(&record, 10), Some(6));
        assert_eq!(submit(&mut record, 11), Ok(11));
        assert_eq!(slot_of(&record, 11), Some(0));
        assert_eq!(
            (record.last_number, record.last_filled, record.last_served),
            (11, 0, 7)
        );
        let units = (0..8).map(|slot| store[2048 * slot]);
        assert!(units.eq([11, 2, 9, 4, 5, 6, 10, 8]));
    }
}

#[test]
fn a_tick_is_one_step_from_buffer_to_buffer() {
    // A shape whose two choices differ.
    let shape = Shape::Round(1.0);
    let [binomial, smallest] = Choice::ALL.map(|choice| shape_kernel_by(choice, shape, 2).unwrap());
    assert_ne!(binomial, smallest);
    for (rules, named, kernel) in [
        (Rules::Old, None, smallest),
        (Rules::New, None, binomial),
        (Rules::New, Some(Choice::Binomial), binomial),
        (Rules::New, Some(Choice::Smallest), smallest),
    ] {
        let mut record = opening(rules);
        let mut store = vec![500; STORE_PIXELS];
        let picture = [0, 0, 0, 0, 1600, 0, 0, 0, 0];
        record.last_filled = 4;
        record.last_served = 2;
        assert_eq!(
            submit(&mut record, &mut store, named, shape, 2, 3, 3, &picture),
            Ok(1)
        );
        let mut expected = vec![500; STORE_PIXELS];
        expected[10 * 1024..10 * 1024 + 9].copy_from_slice(&picture);
        assert_eq!(store, expected);
        for (steps, buffer) in [(1, 11), (2, 10)] {
            assert_eq!(tick(&mut record, &mut store), Ok(Some(1)));
            let after = rounded_run(&kernel, &picture, 3, 3, steps);
            expected[buffer * 1024..buffer * 1024 + 9].copy_from_slice(&after);
            assert_eq!(store, expected);
            assert_eq!(record.slots[5].steps_left, 2 - steps);
            assert_eq!(record.last_served, 5);
        }
        assert_eq!(tick(&mut record, &mut store), Ok(None));
        assert_eq!(store, expected);
    }
}

const HOLLOW: [u16; 9] = [0, 400, 0, 400, 0, 400, 0, 400, 0];
const BINOMIAL: [u16; 9] = [100, 200, 100, 200, 400, 200, 100, 200, 100];

/// Case a by the service: by the old rules the smallest choice's pixels, by the
/// new ones those of the choice named, and of S-2's rule where none is.
#[test]
fn jobs_go_by_their_choices() {
    for (rules, named, f, expected) in [
        (Rules::Old, None, 0, HOLLOW),
        (Rules::New, None, 1024, BINOMIAL),
        (Rules::New, Some(Choice::Binomial), 1024, BINOMIAL),
        (Rules::New, Some(Choice::Smallest), 0, HOLLOW),
    ] {
        let mut record = opening(rules);
        let mut store = vec![0; STORE_PIXELS];
        let mut picture = [0, 0, 0, 0, 1600, 0, 0, 0, 0];
        for (number, shape) in [(1, Shape::matrix(2048, 0, 2048)), (2, GOOD)] {
            let answer = submit(&mut record, &mut store, named, shape, 1, 3, 3, &picture);
            assert_eq!(answer, Ok(number));
            assert_eq!(record.slots[number as usize - 1].f, f);
        }
        for number in [1, 2] {
            assert_eq!(tick(&mut record, &mut store), Ok(Some(number)));
        }
        for number in [1, 2] {
            let answer = collect(&mut record, &store, number, &mut picture);
            assert_eq!(answer, Ok(number));
            assert_eq!(picture, expected);
        }
    }
}

/// A submit by the old rules that names a choice is no call of theirs.
#[test]
#[should_panic(expected = "cannot name a choice")]
fn no_choice_by_the_old_rules() {
    let mut record = opening(Rules::Old);
    let mut store = vec![0; STORE_PIXELS];
    let named = Some(Choice::Smallest);
    let _ = submit(&mut record, &mut store, named, GOOD, 1, 1, 1, &[7]);
}

/// A name, a change to a record in order, and whether it is in order after it.
type Change = (&'static str, fn(&mut Record), bool);

/// Each sentence of "in order" that both rules have, broken by itself.
const CHANGES: [Change; 34] = [
    ("empty xx", |r| r.slots[0].xx = 1, false),
    ("empty xy", |r| r.slots[0].xy = 1, false),
    ("empty yy", |r| r.slots[0].yy = -1, false),
    ("empty steps", |r| r.slots[0].steps = 1, false),
    ("empty steps left", |r| r.slots[0].steps_left = 1, false),
    ("empty width", |r| r.slots[7].width = 1, false),
    ("empty height", |r| r.slots[7].height = 1, false),
    (
        "no steps",
        |r| (r.slots[1].steps, r.slots[1].steps_left) = (0, 0),
        false,
    ),
    ("64 steps", |r| r.slots[1].steps = 64, true),
    ("65 steps", |r| r.slots[1].steps = 65, false),
    ("no width", |r| r.slots[1].width = 0, false),
    ("no height", |r| r.slots[1].height = 0, false),
    (
        "1024 × 1",
        |r| (r.slots[1].width, r.slots[1].height) = (1024, 1),
        true,
    ),
    (
        "1 × 1024",
        |r| (r.slots[1].width, r.slots[1].height) = (1, 1024),
        true,
    ),
    (
        "1025 × 1",
        |r| (r.slots[1].width, r.slots[1].height) = (1025, 1),
        false,
    ),
    (
        "33 × 32",
        |r| (r.slots[1].width, r.slots[1].height) = (33, 32),
        false,
    ),
    (
        "1024 × 1024",
        |r| (r.slots[1].width, r.slots[1].height) = (1024, 1024),
        false,
    ),
    (
        "huge",
        |r| (r.slots[1].width, r.slots[1].height) = (u32::MAX, u32::MAX),
        false,
    ),
    (
        "wraps to 0",
        |r| (r.slots[1].width, r.slots[1].height) = (65536, 65536),
        false,
    ),
    ("no kernel", |r| r.slots[1].xy = 2049, false),
    ("lean", |r| r.slots[1].xy = -2048, true),
    ("too few steps", |r| r.slots[1].xx = 12289, false),
    ("enough steps", |r| r.slots[1].xx = 12288, true),
    ("steps left", |r| r.slots[1].steps_left = 4, false),
    ("all left", |r| r.slots[1].steps_left = 3, true),
    ("finished", |r| r.slots[1].steps_left = 0, true),
    ("number too large", |r| r.slots[1].number = 8, false),
    ("number too large", |r| r.last_number = 6, false),
    ("shared number", |r| r.slots[1].number = 7, false),
    ("last filled 8", |r| r.last_filled = 8, false),
    ("last served 8", |r| r.last_served = 8, false),
    ("last filled", |r| r.last_filled = u32::MAX, false),
    (
        "named seats",
        |r| (r.last_filled, r.last_served) = (0, 3),
        true,
    ),
    ("last number", |r| r.last_number = u64::MAX, true),
];

/// The same of f.
const CHANGES_OF_F: [Change; 16] = [
    ("empty f", |r| r.slots[0].f = 1, false),
    ("last empty f", |r| r.slots[7].f = u32::MAX, false),
    ("smallest", |r| r.slots[1].f = 0, true),
    ("between", |r| r.slots[1].f = 777, true),
    (
        "one above the smaller variance",
        |r| r.slots[1].f = 2049,
        false,
    ),
    ("negative in 32 bits", |r| r.slots[1].f = u32::MAX, false),
    ("half of 32 bits", |r| r.slots[1].f = 1 << 31, false),
    (
        "at the lean",
        |r| (r.slots[1].xy, r.slots[1].f) = (100, 100),
        true,
    ),
    (
        "one below the lean",
        |r| (r.slots[1].xy, r.slots[1].f) = (100, 99),
        false,
    ),
    (
        "one below the other lean",
        |r| (r.slots[1].xy, r.slots[1].f) = (-100, 99),
        false,
    ),
    (
        "at xx + yy − M",
        |r| (r.slots[1].xx, r.slots[1].f) = (12000, 1760),
        true,
    ),
    (
        "one below xx + yy − M",
        |r| (r.slots[1].xx, r.slots[1].f) = (12000, 1759),
        false,
    ),
    (
        "the smaller variance in x",
        |r| (r.slots[5].xx, r.slots[5].f) = (7, 7),
        true,
    ),
    (
        "above xx",
        |r| (r.slots[5].xx, r.slots[5].f) = (7, 8),
        false,
    ),
    (
        "above yy",
        |r| (r.slots[5].yy, r.slots[5].f) = (7, 8),
        false,
    ),
    (
        "in a finished seat",
        |r| (r.slots[1].steps_left, r.slots[1].f) = (0, 2049),
        false,
    ),
];

/// Two jobs in seats 1 and 5.
fn with_two_jobs(rules: Rules) -> Record {
    let mut record = opening(rules);
    record.slots[1] = filled(rules, 4);
    record.slots[5] = filled(rules, 7);
    record.last_number = 7;
    record
}

/// Every call refuses a record that is not in order, and changes nothing.
fn refused_by_all(record: &Record, name: &str) {
    let mut record = *record;
    let before = record;
    let mut store = vec![3; STORE_PIXELS];
    let mut picture = [6; 20];
    let nan = Shape::Round(f64::NAN);
    assert_eq!(
        submit(&mut record, &mut store, None, nan, 0, 0, 0, &[1]),
        Err(2),
        "{name}"
    );
    assert_eq!(tick(&mut record, &mut store), Err(2), "{name}");
    assert_eq!(collect(&mut record, &store, 0, &mut picture), Err(2));
    assert_eq!(withdraw(&mut record, 4), Err(2), "{name}");
    assert_eq!(free_count(&record), Err(2), "{name}");
    assert_eq!(change_over(&record), Err(2), "{name}");
    assert!(record == before && picture == [6; 20]);
    assert!(store.iter().all(|pixel| *pixel == 3));
}

#[test]
fn records_out_of_order() {
    for rules in Rules::ALL {
        let good = with_two_jobs(rules);
        assert!(in_order(&good) && in_order(&opening(rules)));
        let f = CHANGES_OF_F.iter().filter(|_| rules == Rules::New);
        for (name, change, holds) in CHANGES.iter().chain(f) {
            let mut record = good;
            change(&mut record);
            assert_eq!(in_order(&record), *holds, "{name}");
            if !holds {
                refused_by_all(&record, name);
            }
        }
    }
}

/// Every field is kept, and f is the smallest in a filled seat and 0 in an
/// empty one, also where the record is one that no list leads to.
#[test]
fn what_the_change_over_makes() {
    let old = with_two_jobs(Rules::Old);
    for (_, change, holds) in CHANGES {
        let mut old = old;
        change(&mut old);
        let answer = change_over(&old);
        assert_eq!(answer.is_ok(), holds);
        let Ok(new) = answer else { continue };
        assert!(new.rules == Rules::New && in_order(&new));
        let named = |record: &Record| (record.last_number, record.last_filled, record.last_served);
        assert_eq!(named(&new), named(&old));
        for (new, old) in new.slots.iter().zip(&old.slots) {
            let fields = Slot { f: 0, ..*new };
            assert_eq!(fields, *old);
            let least = if old.number == 0 { 0 } else { f_bounds(old).0 };
            assert_eq!(i64::from(new.f), least);
        }
        // There is no second one.
        assert_eq!(change_over(&new), Err(2));
    }
    assert_eq!(change_over(&opening(Rules::Old)), Ok(opening(Rules::New)));
}

/// Words and back, by both rules; those of other rules hold no record.
#[test]
fn words_and_records() {
    assert_eq!(Rules::ALL.map(words::record_words), [67, 75]);
    for rules in Rules::ALL {
        let mut record = with_two_jobs(rules);
        record.slots[5].xy = -2;
        let words = words_of(&record);
        let size = words::slot_words(rules);
        let seat = [7, 2048, 0xffff_fffe, 2048, 3, 2, 4, 5, 2048];
        assert_eq!(words[5 * size..6 * size], seat[..size]);
        assert_eq!(words[8 * size..], [7, 7, 7]);
        assert_eq!(record_of(rules, &words), Some(record));
        for other in [0, 1, 66, 67, 68, 74, 75, 76] {
            let mut other_words = words.clone();
            other_words.resize(other, 0);
            let fits = other == words.len();
            assert_eq!(record_of(rules, &other_words).is_some(), fits, "{other}");
        }
        for place in 0..words.len() {
            let mut wide = words.clone();
            wide[place] |= 1 << 32;
            let number = place == 8 * size || place < 8 * size && place % size == 0;
            assert_eq!(record_of(rules, &wide).is_some(), number, "{place}");
        }
    }
}

/// The change-over of words: refusal 2 before refusal 9, and a refusal writes
/// nothing.
#[test]
fn the_change_over_of_words() {
    let mut random = Random::new(13);
    let (mut accepted, mut refused) = (0, [0; 10]);
    for turn in 0..4000 {
        let mut old = with_two_jobs(Rules::Old);
        if turn % 3 == 0 {
            damage(&mut random, &mut old);
        }
        let mut old_words = words_of(&old);
        match turn % 5 {
            0 => old_words = damaged_words(&mut random, &old_words),
            1 => old_words.truncate(random.below(70) as usize),
            2 => old_words.resize(random.between(60, 80) as usize, 0),
            _ => {}
        }
        let lengths = [75, 75, 75, 0, 67, 74, 76];
        let kept: Vec<u64> = (0..random.pick(&lengths)).map(|_| random.bits()).collect();
        let mut words = kept.clone();
        let answer = words::change_over(&old_words, &mut words);
        let record = record_of(Rules::Old, &old_words).filter(in_order);
        let expected = match &record {
            None => Err(2),
            Some(_) if words.len() != 75 => Err(9),
            Some(_) => Ok(()),
        };
        assert_eq!(answer, expected);
        match answer {
            Ok(()) => {
                accepted += 1;
                let new = record_of(Rules::New, &words).expect("a record");
                assert_eq!(change_over(&record.unwrap()), Ok(new));
            }
            Err(refusal) => {
                refused[usize::from(refusal)] += 1;
                assert_eq!(words, kept);
            }
        }
    }
    assert!(accepted > 500 && refused[2] > 500 && refused[9] > 500);
}

#[test]
fn the_length_of_the_store() {
    let mut record = with_two_jobs(Rules::New);
    let before = record;
    for length in [0, 1, STORE_PIXELS - 1, STORE_PIXELS + 1] {
        let mut store = vec![3; length];
        let mut picture = [6; 20];
        assert_eq!(
            submit(&mut record, &mut store, None, GOOD, 1, 1, 1, &[1]),
            Err(2)
        );
        assert_eq!(tick(&mut record, &mut store), Err(2));
        assert_eq!(collect(&mut record, &store, 9, &mut picture), Err(2));
        assert!(record == before && store.iter().all(|pixel| *pixel == 3));
    }
}

#[test]
fn the_last_refusals_of_submit() {
    let mut record = opening(Rules::New);
    let mut store = vec![3; STORE_PIXELS];
    record.last_number = u64::MAX - 1;
    assert_eq!(
        submit(&mut record, &mut store, None, GOOD, 1, 1, 1, &[1]),
        Ok(u64::MAX)
    );
    let before = (record, store.clone());
    assert_eq!(
        submit(&mut record, &mut store, None, GOOD, 1, 1, 1, &[1]),
        Err(13)
    );
    let none = Shape::matrix(0, 1, 0);
    assert_eq!(
        submit(&mut record, &mut store, None, none, 1, 1, 1, &[1]),
        Err(11)
    );
    assert_eq!(
        submit(&mut record, &mut store, None, none, 1, 64, 32, &[1; 2047]),
        Err(9)
    );
    assert_eq!(
        submit(&mut record, &mut store, None, none, 1, 64, 32, &[1; 2048]),
        Err(10)
    );
    assert!((record, &store) == (before.0, &before.1));
    // Full, and the numbers used up.
    for i in 0..8 {
        record.slots[i] = filled(Rules::New, i as u64 + 1);
    }
    let before = record;
    assert_eq!(
        submit(&mut record, &mut store, None, GOOD, 1, 1, 1, &[1]),
        Err(12)
    );
    assert_eq!(
        submit(&mut record, &mut store, None, none, 1, 1, 1, &[1]),
        Err(11)
    );
    assert!(record == before);
}

/// Records that no list leads to are served too: by the old rules with the
/// smallest f, by the new ones with any that their slot holds.
#[test]
fn any_record_in_order_is_served() {
    // Two thirds of the largest variance of three steps: the choices differ.
    let covariance = Covariance {
        xx: 8192,
        xy: 0,
        yy: 8192,
    };
    let by_choice = Choice::ALL.map(|choice| kernel_by(choice, covariance, 3).unwrap());
    for (rules, f) in [
        (Rules::Old, 0),
        (Rules::New, 4096),
        (Rules::New, 4097),
        (Rules::New, 5000),
        (Rules::New, 8191),
        (Rules::New, 8192),
    ] {
        let kernel = match rules {
            Rules::Old => by_choice[1],
            Rules::New => kernel_with(f.into(), covariance, 3).unwrap().unwrap(),
        };
        assert_eq!(by_choice.contains(&kernel), f < 4097);
        let mut record = opening(rules);
        let mut store: Vec<u16> = (0..STORE_PIXELS).map(|place| place as u16).collect();
        record.slots[6] = Slot {
            xx: 8192,
            yy: 8192,
            f,
            ..filled(rules, 40)
        };
        record.last_number = 50;
        assert_eq!(free_count(&record), Ok(14));
        assert_eq!(collect(&mut record, &store, 40, &mut [0; 20]), Err(8));
        assert_eq!(collect(&mut record, &store, 0, &mut [0; 20]), Err(7));
        assert_eq!(withdraw(&mut record, 0), Err(7));
        // One of three steps is done: the current picture is in buffer 13.
        let picture = store[13 * 1024..13 * 1024 + 20].to_vec();
        assert_eq!(tick(&mut record, &mut store), Ok(Some(40)));
        let after = rounded_run(&kernel, &picture, 4, 5, 1);
        assert_eq!(store[12 * 1024..12 * 1024 + 20], after);
        assert_eq!(tick(&mut record, &mut store), Ok(Some(40)));
        let after = rounded_run(&kernel, &picture, 4, 5, 2);
        let mut handed_over = [0; 20];
        assert_eq!(collect(&mut record, &store, 40, &mut [0; 19]), Err(9));
        assert_eq!(collect(&mut record, &store, 40, &mut handed_over), Ok(40));
        assert_eq!(handed_over[..], after);
        assert_eq!(record.slots[6], Slot::default());
        assert_eq!(
            (record.last_number, record.last_filled, record.last_served),
            (50, 7, 6)
        );
    }
}

/// From every record in order that a list could have left or not, with half done
/// jobs: going on by the old rules and changing over is changing over and going
/// on by the new ones.
#[test]
fn the_change_over_commutes_with_every_call() {
    let mut random = Random::new(14);
    let mut served = 0;
    for _ in 0..3000 {
        let mut old = opening(Rules::Old);
        for (i, slot) in old.slots.iter_mut().enumerate() {
            if random.once_in(3) {
                *slot = filled(Rules::Old, i as u64 + 1);
                slot.xx = random.between(2048, 12288) as i32;
                slot.xy = random.between(-2048, 2048) as i32;
                slot.steps_left = random.below(4) as u32;
            }
        }
        old.last_number = random.between(8, 11) as u64;
        old.last_filled = random.below(8) as u32;
        old.last_served = random.below(8) as u32;
        let mut store = random_pixels(&mut random, STORE_PIXELS);
        let mut new_store = store.clone();
        let mut new = change_over(&old).unwrap();
        assert!(in_order(&with_any_f(&mut random, &new)));
        for _ in 0..6 {
            let number = random.below(13);
            let smallest = Some(Choice::Smallest);
            match random.below(6) {
                0 => assert_eq!(
                    submit(&mut old, &mut store, None, GOOD, 2, 1, 2, &[8, 9]),
                    submit(&mut new, &mut new_store, smallest, GOOD, 2, 1, 2, &[8, 9]),
                ),
                1 => assert_eq!(withdraw(&mut old, number), withdraw(&mut new, number)),
                2 => {
                    let (mut lent, mut new_lent) = ([7; 20], [7; 20]);
                    assert_eq!(
                        collect(&mut old, &store, number, &mut lent),
                        collect(&mut new, &new_store, number, &mut new_lent),
                    );
                    assert_eq!(lent, new_lent);
                }
                _ => {
                    let answer = tick(&mut old, &mut store);
                    assert_eq!(answer, tick(&mut new, &mut new_store));
                    served += u32::from(answer != Ok(None));
                }
            }
            assert_eq!(free_count(&old), free_count(&new));
            assert_eq!(change_over(&old), Ok(new));
            assert!(store == new_store);
        }
    }
    assert!(served > 3000, "{served}");
}
