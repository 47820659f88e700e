//! A running unit changes over: its record is of the release before, whose seats hold no f, and one of its jobs is half done. The job
//! goes on with the pixels that it would have had, beside a new one.
//!
//! `cargo run --example change_over` in `rust/`; change_over.expected beside this file is what it prints.

use vokhsaot::{
    Choice, Error, Service, Shape, BUFFERS, BUFFER_PIXELS, OLD_SEAT_WORDS, OLD_WORDS, SEATS,
    SEAT_F, SEAT_JOB, SEAT_WORDS, STORE_PIXELS, WORD_LAST_NUMBER,
};

const SPOT: [u16; 9] = [0, 0, 0, 0, 1600, 0, 0, 0, 0];
const SHAPE: Shape = Shape::Matrix {
    xx: 4096,
    xy: 0,
    yy: 4096,
};

/// What the earlier release left, a record and a store: job 5 in seat 1 has the spot of 3 × 3 pixels, and one of its two steps is done.
/// So its current picture stands in the second of its seat's buffers.
fn left_by_the_earlier_release() -> ([u64; OLD_WORDS], Vec<u16>) {
    let mut words = [0; OLD_WORDS];
    // Its number, xx, xy and yy, steps and steps left, width and height.
    words[OLD_SEAT_WORDS..2 * OLD_SEAT_WORDS].copy_from_slice(&[5, 4096, 0, 4096, 2, 1, 3, 3]);
    // The last number given, the seat last filled and the seat last served.
    words[SEATS * OLD_SEAT_WORDS..].copy_from_slice(&[6, 2, 1]);
    let mut store = vec![0; STORE_PIXELS];
    let first_step = [0, 400, 0, 400, 0, 400, 0, 400, 0];
    store[3 * BUFFER_PIXELS..][..9].copy_from_slice(&first_step);
    (words, store)
}

/// Whether the new record has all that the old one has, and nothing else but the jobs' f.
fn is_carried_over(old: &[u64], service: &Service) -> bool {
    let (old_seats, old_last) = old.split_at(SEATS * OLD_SEAT_WORDS);
    let (seats, last) = service.words().split_at(WORD_LAST_NUMBER);
    let mut pairs = old_seats
        .chunks(OLD_SEAT_WORDS)
        .zip(seats.chunks(SEAT_WORDS));
    let held = old_seats.chunks(OLD_SEAT_WORDS);
    let held = held.filter(|seat| seat[SEAT_JOB] != 0).count();
    pairs.all(|(old, new)| old == &new[..SEAT_F] && (new[SEAT_JOB] != 0 || new[SEAT_F] == 0))
        && old_last == last
        && service.free_count() == Ok((BUFFERS - 2 * held) as u32)
}

fn main() -> Result<(), Error> {
    let (old_words, store) = left_by_the_earlier_release();

    // A record that is not in order is refused, and the store comes back.
    let mut damaged = old_words;
    damaged[SEATS * OLD_SEAT_WORDS] = 4;
    let store = match Service::change_over(&damaged, store) {
        Ok(_) => unreachable!("job 5 has a number that was not given"),
        Err(refused) => {
            let number = refused.error.number();
            println!("damaged: refused ({number}): {refused}");
            refused.store
        }
    };

    let mut service = Service::change_over(&old_words, store)?;
    let carried = is_carried_over(&old_words, &service);
    println!("changed over; every field is as it was: {carried}");

    // Submits name a choice from now on. This one has the shape of the job from before, by each choice.
    for choice in [Choice::Binomial, Choice::Smallest] {
        let number = service.submit_by(choice, SHAPE, 2, 3, 3, &SPOT)?;
        println!("submitted: job {number}, {choice:?}");
    }
    for job in service.jobs() {
        println!(
            "seat {}: job {}, {} of {} steps left, f {}",
            job.seat, job.number, job.steps_left, job.steps, job.f
        );
    }
    while let Some(number) = service.tick()? {
        println!("tick: job {number}");
    }
    for job in service.jobs() {
        let mut picture = [0; 9];
        service.collect(job.number, &mut picture)?;
        println!("collect {}: {picture:?}", job.number);
    }
    Ok(())
}
