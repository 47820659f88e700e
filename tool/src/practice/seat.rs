//! A filled seat, read from the words of a record.

use reference::kernel::{free_number_by, kernel_with, Choice, Covariance, Kernel, UNITS};
use std::ops::Range;
use vokhsaot::{
    BUFFER_PIXELS, SEATS, SEAT_F, SEAT_HEIGHT, SEAT_JOB, SEAT_STEPS, SEAT_STEPS_LEFT, SEAT_WIDTH,
    SEAT_WORDS, SEAT_XX, SEAT_XY, SEAT_YY, WORD_LAST_SERVED,
};

#[derive(Clone, Copy)]
pub struct Seat {
    pub place: usize,
    pub number: u64,
    pub covariance: Covariance,
    pub steps: u32,
    pub left: u32,
    pub width: u32,
    pub height: u32,
    pub f: u32,
}

impl Seat {
    /// The seat at a place, where it is filled.
    pub fn at(words: &[u64], place: usize) -> Option<Seat> {
        let word = |field: usize| words[place * SEAT_WORDS + field];
        // A record in order keeps 32 bits in each of these words.
        let entry = |field: usize| word(field) as u32 as i32;
        let number = word(SEAT_JOB);
        (number != 0).then(|| Seat {
            place,
            number,
            covariance: Covariance {
                xx: entry(SEAT_XX),
                xy: entry(SEAT_XY),
                yy: entry(SEAT_YY),
            },
            steps: word(SEAT_STEPS) as u32,
            left: word(SEAT_STEPS_LEFT) as u32,
            width: word(SEAT_WIDTH) as u32,
            height: word(SEAT_HEIGHT) as u32,
            f: word(SEAT_F) as u32,
        })
    }

    /// The filled seats, by their places.
    pub fn all(words: &[u64]) -> impl Iterator<Item = Seat> + '_ {
        (0..SEATS).filter_map(|place| Seat::at(words, place))
    }

    pub fn of_job(words: &[u64], number: u64) -> Option<Seat> {
        Seat::all(words).find(|seat| seat.number == number)
    }

    /// The seat that a tick has to serve.
    pub fn whose_turn(words: &[u64]) -> Option<Seat> {
        let last = words[WORD_LAST_SERVED] as usize;
        (1..=SEATS)
            .filter_map(|count| Seat::at(words, (last + count) % SEATS))
            .find(|seat| seat.left > 0)
    }

    pub fn done(&self) -> u32 {
        self.steps - self.left
    }

    pub fn area(&self) -> usize {
        self.width as usize * self.height as usize
    }

    /// Where the store has its picture after so many steps.
    pub fn picture_after(&self, steps: u32) -> Range<usize> {
        let start = (2 * self.place + steps as usize % 2) * BUFFER_PIXELS;
        start..start + self.area()
    }

    pub fn kernel(&self) -> Kernel {
        self.kernel_of(self.covariance)
    }

    /// The kernel of another covariance, in as many steps and with the same f.
    pub fn kernel_of(&self, covariance: Covariance) -> Kernel {
        let found = kernel_with(self.f.into(), covariance, self.steps);
        let found = found.expect("a filled seat has steps");
        found.expect("a filled seat has a kernel")
    }

    /// The f of its shape by a choice.
    pub fn f_by(&self, choice: Choice) -> u32 {
        let Covariance { xx, xy, yy } = self.covariance;
        let [xx, xy, yy] = [xx, xy, yy].map(i64::from);
        free_number_by(choice, xx, xy, yy, UNITS * i64::from(self.steps)) as u32
    }

    /// The place of one of its words in the record.
    pub fn word(&self, field: usize) -> usize {
        self.place * SEAT_WORDS + field
    }
}
