//! The limits, and where each word of a service record stands. The C header has the same names, with `VOKHSAOT_` before them.

/// The largest pixel.
pub const LARGEST_PIXEL: u16 = 65535;
/// The most steps of a run or a job; the fewest are 1.
pub const MOST_STEPS: u32 = 64;
/// The longest side of a picture; the shortest is 1.
pub const LONGEST_SIDE: u32 = 1024;
/// One square pixel of variance, in the units of a [`Covariance`](crate::Covariance).
pub const UNITS_PER_SQUARE_PIXEL: i32 = 4096;
/// The largest variance of a [`Shape::Round`](crate::Shape::Round) or a [`Shape::Oval`](crate::Shape::Oval), in square pixels; the
/// smallest is 0.
pub const LARGEST_VARIANCE: f64 = 64.0;

/// Seats of the service: so many jobs it holds at a time.
pub const SEATS: usize = 8;
/// Buffers of the store, two for each seat.
pub const BUFFERS: usize = 16;
/// Pixels of a buffer, and so of the largest picture of a job.
pub const BUFFER_PIXELS: usize = 1024;
/// Pixels of the store.
pub const STORE_PIXELS: usize = BUFFERS * BUFFER_PIXELS;

/// Words of a service record: [`SEAT_WORDS`] for each seat, then three of the service.
pub const WORDS: usize = SEATS * SEAT_WORDS + 3;
/// Words of a record from before jobs had a choice, which [`Service::change_over`](crate::Service::change_over) takes:
/// [`OLD_SEAT_WORDS`] for each seat, then the same three.
pub const OLD_WORDS: usize = SEATS * OLD_SEAT_WORDS + 3;
/// Words of one seat. Seat `i` begins with word `i * SEAT_WORDS`, and the places `SEAT_..` count from there. All are 0 where it is
/// empty.
pub const SEAT_WORDS: usize = 9;
/// Words of one seat in a record from before jobs had a choice: those of today without the last, [`SEAT_F`].
pub const OLD_SEAT_WORDS: usize = 8;
/// Within a seat: its job's number, or 0.
pub const SEAT_JOB: usize = 0;
/// Within a seat: xx of the job's covariance, as its two's complement in 32 bits.
pub const SEAT_XX: usize = 1;
/// Within a seat: xy of the job's covariance, as its two's complement in 32 bits.
pub const SEAT_XY: usize = 2;
/// Within a seat: yy of the job's covariance, as its two's complement in 32 bits.
pub const SEAT_YY: usize = 3;
/// Within a seat: the job's steps.
pub const SEAT_STEPS: usize = 4;
/// Within a seat: how many of the job's steps are left.
pub const SEAT_STEPS_LEFT: usize = 5;
/// Within a seat: the width of the job's picture.
pub const SEAT_WIDTH: usize = 6;
/// Within a seat: the height of the job's picture.
pub const SEAT_HEIGHT: usize = 7;
/// Within a seat: the number f that the job's kernel has, which its choice gave.
pub const SEAT_F: usize = 8;
/// The word with the last number given, 0 before the first.
pub const WORD_LAST_NUMBER: usize = 72;
/// The word with the seat last filled, counted from 0.
pub const WORD_LAST_FILLED: usize = 73;
/// The word with the seat last served, counted from 0.
pub const WORD_LAST_SERVED: usize = 74;

/// Entries of a covariance matrix: xx, xy, yy.
pub const COVARIANCE_ENTRIES: usize = 3;
/// Numbers of a kernel: the sum and nine weights.
pub const KERNEL_NUMBERS: usize = 10;

/// Bytes of the longest job text, which begins with N; a longer one is no job.
pub const TEXT_BYTES: usize = ARCHIVED_TEXT_BYTES + CHOICE_BYTES;
/// Bytes of the longest archived text, which begins with J; a longer one is no job.
pub const ARCHIVED_TEXT_BYTES: usize = 16_384;
/// Bytes by which an N text is longer than the J text of the same job: the tab and the letter of its choice.
pub const CHOICE_BYTES: usize = 2;
/// No answer to a text has more bytes.
pub const ANSWER_BYTES: usize = 49_240;

#[cfg(test)]
mod tests {
    use super::*;

    /// The numbers that are worked out of others, and that the three last words are the three after the seats.
    #[test]
    fn worked_out() {
        assert_eq!((STORE_PIXELS, WORDS, OLD_WORDS), (16_384, 75, 67));
        assert_eq!((SEAT_F, SEAT_F + 1), (OLD_SEAT_WORDS, SEAT_WORDS));
        let last = [WORD_LAST_NUMBER, WORD_LAST_FILLED, WORD_LAST_SERVED];
        assert!(last.into_iter().eq(SEATS * SEAT_WORDS..WORDS));
        assert_eq!(TEXT_BYTES, 16_386);
    }
}
