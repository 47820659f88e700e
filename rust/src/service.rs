//! The service: eight seats over a store of 16 buffers.

use crate::error::{outcome, Error};
use crate::exported;
use crate::limits::{
    SEATS, SEAT_F, SEAT_HEIGHT, SEAT_JOB, SEAT_STEPS, SEAT_STEPS_LEFT, SEAT_WIDTH, SEAT_WORDS,
    SEAT_XX, SEAT_XY, SEAT_YY, STORE_PIXELS, WORDS,
};
use crate::shape::{Choice, Covariance, Direction, Shape};
use std::fmt;

/// A job that a service holds, as its record tells it.
#[derive(Clone, Copy, Debug, PartialEq, Eq)]
pub struct Job {
    /// Its number, which its submit answered; never 0.
    pub number: u64,
    /// Its seat, counted from 0. Its pictures stand in the store's buffers 2 × seat and 2 × seat + 1, its current one in the first of
    /// them where an even number of its steps is done.
    pub seat: usize,
    /// The covariance of its shape.
    pub covariance: Covariance,
    /// Its steps, done and left.
    pub steps: u32,
    /// Its steps left; it is finished, and can be collected, where this is 0.
    pub steps_left: u32,
    /// The width of its picture.
    pub width: u32,
    /// The height of its picture.
    pub height: u32,
    /// The number f that its kernel has, in 1/4096 square pixel: the one that the choice of its submit gave ([`Choice`] says how), and
    /// the smallest for a job from before a change-over. In a record in order it is any number between the two bounds.
    pub f: u32,
}

impl Job {
    /// The job in a seat, from the seat's words; `None` where it is empty. The words are of a record in order.
    fn in_seat(seat: usize, words: &[u64]) -> Option<Job> {
        // In order, each word but the number has 32 bits.
        let word = |place: usize| words[place] as u32;
        let entry = |place| word(place) as i32;
        (words[SEAT_JOB] != 0).then(|| Job {
            number: words[SEAT_JOB],
            seat,
            covariance: Covariance {
                xx: entry(SEAT_XX),
                xy: entry(SEAT_XY),
                yy: entry(SEAT_YY),
            },
            steps: word(SEAT_STEPS),
            steps_left: word(SEAT_STEPS_LEFT),
            width: word(SEAT_WIDTH),
            height: word(SEAT_HEIGHT),
            f: word(SEAT_F),
        })
    }
}

/// A change-over that was refused, with the store that it was given: the earlier release can go on with it and with the old words.
#[derive(Clone, Debug, PartialEq, Eq)]
pub struct NotChangedOver {
    /// Why it was refused.
    pub error: Error,
    /// The store, as it was.
    pub store: Vec<u16>,
}

impl fmt::Display for NotChangedOver {
    fn fmt(&self, f: &mut fmt::Formatter<'_>) -> fmt::Result {
        self.error.fmt(f)
    }
}

impl std::error::Error for NotChangedOver {}

impl From<NotChangedOver> for Error {
    fn from(refused: NotChangedOver) -> Error {
        refused.error
    }
}

/// A service: its record and its store. The record is 75 words ([`WORDS`]): for each seat its job's number, xx, xy, yy, steps, steps
/// left, width, height and f, then the last number given, the seat last filled and the seat last served. Constants name the places:
/// [`SEAT_JOB`] to [`SEAT_F`] within the [`SEAT_WORDS`] of a seat, and [`WORD_LAST_NUMBER`](crate::WORD_LAST_NUMBER),
/// [`WORD_LAST_FILLED`](crate::WORD_LAST_FILLED) and [`WORD_LAST_SERVED`](crate::WORD_LAST_SERVED).
///
/// ```
/// use vokhsaot::{Error, Service, Shape};
///
/// let mut service = Service::new();
/// let job = service.submit(Shape::Matrix { xx: 4096, xy: 0, yy: 0 }, 2, 5, 1, &[0, 0, 1600, 0, 0])?;
/// assert_eq!(service.free_count(), Ok(14));
/// let mut picture = [0; 5];
/// assert_eq!(service.collect(job, &mut picture), Err(Error::StepsAreLeft));
/// while service.tick()?.is_some() {}
/// service.collect(job, &mut picture)?;
/// assert_eq!(picture, [100, 400, 600, 400, 100]);
/// # Ok::<(), Error>(())
/// ```
#[derive(Clone, Debug, PartialEq, Eq)]
pub struct Service {
    words: Vec<u64>,
    store: Vec<u16>,
}

impl Default for Service {
    fn default() -> Service {
        Service::new()
    }
}

impl Service {
    /// An empty service over a store of zeros.
    pub fn new() -> Service {
        Service::with_store(vec![0; STORE_PIXELS])
    }

    /// An empty service over this store, whatever its pixels. A store of another length than [`STORE_PIXELS`] is refused with 2 by
    /// submit, tick and collect.
    pub fn with_store(store: Vec<u16>) -> Service {
        let mut words = vec![0; WORDS];
        // SAFETY: the pointer and the length are of one slice.
        let code = unsafe { exported::vokhsaot_opening(words.as_mut_ptr(), words.len()) };
        assert_eq!(code, 0);
        Service { words, store }
    }

    /// Changes a running unit over from the release before, whose records hold no choice: `old_words` are the record that it left,
    /// [`OLD_WORDS`](crate::OLD_WORDS) words, and `store` is its store. Every field is kept, so each job has its seat, its number, its
    /// steps left and its picture, numbers go on and so do the turns; each job held gets the smallest f, which it went by before. So
    /// the jobs finish with the pixels that they would have had, and a job with r steps left still waits for at most 8 × r ticks.
    ///
    /// It is called once for a unit, between two calls:
    /// 1. After a call of the earlier release has ended, call no other. Keep its 67 words and its store as they are. Open nothing.
    /// 2. Call this with both. `old_words` are only read. The store's pixels are neither read nor written.
    /// 3. If it is `Ok`, go on with the service that it answers, and throw the old words away: they are those of a moment that is over
    ///    with the next call. Never change them over a second time.
    /// 4. If it is an error, nothing has changed: [`NotChangedOver::store`] is the store, and the earlier release can go on with it and
    ///    with the old words.
    ///
    /// To check that it worked, before the next call: [`Service::free_count`] is the earlier release's; words 72 to 74 are the old ones
    /// 64 to 66; the first eight words of seat i, from 9 × i on, are the old ones from 8 × i on; and the ninth is 0 where the seat is
    /// empty. The example `change_over` does so.
    ///
    /// # Errors
    /// 2, [`RecordOutOfOrder`](Error::RecordOutOfOrder): the old words are no record in order by the rule of the release before: not 67
    /// words, one that does not fit, or a field out of its limits. A record of this release is none either. A store of another length
    /// than [`STORE_PIXELS`] is taken as it is, as by [`Service::with_store`].
    ///
    /// ```
    /// use vokhsaot::{Error, Service, OLD_WORDS};
    ///
    /// // Job 3 in seat 0, 5 × 1 pixels, one of its two steps done; its current picture is in the second buffer.
    /// let mut old_words = [0; OLD_WORDS];
    /// old_words[..8].copy_from_slice(&[3, 4096, 0, 0, 2, 1, 5, 1]);
    /// old_words[64] = 3;
    /// let mut store = vec![0; 16_384];
    /// store[1024..1029].copy_from_slice(&[0, 400, 800, 400, 0]);
    ///
    /// let mut service = Service::change_over(&old_words, store)?;
    /// assert_eq!(service.tick(), Ok(Some(3)));
    /// let mut picture = [0; 5];
    /// service.collect(3, &mut picture)?;
    /// assert_eq!(picture, [100, 400, 600, 400, 100]);
    ///
    /// // Not in order: the last number given is less than the job's. The store comes back.
    /// old_words[64] = 2;
    /// let refused = Service::change_over(&old_words, vec![7; 16_384]).unwrap_err();
    /// assert_eq!(refused.error, Error::RecordOutOfOrder);
    /// assert_eq!(refused.store, [7; 16_384]);
    /// # Ok::<(), Error>(())
    /// ```
    pub fn change_over(old_words: &[u64], store: Vec<u16>) -> Result<Service, NotChangedOver> {
        let mut words = vec![0; WORDS];
        // SAFETY: each pointer stands with the length of its own slice, and they do not overlap.
        let code = unsafe {
            exported::vokhsaot_change_over(
                old_words.as_ptr(),
                old_words.len(),
                words.as_mut_ptr(),
                words.len(),
            )
        };
        match outcome(code) {
            Ok(()) => Ok(Service { words, store }),
            Err(error) => Err(NotChangedOver { error, store }),
        }
    }

    /// A service of words and a store that were kept. No word of them is trusted: every call refuses what is not in order with 2. A
    /// record of the release before, of [`OLD_WORDS`](crate::OLD_WORDS) words, is none of these: [`Service::change_over`] takes it.
    pub fn from_parts(words: Vec<u64>, store: Vec<u16>) -> Service {
        Service { words, store }
    }

    /// The record's words.
    pub fn words(&self) -> &[u64] {
        &self.words
    }

    /// The store.
    pub fn store(&self) -> &[u16] {
        &self.store
    }

    /// Submits a job by [`Choice::Binomial`] and answers its number: its picture is copied into a free seat's buffer.
    ///
    /// # Errors
    /// 2, 3, 4, 5, 6, 9, 10, 11, 12 and 13, checked in this order; [`Service::submit_by`] says when each occurs.
    pub fn submit(
        &mut self,
        shape: Shape,
        steps: u32,
        width: u32,
        height: u32,
        picture: &[u16],
    ) -> Result<u64, Error> {
        self.submit_by(Choice::default(), shape, steps, width, height, picture)
    }

    /// Submits a job by a choice and answers its number: its picture is copied into a free seat's buffer, and its seat keeps the f of
    /// the choice, by which each of its steps goes.
    ///
    /// # Errors
    /// In checking order, the same for each choice:
    /// - 2, [`RecordOutOfOrder`](Error::RecordOutOfOrder): the record is not in order, or the store has not [`STORE_PIXELS`] pixels.
    /// - 3, [`VarianceOutOfRange`](Error::VarianceOutOfRange): a variance of a round or an oval is not a number or lies outside 0 to 64.
    /// - 4, [`NotADirection`](Error::NotADirection): an oval's direction is none: a cosine or sine is not a number or lies outside −1 to
    ///   1, or the sum of their squares lies outside 1023/1024 to 1025/1024.
    /// - 5, [`StepsOutOfRange`](Error::StepsOutOfRange): the steps are not 1 to 64.
    /// - 6, [`SideOutOfRange`](Error::SideOutOfRange): the width or height is not 1 to 1024.
    /// - 9, [`WrongLength`](Error::WrongLength): the picture has not width × height pixels.
    /// - 10, [`TooManyPixels`](Error::TooManyPixels): it has more than [`BUFFER_PIXELS`](crate::BUFFER_PIXELS).
    /// - 11, [`NoKernel`](Error::NoKernel): the shape has no kernel with so many steps: |xy| is more than the smaller of xx and yy, or
    ///   the larger of them is more than 4096 × steps.
    /// - 12, [`NoFreeBuffers`](Error::NoFreeBuffers): all eight seats hold jobs: collect or withdraw one.
    /// - 13, [`NumbersUsedUp`](Error::NumbersUsedUp): the last number given is 2^64 − 1: open another service.
    ///
    /// ```
    /// use vokhsaot::{Choice, Service, Shape};
    ///
    /// let spot = [0, 0, 0, 0, 1600, 0, 0, 0, 0];
    /// let mut service = Service::new();
    /// let job = service.submit_by(Choice::Smallest, Shape::Round(0.5), 1, 3, 3, &spot)?;
    /// service.tick()?;
    /// let mut picture = [0; 9];
    /// service.collect(job, &mut picture)?;
    /// assert_eq!(picture, [0, 400, 0, 400, 0, 400, 0, 400, 0]);
    /// # Ok::<(), vokhsaot::Error>(())
    /// ```
    pub fn submit_by(
        &mut self,
        choice: Choice,
        shape: Shape,
        steps: u32,
        width: u32,
        height: u32,
        picture: &[u16],
    ) -> Result<u64, Error> {
        let mut number = 0;
        let (words, words_len) = (self.words.as_mut_ptr(), self.words.len());
        let (store, store_len) = (self.store.as_mut_ptr(), self.store.len());
        let (choice, pixels, pixels_len) = (choice.number(), picture.as_ptr(), picture.len());
        // SAFETY: each pointer stands with the length of its own slice, and none of them overlap.
        let code = unsafe {
            match shape {
                Shape::Matrix { xx, xy, yy } => exported::vokhsaot_submit_matrix_by(
                    words,
                    words_len,
                    store,
                    store_len,
                    choice,
                    xx,
                    xy,
                    yy,
                    steps,
                    width,
                    height,
                    pixels,
                    pixels_len,
                    &mut number,
                ),
                Shape::Round(variance) => exported::vokhsaot_submit_round_by(
                    words,
                    words_len,
                    store,
                    store_len,
                    choice,
                    variance,
                    steps,
                    width,
                    height,
                    pixels,
                    pixels_len,
                    &mut number,
                ),
                Shape::Oval {
                    long_variance,
                    short_variance,
                    direction: Direction { cosine, sine },
                } => exported::vokhsaot_submit_oval_by(
                    words,
                    words_len,
                    store,
                    store_len,
                    choice,
                    long_variance,
                    short_variance,
                    cosine,
                    sine,
                    steps,
                    width,
                    height,
                    pixels,
                    pixels_len,
                    &mut number,
                ),
            }
        };
        outcome(code)?;
        Ok(number)
    }

    /// Does one step of one job and answers its number, or `None` where no job has steps left. The jobs with steps left take turns,
    /// seat after seat, so one with r steps left is finished after at most 8 × r ticks.
    ///
    /// # Errors
    /// 2, [`RecordOutOfOrder`](Error::RecordOutOfOrder): the record is not in order, or the store has not [`STORE_PIXELS`] pixels.
    pub fn tick(&mut self) -> Result<Option<u64>, Error> {
        let mut number = 0;
        // SAFETY: each pointer stands with the length of its own slice, and none of them overlap.
        let code = unsafe {
            exported::vokhsaot_tick(
                self.words.as_mut_ptr(),
                self.words.len(),
                self.store.as_mut_ptr(),
                self.store.len(),
                &mut number,
            )
        };
        outcome(code)?;
        Ok((number != 0).then_some(number))
    }

    /// Writes a finished job's picture out, empties its seat and answers its number.
    ///
    /// # Errors
    /// In checking order:
    /// - 2, [`RecordOutOfOrder`](Error::RecordOutOfOrder): the record is not in order, or the store has not [`STORE_PIXELS`] pixels.
    /// - 7, [`NoSuchJob`](Error::NoSuchJob): no seat has this job number.
    /// - 8, [`StepsAreLeft`](Error::StepsAreLeft): the job has steps left: tick on.
    /// - 9, [`WrongLength`](Error::WrongLength): the lent picture has not the width × height pixels of the job's ([`Service::job`]
    ///   tells them).
    pub fn collect(&mut self, job: u64, picture: &mut [u16]) -> Result<u64, Error> {
        let mut number = 0;
        // SAFETY: each pointer stands with the length of its own slice, and none of them overlap.
        let code = unsafe {
            exported::vokhsaot_collect(
                self.words.as_mut_ptr(),
                self.words.len(),
                self.store.as_ptr(),
                self.store.len(),
                job,
                picture.as_mut_ptr(),
                picture.len(),
                &mut number,
            )
        };
        outcome(code)?;
        Ok(number)
    }

    /// Empties a job's seat, finished or not, and answers its number.
    ///
    /// # Errors
    /// In checking order:
    /// - 2, [`RecordOutOfOrder`](Error::RecordOutOfOrder): the record is not in order.
    /// - 7, [`NoSuchJob`](Error::NoSuchJob): no seat has this job number.
    pub fn withdraw(&mut self, job: u64) -> Result<u64, Error> {
        let mut number = 0;
        // SAFETY: the pointer and the length are of one slice.
        let code = unsafe {
            exported::vokhsaot_withdraw(self.words.as_mut_ptr(), self.words.len(), job, &mut number)
        };
        outcome(code)?;
        Ok(number)
    }

    /// The number of free buffers: [`BUFFERS`](crate::BUFFERS) less 2 for each job held.
    ///
    /// # Errors
    /// 2, [`RecordOutOfOrder`](Error::RecordOutOfOrder): the record is not in order.
    pub fn free_count(&self) -> Result<u32, Error> {
        let mut count = 0;
        // SAFETY: the pointer and the length are of one slice.
        let code = unsafe {
            exported::vokhsaot_free_count(self.words.as_ptr(), self.words.len(), &mut count)
        };
        outcome(code)?;
        Ok(count)
    }

    /// The job of this number; `None` where no seat has it, as of the number 0. A record that is not in order, which every call
    /// refuses with 2, tells of no job: so `None` too ([`Service::free_count`] tells the two apart).
    ///
    /// ```
    /// use vokhsaot::{Service, Shape};
    ///
    /// let mut service = Service::new();
    /// let number = service.submit(Shape::Round(1.0), 3, 4, 2, &[7; 8]).unwrap();
    /// service.tick().unwrap();
    /// let job = service.job(number).unwrap();
    /// assert_eq!((job.steps_left, job.steps, job.width, job.height), (2, 3, 4, 2));
    /// assert_eq!(service.job(number + 1), None);
    /// ```
    pub fn job(&self, number: u64) -> Option<Job> {
        self.jobs().into_iter().find(|job| job.number == number)
    }

    /// The jobs that the service holds, by their seats. None of a record that is not in order.
    pub fn jobs(&self) -> Vec<Job> {
        if self.free_count().is_err() {
            return Vec::new();
        }
        let seats = self.words.chunks(SEAT_WORDS).take(SEATS).enumerate();
        seats
            .filter_map(|(seat, words)| Job::in_seat(seat, words))
            .collect()
    }
}

#[cfg(test)]
mod tests {
    use super::*;

    /// What the crate's first page says of threads.
    #[test]
    fn a_service_goes_to_other_threads() {
        fn goes<T: Send + Sync>() {}
        goes::<Service>();
    }

    /// A covariance below 0 reads back from the words, and an empty service has no job, not even of the number 0.
    #[test]
    fn jobs_of_the_words() {
        let mut service = Service::new();
        assert_eq!((service.jobs(), service.job(0)), (Vec::new(), None));
        let (xx, xy, yy) = (3000, -1000, 2000);
        let shape = Shape::Matrix { xx, xy, yy };
        let numbers = [(1, 3), (2, 1)].map(|(width, height)| {
            let picture = vec![9; (width * height) as usize];
            service.submit(shape, 5, width, height, &picture).unwrap()
        });
        assert_eq!(numbers, [1, 2]);
        service.tick().unwrap();
        service.withdraw(1).unwrap();
        let left = Job {
            number: 2,
            seat: 1,
            covariance: Covariance { xx, xy, yy },
            steps: 5,
            steps_left: 5,
            width: 2,
            height: 1,
            f: 1000,
        };
        assert_eq!(service.jobs(), [left]);
        assert_eq!((service.job(1), service.job(2)), (None, Some(left)));
    }
}
