//! A run within one picture (S5.1 to S5.4 of docs/REFERENCE.md): pixel by pixel
//! in the order of the picture's entries, each new one put at once over the old.
//!
//! A pixel's average reads old pixels only. Of its nine places those further on
//! are old still; of those before it, which are overwritten, the farthest lies a
//! row and one pixel back, above and to the left. So it is enough to remember
//! the last width + 1 pixels that were overwritten.

use crate::error_code::{check_length, check_sides, check_steps, ErrorCode, MAX_SIDE};
use crate::kernel::{kernel_by, Choice, Kernel};
use crate::shape::{covariance, Shape};
use crate::smooth::nearest;
use std::collections::VecDeque;

/// Pixels that may be kept beside the picture: two saved lines of 1024 (S5.2).
const SAVED: usize = 2 * MAX_SIDE as usize;

/// The places before, at and after one of `count` in a line. Where there is none
/// before or after it, the nearest one stands in: itself.
fn around(place: usize, count: usize) -> [usize; 3] {
    let before = if place == 0 { 0 } else { place - 1 };
    let after = if place + 1 == count { place } else { place + 1 };
    [before, place, after]
}

/// A step on its way through a picture.
struct Sweep<'a> {
    picture: &'a mut [u16],
    /// The next entry to be overwritten: new ones stand before it.
    next: usize,
    /// The old pixels of the entries right before it, the last one at the end.
    saved: VecDeque<u16>,
}

impl Sweep<'_> {
    /// The pixel of an entry as it was before the step.
    fn old(&self, entry: usize) -> u16 {
        if entry >= self.next {
            return self.picture[entry];
        }
        let back = self.next - entry;
        self.saved[self.saved.len() - back]
    }

    /// Puts a new pixel over the next entry, and keeps `most` old ones.
    fn put(&mut self, pixel: u16, most: usize) {
        self.saved.push_back(self.picture[self.next]);
        if self.saved.len() > most {
            self.saved.pop_front();
        }
        assert!(self.saved.len() <= SAVED, "more than two lines are kept");
        self.picture[self.next] = pixel;
        self.next += 1;
    }
}

/// One step within a picture of `width` × `height` ≥ 1 pixels.
pub fn step_in_place(kernel: &Kernel, picture: &mut [u16], width: u32, height: u32) {
    let (width, height) = (width as usize, height as usize);
    let mut sweep = Sweep {
        picture,
        next: 0,
        saved: VecDeque::new(),
    };
    for y in 0..height {
        let rows = around(y, height);
        for x in 0..width {
            let columns = around(x, width);
            let mut total = 0;
            for (row, weights) in rows.into_iter().zip(kernel.weights.chunks(3)) {
                for (column, weight) in columns.into_iter().zip(weights) {
                    total += weight * u64::from(sweep.old(row * width + column));
                }
            }
            let pixel = nearest(total, kernel.sum);
            sweep.put(pixel.try_into().expect("an average is no pixel"), width + 1);
        }
    }
}

/// A run within one lent picture, for a caller who names no choice; refusals 3,
/// 4, 5, 6, 9, 11. Afterwards it holds step k.
pub fn run_in_place(
    shape: Shape,
    steps: u32,
    width: u32,
    height: u32,
    picture: &mut [u16],
) -> Result<(), ErrorCode> {
    run_in_place_by(Choice::default(), shape, steps, width, height, picture)
}

/// The same by a choice, with the same refusals.
pub fn run_in_place_by(
    choice: Choice,
    shape: Shape,
    steps: u32,
    width: u32,
    height: u32,
    picture: &mut [u16],
) -> Result<(), ErrorCode> {
    let covariance = covariance(shape)?;
    check_steps(steps)?;
    check_sides(width, height)?;
    check_length(picture.len(), width, height)?;
    let kernel = kernel_by(choice, covariance, steps)?;
    for _ in 0..steps {
        step_in_place(&kernel, picture, width, height);
    }
    Ok(())
}
