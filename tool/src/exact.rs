//! How far a picture lies from the exact run, which keeps fractions.
//!
//! The exact run's whole numbers have up to 1300 bits, so it is first made in floats, whose error is bounded: a step sums
//! nine products of numbers that are not negative and divides once, so its relative error is at most 10 × 2^−53, and
//! that of 64 steps below 10^−13; of a pixel below 10^−8 units. Only where a distance is so near k/2 that this does not
//! decide, whole numbers do, by the independent program.

use reference::kernel::Kernel;
use reference::natural::Natural;
use reference::smooth::exact_run;
use std::ops::Range;

/// Far more than the floats' error, in units.
const MARGIN: f64 = 1e-6;

/// A picture's start, and the kernel and number of its steps.
pub struct Run<'a> {
    pub kernel: Kernel,
    pub start: &'a [u16],
    pub width: u32,
    pub height: u32,
    pub steps: u32,
}

/// The pixel that is farthest from the exact run's.
#[derive(Clone, Copy, Debug, PartialEq)]
pub struct Farthest {
    /// In units, to six decimals.
    pub distance: f64,
    /// Its place among the pixels; the first of several.
    pub place: usize,
    /// Whether it, and so every pixel, is at most k/2 away.
    pub is_near: bool,
}

impl Run<'_> {
    /// The exact run's pixels in floats.
    pub fn in_floats(&self) -> Vec<f64> {
        let mut pixels: Vec<f64> = self.start.iter().map(|pixel| f64::from(*pixel)).collect();
        let mut next = pixels.clone();
        for _ in 0..self.steps {
            self.step(&pixels, &mut next);
            std::mem::swap(&mut pixels, &mut next);
        }
        pixels
    }

    fn step(&self, pixels: &[f64], next: &mut [f64]) {
        let (width, height) = (self.width as usize, self.height as usize);
        let weights = self.kernel.weights.map(|weight| weight as f64);
        let sum = self.kernel.sum as f64;
        let row = |y: usize| &pixels[y * width..(y + 1) * width];
        for (y, target) in next.chunks_mut(width).enumerate() {
            let rows = [y.saturating_sub(1), y, (y + 1).min(height - 1)].map(row);
            let mut average = |left: usize, x: usize, right: usize| {
                let mut total = 0.0;
                for (row, weights) in rows.iter().zip(weights.chunks(3)) {
                    total += weights[0] * row[left] + weights[1] * row[x] + weights[2] * row[right];
                }
                target[x] = total / sum;
            };
            average(0, 0, 1.min(width - 1));
            for x in 1..width.saturating_sub(1) {
                average(x - 1, x, x + 1);
            }
            if width > 1 {
                average(width - 2, width - 1, width - 1);
            }
        }
    }

    /// How far these pixels are from the exact run's. There are as many as the run has.
    pub fn farthest(&self, pixels: &[u16]) -> Farthest {
        let exact = self.in_floats();
        let half = f64::from(self.steps) / 2.0;
        let mut farthest = Farthest {
            distance: 0.0,
            place: 0,
            is_near: true,
        };
        let mut undecided = Vec::new();
        for (place, (pixel, exact)) in pixels.iter().zip(&exact).enumerate() {
            let distance = (f64::from(*pixel) - exact).abs();
            if distance > farthest.distance {
                (farthest.distance, farthest.place) = (distance, place);
            }
            if (distance - half).abs() <= MARGIN {
                undecided.push(place);
            }
        }
        farthest.is_near = farthest.distance <= half + MARGIN
            && undecided
                .iter()
                .all(|place| self.is_near(*place, pixels[*place]));
        farthest
    }

    /// Whether a pixel is at most k/2 from the exact run's, in whole numbers. No step reaches further than one pixel, so
    /// what is at most k pixels away decides; where the picture goes on, the cut's border does not reach the place.
    fn is_near(&self, place: usize, pixel: u16) -> bool {
        let (width, height, reach) = (
            self.width as usize,
            self.height as usize,
            self.steps as usize,
        );
        let (x, y) = (place % width, place / width);
        let (columns, rows) = (near(x, reach, width), near(y, reach, height));
        let mut start = Vec::with_capacity(columns.len() * rows.len());
        for row in rows.clone() {
            let row = &self.start[row * width..(row + 1) * width];
            start.extend_from_slice(&row[columns.clone()]);
        }
        // Averages of one number are that number; a flat picture may have very many pixels to be decided.
        if start.iter().all(|other| *other == start[0]) {
            return 2 * u32::from(pixel.abs_diff(start[0])) <= self.steps;
        }
        let (wide, high) = (columns.len() as u32, rows.len() as u32);
        let exact = exact_run(&self.kernel, &start, wide, high, self.steps);
        let place = (y - rows.start) * columns.len() + x - columns.start;
        let scale = Natural::power(self.kernel.sum, self.steps);
        let distance = scale.times(pixel.into()).distance(&exact[place]);
        distance.times(2) <= scale.times(self.steps.into())
    }
}

/// The columns or rows at most `reach` away from one of them, as far as the picture's side goes.
pub fn near(place: usize, reach: usize, side: usize) -> Range<usize> {
    place.saturating_sub(reach)..side.min(place.saturating_add(reach + 1))
}

#[cfg(test)]
mod tests {
    use super::*;
    use reference::generate::{random_pixels, random_shape};
    use reference::kernel::Choice;
    use reference::random::Random;
    use reference::shape::shape_kernel_by;
    use reference::smooth::{rounded_run, within_half_per_step};

    /// The same question in whole numbers alone.
    fn whole(run: &Run, pixels: &[u16]) -> (bool, f64) {
        let exact = exact_run(&run.kernel, run.start, run.width, run.height, run.steps);
        let scale = Natural::power(run.kernel.sum, run.steps);
        let distances = pixels.iter().zip(&exact);
        let distances =
            distances.map(|(pixel, exact)| scale.times((*pixel).into()).distance(exact));
        let farthest = distances.max().unwrap_or_default();
        let near = within_half_per_step(pixels, &exact, run.kernel.sum, run.steps);
        (near, farthest.ratio(&scale))
    }

    #[test]
    fn as_in_whole_numbers() {
        let mut random = Random::new(21);
        let (mut runs, mut far) = (0, 0);
        while runs < 800 || far < 200 {
            let (shape, steps) = random_shape(&mut random);
            let choice = random.pick(&[Choice::Binomial, Choice::Smallest]);
            let Ok(kernel) = shape_kernel_by(choice, shape, steps) else {
                continue;
            };
            let (width, height) = (1 + random.below(7) as u32, 1 + random.below(7) as u32);
            let start = random_pixels(&mut random, (width * height) as usize);
            let mut pixels = rounded_run(&kernel, &start, width, height, steps);
            if random.once_in(3) {
                let place = random.below(pixels.len() as u64) as usize;
                pixels[place] = pixels[place].saturating_add(random.below(40) as u16);
            }
            let run = Run {
                kernel,
                start: &start,
                width,
                height,
                steps,
            };
            let found = run.farthest(&pixels);
            let (is_near, distance) = whole(&run, &pixels);
            assert_eq!(found.is_near, is_near);
            assert!((found.distance - distance).abs() < 1e-7);
            runs += 1;
            far += u32::from(!is_near);
        }
    }

    /// Every pixel is exactly k/2 away, in a picture whose whole numbers would take hours.
    #[test]
    fn flat_pictures() {
        let start = vec![100; 1 << 18];
        let run = Run {
            kernel: Kernel {
                weights: [0, 1, 0, 1, 60, 1, 0, 1, 0],
                sum: 64,
            },
            start: &start,
            width: 512,
            height: 512,
            steps: 64,
        };
        for (pixel, is_near) in [(132, true), (68, true), (133, false), (67, false)] {
            assert_eq!(run.farthest(&vec![pixel; 1 << 18]).is_near, is_near);
        }
    }

    /// Halves up: 0 and 1 in a row become 1 and 1, both exactly 1/2 away; 1 and 2 would be too far on one side.
    #[test]
    fn exactly_at_the_end() {
        let run = Run {
            kernel: Kernel {
                weights: [0, 0, 0, 8192, 0, 8192, 0, 0, 0],
                sum: 16384,
            },
            start: &[0, 1],
            width: 2,
            height: 1,
            steps: 1,
        };
        assert_eq!(run.in_floats(), [0.5, 0.5]);
        let at_the_end = Farthest {
            distance: 0.5,
            place: 0,
            is_near: true,
        };
        assert_eq!(run.farthest(&[1, 1]), at_the_end);
        assert_eq!(run.farthest(&[0, 0]), at_the_end);
        let beyond = run.farthest(&[1, 2]);
        assert_eq!(
            (beyond.distance, beyond.place, beyond.is_near),
            (1.5, 1, false)
        );
    }
}
