//! Smoothing: the pixel at a place, a step, a run between two pictures, the
//! exact run, and the distance between the two.

use crate::error_code::{check_length, check_sides, check_steps, ErrorCode};
use crate::kernel::{kernel_by, Choice, Kernel, OFFSETS};
use crate::natural::Natural;
use crate::shape::{covariance, Shape};

/// The entry of a picture at any signed place; outside, the nearest one on
/// each axis separately. The picture has `width` × `height` ≥ 1 entries.
pub fn at<T>(picture: &[T], width: u32, height: u32, x: i64, y: i64) -> &T {
    let column = x.clamp(0, i64::from(width) - 1) as usize;
    let row = y.clamp(0, i64::from(height) - 1) as usize;
    &picture[row * width as usize + column]
}

/// Every place of a picture (column, row), in the order of its entries.
pub fn places(width: u32, height: u32) -> impl Iterator<Item = (i64, i64)> {
    (0..i64::from(height)).flat_map(move |y| (0..i64::from(width)).map(move |x| (x, y)))
}

/// The reading call: the pixel at a signed 32-bit place; refusals 6, 9.
pub fn read(
    picture: &[u16],
    width: u32,
    height: u32,
    column: i32,
    row: i32,
) -> Result<u16, ErrorCode> {
    check_sides(width, height)?;
    check_length(picture.len(), width, height)?;
    Ok(*at(picture, width, height, column.into(), row.into()))
}

/// The whole number nearest to `sum` / `divisor`, halves up.
pub fn nearest(sum: u64, divisor: u64) -> u64 {
    (2 * sum + divisor) / (2 * divisor)
}

/// One step: the picture of each pixel's weighted average, nearest, halves up.
pub fn step(kernel: &Kernel, picture: &[u16], width: u32, height: u32) -> Vec<u16> {
    places(width, height)
        .map(|(x, y)| {
            let total: u64 = OFFSETS
                .iter()
                .zip(kernel.weights)
                .map(|((dx, dy), weight)| {
                    weight * u64::from(*at(picture, width, height, x + dx, y + dy))
                })
                .sum();
            u16::try_from(nearest(total, kernel.sum)).expect("an average is no pixel")
        })
        .collect()
}

/// The picture after `steps` rounded steps.
pub fn rounded_run(
    kernel: &Kernel,
    picture: &[u16],
    width: u32,
    height: u32,
    steps: u32,
) -> Vec<u16> {
    (0..steps).fold(picture.to_vec(), |picture, _| {
        step(kernel, &picture, width, height)
    })
}

/// A run between two lent pictures, for a caller who names no choice; refusals
/// 3, 4, 5, 6, 9, 11. Afterwards the one that [`shown`] names holds step k and
/// the other one step k − 1.
pub fn run(
    shape: Shape,
    steps: u32,
    width: u32,
    height: u32,
    first: &mut [u16],
    second: &mut [u16],
) -> Result<(), ErrorCode> {
    run_by(
        Choice::default(),
        shape,
        steps,
        width,
        height,
        first,
        second,
    )
}

/// The same by a choice, with the same refusals.
pub fn run_by(
    choice: Choice,
    shape: Shape,
    steps: u32,
    width: u32,
    height: u32,
    first: &mut [u16],
    second: &mut [u16],
) -> Result<(), ErrorCode> {
    let covariance = covariance(shape)?;
    check_steps(steps)?;
    check_sides(width, height)?;
    check_length(first.len(), width, height)?;
    check_length(second.len(), width, height)?;
    let kernel = kernel_by(choice, covariance, steps)?;
    let before = rounded_run(&kernel, first, width, height, steps - 1);
    let after = step(&kernel, &before, width, height);
    if steps.is_multiple_of(2) {
        first.copy_from_slice(&after);
        second.copy_from_slice(&before);
    } else {
        first.copy_from_slice(&before);
        second.copy_from_slice(&after);
    }
    Ok(())
}

/// The one of a run's two pictures that holds step k.
pub fn shown<'a>(steps: u32, first: &'a [u16], second: &'a [u16]) -> &'a [u16] {
    if steps.is_multiple_of(2) {
        first
    } else {
        second
    }
}

/// The exact run's picture at its start: the same pixels, over 1.
pub fn exact_start(picture: &[u16]) -> Vec<Natural> {
    picture
        .iter()
        .map(|pixel| Natural::from(u64::from(*pixel)))
        .collect()
}

/// One step of the exact run: weight times whole number, never divided.
pub fn exact_step(kernel: &Kernel, picture: &[Natural], width: u32, height: u32) -> Vec<Natural> {
    places(width, height)
        .map(|(x, y)| {
            let mut total = Natural::zero();
            for ((dx, dy), weight) in OFFSETS.iter().zip(kernel.weights) {
                total.add_product(at(picture, width, height, x + dx, y + dy), weight);
            }
            total
        })
        .collect()
}

/// The exact run after `steps` steps, as whole numbers over (4 × M)^steps.
pub fn exact_run(
    kernel: &Kernel,
    picture: &[u16],
    width: u32,
    height: u32,
    steps: u32,
) -> Vec<Natural> {
    (0..steps).fold(exact_start(picture), |picture, _| {
        exact_step(kernel, &picture, width, height)
    })
}

/// Whether every pixel of a rounded run after j steps lies within j/2 of the
/// exact run's: both sides times 2 × (4 × M)^j, in whole numbers.
pub fn within_half_per_step(rounded: &[u16], exact: &[Natural], sum: u64, steps: u32) -> bool {
    let scale = Natural::power(sum, steps);
    let allowed = scale.times(u64::from(steps));
    rounded.len() == exact.len()
        && rounded.iter().zip(exact).all(|(pixel, whole)| {
            let distance = scale.times(2 * u64::from(*pixel)).distance(&whole.times(2));
            distance <= allowed
        })
}

/// Whether the rounded run stays within j/2 of the exact one after every
/// number of steps j from 0 to `steps`.
pub fn run_stays_within(
    kernel: &Kernel,
    picture: &[u16],
    width: u32,
    height: u32,
    steps: u32,
) -> bool {
    let mut rounded = picture.to_vec();
    let mut exact = exact_start(picture);
    (0..=steps).all(|j| {
        if j > 0 {
            rounded = step(kernel, &rounded, width, height);
            exact = exact_step(kernel, &exact, width, height);
        }
        within_half_per_step(&rounded, &exact, kernel.sum, j)
    })
}
