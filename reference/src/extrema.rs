//! Bright spots (S1.1 to S1.6 of docs/REFERENCE.md): a peak does not rise in a
//! step and a hollow does not fall, and two pictures that differ by at most d
//! still do after a run.
//!
//! A check of one step takes entries of any kind that have an order: pixels,
//! or the exact run's whole numbers once both pictures are over one scale
//! ([`over_next_scale`]).

use crate::kernel::OFFSETS;
use crate::natural::Natural;
use crate::smooth::{at, places};

/// The places of the up to eight neighbours of a pixel: those around it that
/// lie inside the picture. The nearest pixel that stands for one outside is
/// none of them.
pub fn neighbours(width: u32, height: u32, x: i64, y: i64) -> impl Iterator<Item = (i64, i64)> {
    let around = OFFSETS.iter().map(move |(dx, dy)| (x + dx, y + dy));
    around
        .filter(move |place| *place != (x, y))
        .filter(move |(column, row)| {
            (0..i64::from(width)).contains(column) && (0..i64::from(height)).contains(row)
        })
}

/// Whether the entry at a place is at least as large as each of its neighbours.
pub fn is_peak<T: Ord>(picture: &[T], width: u32, height: u32, x: i64, y: i64) -> bool {
    let own = at(picture, width, height, x, y);
    neighbours(width, height, x, y)
        .all(|(column, row)| own >= at(picture, width, height, column, row))
}

/// Whether the entry at a place is at most as large as each of its neighbours.
pub fn is_hollow<T: Ord>(picture: &[T], width: u32, height: u32, x: i64, y: i64) -> bool {
    let own = at(picture, width, height, x, y);
    neighbours(width, height, x, y)
        .all(|(column, row)| own <= at(picture, width, height, column, row))
}

/// The first place where a step breaks the first law: a peak of `before` is
/// higher in `after`, or a hollow of `before` is lower.
pub fn enhanced<T: Ord>(before: &[T], after: &[T], width: u32, height: u32) -> Option<(i64, i64)> {
    places(width, height).find(|&(x, y)| {
        let own = at(before, width, height, x, y);
        let next = at(after, width, height, x, y);
        next > own && is_peak(before, width, height, x, y)
            || next < own && is_hollow(before, width, height, x, y)
    })
}

/// Whether the greatest entry did not rise from `before` to `after` and the
/// least one did not fall.
pub fn stays_between<T: Ord>(before: &[T], after: &[T]) -> bool {
    after.iter().max() <= before.iter().max() && after.iter().min() >= before.iter().min()
}

/// The second law for pixels: at each place the two differ by at most `d`.
pub fn differ_at_most<T: Copy + Into<u64>>(one: &[T], other: &[T], d: u64) -> bool {
    one.len() == other.len()
        && one
            .iter()
            .zip(other)
            .all(|(a, b)| (*a).into().abs_diff((*b).into()) <= d)
}

/// The second law for the exact run after `steps` steps, whose entries are
/// over `sum`^`steps`.
pub fn exact_differ_at_most(
    one: &[Natural],
    other: &[Natural],
    d: u64,
    sum: u64,
    steps: u32,
) -> bool {
    let allowed = Natural::power(sum, steps).times(d);
    one.len() == other.len() && one.iter().zip(other).all(|(a, b)| a.distance(b) <= allowed)
}

/// A picture of the exact run over the scale of its next step: each entry
/// times the weights' sum.
pub fn over_next_scale(picture: &[Natural], sum: u64) -> Vec<Natural> {
    picture.iter().map(|entry| entry.times(sum)).collect()
}
