//! Undivided differences of a picture, and the directional one.

use crate::error_code::{check_length, check_sides, ErrorCode};
use crate::natural::Natural;
use crate::shape::{check_direction, Direction};
use crate::smooth::{at, places};

/// Which undivided difference.
#[derive(Clone, Copy, Debug, PartialEq, Eq)]
pub enum Difference {
    /// L(x+1) − L(x−1), twice the first derivative in x.
    X,
    /// L(y+1) − L(y−1), twice the first derivative in y.
    Y,
    /// L(x+1) − 2L + L(x−1).
    XX,
    /// L(y+1) − 2L + L(y−1).
    YY,
    /// L(+,+) − L(−,+) − L(+,−) + L(−,−), four times the mixed derivative.
    XY,
}

impl Difference {
    pub const ALL: [Difference; 5] = [
        Difference::X,
        Difference::Y,
        Difference::XX,
        Difference::YY,
        Difference::XY,
    ];

    /// The stencil: (coefficient, dx, dy).
    pub fn stencil(self) -> &'static [(i64, i64, i64)] {
        match self {
            Difference::X => &[(1, 1, 0), (-1, -1, 0)],
            Difference::Y => &[(1, 0, 1), (-1, 0, -1)],
            Difference::XX => &[(1, 1, 0), (-2, 0, 0), (1, -1, 0)],
            Difference::YY => &[(1, 0, 1), (-2, 0, 0), (1, 0, -1)],
            Difference::XY => &[(1, 1, 1), (-1, -1, 1), (-1, 1, -1), (1, -1, -1)],
        }
    }

    /// How many units a step may add to its distance from the exact run's: document
    /// 01's k, 2k and 2k, divided by k.
    pub fn distance_per_step(self) -> u64 {
        match self {
            Difference::X | Difference::Y => 1,
            Difference::XX | Difference::YY | Difference::XY => 2,
        }
    }
}

/// The difference at one place of a picture whose length fits.
pub fn difference_at(
    which: Difference,
    picture: &[u16],
    width: u32,
    height: u32,
    x: i64,
    y: i64,
) -> i32 {
    let total: i64 = which
        .stencil()
        .iter()
        .map(|(factor, dx, dy)| factor * i64::from(*at(picture, width, height, x + dx, y + dy)))
        .sum();
    i32::try_from(total).expect("a difference leaves 32 bits")
}

/// One of the five differences into a lent picture; refusals 6, 9.
pub fn difference(
    which: Difference,
    picture: &[u16],
    width: u32,
    height: u32,
    result: &mut [i32],
) -> Result<(), ErrorCode> {
    check_sides(width, height)?;
    check_length(picture.len(), width, height)?;
    check_length(result.len(), width, height)?;
    for (entry, (x, y)) in result.iter_mut().zip(places(width, height)) {
        *entry = difference_at(which, picture, width, height, x, y);
    }
    Ok(())
}

/// The directional difference (c·dx) + (s·dy) into a lent picture of floats;
/// refusals 4, 6, 9.
pub fn directional(
    direction: Direction,
    picture: &[u16],
    width: u32,
    height: u32,
    result: &mut [f64],
) -> Result<(), ErrorCode> {
    check_direction(direction)?;
    check_sides(width, height)?;
    check_length(picture.len(), width, height)?;
    check_length(result.len(), width, height)?;
    for (entry, (x, y)) in result.iter_mut().zip(places(width, height)) {
        let dx = f64::from(difference_at(Difference::X, picture, width, height, x, y));
        let dy = f64::from(difference_at(Difference::Y, picture, width, height, x, y));
        *entry = (direction.cosine * dx) + (direction.sine * dy);
    }
    Ok(())
}

/// Whether a difference of a rounded run after k steps lies, at every place,
/// within k, 2k or 2k units of the exact run's, compared in whole numbers.
pub fn difference_stays_within(
    which: Difference,
    rounded: &[u16],
    exact: &[Natural],
    width: u32,
    height: u32,
    sum: u64,
    steps: u32,
) -> bool {
    let scale = Natural::power(sum, steps);
    let allowed = scale.times(u64::from(steps) * which.distance_per_step());
    places(width, height).all(|(x, y)| {
        // Two sums without negative terms, whose distance is that of the differences.
        let mut raised = Natural::zero();
        let mut lowered = Natural::zero();
        for (factor, dx, dy) in which.stencil() {
            let pixel = scale.times(u64::from(*at(rounded, width, height, x + dx, y + dy)));
            let whole = at(exact, width, height, x + dx, y + dy);
            let size = factor.unsigned_abs();
            if *factor > 0 {
                raised.add_product(&pixel, size);
                lowered.add_product(whole, size);
            } else {
                lowered.add_product(&pixel, size);
                raised.add_product(whole, size);
            }
        }
        raised.distance(&lowered) <= allowed
    })
}
