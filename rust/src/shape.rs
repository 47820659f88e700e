//! Shapes, their covariance and their kernel.

use crate::error::{outcome, Error};
use crate::exported;
use crate::limits::{COVARIANCE_ENTRIES, KERNEL_NUMBERS};

/// A direction: a cosine and a sine, the sum of whose squares is 1 within 1/1024. x points to the right and y downward, so (1, 0) is to
/// the right and (0, 1) downward.
#[derive(Clone, Copy, Debug, PartialEq)]
pub struct Direction {
    /// How far it goes in x, −1 to 1.
    pub cosine: f64,
    /// How far it goes in y, −1 to 1.
    pub sine: f64,
}

impl Direction {
    /// The direction of an angle, which turns from x towards y: clockwise, as a picture is seen. Multiples of 90 are exactly the axes,
    /// since only there is a [`directional`](crate::directional) difference exact.
    ///
    /// Other angles go by this platform's cosine and sine, of which nothing is proved: the proved calls begin with the two numbers. Of
    /// an angle that is not a number or infinite both are not a number, which the calls refuse with [`Error::NotADirection`].
    ///
    /// ```
    /// use vokhsaot::Direction;
    ///
    /// assert_eq!(Direction::from_degrees(0.0), Direction { cosine: 1.0, sine: 0.0 }); // to the right
    /// assert_eq!(Direction::from_degrees(90.0), Direction { cosine: 0.0, sine: 1.0 }); // downward
    /// ```
    pub fn from_degrees(degrees: f64) -> Direction {
        let turned = degrees % 360.0;
        let (cosine, sine) = if turned % 90.0 == 0.0 {
            AXES[((turned / 90.0) as i32).rem_euclid(4) as usize]
        } else {
            (turned.to_radians().cos(), turned.to_radians().sin())
        };
        Direction { cosine, sine }
    }
}

/// Cosine and sine after so many quarter turns.
const AXES: [(f64, f64); 4] = [(1.0, 0.0), (0.0, 1.0), (-1.0, 0.0), (0.0, -1.0)];

/// A shape: how far and in which direction a picture is smoothed, as the covariance of the smoothing. `Round` and `Oval` are computed in
/// floats, which takes the thread's usual rounding mode and subnormal numbers for granted (see the crate's first page); `Matrix` is not.
#[derive(Clone, Copy, Debug, PartialEq)]
pub enum Shape {
    /// The covariance matrix in 1/4096 square pixel, taken as it stands. Where xy is positive, the shape leans from the upper left to the
    /// lower right.
    Matrix {
        /// The variance in x.
        xx: i32,
        /// The covariance of x and y.
        xy: i32,
        /// The variance in y.
        yy: i32,
    },
    /// One variance in square pixels, 0 to 64, the same in all directions.
    Round(f64),
    /// Variances along and across a direction.
    Oval {
        /// The variance along the direction, in square pixels, 0 to 64. It may be the smaller one.
        long_variance: f64,
        /// The variance across the direction, in square pixels, 0 to 64.
        short_variance: f64,
        /// The direction.
        direction: Direction,
    },
}

/// Which kernel of a shape: the formulas of the weights leave one number f free between two bounds, and a choice settles it. Kernels
/// exist for the same shapes by either choice, both have the shape's covariance exactly, and their pixels can differ.
///
/// With M = 4096 × steps, all in 1/4096 square pixel, every f from the larger of |xy| and xx + yy − M up to the smaller of xx and
/// yy gives nine weights that are not negative.
#[derive(Clone, Copy, Debug, Default, PartialEq, Eq, Hash)]
pub enum Choice {
    /// The f of a caller who names no choice: the largest of |xy|, xx + yy − M and half of (xx + yy + max(xx, yy) − M) rounded up,
    /// but never more than the smaller of xx and yy. The centre then weighs at least twice as much as each of its four nearest
    /// neighbours wherever some f gives that, as in the binomial kernel 1 2 1, 2 4 2, 1 2 1 that the choice is named after.
    #[default]
    Binomial,
    /// The smallest f, the larger of |xy| and xx + yy − M, whose kernel can have a hollow centre (a weight of 0). Jobs from before a
    /// record held a choice go by it ([`Service::change_over`](crate::Service::change_over)).
    Smallest,
}

impl Choice {
    /// The number that stands for it in the exported calls.
    pub(crate) fn number(self) -> u32 {
        match self {
            Choice::Binomial => 0,
            Choice::Smallest => 1,
        }
    }
}

/// A covariance matrix in 1/4096 square pixel ([`UNITS_PER_SQUARE_PIXEL`](crate::UNITS_PER_SQUARE_PIXEL)).
#[derive(Clone, Copy, Debug, PartialEq, Eq)]
pub struct Covariance {
    /// The variance in x.
    pub xx: i32,
    /// The covariance of x and y.
    pub xy: i32,
    /// The variance in y.
    pub yy: i32,
}

/// The kernel of one step: nine weights over their sum.
#[derive(Clone, Copy, Debug, PartialEq, Eq)]
pub struct Kernel {
    /// The weights by row and then by column, offset −1 first in each: from the upper left to the lower right.
    pub weights: [u64; 9],
    /// Their sum, 4 × 4096 × steps.
    pub sum: u64,
}

impl Kernel {
    /// The weight of the pixel in column x + `dx` and row y + `dy`, each offset −1, 0 or 1.
    ///
    /// # Panics
    /// Where an offset is none of these.
    pub fn weight(&self, dx: i32, dy: i32) -> u64 {
        assert!((-1..=1).contains(&dx) && (-1..=1).contains(&dy));
        self.weights[(3 * (dy + 1) + dx + 1) as usize]
    }
}

/// The covariance of a shape in whole numbers: 4096 times the shape's floats, to the nearest, halves upward. A matrix is taken as it
/// stands, and never refused.
///
/// # Errors
/// In checking order:
/// - 3, [`VarianceOutOfRange`](Error::VarianceOutOfRange): a variance is not a number or lies outside 0 to 64.
/// - 4, [`NotADirection`](Error::NotADirection): the oval's direction is none: a cosine or sine is not a number or lies outside −1 to
///   1, or the sum of their squares lies outside 1023/1024 to 1025/1024.
///
/// ```
/// use vokhsaot::{covariance, Covariance, Direction, Shape};
///
/// let direction = Direction::from_degrees(90.0);
/// let upright = Shape::Oval { long_variance: 2.0, short_variance: 0.5, direction };
/// assert_eq!(covariance(upright), Ok(Covariance { xx: 2048, xy: 0, yy: 8192 }));
/// ```
pub fn covariance(shape: Shape) -> Result<Covariance, Error> {
    let mut entries = [0; COVARIANCE_ENTRIES];
    let (pointer, length) = (entries.as_mut_ptr(), entries.len());
    // SAFETY: the pointer and the length are of one slice.
    let code = unsafe {
        match shape {
            Shape::Matrix { xx, xy, yy } => return Ok(Covariance { xx, xy, yy }),
            Shape::Round(variance) => {
                exported::vokhsaot_covariance_round(variance, pointer, length)
            }
            Shape::Oval {
                long_variance,
                short_variance,
                direction: Direction { cosine, sine },
            } => exported::vokhsaot_covariance_oval(
                long_variance,
                short_variance,
                cosine,
                sine,
                pointer,
                length,
            ),
        }
    };
    outcome(code)?;
    let [xx, xy, yy] = entries;
    Ok(Covariance { xx, xy, yy })
}

/// The kernel of a shape and a number of steps by [`Choice::Binomial`]: so many steps with it have the shape's covariance together.
///
/// # Errors
/// 3, 4, 5 and 11, checked in this order; [`kernel_by`] says when each occurs.
///
/// ```
/// use vokhsaot::{kernel, Shape};
///
/// let shape = Shape::Matrix { xx: 2048, xy: 0, yy: 2048 };
/// let sixteenths = kernel(shape, 1).unwrap().weights.map(|weight| weight / 1024);
/// assert_eq!(sixteenths, [1, 2, 1, 2, 4, 2, 1, 2, 1]);
/// ```
pub fn kernel(shape: Shape, steps: u32) -> Result<Kernel, Error> {
    kernel_by(Choice::default(), shape, steps)
}

/// The kernel of a shape and a number of steps by a choice.
///
/// # Errors
/// In checking order, the same for each choice:
/// - 3, [`VarianceOutOfRange`](Error::VarianceOutOfRange): a variance of a round or an oval is not a number or lies outside 0 to 64.
/// - 4, [`NotADirection`](Error::NotADirection): an oval's direction is none: a cosine or sine is not a number or lies outside −1 to 1,
///   or the sum of their squares lies outside 1023/1024 to 1025/1024.
/// - 5, [`StepsOutOfRange`](Error::StepsOutOfRange): the steps are not 1 to 64.
/// - 11, [`NoKernel`](Error::NoKernel): the shape has no kernel with so many steps: |xy| is more than the smaller of xx and yy, or the
///   larger of them is more than 4096 × steps.
///
/// ```
/// use vokhsaot::{kernel_by, Choice, Shape};
///
/// let shape = Shape::Matrix { xx: 2048, xy: 0, yy: 2048 };
/// let smallest = kernel_by(Choice::Smallest, shape, 1).unwrap();
/// assert_eq!(smallest.weights.map(|weight| weight / 4096), [0, 1, 0, 1, 0, 1, 0, 1, 0]);
/// ```
pub fn kernel_by(choice: Choice, shape: Shape, steps: u32) -> Result<Kernel, Error> {
    let mut numbers = [0; KERNEL_NUMBERS];
    let (choice, pointer, length) = (choice.number(), numbers.as_mut_ptr(), numbers.len());
    // SAFETY: the pointer and the length are of one slice.
    let code = unsafe {
        match shape {
            Shape::Matrix { xx, xy, yy } => {
                exported::vokhsaot_kernel_matrix_by(choice, xx, xy, yy, steps, pointer, length)
            }
            Shape::Round(variance) => {
                exported::vokhsaot_kernel_round_by(choice, variance, steps, pointer, length)
            }
            Shape::Oval {
                long_variance,
                short_variance,
                direction: Direction { cosine, sine },
            } => exported::vokhsaot_kernel_oval_by(
                choice,
                long_variance,
                short_variance,
                cosine,
                sine,
                steps,
                pointer,
                length,
            ),
        }
    };
    outcome(code)?;
    let [sum, weights @ ..] = numbers;
    Ok(Kernel { weights, sum })
}

#[cfg(test)]
mod tests {
    use super::*;

    #[test]
    fn quarter_turns_are_exact() {
        for whole_turns in -100..=100 {
            let axes = [
                (0.0, 1.0, 0.0),
                (90.0, 0.0, 1.0),
                (180.0, -1.0, 0.0),
                (270.0, 0.0, -1.0),
            ];
            for (angle, cosine, sine) in axes {
                let degrees = angle + 360.0 * f64::from(whole_turns);
                let found = Direction::from_degrees(degrees);
                assert_eq!(found, Direction { cosine, sine }, "{degrees}");
            }
        }
        let right = Direction {
            cosine: 1.0,
            sine: 0.0,
        };
        assert_eq!(Direction::from_degrees(-0.0), right);
        // A tiny turn is no quarter turn.
        assert!(Direction::from_degrees(-1e-300).sine < 0.0);
        assert!(Direction::from_degrees(1e-3).sine > 0.0);
        assert!(Direction::from_degrees(f64::NAN).cosine.is_nan());
        assert!(Direction::from_degrees(f64::INFINITY).cosine.is_nan());
    }

    #[test]
    fn other_angles_lie_on_the_circle() {
        let found = Direction::from_degrees(60.0);
        assert!((found.cosine - 0.5).abs() < 1e-15);
        assert!((found.sine - 0.75f64.sqrt()).abs() < 1e-15);
        let back = Direction::from_degrees(-300.0);
        assert!((found.sine - back.sine).abs() < 1e-15);
    }

    /// Degrees turn clockwise as a picture is seen: an oval of 30 degrees leans from the upper left to the lower right.
    #[test]
    fn degrees_turn_towards_y() {
        let oval = |degrees| Shape::Oval {
            long_variance: 4.0,
            short_variance: 1.0,
            direction: Direction::from_degrees(degrees),
        };
        assert!(covariance(oval(30.0)).unwrap().xy > 0);
        assert!(covariance(oval(-30.0)).unwrap().xy < 0);
        assert_eq!(
            covariance(oval(f64::NAN)).unwrap_err(),
            Error::NotADirection
        );
    }
}
