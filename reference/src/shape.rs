//! Shapes, and their covariance in whole 1/4096 square pixels.
//!
//! Floats are multiplied and added as 64-bit floats, each operation rounded
//! once; the last step, times 4096 and to the nearest whole number, is done in
//! whole numbers on the exact value of the float.

use crate::error_code::{require, ErrorCode, BAD_DIRECTION, BAD_VARIANCE};
use crate::kernel::{kernel_by, Choice, Covariance, Kernel};

/// A direction: a cosine and a sine.
#[derive(Clone, Copy, Debug)]
pub struct Direction {
    pub cosine: f64,
    pub sine: f64,
}

/// A shape (H1 to H6 of docs/REFERENCE.md).
#[derive(Clone, Copy, Debug)]
pub enum Shape {
    /// The covariance itself.
    Matrix(Covariance),
    /// One variance.
    Round(f64),
    /// Variance along and across a direction.
    Oval {
        long: f64,
        short: f64,
        direction: Direction,
    },
}

impl Shape {
    /// A Matrix by its three numbers.
    pub fn matrix(xx: i32, xy: i32, yy: i32) -> Shape {
        Shape::Matrix(Covariance { xx, xy, yy })
    }
}

/// Refusal 3, for one variance.
pub fn check_variance(variance: f64) -> Result<(), ErrorCode> {
    require((0.0..=64.0).contains(&variance), BAD_VARIANCE)
}

/// Refusal 4. The sum is the float sum and both ends of its range are inside.
pub fn check_direction(direction: Direction) -> Result<(), ErrorCode> {
    let Direction { cosine, sine } = direction;
    let sum = (cosine * cosine) + (sine * sine);
    require(
        (-1.0..=1.0).contains(&cosine)
            && (-1.0..=1.0).contains(&sine)
            && (1023.0 / 1024.0..=1025.0 / 1024.0).contains(&sum),
        BAD_DIRECTION,
    )
}

/// A finite float's exact value: `mantissa` × 2^`exponent`.
pub fn exact_value(value: f64) -> (i128, i32) {
    assert!(value.is_finite());
    let bits = value.to_bits();
    let fraction = i128::from(bits & ((1 << 52) - 1));
    let biased = (bits >> 52 & 0x7ff) as i32;
    let sign = if bits >> 63 == 1 { -1 } else { 1 };
    if biased == 0 {
        (sign * fraction, -1074)
    } else {
        (sign * (fraction + (1 << 52)), biased - 1075)
    }
}

/// 4096 times the exact value, to the nearest whole number, halves upward.
pub fn nearest_unit(value: f64) -> i32 {
    let (mantissa, exponent) = exact_value(value);
    // 4096 × value is mantissa × 2^power.
    let power = exponent + 12;
    let unit = if power >= 0 {
        assert!(power < 64, "a variance of this size is refused before");
        mantissa << power
    } else if power < -100 {
        // The absolute value is far below one half.
        0
    } else {
        // floor(mantissa / d + 1/2) = floor((2 × mantissa + d) / (2 × d))
        let d = 1i128 << -power;
        (2 * mantissa + d).div_euclid(2 * d)
    };
    if (-100..0).contains(&power) {
        // Within half a unit, and upward at a half.
        let twice_error = 2 * ((unit << -power) - mantissa);
        debug_assert!(-(1i128 << -power) < twice_error && twice_error <= 1i128 << -power);
    }
    i32::try_from(unit).expect("a covariance of this size is refused before")
}

/// The covariance of a shape; refusals 3, 4.
pub fn covariance(shape: Shape) -> Result<Covariance, ErrorCode> {
    match shape {
        Shape::Matrix(covariance) => Ok(covariance),
        Shape::Round(variance) => {
            check_variance(variance)?;
            let unit = nearest_unit(variance);
            Ok(Covariance {
                xx: unit,
                xy: 0,
                yy: unit,
            })
        }
        Shape::Oval {
            long,
            short,
            direction,
        } => {
            check_variance(long)?;
            check_variance(short)?;
            check_direction(direction)?;
            let Direction { cosine: c, sine: s } = direction;
            Ok(Covariance {
                xx: nearest_unit(long * (c * c) + short * (s * s)),
                xy: nearest_unit((long - short) * (c * s)),
                yy: nearest_unit(long * (s * s) + short * (c * c)),
            })
        }
    }
}

/// The kernel of a shape, for a caller who names no choice; refusals 3, 4, 5, 11.
pub fn shape_kernel(shape: Shape, steps: u32) -> Result<Kernel, ErrorCode> {
    shape_kernel_by(Choice::default(), shape, steps)
}

/// The kernel of a shape by a choice; refusals 3, 4, 5, 11.
pub fn shape_kernel_by(choice: Choice, shape: Shape, steps: u32) -> Result<Kernel, ErrorCode> {
    kernel_by(choice, covariance(shape)?, steps)
}
