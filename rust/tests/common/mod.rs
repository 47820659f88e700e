//! What the comparisons with the independent program share.
//!
//! `VOKHSAOT_SEED` (default 1) chooses other inputs, `VOKHSAOT_TIMES` (default 1) so many times as many.
#![allow(dead_code)]

pub mod kinds;
pub mod services;

use reference::error_code::ErrorCode;
use reference::kernel::{Choice as ModelChoice, Covariance as ModelCovariance};
use reference::random::Random;
use reference::shape::{Direction as ModelDirection, Shape as ModelShape};
use vokhsaot::{Choice, Direction, Error, Shape};

fn setting(name: &str) -> u64 {
    std::env::var(name).map_or(1, |text| text.parse().expect("a whole number"))
}

/// Inputs of this test: its own ones for each seed.
pub fn inputs(test: u64) -> Random {
    Random::new(
        setting("VOKHSAOT_SEED")
            .wrapping_mul(1_000_003)
            .wrapping_add(test),
    )
}

pub fn times(count: u64) -> u64 {
    count * setting("VOKHSAOT_TIMES")
}

/// The library's choices, each beside the independent program's.
pub const CHOICES: [(Choice, ModelChoice); 2] = [
    (Choice::Binomial, ModelChoice::Binomial),
    (Choice::Smallest, ModelChoice::Smallest),
];

pub fn direction_of(direction: ModelDirection) -> Direction {
    let ModelDirection { cosine, sine } = direction;
    Direction { cosine, sine }
}

pub fn shape_of(shape: ModelShape) -> Shape {
    match shape {
        ModelShape::Matrix(ModelCovariance { xx, xy, yy }) => Shape::Matrix { xx, xy, yy },
        ModelShape::Round(variance) => Shape::Round(variance),
        ModelShape::Oval {
            long,
            short,
            direction,
        } => Shape::Oval {
            long_variance: long,
            short_variance: short,
            direction: direction_of(direction),
        },
    }
}

/// A refusal by its number, as the independent program answers it.
pub fn numbered<T>(answer: Result<T, Error>) -> Result<T, ErrorCode> {
    answer.map_err(|error| error.number() as ErrorCode)
}
