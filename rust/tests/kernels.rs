//! Kernels by both choices and the covariances of shapes, against the independent program.

mod common;

use common::{inputs, numbered, shape_of, times, CHOICES};
use reference::error_code::ErrorCode;
use reference::generate::{
    listed_covariances, listed_shapes, random_covariance, random_half, random_shape,
};
use reference::kernel::{self as model, Covariance};
use reference::shape::{self, Shape as ModelShape};
use vokhsaot::{covariance, kernel, kernel_by, Choice, Error, Kernel, Shape};

/// The library's kernel is the independent program's.
fn same(given: Result<Kernel, Error>, expected: Result<model::Kernel, ErrorCode>, name: &str) {
    assert_eq!(
        numbered(given).map(|kernel| (kernel.weights, kernel.sum)),
        expected.map(|kernel| (kernel.weights, kernel.sum)),
        "{name}"
    );
}

/// How many shapes had kernels, and of how many the two choices are different ones.
#[derive(Debug, Default)]
struct Seen {
    kernels: u32,
    differ: u32,
}

impl Seen {
    /// One shape's covariance, its kernel by each choice, and by none.
    fn compare(&mut self, shape: ModelShape, steps: u32) {
        let given = covariance(shape_of(shape)).map(|c| (c.xx, c.xy, c.yy));
        let expected = shape::covariance(shape).map(|c| (c.xx, c.xy, c.yy));
        assert_eq!(numbered(given), expected, "{shape:?}");
        let [binomial, smallest] = CHOICES.map(|(choice, model_choice)| {
            let given = kernel_by(choice, shape_of(shape), steps);
            let expected = shape::shape_kernel_by(model_choice, shape, steps);
            same(given, expected, &format!("{shape:?} {steps} {choice:?}"));
            given
        });
        let without_choice = kernel(shape_of(shape), steps);
        same(
            without_choice,
            shape::shape_kernel(shape, steps),
            &format!("{shape:?} {steps}"),
        );
        assert_eq!(without_choice, binomial, "{shape:?} {steps}");
        assert_eq!(binomial.err(), smallest.err(), "{shape:?} {steps}");
        self.kernels += u32::from(binomial.is_ok());
        self.differ += u32::from(binomial != smallest);
    }

    fn assert_enough(&self, count: u32) {
        assert!(self.kernels > count && self.differ > count / 4, "{self:?}");
    }
}

/// Variances at and around 0, M/3, M/2, 2M/3 and M.
fn sides(m: i32) -> Vec<i32> {
    let around = [m / 3, m / 2, 2 * m / 3];
    (-1..8)
        .chain(around.into_iter().flat_map(|side| side - 1..=side + 1))
        .chain(m - 3..=m + 1)
        .collect()
}

/// Covariances at and around 0 and the numbers that f is taken of, with both signs.
fn leans(xx: i32, yy: i32, m: i32) -> Vec<i32> {
    let half = (xx + yy + xx.max(yy) - m) / 2;
    let near = [0, xx.min(yy), xx + yy - m, half];
    let mut all: Vec<i32> = near.iter().flat_map(|n| n - 3..=n + 3).collect();
    all.extend(near.iter().flat_map(|n| -n - 3..=-n + 3));
    all.extend(-9..=9);
    all.sort_unstable();
    all.dedup();
    all
}

/// All small covariances, and all close to the numbers where f changes, for some step counts.
#[test]
fn small_covariances() {
    let mut seen = Seen::default();
    for steps in [1, 2, 3, 64] {
        let m = (model::UNITS as i32) * steps as i32;
        for xx in sides(m) {
            for yy in sides(m) {
                for xy in leans(xx, yy, m) {
                    seen.compare(ModelShape::matrix(xx, xy, yy), steps);
                }
            }
        }
    }
    seen.assert_enough(20_000);
}

/// Variances all over their range in one step, without a lean, with half of the largest, and with the largest.
#[test]
fn variances_of_one_step() {
    let mut seen = Seen::default();
    let m = model::UNITS as i32;
    for xx in (0..=m).step_by(37) {
        for yy in (xx % 5..=m).step_by(23) {
            for xy in [0, xx.min(yy) / 2, -xx.min(yy)] {
                seen.compare(ModelShape::matrix(xx, xy, yy), 1);
            }
        }
    }
    seen.assert_enough(20_000);
}

#[test]
fn covariances_and_shapes() {
    let mut random = inputs(1);
    let mut seen = Seen::default();
    for (covariance, steps) in listed_covariances() {
        seen.compare(ModelShape::Matrix(covariance), steps);
    }
    for (shape, steps) in listed_shapes() {
        seen.compare(shape, steps);
    }
    for _ in 0..times(20_000) {
        let (covariance, steps) = random_covariance(&mut random);
        seen.compare(ModelShape::Matrix(covariance), steps);
        let (shape, steps) = random_shape(&mut random);
        seen.compare(shape, steps);
        let (covariance, steps) = random_half(&mut random);
        seen.compare(ModelShape::Matrix(covariance), steps);
    }
    seen.assert_enough(30_000);
}

/// The numbers of S2.1 to S2.6, from the library alone: cases a and e by both choices, and halves that are rounded up.
#[test]
fn the_choices_by_hand() {
    let weights = |choice, [xx, xy, yy]: [i32; 3], steps| {
        kernel_by(choice, Shape::Matrix { xx, xy, yy }, steps)
            .unwrap()
            .weights
    };
    let a = [2048, 0, 2048];
    let sixteenths = [1, 2, 1, 2, 4, 2, 1, 2, 1].map(|weight| 1024 * weight);
    assert_eq!(weights(Choice::Binomial, a, 1), sixteenths);
    let quarters = [0, 1, 0, 1, 0, 1, 0, 1, 0].map(|weight| 4096 * weight);
    assert_eq!(weights(Choice::Smallest, a, 1), quarters);
    let e = [4097, 0, 4096];
    assert_eq!(
        weights(Choice::Binomial, e, 2),
        [2049, 4094, 2049, 4096, 8192, 4096, 2049, 4094, 2049]
    );
    assert_eq!(
        weights(Choice::Smallest, e, 2),
        [1, 8190, 1, 8192, 0, 8192, 1, 8190, 1]
    );
    // Without a lean the corners' weight is f.
    assert_eq!(weights(Choice::Binomial, [2049, 0, 2049], 1)[0], 1026);
    assert_eq!(weights(Choice::Binomial, [4096, 0, 0], 1)[0], 0);
}

/// K8: y grows with the row number, so that a positive xy weighs (1, 1).
#[test]
fn the_lean_of_an_oval() {
    let lean = kernel(
        Shape::Matrix {
            xx: 1000,
            xy: 1000,
            yy: 1000,
        },
        1,
    )
    .unwrap();
    assert_eq!((lean.weight(1, 1), lean.weight(-1, -1)), (2000, 2000));
    assert_eq!((lean.weight(1, -1), lean.weight(0, 0)), (0, 12384));
    let Covariance { xx, xy, yy } = Covariance {
        xx: 1000,
        xy: 1001,
        yy: 1000,
    };
    assert_eq!(
        kernel(Shape::Matrix { xx, xy, yy }, 1),
        Err(Error::NoKernel)
    );
}
