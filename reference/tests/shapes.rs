//! Shapes to covariances: exact halves, ends of ranges, order of refusals.

use reference::generate::{listed_shapes, nudge, random_shape};
use reference::kernel::Covariance;
use reference::random::Random;
use reference::shape::{
    check_direction, covariance, exact_value, nearest_unit, shape_kernel, Direction, Shape,
};

fn oval(long: f64, short: f64, cosine: f64, sine: f64) -> Shape {
    Shape::Oval {
        long,
        short,
        direction: Direction { cosine, sine },
    }
}

fn triple(shape: Shape) -> Result<(i32, i32, i32), u8> {
    covariance(shape).map(|Covariance { xx, xy, yy }| (xx, xy, yy))
}

#[test]
fn exact_values() {
    assert_eq!(exact_value(1.0), (1 << 52, -52));
    assert_eq!(exact_value(-0.75), (-(3 << 51), -53));
    assert_eq!(exact_value(f64::from_bits(1)), (1, -1074));
    assert_eq!(exact_value(-0.0), (0, -1074));
    assert_eq!(exact_value(f64::MIN_POSITIVE), (1 << 52, -1074));
}

#[test]
fn halves_go_upward() {
    for (value, unit) in [
        (0.5, 1),
        (1.5, 2),
        (2.5, 3),
        (-0.5, 0),
        (-1.5, -1),
        (-2.5, -2),
        (0.25, 0),
        (0.75, 1),
        (-0.25, 0),
        (-0.75, -1),
        (0.0, 0),
        (-0.0, 0),
        (262_144.0, 262_144),
        (262_143.5, 262_144),
    ] {
        assert_eq!(nearest_unit(value / 4096.0), unit, "{value}");
    }
    let half = 1.0 / 8192.0;
    assert_eq!(nearest_unit(nudge(half, -1)), 0);
    assert_eq!(nearest_unit(-nudge(half, 1)), -1);
    assert_eq!(nearest_unit(-nudge(half, -1)), 0);
    // The sum in floats goes wrong just below the half.
    assert_eq!((4096.0 * nudge(half, -1) + 0.5).floor(), 1.0);
    for value in [f64::from_bits(1), f64::MIN_POSITIVE, 1e-300, 1e-30] {
        assert_eq!(nearest_unit(value), 0);
        assert_eq!(nearest_unit(-value), 0);
    }
}

#[test]
fn rounds_and_ovals() {
    assert_eq!(triple(Shape::Round(0.5)), Ok((2048, 0, 2048)));
    assert_eq!(triple(Shape::Round(-0.0)), Ok((0, 0, 0)));
    assert_eq!(triple(Shape::Round(64.0)), Ok((262_144, 0, 262_144)));
    assert_eq!(triple(oval(2.0, 1.0, 1.0, 0.0)), Ok((8192, 0, 4096)));
    assert_eq!(triple(oval(2.0, 1.0, 0.0, -1.0)), Ok((4096, 0, 8192)));
    assert_eq!(triple(oval(2.0, 1.0, -0.0, 1.0)), Ok((4096, 0, 8192)));
    // The lean: with x and y growing together, xy is positive.
    let (c, s) = (0.6, 0.8);
    assert_eq!(triple(oval(3.0, 1.0, c, s)), Ok((7045, 3932, 9339)));
    assert_eq!(triple(oval(3.0, 1.0, c, -s)), Ok((7045, -3932, 9339)));
    assert_eq!(triple(oval(1.0, 3.0, c, s)), Ok((9339, -3932, 7045)));
    // Beyond 64 × 4096: no refusal 3.
    let wide = oval(64.0, 64.0, 1.0, 0.03125);
    assert_eq!(triple(wide), Ok((262_400, 0, 262_400)));
    assert_eq!(shape_kernel(wide, 64).err(), Some(11));
    // Halves of both signs in xy: (long − short) × (1 × 1/32).
    assert_eq!(triple(oval(1.0 / 256.0, 0.0, 1.0, 0.03125)), Ok((16, 1, 0)));
    assert_eq!(
        triple(oval(1.0 / 256.0, 0.0, 1.0, -0.03125)),
        Ok((16, 0, 0))
    );
    assert_eq!(
        triple(oval(3.0 / 256.0, 0.0, 1.0, -0.03125)),
        Ok((48, -1, 0))
    );
}

#[test]
fn refusals_in_order() {
    let nan = f64::NAN;
    for variance in [
        nan,
        f64::INFINITY,
        f64::NEG_INFINITY,
        -f64::from_bits(1),
        nudge(64.0, 1),
        -1.0,
    ] {
        assert_eq!(triple(Shape::Round(variance)), Err(3));
        assert_eq!(triple(oval(variance, 1.0, 1.0, 0.0)), Err(3));
        assert_eq!(triple(oval(1.0, variance, 2.0, nan)), Err(3));
    }
    for (c, s) in [
        (nan, 1.0),
        (1.0, nan),
        (nudge(1.0, 1), 0.0),
        (0.0, -nudge(1.0, 1)),
        (1.0, 1.0),
        (0.0, 0.0),
        (1.0, nudge(0.03125, 257)),
        (f64::INFINITY, 0.0),
    ] {
        assert_eq!(triple(oval(1.0, 1.0, c, s)), Err(4), "{c} {s}");
    }
    assert_eq!(shape_kernel(oval(nan, 1.0, 2.0, 0.0), 0).err(), Some(3));
    assert_eq!(shape_kernel(oval(1.0, 1.0, 2.0, 0.0), 0).err(), Some(4));
    assert_eq!(shape_kernel(oval(64.0, 1.0, 1.0, 0.0), 0).err(), Some(5));
    assert_eq!(shape_kernel(oval(64.0, 1.0, 1.0, 0.0), 1).err(), Some(11));
    assert_eq!(shape_kernel(oval(64.0, 1.0, 1.0, 0.0), 64).err(), None);
    let any = Shape::matrix(i32::MAX, i32::MIN, -1);
    assert_eq!(triple(any), Ok((i32::MAX, i32::MIN, -1)));
    // Both ends of the range of squares are inside, and it is the float sum
    // that counts: up to 256 places on, it is rounded to the end.
    for (cosine, sine) in [
        (1.0, 0.03125),
        (1.0, -0.03125),
        (1.0, nudge(0.03125, 1)),
        (1.0, nudge(0.03125, 256)),
    ] {
        assert!(check_direction(Direction { cosine, sine }).is_ok());
    }
}

/// The generated inputs reach each answer, both ends of the squares' range
/// and their neighbours.
#[test]
fn generated_shapes_reach_the_borders() {
    let mut random = Random::new(3);
    let random_ones: Vec<(Shape, u32)> = (0..40_000).map(|_| random_shape(&mut random)).collect();
    let mut answers = [0; 14];
    let mut ends = [0; 6];
    for (shape, steps) in listed_shapes().into_iter().chain(random_ones) {
        let answer = shape_kernel(shape, steps).err().unwrap_or(0);
        answers[usize::from(answer)] += 1;
        if let Shape::Oval { direction, .. } = shape {
            let Direction { cosine, sine } = direction;
            let sum = (cosine * cosine) + (sine * sine);
            for (place, end) in [1023.0 / 1024.0, 1025.0 / 1024.0].into_iter().enumerate() {
                for (side, places) in [-1, 0, 1].into_iter().enumerate() {
                    if sum == nudge(end, places) {
                        ends[3 * place + side] += 1;
                    }
                }
            }
        }
    }
    for answer in [0, 3, 4, 5, 11] {
        assert!(answers[answer] > 100, "{answers:?}");
    }
    assert!(ends.iter().all(|count| *count > 20), "{ends:?}");
}
