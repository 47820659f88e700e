//! Runs between two pictures, the exact run, and the differences of both, by
//! either choice of a kernel.

use reference::difference::{difference, difference_stays_within, directional, Difference};
use reference::generate::{random_covariance, random_half, LEANING};
use reference::kernel::{kernel, kernel_by, Choice, Covariance, Kernel, UNITS};
use reference::natural::Natural;
use reference::random::Random;
use reference::shape::{Direction, Shape};
use reference::smooth::{
    exact_run, exact_start, nearest, read, rounded_run, run_by, run_stays_within, shown, step,
    within_half_per_step,
};

fn random_picture(random: &mut Random, length: usize) -> Vec<u16> {
    let kind = random.below(4);
    (0..length)
        .map(|_| match kind {
            0 => random.bits() as u16,
            1 => random.pick(&[0, 65535]),
            2 => random.below(3) as u16,
            _ => random.pick(&[0, 0, 0, 0, 0, 0, 0, 1600]),
        })
        .collect()
}

/// A covariance with its kernel by a choice.
fn random_kernel(random: &mut Random, choice: Choice) -> (Covariance, u32, Kernel) {
    loop {
        let (covariance, steps) = if random.once_in(2) {
            random_half(random)
        } else {
            random_covariance(random)
        };
        if let Ok(kernel) = kernel_by(choice, covariance, steps) {
            return (covariance, steps, kernel);
        }
    }
}

/// The choices in turn, so many times each.
fn choices(times: usize) -> impl Iterator<Item = Choice> {
    Choice::ALL
        .into_iter()
        .cycle()
        .take(times * Choice::ALL.len())
}

#[test]
fn the_pixel_at_a_place() {
    let picture = [1, 2, 3, 4, 5, 6];
    for (x, y, pixel) in [
        (0, 0, 1),
        (2, 1, 6),
        (-1, 0, 1),
        (-1, 1, 4),
        (3, 0, 3),
        (3, 1, 6),
        (1, -1, 2),
        (1, 2, 5),
        (-5, 9, 4),
        (9, -5, 3),
        (i32::MIN, i32::MAX, 4),
        (i32::MAX, i32::MIN, 3),
    ] {
        assert_eq!(read(&picture, 3, 2, x, y), Ok(pixel), "{x} {y}");
    }
    assert_eq!(read(&picture, 2, 2, 0, 0), Err(9));
    assert_eq!(read(&picture, 0, 0, 0, 0), Err(6));
    assert_eq!(read(&[0; 1025], 1025, 1, 0, 0), Err(6));
    assert_eq!(read(&[], 1, 0, 0, 0), Err(6));
}

#[test]
fn nearest_with_halves_up() {
    for divisor in [2, 3, 4, 7, 16384] {
        for sum in 0..40_000 {
            let n = nearest(sum, divisor);
            // n − 1/2 ≤ sum / divisor < n + 1/2
            assert!(2 * n * divisor <= 2 * sum + divisor);
            assert!(2 * sum + divisor < 2 * (n + 1) * divisor);
        }
    }
}

/// y grows with the row number: the weight of (1, 1) multiplies the pixel one
/// column and one row on.
#[test]
fn the_lean_of_a_step() {
    let lean = kernel(LEANING, 1).unwrap();
    let picture = [0, 0, 0, 0, 16384, 0, 0, 0, 0];
    assert_eq!(
        step(&lean, &picture, 3, 3),
        [2000, 0, 0, 0, 12384, 0, 0, 0, 2000]
    );
}

#[test]
fn both_buffers_after_a_run() {
    let mut random = Random::new(4);
    for choice in choices(300) {
        let (covariance, steps, kernel) = random_kernel(&mut random, choice);
        let width = random.between(1, 7) as u32;
        let height = random.between(1, 7) as u32;
        let length = (width * height) as usize;
        let picture = random_picture(&mut random, length);
        let mut first = picture.clone();
        let mut second = random_picture(&mut random, length);
        let shape = Shape::Matrix(covariance);
        assert_eq!(
            run_by(choice, shape, steps, width, height, &mut first, &mut second),
            Ok(())
        );
        let after = rounded_run(&kernel, &picture, width, height, steps);
        let before = rounded_run(&kernel, &picture, width, height, steps - 1);
        assert_eq!(shown(steps, &first, &second), after);
        if steps % 2 == 0 {
            assert_eq!((first, second), (after, before));
        } else {
            assert_eq!((first, second), (before, after));
        }
    }
}

#[test]
fn run_refusals_in_order() {
    let bad_direction = Direction {
        cosine: 1.0,
        sine: 1.0,
    };
    let bad_both = Shape::Oval {
        long: -1.0,
        short: 1.0,
        direction: bad_direction,
    };
    let bad_lean = Shape::Oval {
        long: 1.0,
        short: 1.0,
        direction: bad_direction,
    };
    let none = Shape::matrix(0, 1, 0);
    for (shape, steps, width, height, first_length, second_length, refusal) in [
        (bad_both, 0, 0, 0, 1, 1, 3),
        (bad_lean, 0, 0, 0, 1, 1, 4),
        (none, 0, 0, 0, 1, 1, 5),
        (none, 65, 0, 0, 1, 1, 5),
        (none, 1, 0, 0, 1, 1, 6),
        (none, 1, 1, 1025, 1025, 1025, 6),
        (none, 1, 1025, 1, 1025, 1025, 6),
        (none, 1, u32::MAX, u32::MAX, 1, 1, 6),
        (none, 1, 2, 2, 3, 4, 9),
        (none, 1, 2, 2, 4, 5, 9),
        (none, 1, 2, 2, 5, 4, 9),
        (none, 1, 2, 2, 4, 4, 11),
    ] {
        for choice in Choice::ALL {
            let (mut first, mut second) = (vec![7; first_length], vec![8; second_length]);
            let lent = (first.clone(), second.clone());
            let answer = run_by(choice, shape, steps, width, height, &mut first, &mut second);
            assert_eq!(answer, Err(refusal));
            assert_eq!((first, second), lent);
        }
    }
}

#[test]
fn rounded_runs_stay_within_half_a_unit_per_step() {
    let mut random = Random::new(5);
    for choice in choices(150) {
        let (_, steps, kernel) = random_kernel(&mut random, choice);
        let width = random.between(1, 6) as u32;
        let height = random.between(1, 6) as u32;
        let picture = random_picture(&mut random, (width * height) as usize);
        assert!(run_stays_within(&kernel, &picture, width, height, steps));
    }
}

/// The distance is compared on both sides and without slack: half a unit is
/// reached by case j, and a unit off in either direction is found.
#[test]
fn the_distance_is_tight() {
    let beside = kernel(
        Covariance {
            xx: 4096,
            xy: 0,
            yy: 0,
        },
        1,
    )
    .unwrap();
    let exact = exact_run(&beside, &[0, 1], 2, 1, 1);
    assert_eq!(exact, [Natural::from(8192), Natural::from(8192)]);
    assert!(within_half_per_step(&[1, 1], &exact, beside.sum, 1));
    assert!(within_half_per_step(&[0, 0], &exact, beside.sum, 1));
    assert!(!within_half_per_step(&[2, 1], &exact, beside.sum, 1));
    assert!(!within_half_per_step(&[1], &exact, beside.sum, 1));
    let exact = exact_run(&beside, &[10, 10], 2, 1, 3);
    assert!(within_half_per_step(&[11, 9], &exact, beside.sum, 3));
    assert!(!within_half_per_step(&[10, 8], &exact, beside.sum, 3));
    assert!(!within_half_per_step(&[12, 10], &exact, beside.sum, 3));
}

#[test]
fn the_exact_run_keeps_the_total_without_a_lean() {
    let mut random = Random::new(6);
    for choice in choices(60) {
        let steps = random.between(1, 12) as u32;
        let m = UNITS * i64::from(steps);
        let covariance = Covariance {
            xx: random.between(0, m) as i32,
            xy: 0,
            yy: random.between(0, m) as i32,
        };
        let kernel = kernel_by(choice, covariance, steps).unwrap();
        let width = random.between(1, 5) as u32;
        let height = random.between(1, 5) as u32;
        let picture = random_picture(&mut random, (width * height) as usize);
        let sum = |list: &[Natural]| list.iter().fold(Natural::zero(), |a, b| a.plus(b));
        let before = sum(&exact_start(&picture));
        let after = sum(&exact_run(&kernel, &picture, width, height, steps));
        let scaled = (0..steps).fold(before, |total, _| total.times(kernel.sum));
        assert_eq!(after, scaled);
    }
}

#[test]
fn differences_by_hand() {
    // Rows 1 2 4 / 8 16 32 / 64 128 256.
    let picture = [1, 2, 4, 8, 16, 32, 64, 128, 256];
    for (which, expected) in [
        (Difference::X, [1, 3, 2, 8, 24, 16, 64, 192, 128]),
        (Difference::Y, [7, 14, 28, 63, 126, 252, 56, 112, 224]),
        (Difference::XX, [1, 1, -2, 8, 8, -16, 64, 64, -128]),
        (Difference::YY, [7, 14, 28, 49, 98, 196, -56, -112, -224]),
        (Difference::XY, [7, 21, 14, 63, 189, 126, 56, 168, 112]),
    ] {
        let mut result = [0; 9];
        assert_eq!(difference(which, &picture, 3, 3, &mut result), Ok(()));
        assert_eq!(result, expected, "{which:?}");
    }
}

#[test]
fn difference_refusals_in_order() {
    let good = Direction {
        cosine: 1.0,
        sine: 0.0,
    };
    let bad = Direction {
        cosine: 1.0,
        sine: 1.0,
    };
    for (width, height, length, result_length, refusal) in [
        (0, 1, 0, 0, 6),
        (1025, 1, 1025, 1025, 6),
        (1, 0, 3, 4, 6),
        (2, 2, 3, 4, 9),
        (2, 2, 4, 5, 9),
        (2, 2, 4, 3, 9),
    ] {
        let picture = vec![5; length];
        for which in Difference::ALL {
            let mut result = vec![77; result_length];
            assert_eq!(
                difference(which, &picture, width, height, &mut result),
                Err(refusal)
            );
            assert_eq!(result, vec![77; result_length]);
        }
        for (direction, refusal) in [(good, refusal), (bad, 4)] {
            let mut result = vec![7.5; result_length];
            assert_eq!(
                directional(direction, &picture, width, height, &mut result),
                Err(refusal)
            );
            assert_eq!(result, vec![7.5; result_length]);
        }
    }
}

#[test]
fn axis_directions_are_exact() {
    let mut random = Random::new(7);
    for _ in 0..50 {
        let picture = random_picture(&mut random, 20);
        let mut dx = [0; 20];
        let mut dy = [0; 20];
        difference(Difference::X, &picture, 5, 4, &mut dx).unwrap();
        difference(Difference::Y, &picture, 5, 4, &mut dy).unwrap();
        for zero in [0.0, -0.0] {
            for unit in [1, -1] {
                let one = f64::from(unit);
                for (direction, differences) in [
                    (
                        Direction {
                            cosine: one,
                            sine: zero,
                        },
                        &dx,
                    ),
                    (
                        Direction {
                            cosine: zero,
                            sine: one,
                        },
                        &dy,
                    ),
                ] {
                    let mut result = [0.5; 20];
                    directional(direction, &picture, 5, 4, &mut result).unwrap();
                    for (entry, difference) in result.iter().zip(differences) {
                        assert_eq!(*entry, f64::from(unit * difference));
                    }
                }
            }
        }
    }
}

#[test]
fn differences_stay_within_their_distances() {
    let mut random = Random::new(8);
    for choice in choices(80) {
        let (_, steps, kernel) = random_kernel(&mut random, choice);
        let width = random.between(1, 6) as u32;
        let height = random.between(1, 6) as u32;
        let picture = random_picture(&mut random, (width * height) as usize);
        let rounded = rounded_run(&kernel, &picture, width, height, steps);
        let exact = exact_run(&kernel, &picture, width, height, steps);
        for which in Difference::ALL {
            assert!(difference_stays_within(
                which, &rounded, &exact, width, height, kernel.sum, steps
            ));
        }
    }
    // The comparison finds a difference that is too far away.
    let exact = exact_start(&[10, 20]);
    for (rounded, holds) in [([10, 20], true), ([9, 20], false), ([10, 21], false)] {
        let found = difference_stays_within(Difference::X, &rounded, &exact, 2, 1, 16384, 0);
        assert_eq!(found, holds);
    }
}
