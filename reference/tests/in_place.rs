//! Runs within one picture: the pixels of the run between two, worked out there
//! in another way, and numbers by hand.

use reference::generate::{random_covariance, random_half, random_pixels, LEANING};
use reference::in_place::{run_in_place, run_in_place_by, step_in_place};
use reference::kernel::{kernel, kernel_by, Choice, Covariance};
use reference::random::Random;
use reference::shape::{Direction, Shape};
use reference::smooth::{run, run_by, shown, step};

/// A quarter above, a half at the place, a quarter below.
const UPRIGHT: Covariance = Covariance {
    xx: 0,
    xy: 0,
    yy: 2048,
};

/// A covariance that has a kernel, and its steps.
fn random_work(random: &mut Random) -> (Covariance, u32) {
    loop {
        let (covariance, steps) = if random.once_in(2) {
            random_half(random)
        } else {
            random_covariance(random)
        };
        if kernel(covariance, steps).is_ok() {
            return (covariance, steps);
        }
    }
}

/// The run between two pictures, of which the one that holds step k is given.
fn between_two(
    choice: Choice,
    shape: Shape,
    steps: u32,
    (width, height): (u32, u32),
    picture: &[u16],
) -> Vec<u16> {
    let (mut first, mut second) = (picture.to_vec(), vec![1; picture.len()]);
    run_by(choice, shape, steps, width, height, &mut first, &mut second).unwrap();
    shown(steps, &first, &second).to_vec()
}

/// In a column the middle one reads the old pixel above it: 0 and not the 400
/// that stands there already, which would make it 900.
#[test]
fn old_rows_by_hand() {
    let kernel = kernel(UPRIGHT, 1).unwrap();
    let mut column = [0, 1600, 0];
    step_in_place(&kernel, &mut column, 1, 3);
    assert_eq!(column, [400, 800, 400]);
    let mut rows = [0, 4, 1600, 8, 0, 12];
    step_in_place(&kernel, &mut rows, 2, 3);
    assert_eq!(rows, [400, 5, 800, 8, 400, 11]);
}

/// The falling diagonal: each pixel reads the old ones a row and a pixel before
/// and after it.
#[test]
fn old_corners_by_hand() {
    let lean = kernel(LEANING, 1).unwrap();
    let mut picture = [16384, 0, 0, 0, 16384, 0, 0, 0, 0];
    step_in_place(&lean, &mut picture, 3, 3);
    // weights 2000, 12384 and 2000 of 16384, the nearest pixel outside
    let by_hand = [16384, 2000, 0, 2000, 14384, 0, 0, 0, 2000];
    assert_eq!(picture, by_hand);
    let mut last = [16384, 0, 0, 0];
    step_in_place(&lean, &mut last, 2, 2);
    assert_eq!(last, [14384, 2000, 2000, 2000], "case k");
}

#[test]
fn steps_within_one_picture() {
    let mut random = Random::new(50);
    for width in 1..=12 {
        for height in 1..=12 {
            for choice in Choice::ALL {
                let (covariance, steps) = random_work(&mut random);
                let kernel = kernel_by(choice, covariance, steps).unwrap();
                let picture = random_pixels(&mut random, (width * height) as usize);
                let mut in_place = picture.clone();
                step_in_place(&kernel, &mut in_place, width, height);
                let expected = step(&kernel, &picture, width, height);
                assert_eq!(
                    in_place, expected,
                    "{covariance:?} {steps} {width} {height}"
                );
            }
        }
    }
}

#[test]
fn runs_within_one_picture() {
    let mut random = Random::new(51);
    for _ in 0..400 {
        let (covariance, steps) = random_work(&mut random);
        let shape = Shape::Matrix(covariance);
        let side = |random: &mut Random| random.between(1, 9) as u32;
        let sides = (side(&mut random), side(&mut random));
        let (width, height) = sides;
        let picture = random_pixels(&mut random, (width * height) as usize);
        for choice in Choice::ALL {
            let mut in_place = picture.clone();
            let answer = run_in_place_by(choice, shape, steps, width, height, &mut in_place);
            assert_eq!(answer, Ok(()));
            let expected = between_two(choice, shape, steps, sides, &picture);
            assert_eq!(in_place, expected, "{covariance:?} {steps} {sides:?}");
        }
        let mut in_place = picture.clone();
        run_in_place(shape, steps, width, height, &mut in_place).unwrap();
        let (mut first, mut second) = (picture.clone(), picture);
        run(shape, steps, width, height, &mut first, &mut second).unwrap();
        assert_eq!(in_place, shown(steps, &first, &second));
    }
}

/// The longest rows and columns, whose old pixels are the most.
#[test]
fn longest_sides() {
    let mut random = Random::new(52);
    for sides in [(1024, 3), (3, 1024), (1023, 2), (1024, 1), (1, 1024)] {
        let (width, height) = sides;
        let picture = random_pixels(&mut random, (width * height) as usize);
        let shape = Shape::matrix(5000, -1234, 7000);
        let mut in_place = picture.clone();
        run_in_place(shape, 3, width, height, &mut in_place).unwrap();
        let expected = between_two(Choice::Binomial, shape, 3, sides, &picture);
        assert_eq!(in_place, expected, "{sides:?}");
    }
}

#[test]
fn refusals_in_order() {
    let direction = Direction {
        cosine: 1.0,
        sine: 1.0,
    };
    let oval = |long| Shape::Oval {
        long,
        short: 1.0,
        direction,
    };
    let (no_variance, no_direction, none) = (oval(-1.0), oval(1.0), Shape::matrix(0, 1, 0));
    for (shape, steps, width, height, length, refusal) in [
        (no_variance, 0, 0, 0, 1, 3),
        (no_direction, 0, 0, 0, 1, 4),
        (none, 0, 0, 0, 1, 5),
        (none, 65, 0, 0, 1, 5),
        (none, 1, 0, 0, 1, 6),
        (none, 1, 1, 1025, 1025, 6),
        (none, 1, 1025, 1, 1025, 6),
        (none, 1, u32::MAX, u32::MAX, 1, 6),
        (none, 1, 2, 2, 3, 9),
        (none, 1, 2, 2, 5, 9),
        (none, 1, 2, 2, 8, 9),
        (none, 1, 2, 2, 0, 9),
        (none, 1, 2, 2, 4, 11),
    ] {
        for choice in Choice::ALL {
            let mut picture: Vec<u16> = (0..length).collect();
            let lent = picture.clone();
            let answer = run_in_place_by(choice, shape, steps, width, height, &mut picture);
            assert_eq!((answer, picture), (Err(refusal), lent));
        }
    }
}
