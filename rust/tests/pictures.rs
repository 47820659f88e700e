//! Reading, runs by both choices and differences of pictures, against the independent program.

mod common;

use common::{direction_of, inputs, numbered, shape_of, times, CHOICES};
use reference::difference::{self as model, Difference as ModelDifference};
use reference::generate::{random_half, random_pixels, random_shape};
use reference::lists::{random_length, random_work};
use reference::random::Random;
use reference::shape::{shape_kernel_by, Direction, Shape};
use reference::smooth::{self as smoothing, exact_run, within_half_per_step};
use vokhsaot::{
    difference, directional, pixel, run, run_by, shown, smooth, smooth_by, Difference, Error,
};

const DIFFERENCES: [(Difference, ModelDifference); 5] = [
    (Difference::FirstX, ModelDifference::X),
    (Difference::FirstY, ModelDifference::Y),
    (Difference::SecondX, ModelDifference::XX),
    (Difference::SecondY, ModelDifference::YY),
    (Difference::Mixed, ModelDifference::XY),
];

/// Sides of a picture: a single pixel, single rows and columns, wrong ones included.
fn sides(random: &mut Random) -> (u32, u32) {
    match random.below(16) {
        0 => (1, 1),
        1 | 2 => (1, random.between(1, 60) as u32),
        3 | 4 => (random.between(1, 60) as u32, 1),
        5 => random.pick(&[
            (0, 3),
            (3, 0),
            (0, 0),
            (1025, 1),
            (1, 1025),
            (u32::MAX, u32::MAX),
        ]),
        6 => random.pick(&[(1024, 2), (2, 1024), (40, 33)]),
        _ => (random.between(1, 12) as u32, random.between(1, 12) as u32),
    }
}

/// Mostly w × h, sometimes another one of the picture's and the result's lengths.
fn lengths(random: &mut Random, width: u32, height: u32) -> (usize, usize) {
    let area = u64::from(width) * u64::from(height);
    (random_length(random, area), random_length(random, area))
}

fn a_direction(random: &mut Random) -> Direction {
    loop {
        if let (Shape::Oval { direction, .. }, _) = random_shape(random) {
            return direction;
        }
    }
}

#[test]
fn pixels_at_places() {
    let mut random = inputs(2);
    for _ in 0..times(20_000) {
        let (width, height) = sides(&mut random);
        let (length, _) = lengths(&mut random, width, height);
        let picture = random_pixels(&mut random, length);
        let mut place = || match random.below(4) {
            0 => random.pick(&[i32::MIN, -1, 0, 1, 1023, 1024, i32::MAX]),
            1 => random.bits() as i32,
            _ => random.between(-3, 60) as i32,
        };
        let (column, row) = (place(), place());
        assert_eq!(
            numbered(pixel(&picture, width, height, column, row)),
            smoothing::read(&picture, width, height, column, row),
            "{width} {height} {column} {row}"
        );
    }
}

/// What a run is lent and told; the pictures may have lengths that are refused.
struct Run {
    shape: Shape,
    steps: u32,
    width: u32,
    height: u32,
    first: Vec<u16>,
    second: Vec<u16>,
}

/// What a run answers and leaves.
type Left = (Result<(), Error>, Vec<u16>, Vec<u16>);

impl Run {
    fn random(random: &mut Random) -> Run {
        let (shape, steps) = match random.below(5) {
            0 => random_shape(random),
            1 => {
                let (covariance, steps) = random_half(random);
                (Shape::Matrix(covariance), steps)
            }
            _ => random_work(random, 24),
        };
        let (width, height) = sides(random);
        let (one, two) = lengths(random, width, height);
        Run {
            shape,
            steps,
            width,
            height,
            first: random_pixels(random, one),
            second: random_pixels(random, two),
        }
    }

    /// The library's run without a choice, against the independent program's.
    fn without_choice(&self) -> Left {
        let (mut first, mut second) = (self.first.clone(), self.second.clone());
        let (mut model_first, mut model_second) = (first.clone(), second.clone());
        let (steps, width, height) = (self.steps, self.width, self.height);
        let shape = shape_of(self.shape);
        let given = run(shape, steps, width, height, &mut first, &mut second);
        let lent = (&mut model_first, &mut model_second);
        let expected = smoothing::run(self.shape, steps, width, height, lent.0, lent.1);
        assert_eq!(numbered(given), expected, "{:?} {steps}", self.shape);
        assert_eq!(first, model_first, "{:?} {steps}", self.shape);
        assert_eq!(second, model_second, "{:?} {steps}", self.shape);
        (given, first, second)
    }

    /// A smoothed picture is what a run shows, and is refused as a run is whose two pictures have that length.
    fn compare_smoothed(&self, left: &[Left; 2]) {
        let (steps, width, height) = (self.steps, self.width, self.height);
        let (shape, pixels) = (shape_of(self.shape), &self.first);
        let [binomial, smallest] = [&left[0], &left[1]].map(|(given, first, second)| {
            given.and_then(|()| shown(steps, first, second).map(<[u16]>::to_vec))
        });
        for ((choice, _), expected) in CHOICES.into_iter().zip([&binomial, &smallest]) {
            let smoothed = smooth_by(choice, shape, steps, width, height, pixels);
            assert_eq!(smoothed, *expected, "{choice:?} {shape:?} {steps}");
        }
        let smoothed = smooth(shape, steps, width, height, pixels);
        assert_eq!(smoothed, binomial, "{shape:?} {steps}");
    }

    /// The run by each choice against the independent program's, within k/2 of the exact one; and without a choice
    /// the first of them.
    fn compare(&self) -> [Left; 2] {
        let name = format!(
            "{:?} {} {} {}",
            self.shape, self.steps, self.width, self.height
        );
        let left = CHOICES.map(|(choice, model_choice)| {
            let (mut first, mut second) = (self.first.clone(), self.second.clone());
            let (mut model_first, mut model_second) = (first.clone(), second.clone());
            let (steps, width, height) = (self.steps, self.width, self.height);
            let shape = shape_of(self.shape);
            let given = run_by(choice, shape, steps, width, height, &mut first, &mut second);
            let lent = (&mut model_first, &mut model_second);
            let expected = smoothing::run_by(
                model_choice,
                self.shape,
                steps,
                width,
                height,
                lent.0,
                lent.1,
            );
            assert_eq!(numbered(given), expected, "{name} {choice:?}");
            assert_eq!(first, model_first, "{name} {choice:?}");
            assert_eq!(second, model_second, "{name} {choice:?}");
            if given.is_ok() && first.len() <= 200 {
                let kernel = shape_kernel_by(model_choice, self.shape, steps).unwrap();
                let exact = exact_run(&kernel, &self.first, width, height, steps);
                let last = shown(steps, &first, &second).unwrap();
                assert!(
                    within_half_per_step(last, &exact, kernel.sum, steps),
                    "{name} {choice:?}"
                );
            }
            (given, first, second)
        });
        assert_eq!(self.without_choice(), left[0], "{name}");
        if self.first.len() == self.second.len() {
            self.compare_smoothed(&left);
        }
        left
    }
}

#[test]
fn runs_between_two_pictures() {
    let mut random = inputs(3);
    let (mut accepted, mut differ) = (0, 0);
    for _ in 0..times(5000) {
        let [binomial, smallest] = Run::random(&mut random).compare();
        accepted += u32::from(binomial.0.is_ok());
        differ += u32::from(binomial != smallest);
    }
    assert!(accepted > 1000 && differ > 500, "{accepted} {differ}");
}

/// Of two pictures the one of the last step by the number's parity; refusal 5 where no run has so many steps.
#[test]
fn pictures_shown() {
    let (first, second) = ([1, 2], [3, 4]);
    for steps in (0..=200).chain([1 << 16, 1 << 31, u32::MAX]) {
        let expected = match (steps, steps % 2) {
            (1..=64, 0) => Ok(&first[..]),
            (1..=64, _) => Ok(&second[..]),
            _ => Err(Error::StepsOutOfRange),
        };
        assert_eq!(shown(steps, &first, &second), expected, "{steps}");
    }
}

/// All shapes of a grid that has the places where f changes, over a bright pixel in the middle, in a corner, and none.
#[test]
fn small_runs() {
    let mut differ = 0;
    for steps in 1..=3 {
        let m = 4096 * steps as i32;
        let grid = [0, 1, m / 3, m / 2, m / 2 + 1, 2 * m / 3, m - 1, m];
        for xx in grid {
            for yy in grid {
                for xy in grid.into_iter().flat_map(|lean| [lean, -lean]) {
                    for bright in [0, 4, 9] {
                        let mut first: Vec<u16> = (1..=9).collect();
                        first
                            .iter_mut()
                            .skip(bright)
                            .take(1)
                            .for_each(|p| *p = 65535);
                        let shape = Shape::matrix(xx, xy, yy);
                        let second = vec![7; 9];
                        let (width, height) = (3, 3);
                        let [binomial, smallest] = Run {
                            shape,
                            steps,
                            width,
                            height,
                            first,
                            second,
                        }
                        .compare();
                        differ += u32::from(binomial != smallest);
                    }
                }
            }
        }
    }
    assert!(differ > 500, "{differ}");
}

#[test]
fn undivided_differences() {
    let mut random = inputs(4);
    for _ in 0..times(4000) {
        let (width, height) = sides(&mut random);
        let (length, result_length) = lengths(&mut random, width, height);
        let picture = random_pixels(&mut random, length);
        for (which, model_which) in DIFFERENCES {
            let mut result = vec![4711; result_length];
            let mut model_result = result.clone();
            assert_eq!(
                numbered(difference(which, &picture, width, height, &mut result)),
                model::difference(model_which, &picture, width, height, &mut model_result),
                "{which:?} {width} {height}"
            );
            assert_eq!(result, model_result, "{which:?} {width} {height}");
        }
    }
}

#[test]
fn directional_differences() {
    let mut random = inputs(5);
    for _ in 0..times(8000) {
        let direction = a_direction(&mut random);
        let (width, height) = sides(&mut random);
        let (length, result_length) = lengths(&mut random, width, height);
        let picture = random_pixels(&mut random, length);
        let mut result = vec![47.11; result_length];
        let mut model_result = result.clone();
        assert_eq!(
            numbered(directional(
                direction_of(direction),
                &picture,
                width,
                height,
                &mut result
            )),
            model::directional(direction, &picture, width, height, &mut model_result),
            "{direction:?} {width} {height}"
        );
        // X9 counts the two zeros as equal, and so does this comparison.
        assert_eq!(result, model_result, "{direction:?} {width} {height}");
    }
}
