//! S-2 (docs/REFERENCE.md, "The choice of f"): the f of each choice, held by a
//! definition of its own over all small covariances; that both choices give
//! kernels of the same shapes with the same refusals; and that no choice named
//! is S-2's rule.

use reference::extrema::differ_at_most;
use reference::generate::{
    listed_covariances, listed_shapes, random_covariance, random_half, random_pixels, random_shape,
};
use reference::kernel::{
    existence, free_number_by, free_numbers, kernel, kernel_by, meets_definition, molecule_with,
    Choice, Covariance, Existence, OFFSETS, UNITS,
};
use reference::lists::{random_length, random_sides, random_work};
use reference::random::Random;
use reference::shape::{shape_kernel, shape_kernel_by};
use reference::smooth::{exact_run, rounded_run, run, run_by, within_half_per_step};

/// The weights with this f have at least twice as much in the centre as at
/// each of its four nearest neighbours, by the paper's condition in words and
/// not by its equations 83 to 86.
fn centre_is_twice_its_neighbours(f: i64, [xx, xy, yy]: [i64; 3], m: i64) -> bool {
    let weights = molecule_with(f, xx, xy, yy, m);
    let centre = weights[4];
    OFFSETS
        .iter()
        .zip(weights)
        .filter(|((dx, dy), _)| dx.abs() + dy.abs() == 1)
        .all(|(_, weight)| centre >= 2 * weight)
}

/// S-2's f by that condition: of the numbers with which no weight is negative
/// the smallest that meets it, or the largest where none does.
fn filled_centre(shape @ [xx, xy, yy]: [i64; 3], m: i64) -> i64 {
    free_numbers(xx, xy, yy, m)
        .find(|f| centre_is_twice_its_neighbours(*f, shape, m))
        .unwrap_or(xx.min(yy))
}

/// How often each kind of kernel came up.
#[derive(Debug, Default)]
struct Seen {
    kernels: u32,
    /// S-2's f is another one than the smallest.
    differ: u32,
    /// S-2's f is the largest, and the centre is not twice its neighbours.
    capped: u32,
    /// Half of an odd number was rounded up, and it is the f.
    rounded_up: u32,
    hollow: u32,
}

impl Seen {
    /// All that is claimed of the two kernels of one covariance.
    fn check(&mut self, shape @ [xx, xy, yy]: [i64; 3], m: i64) {
        let name = format!("{xx} {xy} {yy} {m}");
        let bounds = free_numbers(xx, xy, yy, m);
        for choice in Choice::ALL {
            let f = free_number_by(choice, xx, xy, yy, m);
            assert!(bounds.contains(&f), "{name} {choice:?}: {f}");
            let weights = molecule_with(f, xx, xy, yy, m).map(i128::from);
            let sum = 4 * i128::from(m);
            assert!(meets_definition(&weights, sum, xx, xy, yy, m), "{name}");
        }
        let smallest = free_number_by(Choice::Smallest, xx, xy, yy, m);
        assert_eq!(smallest, *bounds.start(), "{name}");
        let f = free_number_by(Choice::Binomial, xx, xy, yy, m);
        assert_eq!(f, filled_centre(shape, m), "{name}");
        let hollow = molecule_with(f, xx, xy, yy, m)[4] == 0;
        assert_eq!(hollow, xx.max(yy) == m, "{name}");
        self.kernels += 1;
        self.differ += u32::from(f != smallest);
        self.capped += u32::from(!centre_is_twice_its_neighbours(f, shape, m));
        self.rounded_up += u32::from(2 * f == xx + yy + xx.max(yy) - m + 1);
        self.hollow += u32::from(hollow);
    }
}

/// All covariances with a kernel over small m.
#[test]
fn all_small_kernels() {
    let mut seen = Seen::default();
    for m in 1..=24 {
        for xx in 0..=m {
            for yy in 0..=m {
                let most = xx.min(yy);
                for xy in -most..=most {
                    seen.check([xx, xy, yy], m);
                }
                for xy in [-most - 1, most + 1] {
                    let none = existence(xx, xy, yy, m);
                    assert!(matches!(none, Existence::Excluded { .. }));
                }
            }
        }
    }
    let counts = [
        seen.kernels,
        seen.differ,
        seen.capped,
        seen.rounded_up,
        seen.hollow,
    ];
    assert!(counts.iter().all(|count| *count > 1000), "{seen:?}");
}

/// The same at the sizes of real steps, where trying each f would take long:
/// the condition at the f and at the one before it.
#[test]
fn real_sizes() {
    let mut random = Random::new(41);
    let mut differ = 0;
    let random_ones: Vec<(Covariance, u32)> = (0..20_000)
        .flat_map(|_| [random_covariance(&mut random), random_half(&mut random)])
        .collect();
    for (covariance, steps) in listed_covariances().into_iter().chain(random_ones) {
        let Ok(found) = kernel(covariance, steps) else {
            continue;
        };
        let shape = [covariance.xx, covariance.xy, covariance.yy].map(i64::from);
        let [xx, xy, yy] = shape;
        let m = UNITS * i64::from(steps);
        let bounds = free_numbers(xx, xy, yy, m);
        let f = free_number_by(Choice::Binomial, xx, xy, yy, m);
        assert!(bounds.contains(&f), "{shape:?} {steps}");
        let weights = molecule_with(f, xx, xy, yy, m);
        assert_eq!(found.weights.map(|weight| weight as i64), weights);
        assert!(
            f == *bounds.end() || centre_is_twice_its_neighbours(f, shape, m),
            "{shape:?} {steps}"
        );
        assert!(
            f == *bounds.start() || !centre_is_twice_its_neighbours(f - 1, shape, m),
            "{shape:?} {steps}"
        );
        assert_eq!(weights[4] == 0, xx.max(yy) == m, "{shape:?} {steps}");
        differ += u32::from(f != *bounds.start());
    }
    assert!(differ > 5000, "{differ}");
}

/// One refusal or none for both choices, and without a choice S-2's kernel.
#[test]
fn shapes_have_kernels_by_both_choices_or_by_none() {
    let mut random = Random::new(42);
    let random_ones: Vec<_> = (0..20_000).map(|_| random_shape(&mut random)).collect();
    let (mut refused, mut differ) = (0, 0);
    for (shape, steps) in listed_shapes().into_iter().chain(random_ones) {
        let [binomial, smallest] = Choice::ALL.map(|choice| shape_kernel_by(choice, shape, steps));
        assert_eq!(binomial.err(), smallest.err(), "{shape:?} {steps}");
        assert_eq!(shape_kernel(shape, steps), binomial, "{shape:?} {steps}");
        refused += u32::from(binomial.is_err());
        differ += u32::from(binomial != smallest);
    }
    assert!(refused > 2000 && differ > 2000, "{refused} {differ}");
}

#[test]
fn no_choice_named_is_the_rule_of_s_2() {
    assert_eq!(Choice::default(), Choice::Binomial);
    for (covariance, steps) in listed_covariances() {
        assert_eq!(
            kernel(covariance, steps),
            kernel_by(Choice::Binomial, covariance, steps)
        );
    }
    let mut random = Random::new(43);
    let (mut refused, mut differ) = (0, 0);
    for _ in 0..3000 {
        let (shape, steps) = random_work(&mut random, 24);
        let (width, height) = random_sides(&mut random);
        let area = u64::from(width) * u64::from(height);
        let (one, two) = (random_length(&mut random, area), area.min(5000) as usize);
        let lent = (
            random_pixels(&mut random, one),
            random_pixels(&mut random, two),
        );
        let named = |choice| {
            let (mut first, mut second) = lent.clone();
            let answer = run_by(choice, shape, steps, width, height, &mut first, &mut second);
            (answer, first, second)
        };
        let (mut first, mut second) = lent.clone();
        let answer = run(shape, steps, width, height, &mut first, &mut second);
        let [binomial, smallest] = Choice::ALL.map(named);
        assert_eq!((answer, first, second), binomial, "{shape:?} {steps}");
        assert_eq!(answer, smallest.0, "{shape:?} {steps}");
        if answer.is_err() {
            assert_eq!((&binomial.1, &binomial.2), (&lent.0, &lent.1));
            assert_eq!(binomial, smallest);
            refused += 1;
        }
        differ += u32::from(binomial != smallest);
    }
    assert!(refused > 500 && differ > 200, "{refused} {differ}");
}

/// A run is held to the exact run of its own choice, and S-1's two pictures
/// have one choice: with two of them both sentences are false. In case a half
/// a unit is allowed, and equal pictures end up to 400 units apart.
#[test]
fn the_choices_are_not_to_be_mixed() {
    let case_a = Covariance {
        xx: 2048,
        xy: 0,
        yy: 2048,
    };
    let picture = [0, 0, 0, 0, 1600, 0, 0, 0, 0];
    let kernels = Choice::ALL.map(|choice| kernel_by(choice, case_a, 1).unwrap());
    let rounded = kernels.map(|kernel| rounded_run(&kernel, &picture, 3, 3, 1));
    let exact = kernels.map(|kernel| exact_run(&kernel, &picture, 3, 3, 1));
    for (one, rounded) in rounded.iter().enumerate() {
        for (other, exact) in exact.iter().enumerate() {
            let near = within_half_per_step(rounded, exact, kernels[one].sum, 1);
            assert_eq!(near, one == other);
        }
    }
    assert!(!differ_at_most(&rounded[0], &rounded[1], 399));
    assert!(differ_at_most(&rounded[0], &rounded[1], 400));
}
