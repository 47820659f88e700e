//! S-1 (S1.1 to S1.6 of docs/REFERENCE.md) on random runs, rounded and exact,
//! with the free numbers of both choices and others that a kernel may have; and
//! steps with a fault, which the checks find.

use reference::extrema::{
    differ_at_most, enhanced, exact_differ_at_most, is_hollow, is_peak, neighbours,
    over_next_scale, stays_between,
};
use reference::generate::{
    listed_covariances, pixels_within, random_covariance, random_gap, random_heights,
};
use reference::kernel::{
    free_number_by, free_numbers, kernel, kernel_by, molecule_with, Choice, Covariance, Kernel,
    OFFSETS, UNITS,
};
use reference::natural::Natural;
use reference::random::Random;
use reference::smooth::{exact_start, exact_step, nearest, places, step};

/// Kernels for tests: of the listed covariances and of random ones.
struct Kernels {
    listed: Vec<(Covariance, u32)>,
}

impl Kernels {
    fn new() -> Kernels {
        Kernels {
            listed: listed_covariances(),
        }
    }

    /// A kernel that exists and its steps, with the free number of a choice or
    /// with another one between the two bounds: S-1 holds for all of them.
    fn pick(&self, random: &mut Random) -> (Kernel, u32) {
        loop {
            let (covariance, steps) = match random.below(2) {
                0 => random.pick(&self.listed),
                _ => random_covariance(random),
            };
            let Ok(kernels) = by_each_choice(covariance, steps) else {
                continue;
            };
            let m = UNITS * i64::from(steps);
            let [xx, xy, yy] = [covariance.xx, covariance.xy, covariance.yy].map(i64::from);
            let (least, most) = free_numbers(xx, xy, yy, m).into_inner();
            let any = random.between(least, most);
            let [binomial, smallest] =
                Choice::ALL.map(|choice| free_number_by(choice, xx, xy, yy, m));
            let f = random.pick(&[binomial, smallest, most, any]);
            let found = Kernel {
                weights: molecule_with(f, xx, xy, yy, m).map(|weight| weight.try_into().unwrap()),
                sum: 4 * m as u64,
            };
            assert_eq!(found.weights.iter().sum::<u64>(), found.sum);
            let same = kernels.map(|kernel| kernel == found);
            assert_eq!(same, [f == binomial, f == smallest]);
            return (found, steps);
        }
    }
}

/// The kernel by each choice, or the refusal, which is the same.
fn by_each_choice(covariance: Covariance, steps: u32) -> Result<[Kernel; 2], u8> {
    let kernel = |choice| kernel_by(choice, covariance, steps);
    Ok([kernel(Choice::Binomial)?, kernel(Choice::Smallest)?])
}

/// Sides: one pixel, single rows and columns, and small pictures.
fn random_sides(random: &mut Random, most: i64) -> (u32, u32) {
    let mut side = || random.between(1, most) as u32;
    let (width, height) = (side(), side());
    random.pick(&[
        (width, height),
        (width, height),
        (width, height),
        (width, 1),
        (1, height),
        (1, 1),
    ])
}

/// What one random test takes: a kernel, and two pictures that differ by at most `gap` at each pixel.
struct Input {
    kernel: Kernel,
    steps: u32,
    width: u32,
    height: u32,
    first: Vec<u16>,
    other: Vec<u16>,
    gap: u16,
}

impl Input {
    fn pick(kernels: &Kernels, random: &mut Random, most: i64) -> Input {
        let (kernel, steps) = kernels.pick(random);
        let (width, height) = random_sides(random, most);
        let first = random_heights(random, width, height);
        let gap = random_gap(random);
        let other = pixels_within(random, &first, gap);
        assert!(differ_at_most(&first, &other, gap.into()));
        Input {
            kernel,
            steps,
            width,
            height,
            first,
            other,
            gap,
        }
    }
}

/// How often each kind of place came up at the beginning of a step.
#[derive(Debug, Default)]
struct Seen {
    peaks: u32,
    hollows: u32,
    flats: u32,
    neither: u32,
    peaks_at_borders: u32,
    peaks_of_later_steps: u32,
    /// A peak of the first picture that was higher at some later step.
    risen_later: u32,
}

impl Seen {
    fn take<T: Ord>(&mut self, picture: &[T], width: u32, height: u32, steps_done: u32) {
        for (x, y) in places(width, height) {
            let peak = is_peak(picture, width, height, x, y);
            match (peak, is_hollow(picture, width, height, x, y)) {
                (true, true) => self.flats += 1,
                (true, false) => self.peaks += 1,
                (false, true) => self.hollows += 1,
                (false, false) => self.neither += 1,
            }
            let at_border = neighbours(width, height, x, y).count() < 8;
            self.peaks_at_borders += u32::from(peak && at_border);
            self.peaks_of_later_steps += u32::from(peak && steps_done > 0);
        }
    }

    fn take_later(&mut self, first: &[u16], later: &[u16], width: u32, height: u32) {
        let rose = places(width, height)
            .zip(first.iter().zip(later))
            .filter(|((x, y), (a, b))| b > a && is_peak(first, width, height, *x, *y));
        self.risen_later += rose.count() as u32;
    }

    fn assert_enough(&self, count: u32) {
        let counts = [
            self.peaks,
            self.hollows,
            self.flats,
            self.neither,
            self.peaks_at_borders,
            self.peaks_of_later_steps,
        ];
        assert!(counts.iter().all(|seen| *seen > count), "{self:?}");
    }
}

#[test]
fn neighbours_by_hand() {
    let found = |width, height, x, y| neighbours(width, height, x, y).collect::<Vec<_>>();
    assert_eq!(found(1, 1, 0, 0), []);
    assert_eq!(found(3, 1, 0, 0), [(1, 0)]);
    assert_eq!(found(3, 1, 1, 0), [(0, 0), (2, 0)]);
    assert_eq!(found(1, 3, 0, 2), [(0, 1)]);
    assert_eq!(found(2, 2, 1, 0), [(0, 0), (0, 1), (1, 1)]);
    let around = [
        (0, 0),
        (1, 0),
        (2, 0),
        (0, 1),
        (2, 1),
        (0, 2),
        (1, 2),
        (2, 2),
    ];
    assert_eq!(found(3, 3, 1, 1), around);
}

/// Rows 5 5 5 / 5 4 5 / 5 5 6: the hollow in the middle, the peak in the
/// corner, and a corner that equals all its neighbours but the hollow.
#[test]
fn peaks_and_hollows_by_hand() {
    let picture = [5, 5, 5, 5, 4, 5, 5, 5, 6];
    let peak = |x, y| is_peak(&picture, 3, 3, x, y);
    let hollow = |x, y| is_hollow(&picture, 3, 3, x, y);
    assert!(peak(2, 2) && !hollow(2, 2));
    assert!(hollow(1, 1) && !peak(1, 1));
    assert!(peak(0, 0) && !hollow(0, 0));
    // Below (2, 1) stands the corner's 6, beside it the 4.
    assert!(!peak(2, 1) && !hollow(2, 1));
    assert!(is_peak(&[7], 1, 1, 0, 0) && is_hollow(&[7], 1, 1, 0, 0));
}

#[test]
fn rounded_runs() {
    let kernels = Kernels::new();
    let mut random = Random::new(31);
    let mut seen = Seen::default();
    for _ in 0..12_000 {
        let Input {
            kernel,
            steps,
            width,
            height,
            first,
            mut other,
            gap,
        } = Input::pick(&kernels, &mut random, 8);
        let mut picture = first.clone();
        for done in 0..steps {
            let next = step(&kernel, &picture, width, height);
            let name = format!("{kernel:?} {width} {height} {picture:?}");
            assert_eq!(enhanced(&picture, &next, width, height), None, "{name}");
            assert!(stays_between(&picture, &next), "{name}");
            other = step(&kernel, &other, width, height);
            assert!(
                differ_at_most(&next, &other, gap.into()),
                "{name} {other:?}"
            );
            seen.take(&picture, width, height, done);
            picture = next;
        }
        seen.take_later(&first, &picture, width, height);
    }
    seen.assert_enough(100_000);
    assert!(seen.risen_later > 100, "{seen:?}");
}

#[test]
fn exact_runs() {
    let kernels = Kernels::new();
    let mut random = Random::new(32);
    let mut seen = Seen::default();
    for _ in 0..3000 {
        let input = Input::pick(&kernels, &mut random, 5);
        let (kernel, width, height, gap) = (input.kernel, input.width, input.height, input.gap);
        let first = input.first;
        let (mut picture, mut other) = (exact_start(&first), exact_start(&input.other));
        for done in 0..input.steps {
            let next = exact_step(&kernel, &picture, width, height);
            other = exact_step(&kernel, &other, width, height);
            let before = over_next_scale(&picture, kernel.sum);
            let name = format!("{kernel:?} {width} {height} {first:?} after {done}");
            assert_eq!(enhanced(&before, &next, width, height), None, "{name}");
            assert!(stays_between(&before, &next), "{name}");
            let d = gap.into();
            assert!(
                exact_differ_at_most(&next, &other, d, kernel.sum, done + 1),
                "{name} {gap}"
            );
            seen.take(&picture, width, height, done);
            picture = next;
        }
    }
    seen.assert_enough(10_000);
}

/// S-1 speaks of a step. A pixel that was a peak may be none after it, and rise
/// in a later one, above where it began.
#[test]
fn a_peak_that_rises_later() {
    let covariance = Covariance {
        xx: 4096,
        xy: 0,
        yy: 0,
    };
    let quarters = kernel(covariance, 2).unwrap();
    let start = [8, 0, 64];
    let one = step(&quarters, &start, 3, 1);
    let two = step(&quarters, &one, 3, 1);
    assert_eq!((&one[..], two[0]), (&[6, 18, 48][..], 9));
    assert!(is_peak(&start, 3, 1, 0, 0) && !is_peak(&one, 3, 1, 0, 0));
    // Nothing was rounded: the exact run does the same.
    let exact = exact_step(
        &quarters,
        &exact_step(&quarters, &exact_start(&start), 3, 1),
        3,
        1,
    );
    assert_eq!(exact[0], Natural::power(quarters.sum, 2).times(9));
}

/// A step that may have a fault. Entries are not cut to the size of a pixel, so
/// that this hides nothing.
struct Step {
    /// The place that is read for one that may lie outside a side.
    inside: fn(i64, i64) -> i64,
    /// What becomes of a sum and the divisor.
    divided: fn(u64, u64) -> u64,
    /// Taken on top of the weight of the centre.
    more: u64,
}

fn nearest_place(place: i64, side: i64) -> i64 {
    place.clamp(0, side - 1)
}

/// The right step (R1).
const RIGHT: Step = Step {
    inside: nearest_place,
    divided: nearest,
    more: 0,
};

fn halves_to_even(sum: u64, divisor: u64) -> u64 {
    let up = nearest(sum, divisor);
    up - u64::from(2 * sum + divisor == 2 * up * divisor && up % 2 == 1)
}

impl Step {
    fn of(&self, kernel: &Kernel, picture: &[u64], width: u32, height: u32) -> Vec<u64> {
        let read = |x, y| {
            let (column, row) = (
                (self.inside)(x, width.into()),
                (self.inside)(y, height.into()),
            );
            picture[row as usize * width as usize + column as usize]
        };
        places(width, height)
            .map(|(x, y)| {
                let weights = OFFSETS.iter().zip(self.weights(kernel));
                let total = weights
                    .map(|((dx, dy), weight)| weight * read(x + dx, y + dy))
                    .sum();
                (self.divided)(total, kernel.sum)
            })
            .collect()
    }

    fn weights(&self, kernel: &Kernel) -> [u64; 9] {
        let mut weights = kernel.weights;
        weights[4] += self.more;
        weights
    }

    /// How many of the random inputs show that a law is broken: a peak that
    /// rises or a hollow that falls, two pictures that get further apart, and a
    /// greatest pixel that rises or a least one that falls.
    fn broken(&self) -> [u32; 3] {
        let kernels = Kernels::new();
        let mut random = Random::new(33);
        let mut broken = [0; 3];
        for _ in 0..4000 {
            let input = Input::pick(&kernels, &mut random, 5);
            let (width, height, gap) = (input.width, input.height, input.gap);
            let [picture, other] = [input.first, input.other]
                .map(|pixels| pixels.into_iter().map(u64::from).collect::<Vec<u64>>());
            let [next, other] =
                [&picture, &other].map(|picture| self.of(&input.kernel, picture, width, height));
            let enhances = enhanced(&picture, &next, width, height).is_some();
            broken[0] += u32::from(enhances);
            broken[1] += u32::from(!differ_at_most(&next, &other, gap.into()));
            broken[2] += u32::from(!stays_between(&picture, &next));
        }
        broken
    }
}

/// Each fault is found by the checks of the laws that it breaks, and by no other.
#[test]
fn steps_with_a_fault_are_found() {
    let adds_one = Step {
        divided: |sum, divisor| sum / divisor + 1,
        ..RIGHT
    };
    let takes_one = Step {
        divided: |sum, divisor| (sum / divisor).saturating_sub(1),
        ..RIGHT
    };
    let wraps_round = Step {
        inside: i64::rem_euclid,
        ..RIGHT
    };
    let one_weight_more = Step { more: 1, ..RIGHT };
    let halves_to_even = Step {
        divided: halves_to_even,
        ..RIGHT
    };
    for (name, step, expected) in [
        ("none", RIGHT, [false, false, false]),
        ("adds one", adds_one, [true, false, true]),
        ("takes one", takes_one, [true, false, true]),
        ("wraps round", wraps_round, [true, false, false]),
        ("one weight more", one_weight_more, [true, true, true]),
        ("halves to even", halves_to_even, [false, true, false]),
    ] {
        for (count, breaks) in step.broken().into_iter().zip(expected) {
            assert_eq!(count > 0, breaks, "{name}");
            assert!(!breaks || count > 20, "{name}: {count}");
        }
    }
}

/// Rounding always up or always down keeps both laws: what it breaks is the
/// distance from the exact run, half a unit a step.
#[test]
fn rounding_up_or_down_keeps_both_laws() {
    for divided in [u64::div_ceil, |sum, divisor| sum / divisor] {
        assert_eq!(Step { divided, ..RIGHT }.broken(), [0; 3]);
    }
}

/// In the exact run nothing is rounded away: weights of sum D + 1 break both
/// laws wherever a pixel is not 0.
#[test]
fn exact_runs_with_one_weight_more_are_found() {
    let kernels = Kernels::new();
    let mut random = Random::new(34);
    let (mut rises, mut apart) = (0, 0);
    for _ in 0..500 {
        let (mut kernel, _) = kernels.pick(&mut random);
        let (width, height) = random_sides(&mut random, 5);
        let picture = exact_start(&random_heights(&mut random, width, height));
        let dark = vec![Natural::zero(); picture.len()];
        let brightest = picture.iter().max().unwrap();
        if *brightest == Natural::zero() {
            continue;
        }
        let level = vec![brightest.clone(); picture.len()];
        kernel.weights[4] += 1;
        let next = exact_step(&kernel, &level, width, height);
        let before = over_next_scale(&level, kernel.sum);
        rises += u32::from(enhanced(&before, &next, width, height).is_some());
        assert!(!stays_between(&before, &next));
        let d = brightest.to_string().parse().unwrap();
        assert!(exact_differ_at_most(&level, &dark, d, kernel.sum, 0));
        apart += u32::from(!exact_differ_at_most(&next, &dark, d, kernel.sum, 1));
    }
    assert!(rises > 300 && rises == apart, "{rises} {apart}");
}
