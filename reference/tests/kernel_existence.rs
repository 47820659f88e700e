//! The existence of kernels: the definition (K11 to K14 of docs/REFERENCE.md)
//! against the short test (K10).

use reference::generate::{listed_covariances, random_covariance};
use reference::kernel::{
    excludes, existence, exists, free_number, free_number_by, kernel_by, meets_definition,
    molecule_with, Choice, Covariance, Existence, OFFSETS, UNITS,
};
use reference::random::Random;

/// The short test.
fn short_test(xx: i64, xy: i64, yy: i64, m: i64) -> bool {
    free_number(xx, xy, yy, m) <= xx.min(yy)
}

fn compare(xx: i64, xy: i64, yy: i64, m: i64) -> bool {
    let answer = existence(xx, xy, yy, m);
    let found = match answer {
        Existence::Shown { weights, sum } => meets_definition(&weights, sum, xx, xy, yy, m),
        Existence::Excluded { polynomial } => {
            assert!(excludes(&polynomial, xx, xy, yy, m));
            false
        }
    };
    assert_eq!(found, short_test(xx, xy, yy, m), "{xx} {xy} {yy} {m}");
    // "|xy| at most the smaller variance, and the steps enough"
    assert_eq!(found, xy.abs() <= xx.min(yy) && xx.max(yy) <= m);
    // The molecule's weights serve exactly then, by either choice.
    for choice in Choice::ALL {
        let f = free_number_by(choice, xx, xy, yy, m);
        let weights = molecule_with(f, xx, xy, yy, m).map(i128::from);
        assert_eq!(
            found,
            meets_definition(&weights, 4 * i128::from(m), xx, xy, yy, m)
        );
    }
    found
}

#[test]
fn all_small_covariances() {
    let mut counts = [0, 0];
    for m in 1..=10 {
        for xx in -2..=m + 2 {
            for yy in -2..=m + 2 {
                for xy in -m - 2..=m + 2 {
                    counts[usize::from(compare(xx, xy, yy, m))] += 1;
                }
            }
        }
    }
    assert!(counts.iter().all(|count| *count > 1000), "{counts:?}");
}

#[test]
fn real_sizes_around_the_borders() {
    let mut random = Random::new(2);
    let mut counts = [0, 0];
    let random_ones: Vec<(Covariance, u32)> = (0..40_000)
        .map(|_| random_covariance(&mut random))
        .collect();
    for (covariance, steps) in listed_covariances().into_iter().chain(random_ones) {
        let Covariance { xx, xy, yy } = covariance;
        let refusals = Choice::ALL.map(|choice| kernel_by(choice, covariance, steps).err());
        if (1..=64).contains(&steps) {
            let m = UNITS * i64::from(steps);
            let found = compare(xx.into(), xy.into(), yy.into(), m);
            counts[usize::from(found)] += 1;
            assert_eq!(refusals, [(!found).then_some(11); 2]);
        } else {
            assert_eq!(refusals, [Some(5); 2]);
        }
    }
    assert!(counts.iter().all(|count| *count > 10_000), "{counts:?}");
}

/// All lists of nine whole weights of small sums and mean zero have moments
/// for which a kernel is found: the decision asks for no symmetry.
#[test]
fn weights_without_symmetry() {
    fn visit(weights: &mut [i64; 9], place: usize, left: i64, seen: &mut [u32; 2]) {
        if place == 8 {
            weights[8] = left;
            check(weights, seen);
        } else {
            for weight in 0..=left {
                weights[place] = weight;
                visit(weights, place + 1, left - weight, seen);
            }
        }
    }
    fn check(weights: &[i64; 9], seen: &mut [u32; 2]) {
        let moment = |p: u32, q: u32| -> i64 {
            OFFSETS
                .iter()
                .zip(weights)
                .map(|((x, y), weight)| weight * x.pow(p) * y.pow(q))
                .sum()
        };
        if moment(1, 0) == 0 && moment(0, 1) == 0 {
            let sum = moment(0, 0);
            assert!(exists(moment(2, 0), moment(1, 1), moment(0, 2), sum));
            let symmetric = (0..9).all(|i| weights[i] == weights[8 - i]);
            seen[usize::from(symmetric)] += 1;
        }
    }
    let mut seen = [0, 0];
    for sum in 1..=7 {
        visit(&mut [0; 9], 0, sum, &mut seen);
    }
    assert!(seen.iter().all(|count| *count > 50), "{seen:?}");
}

#[test]
fn refusal_five_comes_before_eleven() {
    let none = Covariance {
        xx: -1,
        xy: 0,
        yy: 0,
    };
    for choice in Choice::ALL {
        for steps in [0, 65, u32::MAX] {
            assert_eq!(kernel_by(choice, none, steps).err(), Some(5));
        }
        for steps in [1, 64] {
            assert_eq!(kernel_by(choice, none, steps).err(), Some(11));
        }
    }
}
