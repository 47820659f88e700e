//! Kernels: whether one exists, and the nine weights of the molecule.
//!
//! Existence is not decided by the short test (K10 of docs/REFERENCE.md) but by
//! the definition (K11 to K14):
//! nine nonnegative weights, mirror-symmetric or not, of mean zero and second
//! moments xx/M, xy/M, yy/M. These are six linear equations in nine unknowns
//! that may not be negative. Where they can be solved at all, they can be
//! solved with at most six weights that are not zero (a basic solution of the
//! linear programme), so all choices of six offsets are tried in whole
//! numbers. Where none serves there is, by Farkas' lemma, a quadratic
//! polynomial that is nonnegative at all nine offsets while the wanted moments
//! give it a negative mean. Either way the answer comes with what shows it,
//! and that is checked before it is given.

use crate::error_code::{check_steps, ErrorCode, NO_KERNEL};
use std::cell::RefCell;
use std::collections::HashMap;
use std::ops::RangeInclusive;
use std::sync::OnceLock;

/// One square pixel of variance in the units of a covariance.
pub const UNITS: i64 = 4096;

/// The nine offsets (dx, dy): by row, then by column, −1 first in each.
/// dy grows with the row number.
pub const OFFSETS: [(i64, i64); 9] = [
    (-1, -1),
    (0, -1),
    (1, -1),
    (-1, 0),
    (0, 0),
    (1, 0),
    (-1, 1),
    (0, 1),
    (1, 1),
];

/// A covariance matrix in 1/4096 square pixel.
#[derive(Clone, Copy, Debug, PartialEq, Eq)]
pub struct Covariance {
    pub xx: i32,
    pub xy: i32,
    pub yy: i32,
}

/// Nine weights in the order of [`OFFSETS`], and their sum.
#[derive(Clone, Copy, Debug, PartialEq, Eq)]
pub struct Kernel {
    pub weights: [u64; 9],
    pub sum: u64,
}

/// Which free number f a kernel takes (docs/REFERENCE.md, "The choice of f").
/// Kernels exist for the same shapes by either choice.
#[derive(Clone, Copy, Debug, Default, PartialEq, Eq)]
pub enum Choice {
    /// S-2's rule (S2.1), for a caller who names no choice. Its name is that of
    /// the paper's binomial kernel (equation 81), which it gives for case a and
    /// which has twice the weight in the centre that it has beside it.
    #[default]
    Binomial,
    /// The smallest f with which no weight is negative (K9).
    Smallest,
}

impl Choice {
    pub const ALL: [Choice; 2] = [Choice::Binomial, Choice::Smallest];
}

/// The answer to "are there such weights?", with what shows it.
#[derive(Clone, Copy, Debug, PartialEq, Eq)]
pub enum Existence {
    /// Nine whole weights that meet the definition, and their sum.
    Shown { weights: [i128; 9], sum: i128 },
    /// Coefficients of 1, x, y, x², xy, y² of a polynomial that is nonnegative
    /// at every offset and whose mean would be negative.
    Excluded { polynomial: [i128; 6] },
}

/// The six monomials 1, x, y, x², xy, y² at an offset.
fn monomials((x, y): (i64, i64)) -> [i128; 6] {
    [1, x, y, x * x, x * y, y * y].map(i128::from)
}

/// `m` times what the means of the six monomials have to be.
fn wanted(xx: i64, xy: i64, yy: i64, m: i64) -> [i128; 6] {
    [m, 0, 0, xx, xy, yy].map(i128::from)
}

fn dot(a: &[i128; 6], b: &[i128; 6]) -> i128 {
    a.iter().zip(b).map(|(p, q)| p * q).sum()
}

/// Determinant by expansion along the first row.
fn determinant(rows: &[Vec<i128>]) -> i128 {
    let Some((first, others)) = rows.split_first() else {
        return 1;
    };
    let mut total = 0;
    for (column, entry) in first.iter().enumerate() {
        if *entry != 0 {
            let minor: Vec<Vec<i128>> = others.iter().map(|row| without(row, column)).collect();
            let sign = if column % 2 == 0 { 1 } else { -1 };
            total += sign * entry * determinant(&minor);
        }
    }
    total
}

fn without<T: Clone>(list: &[T], place: usize) -> Vec<T> {
    let mut rest = list.to_vec();
    rest.remove(place);
    rest
}

/// All choices of `size` of the nine offsets, as ascending places.
fn choices(size: u32) -> Vec<Vec<usize>> {
    (0u32..1 << 9)
        .filter(|set| set.count_ones() == size)
        .map(|set| (0..9).filter(|place| set >> place & 1 == 1).collect())
        .collect()
}

/// Six offsets whose monomials are linearly independent, solved by Cramer's
/// rule: the weight of `places[j]` is (`numerators[j]` · wanted) / `denominator`.
struct Basis {
    places: Vec<usize>,
    numerators: Vec<[i128; 6]>,
    denominator: i128,
}

/// Every basis; the denominators are positive.
fn bases() -> &'static [Basis] {
    static BASES: OnceLock<Vec<Basis>> = OnceLock::new();
    BASES.get_or_init(|| choices(6).into_iter().filter_map(basis).collect())
}

fn basis(places: Vec<usize>) -> Option<Basis> {
    // One row for each chosen offset.
    let rows: Vec<Vec<i128>> = places
        .iter()
        .map(|&place| monomials(OFFSETS[place]).to_vec())
        .collect();
    let denominator = determinant(&rows);
    if denominator == 0 {
        return None;
    }
    let numerators = (0..6)
        .map(|row| {
            // The determinant with this row replaced by a unit vector, times the sign.
            std::array::from_fn(|column| {
                let mut replaced = rows.clone();
                replaced[row] = (0..6).map(|c| i128::from(c == column)).collect();
                determinant(&replaced) * denominator.signum()
            })
        })
        .collect();
    Some(Basis {
        places,
        numerators,
        denominator: denominator.abs(),
    })
}

/// The polynomials that are zero at five offsets of independent monomials and
/// nonnegative at all nine: the faces of the cone of all moments that
/// nonnegative weights can have.
fn faces() -> &'static [[i128; 6]] {
    static FACES: OnceLock<Vec<[i128; 6]>> = OnceLock::new();
    FACES.get_or_init(|| {
        let mut found: Vec<[i128; 6]> = Vec::new();
        for places in choices(5) {
            let rows: Vec<Vec<i128>> = places
                .iter()
                .map(|&place| monomials(OFFSETS[place]).to_vec())
                .collect();
            // The vector that is orthogonal to all five rows.
            let normal: [i128; 6] = std::array::from_fn(|column| {
                let minor: Vec<Vec<i128>> = rows.iter().map(|row| without(row, column)).collect();
                determinant(&minor) * if column % 2 == 0 { 1 } else { -1 }
            });
            for polynomial in [normal, normal.map(|c| -c)] {
                let nonnegative = OFFSETS
                    .iter()
                    .all(|&offset| dot(&polynomial, &monomials(offset)) >= 0);
                if polynomial != [0; 6] && nonnegative && !found.contains(&polynomial) {
                    found.push(polynomial);
                }
            }
        }
        found
    })
}

/// Decides whether nine nonnegative weights of positive sum have mean zero and
/// second moments xx/m, xy/m, yy/m.
pub fn existence(xx: i64, xy: i64, yy: i64, m: i64) -> Existence {
    assert!(m > 0);
    let target = wanted(xx, xy, yy, m);
    for basis in bases() {
        let values: Vec<i128> = basis.numerators.iter().map(|n| dot(n, &target)).collect();
        if values.iter().all(|value| *value >= 0) {
            let mut weights = [0; 9];
            for (place, value) in basis.places.iter().zip(values) {
                weights[*place] = value;
            }
            let sum = i128::from(m) * basis.denominator;
            assert!(meets_definition(&weights, sum, xx, xy, yy, m));
            return Existence::Shown { weights, sum };
        }
    }
    let polynomial = *faces()
        .iter()
        .find(|face| dot(face, &target) < 0)
        .expect("moments inside every face of the cone have a basic solution");
    assert!(excludes(&polynomial, xx, xy, yy, m));
    Existence::Excluded { polynomial }
}

/// The definition itself: nonnegative weights of this positive sum, mean zero,
/// second moments xx/m, xy/m, yy/m.
pub fn meets_definition(weights: &[i128; 9], sum: i128, xx: i64, xy: i64, yy: i64, m: i64) -> bool {
    let mut moments = [0; 6];
    for (weight, offset) in weights.iter().zip(OFFSETS) {
        for (moment, value) in moments.iter_mut().zip(monomials(offset)) {
            *moment += weight * value;
        }
    }
    let target = wanted(xx, xy, yy, m);
    weights.iter().all(|weight| *weight >= 0)
        && sum > 0
        && moments[0] == sum
        && moments
            .iter()
            .zip(target)
            .all(|(moment, want)| moment * i128::from(m) == want * sum)
}

/// The polynomial is nonnegative at every offset, and weights with the wanted
/// moments would give it a negative mean: so there are none.
pub fn excludes(polynomial: &[i128; 6], xx: i64, xy: i64, yy: i64, m: i64) -> bool {
    OFFSETS
        .iter()
        .all(|&offset| dot(polynomial, &monomials(offset)) >= 0)
        && dot(polynomial, &wanted(xx, xy, yy, m)) < 0
}

/// Whether a kernel exists, by the definition.
pub fn exists(xx: i64, xy: i64, yy: i64, m: i64) -> bool {
    matches!(existence(xx, xy, yy, m), Existence::Shown { .. })
}

/// The same, remembered: a service asks for its few kernels again at every call.
fn exists_as_before(xx: i64, xy: i64, yy: i64, m: i64) -> bool {
    /// So many answers are kept, then all are forgotten.
    const MOST: usize = 4096;
    thread_local! {
        static ANSWERS: RefCell<HashMap<[i64; 4], bool>> = RefCell::default();
    }
    ANSWERS.with_borrow_mut(|answers| {
        if answers.len() == MOST {
            answers.clear();
        }
        *answers
            .entry([xx, xy, yy, m])
            .or_insert_with(|| exists(xx, xy, yy, m))
    })
}

/// The smallest free number f: the larger of |xy| and xx + yy − m.
pub fn free_number(xx: i64, xy: i64, yy: i64, m: i64) -> i64 {
    xy.abs().max(xx + yy - m)
}

/// The free number f of a choice. S-2's is the largest of |xy|, xx + yy − m
/// and half of (xx + yy + max(xx, yy) − m) rounded up, but never more than the
/// smaller of xx and yy.
pub fn free_number_by(choice: Choice, xx: i64, xy: i64, yy: i64, m: i64) -> i64 {
    let smallest = free_number(xx, xy, yy, m);
    match choice {
        Choice::Smallest => smallest,
        Choice::Binomial => {
            let twice = xx + yy + xx.max(yy) - m;
            // Euclid's quotient rounds a negative number down as well, so that
            // with one more its half is rounded up.
            let half = (twice + 1).div_euclid(2);
            smallest.max(half).min(xx.min(yy))
        }
    }
}

/// The numbers f with which none of the molecule's nine weights is negative; an
/// empty range where no kernel exists.
pub fn free_numbers(xx: i64, xy: i64, yy: i64, m: i64) -> RangeInclusive<i64> {
    free_number(xx, xy, yy, m)..=xx.min(yy)
}

/// The nine weights over 4 × m by the formulas K3 to K7 with a free number f,
/// whatever their signs.
pub fn molecule_with(f: i64, xx: i64, xy: i64, yy: i64, m: i64) -> [i64; 9] {
    OFFSETS.map(|offset| match offset {
        (1, 1) | (-1, -1) => f + xy,
        (1, -1) | (-1, 1) => f - xy,
        (1, 0) | (-1, 0) => 2 * (xx - f),
        (0, 1) | (0, -1) => 2 * (yy - f),
        _ => 4 * (m - xx - yy + f),
    })
}

/// The kernel of a covariance divided evenly over the steps, for a caller who
/// names no choice; refusals 5, 11.
pub fn kernel(covariance: Covariance, steps: u32) -> Result<Kernel, ErrorCode> {
    kernel_by(Choice::default(), covariance, steps)
}

/// The kernel by a choice; refusals 5, 11.
pub fn kernel_by(choice: Choice, covariance: Covariance, steps: u32) -> Result<Kernel, ErrorCode> {
    check_steps(steps)?;
    let m = UNITS * i64::from(steps);
    let [xx, xy, yy] = [covariance.xx, covariance.xy, covariance.yy].map(i64::from);
    if !exists_as_before(xx, xy, yy, m) {
        return Err(NO_KERNEL);
    }
    let f = free_number_by(choice, xx, xy, yy, m);
    Ok(kernel_with(f, covariance, steps)?.expect("a weight is negative"))
}

/// The kernel with a free number f, whoever chose it; `None` where one of its
/// weights is negative; refusal 5.
pub fn kernel_with(
    f: i64,
    covariance: Covariance,
    steps: u32,
) -> Result<Option<Kernel>, ErrorCode> {
    check_steps(steps)?;
    let m = UNITS * i64::from(steps);
    let [xx, xy, yy] = [covariance.xx, covariance.xy, covariance.yy].map(i64::from);
    let weights = molecule_with(f, xx, xy, yy, m);
    if weights.iter().any(|weight| *weight < 0) {
        return Ok(None);
    }
    debug_assert!(meets_definition(
        &weights.map(i128::from),
        4 * i128::from(m),
        xx,
        xy,
        yy,
        m
    ));
    Ok(Some(Kernel {
        weights: weights.map(|weight| weight as u64),
        sum: 4 * m as u64,
    }))
}
