//! Kernels of every kind, by which products a step makes: weights that are 0, equal pairs, a centre of twice a side.

use super::CHOICES;
use reference::kernel::{kernel_by, Choice as ModelChoice, Covariance};
use reference::random::Random;
use vokhsaot::{Choice, Shape};

pub const KINDS: [&str; 13] = [
    "no corner, equal sides",
    "no corner",
    "equal corners, equal sides, centre twice a side",
    "equal corners, equal sides",
    "equal corners, centre twice a pixel beside it",
    "equal corners, centre twice a pixel above it",
    "equal corners",
    "the falling diagonal only",
    "the rising diagonal only",
    "no centre",
    "centre twice a pixel beside it",
    "centre twice a pixel above it",
    "all five weights",
];

/// The kind of a kernel, by its weights.
pub fn kind_of(weights: &[u64; 9]) -> usize {
    let [falling, above, rising, beside, centre, ..] = *weights;
    let (wide, tall) = (centre == 2 * beside, centre == 2 * above);
    if falling == rising && beside == above {
        return if falling == 0 {
            0
        } else {
            3 - usize::from(wide)
        };
    }
    if falling == rising {
        return [falling == 0, wide, tall]
            .iter()
            .position(|&is| is)
            .map_or(6, |place| [1, 4, 5][place]);
    }
    [rising == 0, falling == 0, centre == 0, wide, tall]
        .iter()
        .position(|&is| is)
        .map_or(12, |place| 7 + place)
}

/// What is run: a covariance that has a kernel, its steps and a choice.
#[derive(Clone, Copy, Debug)]
pub struct Work {
    pub covariance: Covariance,
    pub steps: u32,
    pub choice: (Choice, ModelChoice),
}

impl Work {
    /// Any that has a kernel, with its kind; often with an entry at one of its bounds or where f changes.
    pub fn random(random: &mut Random) -> Option<(Work, usize)> {
        let steps = random.pick(&[1, 2, 3, 4, 5, 8, 16, 33, 63, 64]);
        let m = 4096 * i64::from(steps);
        let third = random.between(-2, 2) + m / 3;
        let half = random.between(-2, 2) + m / 2;
        let any = random.between(0, m);
        let xx = random.pick(&[0, 1, third, half, m - 1, m, any, any]);
        let other = random.between(0, m);
        let yy = random.pick(&[xx, xx, xx ^ 1, m - xx, third, other, other, other]);
        let most = xx.min(yy);
        let lean = random.between(0, most.max(0));
        let xy = random.pick(&[0, 0, 0, 1, most, most - 1, lean, lean]);
        let [xx, xy, yy] = [xx, random.pick(&[xy, -xy]), yy].map(|entry| entry as i32);
        let covariance = Covariance { xx, xy, yy };
        let choice = random.pick(&CHOICES);
        let kernel = kernel_by(choice.1, covariance, steps).ok()?;
        let work = Work {
            covariance,
            steps,
            choice,
        };
        Some((work, kind_of(&kernel.weights)))
    }

    pub fn shape(&self) -> Shape {
        let Covariance { xx, xy, yy } = self.covariance;
        Shape::Matrix { xx, xy, yy }
    }
}
