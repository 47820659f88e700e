//! `horizon`: a synthetic picture of the Earth's limb over dark space. Whole numbers and integer square roots alone, so
//! that a seed gives the same bytes on every machine.

use crate::error::{Failure, Outcome};
use crate::files;
use crate::numbers::long_unsigned;
use crate::pictures::Picture;
use crate::sides::Sides;
use reference::random::Random;
use std::ffi::OsString;

/// Make a synthetic horizon picture
#[derive(clap::Args)]
#[command(
    before_help = "\
Writes a 16-bit picture: a bright limb over dark space with a soft edge, noise
and a few glints. The same numbers give the same pixels on every machine.",
    after_help = "\
Examples:
  $ vokhsaot horizon --width 64 --height 48 --seed 7 horizon.pgm"
)]
pub struct Options {
    #[command(flatten)]
    sides: Sides,
    /// The seed of limb, noise and glints
    #[arg(long, value_name = "S", value_parser = long_unsigned, allow_hyphen_values = true)]
    seed: u64,
    /// Where the picture goes; a name in .png makes it PNG
    #[arg(default_value = "-")]
    output: OsString,
}

/// Lengths are in 1/256 pixel.
const PIXEL: i64 = 256;
/// The grey of space, and of the limb where it is brightest.
const SPACE: i64 = 1500;
const LIMB: i64 = 52_000;
/// How much a pixel of depth takes from the limb's grey, and how much all depth may take.
const FADING: i64 = 40;
const MOST_FADING: i64 = 16_000;
/// A pixel's noise is the sum of four numbers up to this, less their mean.
const NOISE: i64 = 600;

pub fn command(options: &Options) -> Result<Outcome, Failure> {
    let (width, height) = options.sides.read()?;
    let picture = picture(width, height, options.seed);
    files::write_picture(&options.output, &picture)?;
    Ok(Outcome::Good)
}

fn picture(width: u32, height: u32, seed: u64) -> Picture {
    let mut random = Random::new(seed);
    let scene = Scene::new(&mut random, width.into(), height.into());
    let mut pixels = Vec::new();
    for y in 0..i64::from(height) {
        for x in 0..i64::from(width) {
            let noise: i64 = (0..4).map(|_| random.between(0, NOISE)).sum();
            let grey = scene.grey(x, y) + noise - 2 * NOISE;
            pixels.push(grey.clamp(0, u16::MAX.into()) as u16);
        }
    }
    Picture {
        width,
        height,
        maxval: u16::MAX,
        pixels,
    }
}

/// A bright spot: `height` at its pixel, nothing from `reach` pixels on.
struct Glint {
    x: i64,
    y: i64,
    reach: i64,
    height: i64,
}

/// What is seen: the Earth's circle and the glints.
struct Scene {
    centre_x: i64,
    centre_y: i64,
    radius: i64,
    /// Half the width of the limb's edge.
    softness: i64,
    glints: Vec<Glint>,
}

impl Scene {
    /// The limb crosses the picture's middle third; the circle is two to three times as wide as the picture.
    fn new(random: &mut Random, width: i64, height: i64) -> Scene {
        let longer = width.max(height);
        let radius = random.between(2 * longer * PIXEL, 3 * longer * PIXEL);
        let top = random.between(height * PIXEL / 3, 2 * height * PIXEL / 3);
        let centre_x = random.between(width * PIXEL / 4, 3 * width * PIXEL / 4);
        let softness = random.between(PIXEL, 4 * PIXEL);
        let count = random.between(3, 6);
        let glints = (0..count).map(|_| Glint::new(random, width, height));
        let glints = glints.collect();
        Scene {
            centre_x,
            centre_y: top + radius,
            radius,
            softness,
            glints,
        }
    }

    fn grey(&self, x: i64, y: i64) -> i64 {
        let (dx, dy) = (x * PIXEL - self.centre_x, y * PIXEL - self.centre_y);
        let depth = self.radius - (dx * dx + dy * dy).isqrt();
        // The edge rises as 3t² − 2t³ for t from 0 to 1, here over `edge`.
        let edge = 2 * self.softness;
        let t = (depth + self.softness).clamp(0, edge);
        let fading = (depth.max(0) * FADING / PIXEL).min(MOST_FADING);
        let rise = (LIMB - fading - SPACE) * (t * t * (3 * edge - 2 * t)) / edge.pow(3);
        let glints: i64 = self.glints.iter().map(|glint| glint.grey(x, y)).sum();
        SPACE + rise + glints
    }
}

impl Glint {
    fn new(random: &mut Random, width: i64, height: i64) -> Glint {
        Glint {
            x: random.between(0, width - 1),
            y: random.between(0, height - 1),
            reach: random.between(1, 4),
            height: random.between(10_000, 60_000),
        }
    }

    fn grey(&self, x: i64, y: i64) -> i64 {
        let square = (x - self.x).pow(2) + (y - self.y).pow(2);
        let reach = self.reach.pow(2);
        self.height * (reach - square).max(0) / reach
    }
}

#[cfg(test)]
mod tests {
    use super::*;

    #[test]
    fn dark_above_bright_below() {
        for seed in 0..50 {
            let picture = picture(96, 96, seed);
            let mean = |rows: std::ops::Range<usize>| {
                let part = &picture.pixels[96 * rows.start..96 * rows.end];
                part.iter().map(|pixel| u64::from(*pixel)).sum::<u64>() / part.len() as u64
            };
            assert!((1000..4000).contains(&mean(0..20)), "{seed}");
            assert!((40_000..58_000).contains(&mean(76..96)), "{seed}");
        }
    }

    /// A scene by hand: a circle of radius 100 pixels whose top is at (10, 20), an edge of two pixels, one glint.
    #[test]
    fn greys_of_a_scene() {
        let scene = Scene {
            centre_x: 10 * PIXEL,
            centre_y: 120 * PIXEL,
            radius: 100 * PIXEL,
            softness: PIXEL,
            glints: vec![Glint {
                x: 3,
                y: 3,
                reach: 2,
                height: 8000,
            }],
        };
        assert_eq!(scene.grey(10, 0), SPACE);
        // Half of the rise on the limb itself, all of it a pixel below, faded by 40 a pixel.
        assert_eq!(scene.grey(10, 20), SPACE + (LIMB - SPACE) / 2);
        assert_eq!(scene.grey(10, 21), LIMB - 40);
        assert_eq!(scene.grey(10, 119), LIMB - 40 * 99);
        // (70, 40) from the centre's column and row 40: 60² + 80² = 100², on the limb again.
        assert_eq!(scene.grey(70, 40), SPACE + (LIMB - SPACE) / 2);
        assert_eq!(scene.grey(3, 3), SPACE + 8000);
        assert_eq!(scene.grey(4, 3), SPACE + 6000);
        assert_eq!(scene.grey(4, 4), SPACE + 4000);
        assert_eq!(scene.grey(5, 3), SPACE);
    }

    #[test]
    fn all_sides_and_seeds() {
        for (width, height) in [(1, 1), (1, 7), (7, 1), (1024, 3), (3, 1024)] {
            let one = picture(width, height, u64::MAX);
            assert_eq!(one.pixels.len() as u32, width * height);
            assert_eq!(one, picture(width, height, u64::MAX));
        }
        assert_ne!(picture(8, 8, 1), picture(8, 8, 2));
    }
}
