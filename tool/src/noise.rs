//! `noise`: a picture with noise added. Whole numbers alone, so that a seed gives the same bytes on every machine.

use crate::error::{Failure, Outcome};
use crate::files;
use crate::numbers::{long_unsigned, whole};
use reference::random::Random;
use std::ffi::OsString;

/// Add noise to a picture
#[derive(clap::Args)]
#[command(
    before_help = "\
Adds a whole number from -N to N to each pixel, each of them equally likely; what
would lie below 0 or above the maxval is 0 or the maxval. The same numbers give the
same pixels on every machine.",
    after_help = "\
Examples:
  $ vokhsaot noise --spread 4 --seed 1 grey.pgm noisy.pgm"
)]
pub struct Options {
    /// The most that a pixel is moved by, 0 to 65535
    #[arg(long, value_name = "N", value_parser = spread, allow_hyphen_values = true)]
    spread: u16,
    /// The seed of the noise
    #[arg(long, value_name = "S", value_parser = long_unsigned, allow_hyphen_values = true)]
    seed: u64,
    /// The picture
    #[arg(default_value = "-")]
    input: OsString,
    /// Where the picture with noise goes; a name in .png makes it PNG
    #[arg(default_value = "-")]
    output: OsString,
}

fn spread(text: &str) -> Result<u16, String> {
    whole(text, 0..=u16::MAX.into())
}

pub fn command(options: &Options) -> Result<Outcome, Failure> {
    let mut picture = files::read_picture(&options.input)?;
    add(
        &mut picture.pixels,
        picture.maxval,
        options.spread,
        options.seed,
    );
    files::write_picture(&options.output, &picture)?;
    Ok(Outcome::Good)
}

fn add(pixels: &mut [u16], maxval: u16, spread: u16, seed: u64) {
    let mut random = Random::new(seed);
    let spread = i64::from(spread);
    for pixel in pixels {
        let moved = i64::from(*pixel) + random.between(-spread, spread);
        *pixel = moved.clamp(0, maxval.into()) as u16;
    }
}

#[cfg(test)]
mod tests {
    use super::*;

    /// How often each pixel comes, of many that were 100.
    fn counts(maxval: u16, spread: u16, seed: u64) -> Vec<usize> {
        let mut pixels = vec![100; 90_000];
        add(&mut pixels, maxval, spread, seed);
        let mut counts = vec![0; usize::from(maxval) + 1];
        pixels
            .into_iter()
            .for_each(|pixel| counts[usize::from(pixel)] += 1);
        counts
    }

    /// Nine numbers share 90,000 pixels: 10,000 each, with a deviation of 94.
    #[test]
    fn each_number_is_equally_likely() {
        for seed in 0..20 {
            let counts = counts(255, 4, seed);
            let shares = &counts[96..=104];
            assert_eq!(shares.iter().sum::<usize>(), 90_000);
            assert!(
                shares.iter().all(|share| (9_400..10_600).contains(share)),
                "{shares:?}"
            );
        }
    }

    /// Of 401 numbers 101 end at 0, and 57 at a maxval of 244.
    #[test]
    fn ends_are_kept() {
        let counts = counts(244, 200, 3);
        let share = |numbers: usize| 90_000 * numbers / 401;
        assert!(counts[0].abs_diff(share(101)) < 800, "{}", counts[0]);
        assert!(counts[244].abs_diff(share(57)) < 800, "{}", counts[244]);
    }

    #[test]
    fn no_spread_and_the_whole_one() {
        let mut pixels = [0, 7, 65535];
        add(&mut pixels, 65535, 0, 9);
        assert_eq!(pixels, [0, 7, 65535]);
        let mut pixels = vec![30_000; 1000];
        add(&mut pixels, 65535, 65535, 9);
        assert!(pixels.contains(&0) && pixels.contains(&65535));
    }

    /// Splitmix64's first two numbers from 0 are e220a8397b1dcdaf and 6e789e6aa1b965f4: of nine parts of 2^64 they lie in
    /// the eighth and in the fourth.
    #[test]
    fn first_numbers_of_a_seed() {
        let mut pixels = [100, 100];
        add(&mut pixels, 255, 4, 0);
        assert_eq!(pixels, [103, 99]);
    }
}
