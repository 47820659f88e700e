//! `stats`: a picture's size, its smallest and largest pixel, mean, deviation and median, and a histogram.

use crate::error::{Failure, Outcome};
use crate::files;
use crate::numbers::whole;
use crate::pictures::Picture;
use crate::steps::bar;
use std::ffi::OsString;

/// Print a picture's numbers and a histogram
#[derive(clap::Args)]
#[command(
    before_help = "\
Prints a picture's sides and maxval, the smallest and the largest pixel with the
first place of each (column and row, both from 0), the mean, the standard
deviation (of all pixels, so divided by their number) and the median; then how
many pixels lie in each of N ranges from the smallest to the largest, with bars.",
    after_help = "\
Examples:
  $ vokhsaot stats --bins 4 spot.pgm"
)]
pub struct Options {
    /// The number of ranges, 1 to 65536; no more than there are greys from the smallest pixel to the largest
    #[arg(long, value_name = "N", default_value = "16", value_parser = bins, allow_hyphen_values = true)]
    bins: usize,
    /// The picture; - is standard input
    #[arg(default_value = "-")]
    picture: OsString,
}

fn bins(text: &str) -> Result<usize, String> {
    whole(text, 1..=65536)
}

pub fn command(options: &Options) -> Result<Outcome, Failure> {
    let picture = files::read_picture(&options.picture)?;
    let sorted = sorted(&picture.pixels);
    let text = summary(&picture, &sorted) + &histogram(&sorted, options.bins);
    files::print(text.as_bytes())?;
    Ok(Outcome::Good)
}

fn sorted(pixels: &[u16]) -> Vec<u16> {
    let mut sorted = pixels.to_vec();
    sorted.sort_unstable();
    sorted
}

/// The lines before the histogram. No picture is empty.
fn summary(picture: &Picture, sorted: &[u16]) -> String {
    let first = |grey: u16| {
        let before = picture.pixels.iter().position(|pixel| *pixel == grey);
        picture.place(before.unwrap_or(0))
    };
    let count = sorted.len();
    let (low, high) = (sorted[0], sorted[count - 1]);
    let sum: u64 = sorted.iter().map(|pixel| u64::from(*pixel)).sum();
    format!(
        "{} × {} pixels, maxval {}\n\
         minimum {low}, first in {}\n\
         maximum {high}, first in {}\n\
         mean {}\n\
         standard deviation {:.3}\n\
         median {}\n",
        picture.width,
        picture.height,
        picture.maxval,
        first(low),
        first(high),
        mean(sum.into(), count),
        deviation(sorted),
        median(sorted)
    )
}

/// A sum's share to three decimals, nearest, halves away from zero: in whole numbers, so exactly.
pub fn mean(sum: i128, count: usize) -> String {
    let count = count as u128;
    let thousandths = (2000 * sum.unsigned_abs() + count) / (2 * count);
    let sign = if sum < 0 && thousandths > 0 { "-" } else { "" };
    format!("{sign}{}.{:03}", thousandths / 1000, thousandths % 1000)
}

/// From the sums in whole numbers: no small difference of large floats is taken.
fn deviation(pixels: &[u16]) -> f64 {
    let count = pixels.len() as u128;
    let (mut sum, mut squares) = (0, 0);
    for pixel in pixels.iter().map(|pixel| u128::from(*pixel)) {
        sum += pixel;
        squares += pixel * pixel;
    }
    ((count * squares - sum * sum) as f64).sqrt() / count as f64
}

/// The middle one, or the mean of both middle ones.
fn median(sorted: &[u16]) -> String {
    let count = sorted.len();
    let twice = u32::from(sorted[(count - 1) / 2]) + u32::from(sorted[count / 2]);
    let half = if twice % 2 == 1 { ".5" } else { "" };
    format!("{}{half}", twice / 2)
}

/// The first grey of each range, and the one after the last range. Their lengths differ by at most one.
fn edges(low: u16, high: u16, bins: usize) -> Vec<usize> {
    let greys = usize::from(high - low) + 1;
    let bins = bins.min(greys);
    (0..=bins)
        .map(|bin| usize::from(low) + bin * greys / bins)
        .collect()
}

/// A line for each range: its greys, the number of its pixels and a bar.
fn histogram(sorted: &[u16], bins: usize) -> String {
    let (low, high) = (sorted[0], sorted[sorted.len() - 1]);
    let edges = edges(low, high, bins);
    let below = |grey: usize| sorted.partition_point(|pixel| usize::from(*pixel) < grey);
    let counts: Vec<usize> = edges
        .windows(2)
        .map(|range| below(range[1]) - below(range[0]))
        .collect();
    let largest = counts.iter().copied().max().unwrap_or(0);
    let (grey_digits, count_digits) = (high.to_string().len(), largest.to_string().len());
    let mut text = String::new();
    for (range, count) in edges.windows(2).zip(&counts) {
        let (first, last) = (range[0], range[1] - 1);
        let bar = bar(*count, largest);
        let line =
            format!("{first:>grey_digits$} to {last:>grey_digits$}  {count:>count_digits$}  {bar}");
        text += line.trim_end();
        text.push('\n');
    }
    text
}

#[cfg(test)]
mod tests {
    use super::*;

    #[test]
    fn means_are_exact() {
        for (sum, count, text) in [
            (0, 3, "0.000"),
            (1, 3, "0.333"),
            (2, 3, "0.667"),
            (-2, 3, "-0.667"),
            (1, 2000, "0.001"),
            (-1, 2000, "-0.001"),
            (1, 2001, "0.000"),
            (-1, 2001, "0.000"),
            (65535 << 20, 1 << 20, "65535.000"),
            (1999, 1000, "1.999"),
            (19999, 10000, "2.000"),
        ] {
            assert_eq!(mean(sum, count), text, "{sum} of {count}");
        }
    }

    #[test]
    fn medians() {
        assert_eq!(median(&[7]), "7");
        assert_eq!(median(&[1, 2]), "1.5");
        assert_eq!(median(&[1, 3]), "2");
        assert_eq!(median(&[1, 3, 9]), "3");
        assert_eq!(median(&[0, 65535, 65535, 65535]), "65535");
    }

    /// 2, 4, 4, 4, 5, 5, 7, 9 has mean 5 and squares about it of 32 in all; equal pixels have no deviation, however
    /// large they are.
    #[test]
    fn deviations() {
        assert_eq!(deviation(&[2, 4, 4, 4, 5, 5, 7, 9]), 2.0);
        assert_eq!(deviation(&[65535; 1000]), 0.0);
        assert_eq!(deviation(&[0, 65535]), 32767.5);
    }

    #[test]
    fn ranges_are_whole_and_leave_no_grey_out() {
        assert_eq!(edges(0, 9, 4), [0, 2, 5, 7, 10]);
        assert_eq!(edges(5, 6, 16), [5, 6, 7]);
        assert_eq!(edges(9, 9, 16), [9, 10]);
        for (low, high) in [(0, 65535), (1, 65535), (3, 100), (7, 23)] {
            for bins in [1, 2, 3, 16, 17, 1000, 65536] {
                let edges = edges(low, high, bins);
                assert_eq!(
                    (edges[0], edges[edges.len() - 1]),
                    (low.into(), usize::from(high) + 1)
                );
                let shortest = (usize::from(high - low) + 1) / (edges.len() - 1);
                let lengths = edges.windows(2).map(|range| range[1] - range[0]);
                assert!(lengths.into_iter().all(|length| length - shortest <= 1));
                assert!(edges.len() - 1 == bins || shortest == 1);
            }
        }
    }

    #[test]
    fn lines_fit_a_terminal() {
        let pixels: Vec<u16> = (0..1 << 20).map(|place: u32| (place >> 4) as u16).collect();
        for line in histogram(&pixels, 16).lines() {
            assert_eq!(line.len(), 5 + 4 + 5 + 2 + 5 + 2 + 50);
        }
        let lopsided = [vec![0; (1 << 20) - 1], vec![65535]].concat();
        assert!(histogram(&lopsided, 3).lines().all(|line| line.len() < 80));
    }
}
