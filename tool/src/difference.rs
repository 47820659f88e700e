//! `difference`: an undivided difference of a picture, as a picture for the eye and as numbers.

use crate::error::{say, Failure, Outcome};
use crate::files;
use crate::numbers::rows;
use crate::pictures::Picture;
use crate::shape;
use std::ffi::OsString;
use std::io::{self, IsTerminal};
use vokhsaot::{difference, directional, Difference, Direction};

/// Take an undivided difference of a picture
#[derive(clap::Args)]
#[command(
    before_help = "\
Writes a 16-bit picture for viewing: zero is 32768, and the scale is the largest
one with which all differences fit. Exactly one of the differences is wanted.",
    after_help = "\
Examples:
  $ vokhsaot difference --x edge.pgm x.pgm --numbers -
  $ vokhsaot difference --direction 0.6,0.8 edge.pgm slanted.pgm --numbers -"
)]
pub struct Options {
    /// L(x+1) - L(x-1)
    #[arg(long)]
    x: bool,
    /// L(y+1) - L(y-1)
    #[arg(long)]
    y: bool,
    /// L(x+1) - 2L + L(x-1)
    #[arg(long)]
    xx: bool,
    /// L(y+1) - 2L + L(y-1)
    #[arg(long)]
    yy: bool,
    /// L(+,+) - L(-,+) - L(+,-) + L(-,-)
    #[arg(long)]
    xy: bool,
    /// The directional one; degrees turn from x (right) towards y (down, with the row number); COSINE,SINE is taken too
    #[arg(long, value_name = "DEGREES", value_parser = shape::direction, allow_hyphen_values = true)]
    direction: Option<Direction>,
    /// Also write the differences as text: tabs between, one row a line
    #[arg(long, value_name = "FILE")]
    numbers: Option<OsString>,
    /// The picture; - is standard input
    #[arg(default_value = "-")]
    input: OsString,
    /// Where the picture for viewing goes; a name that ends in .png makes it PNG
    #[arg(default_value = "-")]
    output: OsString,
}

/// What is asked for.
enum Which {
    Undivided(Difference),
    Directional(Direction),
}

impl Options {
    fn which(&self) -> Result<Which, Failure> {
        let undivided = [
            (self.x, Difference::FirstX),
            (self.y, Difference::FirstY),
            (self.xx, Difference::SecondX),
            (self.yy, Difference::SecondY),
            (self.xy, Difference::Mixed),
        ];
        let undivided = undivided.into_iter().filter(|(given, _)| *given);
        let undivided = undivided.map(|(_, difference)| Which::Undivided(difference));
        let mut given: Vec<Which> = undivided
            .chain(self.direction.map(Which::Directional))
            .collect();
        match (given.pop(), given.len()) {
            (Some(which), 0) => Ok(which),
            _ => Err(Failure::Usage {
                command: Some("difference"),
                message: "exactly one of --x, --y, --xx, --yy, --xy, --direction is wanted"
                    .to_owned(),
            }),
        }
    }
}

/// Zero in the picture for viewing.
const GREY: u16 = 32768;

pub fn command(options: &Options) -> Result<Outcome, Failure> {
    let which = options.which()?;
    let picture = files::read_picture(&options.input)?;
    let (width, height) = (picture.width, picture.height);
    let (floats, text) = match which {
        Which::Directional(direction) => {
            let mut found = vec![0.0; picture.pixels.len()];
            directional(direction, &picture.pixels, width, height, &mut found)?;
            let text = rows(&found, width);
            (found, text)
        }
        Which::Undivided(which) => {
            let mut found = vec![0; picture.pixels.len()];
            difference(which, &picture.pixels, width, height, &mut found)?;
            let text = rows(&found, width);
            (found.into_iter().map(f64::from).collect(), text)
        }
    };
    let scale = Scale::of(&floats);
    let viewed = Picture {
        maxval: u16::MAX,
        pixels: floats.iter().map(|value| scale.grey(*value)).collect(),
        ..picture
    };
    files::check_picture_goes(&options.output)?;
    let mut outputs = vec![(options.output.as_os_str(), viewed.written(&options.output)?)];
    if let Some(name) = &options.numbers {
        outputs.push((name, text.into_bytes()));
    }
    files::write_all(&outputs)?;
    if io::stderr().is_terminal() {
        say(&scale.text());
    }
    Ok(Outcome::Good)
}

/// Grey = 32768 + difference × `grey` / `size`: the largest factor with which no difference leaves 0 to 65535, so that
/// one of them is at an end.
#[derive(Debug, PartialEq)]
struct Scale {
    grey: f64,
    size: f64,
}

impl Scale {
    fn of(differences: &[f64]) -> Scale {
        let (below, above) = (f64::from(GREY), f64::from(u16::MAX - GREY));
        let lowest = differences.iter().copied().fold(0.0, f64::min);
        let highest = differences.iter().copied().fold(0.0, f64::max);
        if lowest == 0.0 && highest == 0.0 {
            Scale {
                grey: 0.0,
                size: 1.0,
            }
        } else if highest * below >= -lowest * above {
            Scale {
                grey: above,
                size: highest,
            }
        } else {
            Scale {
                grey: below,
                size: -lowest,
            }
        }
    }

    /// The grey of a difference, nearest, halves up. Whole differences are far too small for the float to be wrong.
    fn grey(&self, difference: f64) -> u16 {
        let distance = difference * self.grey / self.size;
        (f64::from(GREY) + (distance + 0.5).floor()) as u16
    }

    fn text(&self) -> String {
        if self.grey == 0.0 {
            return format!("scale: every difference is 0, grey {GREY}");
        }
        format!(
            "scale: grey = {GREY} + difference × {} / {}",
            self.grey, self.size
        )
    }
}

#[cfg(test)]
mod tests {
    use super::*;

    fn greys(differences: &[f64]) -> Vec<u16> {
        let scale = Scale::of(differences);
        differences.iter().map(|value| scale.grey(*value)).collect()
    }

    #[test]
    fn the_largest_size_reaches_an_end() {
        assert_eq!(greys(&[0.0, 100.0, -50.0]), [32768, 65535, 16385]);
        assert_eq!(greys(&[0.0, 50.0, -100.0]), [32768, 49152, 0]);
        assert_eq!(greys(&[0.0, 100.0, -100.0]), [32768, 65535, 1]);
        assert_eq!(greys(&[0.0, -0.0]), [32768, 32768]);
        assert_eq!(greys(&[-0.125]), [0]);
        // All sizes of whole differences: 4 × 65535 at most.
        for size in (1..=262_140).map(f64::from) {
            assert_eq!(greys(&[size, -size]), [65535, 1], "{size}");
            assert_eq!(greys(&[-size]), [0], "{size}");
        }
    }
}
