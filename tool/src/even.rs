//! `even`: a picture of one grey, and a spot in its middle where one is wanted.

use crate::error::{Failure, Outcome};
use crate::files;
use crate::numbers::whole;
use crate::pictures::Picture;
use crate::sides::Sides;
use std::ffi::OsString;

/// Make a picture of one grey, with or without a spot
#[derive(clap::Args)]
#[command(
    before_help = "\
Writes a picture whose pixels are all G. With --spot one of them is P instead: the
one in the middle, or of two or four in the middle the one on the right and below.",
    after_help = "\
Examples:
  $ vokhsaot even --width 5 --height 3 --grey 0 --spot 1000 lone.pgm
  $ vokhsaot even --width 16 --height 12 --grey 100 --maxval 255 grey.pgm"
)]
pub struct Options {
    #[command(flatten)]
    sides: Sides,
    /// The pixels, 0 to the maxval
    #[arg(long, value_name = "G", value_parser = pixel, allow_hyphen_values = true)]
    grey: u16,
    /// The pixel in the middle, 0 to the maxval
    #[arg(long, value_name = "P", value_parser = pixel, allow_hyphen_values = true)]
    spot: Option<u16>,
    /// The largest pixel that the file has room for, 1 to 65535
    #[arg(long, value_name = "M", default_value = "65535", value_parser = maxval, allow_hyphen_values = true)]
    maxval: u16,
    /// Where the picture goes; a name in .png makes it PNG
    #[arg(default_value = "-")]
    output: OsString,
}

fn pixel(text: &str) -> Result<u16, String> {
    whole(text, 0..=u16::MAX.into())
}

fn maxval(text: &str) -> Result<u16, String> {
    whole(text, 1..=u16::MAX.into())
}

pub fn command(options: &Options) -> Result<Outcome, Failure> {
    files::write_picture(&options.output, &options.picture()?)?;
    Ok(Outcome::Good)
}

impl Options {
    fn picture(&self) -> Result<Picture, Failure> {
        let (width, height) = self.sides.read()?;
        let maxval = self.maxval;
        if let Some(larger) = [Some(self.grey), self.spot]
            .into_iter()
            .flatten()
            .find(|pixel| *pixel > maxval)
        {
            return Err(Failure::Usage {
                command: Some("even"),
                message: format!("a pixel of {larger} is more than the maxval {maxval}"),
            });
        }
        let mut pixels = vec![self.grey; (width * height) as usize];
        if let Some(spot) = self.spot {
            pixels[(height / 2 * width + width / 2) as usize] = spot;
        }
        Ok(Picture {
            width,
            height,
            maxval,
            pixels,
        })
    }
}
