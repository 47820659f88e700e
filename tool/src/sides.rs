//! The sides of a picture that a command makes.

use crate::error::Failure;
use crate::numbers::{unsigned, MOST_SIDE};
use vokhsaot::Error;

#[derive(clap::Args)]
pub struct Sides {
    /// Its width, 1 to 1024
    #[arg(long, value_name = "W", value_parser = unsigned, allow_hyphen_values = true)]
    width: u32,
    /// Its height, 1 to 1024
    #[arg(long, value_name = "H", value_parser = unsigned, allow_hyphen_values = true)]
    height: u32,
}

impl Sides {
    /// Width and height, where the library takes pictures of such sides.
    pub fn read(&self) -> Result<(u32, u32), Failure> {
        let Sides { width, height } = *self;
        let fine = |side: u32| (1..=MOST_SIDE).contains(&side);
        match fine(width) && fine(height) {
            true => Ok((width, height)),
            false => Err(Error::SideOutOfRange.into()),
        }
    }
}
