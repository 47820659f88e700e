//! The proved picture smoother, called from Rust.
//!
//! Each call is one exported function of a static library that is proved in Rattle: for every input it answers as its specification
//! says, or refuses with an [`Error`] and then has changed nothing. No call panics where its page does not say so. What is promised
//! stands in the repository's docs/REFERENCE.md, sentence by sentence, and docs/CLAIMS.md leads from each sentence to its proof. This
//! crate adds types and memory. It computes two things by itself, which tests hold and no proof: [`Direction::from_degrees`], and the
//! [`Job`]s that it reads from a record's words.
//!
//! # A picture in, a smoothed picture out
//!
//! ```
//! use vokhsaot::{smooth, smooth_by, Choice, Shape};
//!
//! let spot = [0, 0, 0, 0, 1600, 0, 0, 0, 0];
//! // A variance of half a square pixel in all directions, in one step, over 3 × 3 pixels.
//! let shape = Shape::Round(0.5);
//! assert_eq!(smooth(shape, 1, 3, 3, &spot)?, [100, 200, 100, 200, 400, 200, 100, 200, 100]);
//! // The same shape by the choice "smallest", whose kernel has a hollow centre here.
//! assert_eq!(smooth_by(Choice::Smallest, shape, 1, 3, 3, &spot)?, [0, 400, 0, 400, 0, 400, 0, 400, 0]);
//! # Ok::<(), vokhsaot::Error>(())
//! ```
//!
//! [`smooth_in_place`] does the same within a lent picture, for a board that holds one picture only: beside it there are two lines of
//! 1024 pixels on the stack, and the pixels are the same. [`run`] goes to and fro between two lent pictures, of which [`shown`] has the
//! last step and the other the step before it:
//!
//! ```
//! use vokhsaot::{run, shown, smooth, smooth_in_place, Shape};
//!
//! let (shape, before) = (Shape::Round(1.0), [0, 0, 4800, 0, 0, 900]);
//! let mut picture = before;
//! smooth_in_place(shape, 3, 2, 3, &mut picture)?; // one picture: it is smoothed where it stands
//! assert_eq!(picture, smooth(shape, 3, 2, 3, &before)?[..]); // the same in a new one
//! let (mut first, mut second) = (before, [0; 6]);
//! run(shape, 3, 2, 3, &mut first, &mut second)?; // two pictures: steps 2 and 3 are there
//! assert_eq!(picture, shown(3, &first, &second)?);
//! # Ok::<(), vokhsaot::Error>(())
//! ```
//!
//! [`kernel`] gives a shape's weights, [`difference`] and [`directional`] the differences of a picture, and [`answer_text`] what the
//! bench program prints. [`convert_j_to_n`] takes texts from the archives of before the choice over to those of today, and
//! [`convert_n_to_j`] back.
//!
//! # Pictures
//!
//! A picture is its pixels, row after row, with its width and height. x grows to the right and y grows downward, with the row number:
//! the pixel in column x and row y is `pixels[y * width + x]`. Outside the picture the nearest pixel stands. A direction's degrees
//! turn from x towards y, clockwise as a picture is seen.
//!
//! ```text
//!       x = 0   1   2
//!       +---+---+---+--> x
//! y = 0 | 0 | 1 | 2 |        0 degrees: to the right, cosine 1, sine 0
//!       +---+---+---+
//!     1 | 3 | 4 | 5 |       90 degrees: downward, cosine 0, sine 1
//!       +---+---+---+
//!       |
//!       v y
//! ```
//!
//! # Limits
//!
//! | what | limit |
//! |---|---|
//! | a pixel | 0 to 65535, [`LARGEST_PIXEL`] |
//! | a picture's sides | 1 to 1024, [`LONGEST_SIDE`] |
//! | steps | 1 to 64, [`MOST_STEPS`] |
//! | variances of a round or an oval | 0 to 64 square pixels, [`LARGEST_VARIANCE`] |
//! | a matrix, in 1/4096 square pixel | xx and yy at most 4096 × steps, \|xy\| at most the smaller of them |
//! | jobs of a service at a time | 8, [`SEATS`] |
//! | pixels of a job's picture | 1024, [`BUFFER_PIXELS`] |
//! | a job text, which begins with N | 16,386 bytes, [`TEXT_BYTES`] |
//! | an archived text, which begins with J | 16,384 bytes, [`ARCHIVED_TEXT_BYTES`] |
//!
//! # The service
//!
//! A [`Service`] holds up to eight jobs and does their steps one by one, in turn. Each job gets the picture that it would get alone, by
//! the [`Choice`] that its submit named. A unit that runs the release before, whose records hold no choice, goes on under this one
//! without a stop: [`Service::change_over`] says how.
//!
//! ```
//! use vokhsaot::{Service, Shape};
//!
//! let mut service = Service::new();
//! let number = service.submit(Shape::Round(1.0), 2, 4, 1, &[0, 0, 800, 0])?;
//! while let Some(served) = service.tick()? {
//!     println!("job {served}: {} steps left", service.job(served).unwrap().steps_left);
//! }
//! let job = service.job(number).unwrap();
//! let mut picture = vec![0; (job.width * job.height) as usize];
//! service.collect(number, &mut picture)?;
//! assert_eq!(service.free_count()?, 16);
//! # Ok::<(), vokhsaot::Error>(())
//! ```
//!
//! # Threads
//!
//! There is no global state: calls in different threads do not meet. A [`Service`] is [`Send`] and [`Sync`]; what is lent to a call is
//! lent to it alone until it returns, as the borrows in the signatures say.
//!
//! # Floats
//!
//! What is proved of the calls in floats (a [`Shape::Round`] or [`Shape::Oval`], and [`directional`]) holds where the thread that
//! calls rounds to nearest, ties to even, and keeps subnormal numbers. Rust code may assume both, but code in another language
//! can have changed them: with another rounding mode (`fesetround`), or with subnormals flushed to zero (FTZ, DAZ), these calls
//! can answer otherwise. All other calls compute in whole numbers.
//!
//! # How it is linked
//!
//! A program names the crate by its path, in its Cargo.toml: `vokhsaot = { path = "CLONE/rust" }`, where CLONE is a clone of the
//! repository. The build looks for `libvokhsaot.a` (as installed) or `libcapi.a` (as the prover writes it), in the folder that the
//! environment's `VOKHSAOT_LIB_DIR` names; a relative path is meant from the shell's folder, the environment's `PWD`. Without
//! `VOKHSAOT_LIB_DIR` it takes the repository's own, in target/dist/lib or crates/capi/out, whichever was written last: `./build.sh`
//! in the repository makes it. The library is linked statically, so a program that uses it needs no file of it at run time.

#![deny(missing_docs)]
#![deny(rustdoc::broken_intra_doc_links)]

mod error;
mod exported;
mod limits;
mod picture;
mod service;
mod shape;
mod text;

pub use error::Error;
pub use limits::*;
pub use picture::{
    difference, directional, pixel, run, run_by, shown, smooth, smooth_by, smooth_in_place,
    smooth_in_place_by, Difference,
};
pub use service::{Job, NotChangedOver, Service};
pub use shape::{covariance, kernel, kernel_by, Choice, Covariance, Direction, Kernel, Shape};
pub use text::{
    answer_text, convert_j_to_n, convert_j_to_n_into, convert_n_to_j, convert_n_to_j_into,
};
