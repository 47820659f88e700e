//! Reference program for the picture smoother.
//!
//! It is written from the specification alone (docs/REFERENCE.md), never from
//! the proved code, and shares none with it, so that a mistake in one of them
//! shows as a difference between the two. It prefers the plainest way to a
//! result over the quickest one, and where the specification gives both a
//! definition and a shorter test it uses the definition (the existence of a
//! kernel) and leaves the shorter test to the tests.
//!
//! - [`error_code`]: the fourteen numbered refusals and the checks several calls share.
//! - [`kernel`]: does a kernel exist, which f a choice takes, and the nine weights of the molecule.
//! - [`shape`]: Matrix, Round and Oval to a covariance in 1/4096 square pixel.
//! - [`smooth`]: the pixel at a place, a step, a run, the exact run and the distance from it.
//! - [`in_place`]: a run within one picture, which keeps a row and a pixel beside it.
//! - [`extrema`]: peaks that do not rise, pictures that stay as close as they were.
//! - [`difference`]: the five undivided differences and the directional one.
//! - [`service`]: eight slots over a buffer pool, served by round robin, by the old rules
//!   or the new ones, and the change-over between them.
//! - [`words`]: a record of either rules as the words that callers lend.
//! - [`lists`]: demand 3 as a check of lists of calls, of this service or another.
//! - [`job_text`]: the two formats of a job's text, what the bench program prints, and the
//!   converter between the formats.
//! - [`natural`]: whole numbers of any size, for the exact run.
//! - [`random`]: repeatable pseudo-random numbers.
//! - [`generate`]: inputs for tests and test vectors, border cases first.

pub mod difference;
pub mod error_code;
pub mod extrema;
pub mod generate;
pub mod in_place;
pub mod job_text;
pub mod kernel;
pub mod lists;
pub mod natural;
pub mod random;
pub mod service;
pub mod shape;
pub mod smooth;
pub mod words;
