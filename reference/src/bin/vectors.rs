//! Prints test vectors, one on a line, for other programs to read:
//! `vectors KIND SEED COUNT`, KIND being `kernels` or `shapes`.
//!
//! All numbers are decimal and parted by one blank. The listed border cases
//! come first, then random ones, COUNT lines together. An answer is 0 or the
//! number of the refusal; kernels are those of a caller who names no choice.
//!
//! - `kernels`: xx xy yy k answer, nine weights, their sum (zeros where refused).
//! - `shapes`: `R` variance, `O` long short cosine sine, or `M` xx xy yy;
//!   then k, answer, the covariance xx xy yy (zeros where the answer is 3 or
//!   4), nine weights and their sum (zeros where refused). Floats are given as
//!   the numbers that their 64 bits make.

use reference::error_code::ErrorCode;
use reference::generate::{listed_covariances, listed_shapes, random_covariance, random_shape};
use reference::kernel::{kernel, Covariance, Kernel};
use reference::random::Random;
use reference::shape::{covariance, shape_kernel, Shape};
use std::io::{self, BufWriter, ErrorKind, Write};
use std::process::ExitCode;

/// The answer, the nine weights and the sum.
fn kernel_fields(outcome: Result<Kernel, ErrorCode>) -> (ErrorCode, String) {
    let (answer, kernel) = match outcome {
        Ok(kernel) => (0, kernel),
        Err(refusal) => (
            refusal,
            Kernel {
                weights: [0; 9],
                sum: 0,
            },
        ),
    };
    let mut numbers: Vec<String> = kernel.weights.iter().map(u64::to_string).collect();
    numbers.push(kernel.sum.to_string());
    (answer, numbers.join(" "))
}

/// The listed inputs and then random ones, `count` together.
fn inputs<T>(
    listed: Vec<T>,
    seed: u64,
    count: usize,
    random_one: fn(&mut Random) -> T,
) -> impl Iterator<Item = T> {
    let mut random = Random::new(seed);
    listed
        .into_iter()
        .chain(std::iter::repeat_with(move || random_one(&mut random)))
        .take(count)
}

fn kernels(out: &mut impl Write, seed: u64, count: usize) -> io::Result<()> {
    for (covariance, steps) in inputs(listed_covariances(), seed, count, random_covariance) {
        let Covariance { xx, xy, yy } = covariance;
        let (answer, numbers) = kernel_fields(kernel(covariance, steps));
        writeln!(out, "{xx} {xy} {yy} {steps} {answer} {numbers}")?;
    }
    Ok(())
}

fn shapes(out: &mut impl Write, seed: u64, count: usize) -> io::Result<()> {
    for (shape, steps) in inputs(listed_shapes(), seed, count, random_shape) {
        let shape_fields = match shape {
            Shape::Matrix(Covariance { xx, xy, yy }) => format!("M {xx} {xy} {yy}"),
            Shape::Round(variance) => format!("R {}", variance.to_bits()),
            Shape::Oval {
                long,
                short,
                direction,
            } => {
                let bits = [long, short, direction.cosine, direction.sine].map(f64::to_bits);
                format!("O {} {} {} {}", bits[0], bits[1], bits[2], bits[3])
            }
        };
        let (answer, numbers) = kernel_fields(shape_kernel(shape, steps));
        let Covariance { xx, xy, yy } = covariance(shape).unwrap_or(Covariance {
            xx: 0,
            xy: 0,
            yy: 0,
        });
        writeln!(
            out,
            "{shape_fields} {steps} {answer} {xx} {xy} {yy} {numbers}"
        )?;
    }
    Ok(())
}

fn print_vectors(arguments: &[String]) -> io::Result<()> {
    let usage = || io::Error::new(ErrorKind::InvalidInput, "usage: vectors KIND SEED COUNT");
    let [kind, seed, count] = arguments else {
        return Err(usage());
    };
    let seed = seed.parse().map_err(|_| usage())?;
    let count = count.parse().map_err(|_| usage())?;
    let mut out = BufWriter::new(io::stdout().lock());
    match kind.as_str() {
        "kernels" => kernels(&mut out, seed, count)?,
        "shapes" => shapes(&mut out, seed, count)?,
        _ => return Err(usage()),
    }
    out.flush()
}

fn main() -> ExitCode {
    let arguments: Vec<String> = std::env::args().skip(1).collect();
    match print_vectors(&arguments) {
        Ok(()) => ExitCode::SUCCESS,
        // The reader has seen enough.
        Err(error) if error.kind() == ErrorKind::BrokenPipe => ExitCode::SUCCESS,
        Err(error) => {
            eprintln!("{error}");
            ExitCode::FAILURE
        }
    }
}
