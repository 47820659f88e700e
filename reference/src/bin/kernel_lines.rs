//! Prints the kernels of 4,000 covariances, two lines for each, first by the
//! smallest choice and then by S-2's rule: the answer (0 or the number of the
//! refusal), nine weights and their sum, zeros where refused.
//! The covariances come from the recurrence x -> 48271 x mod 2^31 - 1, so that
//! a program without input can make the same ones.

use reference::kernel::{kernel_by, Choice, Covariance};

const MODULUS: u64 = 2_147_483_647;

fn next(x: u64) -> u64 {
    x % MODULUS * 48_271 % MODULUS
}

/// A number from -size to size, the size being one more than the spread.
fn around(x: u64, spread: u64) -> i32 {
    let size = (spread % 400_000 + 1) as i64;
    let n = (x % (2 * size as u64 + 1)) as i64;
    (n - size) as i32
}

fn print_kernel(choice: Choice, covariance: Covariance, steps: u32) {
    let (answer, weights, sum) = match kernel_by(choice, covariance, steps) {
        Ok(kernel) => (0, kernel.weights, kernel.sum),
        Err(refusal) => (refusal, [0; 9], 0),
    };
    let weights: Vec<String> = weights.iter().map(u64::to_string).collect();
    println!("{answer} {} {sum}", weights.join(" "));
}

fn main() {
    let mut x = 1;
    for _ in 0..4000 {
        let a = next(x);
        let b = next(a);
        let c = next(b);
        let d = next(c);
        let steps = (d % 67) as u32;
        let units = 4096 * u64::from(steps);
        let covariance = Covariance {
            xx: around(a, units),
            xy: around(b, units / 2),
            yy: around(c, units),
        };
        for choice in [Choice::Smallest, Choice::Binomial] {
            print_kernel(choice, covariance, steps);
        }
        x = d;
    }
}
