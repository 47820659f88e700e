//! The kernel of a shape, by both choices, and why a shape has none.
//!
//! `cargo run --example kernels` in `rust/`; kernels.expected beside this file is what it prints.

use vokhsaot::{
    covariance, kernel_by, Choice, Covariance, Error, Kernel, Shape, UNITS_PER_SQUARE_PIXEL,
};

fn print_kernel(choice: Choice, kernel: &Kernel) {
    println!("  {choice:?}, weights over {}:", kernel.sum);
    for row in kernel.weights.chunks(3) {
        let row: String = row.iter().map(|weight| format!("{weight:8}")).collect();
        println!("{row}");
    }
}

/// Which of the two conditions of a kernel a covariance does not meet.
fn reasons(shape: Covariance, steps: u32) -> Vec<String> {
    let lean = i64::from(shape.xy).abs();
    let (smaller, larger) = (shape.xx.min(shape.yy), shape.xx.max(shape.yy));
    let most = i64::from(UNITS_PER_SQUARE_PIXEL) * i64::from(steps);
    let mut reasons = Vec::new();
    if lean > smaller.into() {
        reasons.push(format!(
            "|xy| = {lean} is more than the smaller variance, {smaller}"
        ));
    }
    if i64::from(larger) > most {
        reasons.push(format!(
            "the larger variance, {larger}, is more than 4096 × {steps} = {most}"
        ));
    }
    reasons
}

fn print_refusal(refusal: Error, shape: Shape, steps: u32) -> Result<(), Error> {
    println!("  refused ({}): {refusal}", refusal.number());
    if refusal == Error::NoKernel {
        for reason in reasons(covariance(shape)?, steps) {
            println!("  {reason}");
        }
    }
    Ok(())
}

fn print_kernels(shape: Shape, steps: u32) -> Result<(), Error> {
    println!("{shape:?}, steps {steps}");
    for choice in [Choice::Binomial, Choice::Smallest] {
        match kernel_by(choice, shape, steps) {
            Ok(kernel) => print_kernel(choice, &kernel),
            // The other choice is refused for the same.
            Err(refusal) => return print_refusal(refusal, shape, steps),
        }
    }
    Ok(())
}

fn main() -> Result<(), Error> {
    print_kernels(Shape::Round(0.5), 1)?;
    print_kernels(Shape::Round(1.5), 1)?;
    print_kernels(Shape::Round(1.5), 2)?;
    print_kernels(
        Shape::Matrix {
            xx: 1000,
            xy: 1001,
            yy: 9000,
        },
        2,
    )?;
    print_kernels(Shape::Round(-1.0), 1)
}
