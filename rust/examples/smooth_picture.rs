//! A picture, the picture after a run, and its first differences in x: a bright spot on dark ground.
//!
//! `cargo run --example smooth_picture` in `rust/`; smooth_picture.expected beside this file is what it prints.

use vokhsaot::{difference, smooth, Difference, Direction, Error, Shape};

const WIDTH: u32 = 9;
const HEIGHT: u32 = 7;

/// Numbers by rows, in columns of equal width.
fn print_rows<T: std::fmt::Display>(title: &str, numbers: &[T]) {
    println!("{title}:");
    for row in numbers.chunks(WIDTH as usize) {
        let row: String = row.iter().map(|number| format!("{number:6}")).collect();
        println!("{row}");
    }
}

fn main() -> Result<(), Error> {
    // Row after row: the pixel in column x and row y is pixels[y * WIDTH + x].
    let mut pixels = vec![100; (WIDTH * HEIGHT) as usize];
    let (x, y) = (4, 3);
    pixels[y * WIDTH as usize + x] = 10_000;
    print_rows("before", &pixels);

    // Two square pixels of variance along a line that falls by 45 degrees to the right, half of one across it.
    let shape = Shape::Oval {
        long_variance: 2.0,
        short_variance: 0.5,
        direction: Direction::from_degrees(45.0),
    };
    let smoothed = smooth(shape, 2, WIDTH, HEIGHT, &pixels)?;
    print_rows("after 2 steps", &smoothed);

    let mut slopes = vec![0; smoothed.len()];
    difference(Difference::FirstX, &smoothed, WIDTH, HEIGHT, &mut slopes)?;
    print_rows("first differences in x", &slopes);
    Ok(())
}
