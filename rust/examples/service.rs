//! Jobs of one service: they are submitted, done step by step in turn until the service is idle, and collected.
//!
//! `cargo run --example service` in `rust/`; service.expected beside this file is what it prints.

use vokhsaot::{Error, Service, Shape};

fn print_free(service: &Service) -> Result<(), Error> {
    println!("{} buffers are free", service.free_count()?);
    Ok(())
}

fn main() -> Result<(), Error> {
    let mut service = Service::new();
    print_free(&service)?;

    // One row of five pixels in three steps, and four by four pixels in one.
    let row = [0, 0, 800, 0, 0];
    let line = service.submit(
        Shape::Matrix {
            xx: 8192,
            xy: 0,
            yy: 0,
        },
        3,
        5,
        1,
        &row,
    )?;
    let square = service.submit(Shape::Round(0.5), 1, 4, 4, &[500; 16])?;
    println!("submitted: jobs {line} and {square}");
    print_free(&service)?;

    // A job is collected when none of its steps is left.
    let refusal = service.collect(line, &mut [0; 5]).unwrap_err();
    println!("collect {line}: refused ({}): {refusal}", refusal.number());

    // Each tick does one step of one job; it answers none where the service is idle.
    while let Some(number) = service.tick()? {
        let job = service.job(number).expect("a job that was served is held");
        println!(
            "tick: job {number}, {} of {} steps left",
            job.steps_left, job.steps
        );
    }
    println!("tick: idle");

    for job in service.jobs() {
        let mut picture = vec![0; (job.width * job.height) as usize];
        service.collect(job.number, &mut picture)?;
        println!(
            "collect {}: {} × {} pixels {picture:?}",
            job.number, job.width, job.height
        );
    }
    print_free(&service)
}
