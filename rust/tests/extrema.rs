//! S1.1 to S1.6 of the proved library, by the independent program's checks: a peak does not rise in a step and a
//! hollow does not fall, and two pictures that differ by at most d still do. Of a run the last two steps are seen, of the
//! service's jobs every step, in the store before and after a tick.

mod common;

use common::{inputs, shape_of, times, CHOICES};
use reference::extrema::{differ_at_most, enhanced, is_hollow, is_peak, stays_between};
use reference::generate::{pixels_within, random_gap, random_heights, random_pixels, random_shape};
use reference::random::Random;
use reference::shape::shape_kernel;
use reference::smooth::places;
use vokhsaot::{run_by, shown, Choice, Job, Service, Shape, BUFFER_PIXELS, SEATS, STORE_PIXELS};

/// A shape with a kernel, and its steps.
fn work(random: &mut Random) -> (Shape, u32) {
    loop {
        let (shape, steps) = random_shape(random);
        if shape_kernel(shape, steps).is_ok() {
            return (shape_of(shape), steps);
        }
    }
}

/// Sides of a job's picture: one pixel, single rows and columns, the largest.
fn sides(random: &mut Random) -> (u32, u32) {
    let mut side = |most| random.between(1, most) as u32;
    let small = (side(10), side(10));
    let (row, column) = ((side(60), 1), (1, side(60)));
    let other = random.pick(&[row, column, (1, 1), (32, 32), (1024, 1), (1, 1024)]);
    random.pick(&[small, small, small, other])
}

/// How often a pixel was a peak or a hollow at the beginning of a step.
#[derive(Debug, Default)]
struct Seen {
    peaks: u64,
    hollows: u64,
}

impl Seen {
    /// Both laws of one picture in one step.
    fn check(&mut self, before: &[u16], after: &[u16], width: u32, height: u32, name: &str) {
        assert_eq!(enhanced(before, after, width, height), None, "{name}");
        assert!(stays_between(before, after), "{name}");
        for (x, y) in places(width, height) {
            self.peaks += u64::from(is_peak(before, width, height, x, y));
            self.hollows += u64::from(is_hollow(before, width, height, x, y));
        }
    }
}

/// A run of the library that is one of a pair.
#[derive(Clone, Copy, Debug)]
struct Run {
    choice: Choice,
    shape: Shape,
    steps: u32,
    width: u32,
    height: u32,
}

impl Run {
    /// Its picture after one step less than all, and after all.
    fn last_two(&self, start: &[u16]) -> [Vec<u16>; 2] {
        let Run {
            choice,
            shape,
            steps,
            width,
            height,
        } = *self;
        let (mut first, mut second) = (start.to_vec(), vec![0; start.len()]);
        run_by(choice, shape, steps, width, height, &mut first, &mut second).unwrap();
        let last = shown(steps, &first, &second).unwrap();
        let before = shown(steps, &second, &first).unwrap();
        [before, last].map(<[u16]>::to_vec)
    }

    /// The laws of the last step, and of the run's two pictures that differ by at most `gap`, both by its one choice.
    fn check(&self, start: &[u16], other: &[u16], gap: u16, seen: &mut Seen) {
        let name = format!("{self:?}");
        let [before, last] = self.last_two(start);
        seen.check(&before, &last, self.width, self.height, &name);
        assert!(stays_between(start, &before), "{name}");
        let [other_before, other_last] = self.last_two(other);
        assert!(differ_at_most(&before, &other_before, gap.into()), "{name}");
        assert!(differ_at_most(&last, &other_last, gap.into()), "{name}");
    }
}

#[test]
fn runs() {
    let mut random = inputs(12);
    let mut seen = Seen::default();
    for _ in 0..times(6000) {
        let (shape, steps) = work(&mut random);
        let (width, height) = sides(&mut random);
        let start = random_heights(&mut random, width, height);
        let gap = random_gap(&mut random);
        let other = pixels_within(&mut random, &start, gap);
        for (choice, _) in CHOICES {
            let run = Run {
                choice,
                shape,
                steps,
                width,
                height,
            };
            run.check(&start, &other, gap, &mut seen);
        }
    }
    assert!(seen.peaks > 10_000 && seen.hollows > 10_000, "{seen:?}");
}

/// The job of a number, which the service holds.
fn find(service: &Service, number: u64) -> Job {
    service.job(number).unwrap()
}

fn done(job: &Job) -> u32 {
    job.steps - job.steps_left
}

/// A job's current picture: buffer 2i after an even number of steps done, 2i + 1 after an odd one.
fn picture<'a>(job: &Job, service: &'a Service) -> &'a [u16] {
    let start = (2 * job.seat + done(job) as usize % 2) * BUFFER_PIXELS;
    &service.store()[start..start + (job.width * job.height) as usize]
}

/// One tick, with both laws between the picture before and after it; the job that it served.
fn tick(service: &mut Service, seen: &mut Seen) -> Option<u64> {
    let before = service.clone();
    let number = service.tick().unwrap()?;
    let (old, new) = (find(&before, number), find(service, number));
    assert_eq!(done(&new), done(&old) + 1);
    let name = format!("job {number} after {}", done(&old));
    let pictures = (picture(&old, &before), picture(&new, service));
    seen.check(pictures.0, pictures.1, old.width, old.height, &name);
    Some(number)
}

/// Pairs of jobs of one shape, step count and choice whose pictures differ by at most d, up to four pairs at a time; jobs are
/// withdrawn half done, so that seats change hands.
#[test]
fn ticks() {
    let mut random = inputs(13);
    let mut seen = Seen::default();
    let mut compared = 0;
    for _ in 0..times(50) {
        let mut service = Service::with_store(random_pixels(&mut random, STORE_PIXELS));
        let mut pairs: Vec<([u64; 2], u16)> = Vec::new();
        for _ in 0..20 {
            while pairs.len() < SEATS / 2 {
                let (shape, steps) = work(&mut random);
                let (width, height) = sides(&mut random);
                let one = random_heights(&mut random, width, height);
                let gap = random_gap(&mut random);
                let other = pixels_within(&mut random, &one, gap);
                let (choice, _) = random.pick(&CHOICES);
                let numbers = [one, other].map(|picture| {
                    service
                        .submit_by(choice, shape, steps, width, height, &picture)
                        .unwrap()
                });
                pairs.push((numbers, gap));
            }
            for _ in 0..random.below(60) {
                tick(&mut service, &mut seen);
                for (numbers, gap) in &pairs {
                    let [one, other] = numbers.map(|number| find(&service, number));
                    if done(&one) == done(&other) {
                        let pictures = (picture(&one, &service), picture(&other, &service));
                        assert!(differ_at_most(pictures.0, pictures.1, (*gap).into()));
                        compared += 1;
                    }
                }
            }
            let (numbers, _) = pairs.remove(random.below(pairs.len() as u64) as usize);
            for number in numbers {
                service.withdraw(number).unwrap();
            }
        }
    }
    assert!(seen.peaks > 10_000 && seen.hollows > 10_000, "{seen:?}");
    assert!(compared > 10_000, "{compared}");
}
