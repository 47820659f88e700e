//! Kernels of every kind, by which products a step makes: weights that are 0, equal pairs, a centre of twice a side. Each is run over
//! pictures that a step keeps in each of its ways, against the independent program, which has nine products for every kernel.

mod common;

use common::kinds::{Work, KINDS};
use common::{inputs, times};
use reference::generate::random_pixels;
use reference::random::Random;
use reference::shape::Shape as ModelShape;
use reference::smooth;
use vokhsaot::{run_by, shown, Service};

impl Work {
    /// What both leave of a picture, which has to be the same.
    fn compare(&self, width: u32, height: u32, picture: &[u16]) -> Vec<u16> {
        let (steps, blank) = (self.steps, vec![1; picture.len()]);
        let (mut first, mut second) = (picture.to_vec(), blank.clone());
        let (mut model_first, mut model_second) = (picture.to_vec(), blank);
        let lent = (&mut first, &mut second);
        run_by(
            self.choice.0,
            self.shape(),
            steps,
            width,
            height,
            lent.0,
            lent.1,
        )
        .unwrap();
        let shape = ModelShape::Matrix(self.covariance);
        let lent = (&mut model_first, &mut model_second);
        smooth::run_by(self.choice.1, shape, steps, width, height, lent.0, lent.1).unwrap();
        assert_eq!(first, model_first, "{self:?} {width} {height}");
        assert_eq!(second, model_second, "{self:?} {width} {height}");
        shown(steps, &first, &second).unwrap().to_vec()
    }

    /// The service hands the same over, if it holds such a picture.
    fn compare_job(&self, width: u32, height: u32, picture: &[u16], expected: &[u16]) -> bool {
        if picture.len() > 1024 {
            return false;
        }
        let mut service = Service::new();
        let choice = self.choice.0;
        let number = service
            .submit_by(choice, self.shape(), self.steps, width, height, picture)
            .unwrap();
        while service.tick().unwrap().is_some() {}
        let mut lent = vec![0; picture.len()];
        assert_eq!(service.collect(number, &mut lent), Ok(number));
        assert_eq!(lent, expected, "{self:?} {width} {height}");
        true
    }
}

/// Bright, dark, or any pixels; all white, so that sums are the largest.
fn pixels(random: &mut Random, count: usize) -> Vec<u16> {
    if random.once_in(8) {
        return vec![65535; count];
    }
    random_pixels(random, count)
}

/// Runs over pictures of some sides until every kind was met so often, and answers how often jobs of the service were.
fn every_kind(test: u64, often: u64, sides: fn(&mut Random) -> (u32, u32)) -> [u64; KINDS.len()] {
    let mut random = inputs(test);
    let (mut met, mut jobs) = ([0; KINDS.len()], [0; KINDS.len()]);
    let often = times(often);
    for _ in 0..often * 20_000 {
        if met.iter().all(|&count| count >= often) {
            break;
        }
        let Some((work, kind)) = Work::random(&mut random) else {
            continue;
        };
        if met[kind] >= often {
            continue;
        }
        met[kind] += 1;
        let (width, height) = sides(&mut random);
        let picture = pixels(&mut random, (width * height) as usize);
        let left = work.compare(width, height, &picture);
        jobs[kind] += u64::from(work.compare_job(width, height, &picture, &left));
    }
    for (kind, count) in KINDS.iter().zip(met) {
        assert!(count >= often, "{kind}: {count} of {often}");
    }
    jobs
}

/// Pictures that are loaded whole into few lines, with rows that end inside a group of pixels that are made at a time.
#[test]
fn small_pictures() {
    let jobs = every_kind(40, 4000, |random| {
        let mut side = || random.between(1, 9) as u32;
        (side(), side())
    });
    for (kind, count) in KINDS.iter().zip(jobs) {
        assert!(count > 100, "{kind}: {count}");
    }
}

/// Pictures that are loaded whole into all lines, and jobs with more than 64 rows.
#[test]
fn pictures_in_all_lines() {
    every_kind(41, 200, |random| {
        random.pick(&[(50, 50), (13, 77), (1, 1024), (7, 140), (1022, 3), (2, 512)])
    });
}

/// Pictures that pass through three lines.
#[test]
fn pictures_row_by_row() {
    every_kind(42, 200, |random| {
        let height = random.between(4, 9) as u32;
        random.pick(&[
            (1024, 4),
            (1023, 5),
            (1021, height),
            (61, 63),
            (400, height + 4),
        ])
    });
}
