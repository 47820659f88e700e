//! Steps of a tick that leave wrong pixels in the store.

use super::faults::StepFault;
use super::seat::Seat;
use reference::kernel::{kernel_by, Choice, Covariance, Kernel, OFFSETS};
use reference::smooth::{at, nearest, places, rounded_run, step};

/// A service before the tick that serves a seat.
pub struct Stage<'a> {
    pub store: &'a [u16],
    pub seat: Seat,
    /// The seat last served, where it is filled.
    pub last_served: Option<Seat>,
    /// Whether the seat's job was submitted as an oval.
    pub is_oval: bool,
    /// Whether the seat was emptied by a withdraw of a job with an odd number of steps done.
    pub was_odd: bool,
}

/// Pixels written to the store from a place on.
pub struct Write {
    pub start: usize,
    pub pixels: Vec<u16>,
}

impl Stage<'_> {
    /// The job's picture, or what else stands in its buffer after so many steps.
    fn picture_after(&self, steps: u32) -> &[u16] {
        &self.store[self.seat.picture_after(steps)]
    }

    fn picture(&self) -> &[u16] {
        self.picture_after(self.seat.done())
    }

    /// Where the step has to leave its picture.
    fn target(&self) -> usize {
        self.seat.picture_after(self.seat.done() + 1).start
    }

    fn step_with(&self, kernel: &Kernel, picture: &[u16]) -> Vec<u16> {
        step(kernel, picture, self.seat.width, self.seat.height)
    }

    /// A step whose sums are divided in another way.
    fn divided(&self, divide: impl Fn(u64, u64) -> u64) -> Vec<u16> {
        let Seat { width, height, .. } = self.seat;
        let (kernel, picture) = (self.seat.kernel(), self.picture());
        places(width, height)
            .map(|(x, y)| {
                let weighted = OFFSETS
                    .iter()
                    .zip(kernel.weights)
                    .map(|((dx, dy), weight)| {
                        weight * u64::from(*at(picture, width, height, x + dx, y + dy))
                    });
                divide(weighted.sum(), kernel.sum) as u16
            })
            .collect()
    }
}

impl StepFault {
    /// What the store gets beside the right step, or over it; nothing where the step is right.
    pub fn writes(self, stage: &Stage) -> Vec<Write> {
        let wrong = match self {
            StepFault::AllStepsEarly => return all_steps_early(stage),
            StepFault::PixelsInPairs => return second_of_a_pair(stage),
            StepFault::KernelServedLast => kernel_served_last(stage),
            StepFault::BufferOfWithdrawn => buffer_of_withdrawn(stage),
            StepFault::OvalsLeanOver => leaned_over(stage),
            StepFault::RowBelow => row_below(stage),
            StepFault::UsualChoice => usual_choice(stage),
            StepFault::CountsOnly => Some(stage.picture_after(stage.seat.done() + 1).to_vec()),
            StepFault::EvenGrey => Some(even_grey(stage)),
            StepFault::HalvesDown => Some(stage.divided(halves_down)),
            StepFault::SumOf32Bits => {
                Some(stage.divided(|sum, divisor| nearest(sum & u64::from(u32::MAX), divisor)))
            }
        };
        let write = wrong.map(|pixels| Write {
            start: stage.target(),
            pixels,
        });
        write.into_iter().collect()
    }
}

/// The nearest whole number, halves down.
fn halves_down(sum: u64, divisor: u64) -> u64 {
    (2 * sum + divisor - 1) / (2 * divisor)
}

/// The first tick does every step; the later ones leave the pixels.
fn all_steps_early(stage: &Stage) -> Vec<Write> {
    let Seat {
        width,
        height,
        steps,
        ..
    } = stage.seat;
    if stage.seat.done() > 0 {
        return StepFault::CountsOnly.writes(stage);
    }
    let kernel = stage.seat.kernel();
    let after = |steps: u32| Write {
        start: stage.seat.picture_after(steps).start,
        pixels: rounded_run(&kernel, stage.picture(), width, height, steps),
    };
    vec![after(steps - 1), after(steps)]
}

/// Pixels are written by twos: an odd number of them takes one more of the buffer, whose length is even.
fn second_of_a_pair(stage: &Stage) -> Vec<Write> {
    let area = stage.seat.area();
    if area.is_multiple_of(2) {
        return Vec::new();
    }
    let next = stage.step_with(&stage.seat.kernel(), stage.picture());
    vec![Write {
        start: stage.target() + area,
        pixels: vec![next[area - 1]],
    }]
}

/// A job that goes on after another one was served gets that one's kernel.
fn kernel_served_last(stage: &Stage) -> Option<Vec<u16>> {
    let other = stage.last_served?;
    let is_between = stage.seat.done() > 0 && other.place != stage.seat.place;
    is_between.then(|| stage.step_with(&other.kernel(), stage.picture()))
}

/// A job in the seat of a withdrawn one begins with the buffer where that one's picture was.
fn buffer_of_withdrawn(stage: &Stage) -> Option<Vec<u16>> {
    let is_first = stage.seat.done() == 0;
    (is_first && stage.was_odd)
        .then(|| stage.step_with(&stage.seat.kernel(), stage.picture_after(1)))
}

fn leaned_over(stage: &Stage) -> Option<Vec<u16>> {
    let Covariance { xx, xy, yy } = stage.seat.covariance;
    let leaned = Covariance { xx, xy: -xy, yy };
    stage
        .is_oval
        .then(|| stage.step_with(&stage.seat.kernel_of(leaned), stage.picture()))
}

/// Below the last row stands what the store has next, where it goes on.
fn row_below(stage: &Stage) -> Option<Vec<u16>> {
    let Seat { width, height, .. } = stage.seat;
    let rows = stage.seat.picture_after(stage.seat.done());
    let longer = stage.store.get(rows.start..rows.end + width as usize)?;
    let mut next = step(&stage.seat.kernel(), longer, width, height + 1);
    next.truncate(stage.seat.area());
    Some(next)
}

/// The kernel is made anew from the shape, by the choice of who names none.
fn usual_choice(stage: &Stage) -> Option<Vec<u16>> {
    let Seat {
        covariance, steps, ..
    } = stage.seat;
    let kernel = kernel_by(Choice::Binomial, covariance, steps).ok()?;
    Some(stage.step_with(&kernel, stage.picture()))
}

fn even_grey(stage: &Stage) -> Vec<u16> {
    let area = stage.seat.area();
    let sum = stage.picture().iter().map(|pixel| u64::from(*pixel)).sum();
    vec![nearest(sum, area as u64) as u16; area]
}
