//! Inputs for tests: listed border cases, and random ones that keep close to
//! the borders.

use crate::error_code::ErrorCode;
use crate::job_text::{print, Format, Job};
use crate::kernel::{free_numbers, Choice, Covariance, UNITS};
use crate::random::Random;
use crate::service::{Record, Rules, Slot, SLOTS};
use crate::shape::{Direction, Shape};
use crate::smooth::places;
use std::ops::RangeInclusive;

/// Step counts outside the limits.
const BAD_STEPS: [u32; 4] = [0, 65, 66, u32::MAX];

/// The numbers at and near the ends of a signed 32-bit field.
const EXTREMES: [i32; 9] = [
    i32::MIN,
    i32::MIN + 1,
    -2,
    -1,
    0,
    1,
    2,
    i32::MAX - 1,
    i32::MAX,
];

fn clip(value: i64) -> i32 {
    value.clamp(i64::from(i32::MIN), i64::from(i32::MAX)) as i32
}

fn covariance(xx: i64, xy: i64, yy: i64) -> Covariance {
    Covariance {
        xx: clip(xx),
        xy: clip(xy),
        yy: clip(yy),
    }
}

/// A step count: mostly inside the limits and often at their ends.
pub fn random_steps(random: &mut Random) -> u32 {
    match random.below(16) {
        0 => random.pick(&BAD_STEPS),
        1..=4 => 1,
        5 | 6 => 64,
        7 => 2,
        _ => random.between(1, 64) as u32,
    }
}

/// Covariances and step counts that stand on a border, the worked ones first.
pub fn listed_covariances() -> Vec<(Covariance, u32)> {
    let mut list = Vec::new();
    let worked: [(i64, i64, i64, u32); 10] = [
        (2048, 0, 2048, 1),
        (0, 0, 0, 1),
        (4096, 0, 4096, 1),
        (4097, 0, 4096, 1),
        (4097, 0, 4096, 2),
        (1000, 1000, 1000, 1),
        (1000, 1001, 1000, 1),
        (-1, 0, 0, 1),
        (262_144, 0, 0, 64),
        (262_144, 0, 0, 65),
    ];
    for (xx, xy, yy, steps) in worked {
        list.push((covariance(xx, xy, yy), steps));
    }
    for steps in [1, 2, 64] {
        let m = UNITS * i64::from(steps);
        for (xx, xy, yy) in [
            (m, 0, m),
            (m + 1, 0, m),
            (m, 0, m + 1),
            (m, m, m),
            (m, -m, m),
            (m, m + 1, m),
            (m, -m - 1, m),
            (m, m - 1, m - 1),
            (m, 0, 0),
            (0, 0, m),
            (m + 1, 0, 0),
            (0, 0, m + 1),
            (0, 1, 0),
            (0, -1, 0),
            (0, 0, -1),
            (1, 1, 1),
            (1, -1, 1),
            (1, 0, 0),
            (m / 2, 0, m / 2),
            (m / 2 + 1, 0, m / 2),
            (m / 2, m / 2, m / 2),
            (m / 2, -m / 2, m / 2),
            (m / 2, m / 2 + 1, m / 2),
            (m - 1, 1, 2),
            (m - 1, 1, 3),
            (100, 150, 400),
        ] {
            list.push((covariance(xx, xy, yy), steps));
        }
    }
    let (low, high) = (i32::MIN, i32::MAX);
    for (xx, xy, yy) in [
        (high, 0, high),
        (low, 0, low),
        (high, low, high),
        (high, high, high),
        (low, low, low),
        (0, low, 0),
        (0, high, 0),
        (low, 0, high),
        (high, 0, low),
        (4096, low, 4096),
        (0, 0, low),
        (low, low, high),
    ] {
        for steps in [1, 64] {
            list.push((Covariance { xx, xy, yy }, steps));
        }
    }
    for steps in BAD_STEPS {
        for (xx, xy, yy) in [(0, 0, 0), (2048, 0, 2048), (-1, 0, 0), (high, low, high)] {
            list.push((Covariance { xx, xy, yy }, steps));
        }
    }
    list
}

/// A covariance and a step count, mostly close to where kernels end.
pub fn random_covariance(random: &mut Random) -> (Covariance, u32) {
    let steps = random_steps(random);
    let m = UNITS
        * i64::from(if (1..=64).contains(&steps) {
            steps
        } else {
            random.between(1, 64) as u32
        });
    let near = random.between(-2, 2);
    let sign = random.pick(&[-1, 1]);
    let mut xx = random.between(0, m);
    let mut yy = random.between(0, m);
    let mut xy;
    match random.below(10) {
        // |xy| near the smaller variance.
        0 | 1 => xy = sign * (xx.min(yy) + near),
        // The larger variance near M.
        2 => {
            xx = m + near;
            xy = sign * random.between(0, yy);
        }
        // |xy| near xx + yy − M.
        3 | 4 => {
            xx = random.between(m / 2, m);
            yy = random.between(m / 2, m);
            xy = sign * (xx + yy - m + near);
        }
        // A variance near zero.
        5 => {
            xx = near;
            xy = random.between(-2, 2);
        }
        // Small numbers.
        6 => {
            xx = random.between(-1, 4);
            yy = random.between(-1, 4);
            xy = random.between(-4, 4);
        }
        // The ends of the fields.
        7 => {
            xx = random.pick(&EXTREMES).into();
            xy = random.pick(&EXTREMES).into();
            yy = random.pick(&EXTREMES).into();
        }
        // Any numbers.
        8 => {
            xx = (random.bits() as i32).into();
            xy = (random.bits() as i32).into();
            yy = (random.bits() as i32).into();
            let shift = random.below(32);
            (xx, xy, yy) = (xx >> shift, xy >> shift, yy >> shift);
        }
        // Well inside.
        _ => xy = random.between(-xx.min(yy), xx.min(yy)),
    }
    if random.once_in(2) {
        (xx, yy) = (yy, xx);
    }
    if random.once_in(32) {
        xy = -xy;
    }
    (covariance(xx, xy, yy), steps)
}

/// A covariance and a step count, mostly of a kernel whose two choices differ,
/// close to where S-2's f goes over from one of its numbers to another: half
/// of (xx + yy + max(xx, yy) − M), |xy|, and the smaller variance.
pub fn random_half(random: &mut Random) -> (Covariance, u32) {
    let any = random.between(1, 64) as u32;
    let steps = random.pick(&[1, 1, 2, 64, any, any, any, any]);
    let m = UNITS * i64::from(steps);
    let near = random.between(-2, 2);
    // With a third of M or less the half is not positive.
    let large = random.between(m / 3, m);
    let small = match random.below(6) {
        // Here the half is the smaller variance.
        0 => 2 * large - m + near,
        1..=3 => large - near.abs(),
        _ => random.between(0, large),
    };
    let half = (large + small + large - m) / 2;
    let lean = match random.below(8) {
        0 | 1 => half + near,
        2 => small,
        3..=5 => 0,
        _ => random.between(0, small.max(0)),
    };
    let xy = lean * random.pick(&[-1, 1]);
    if random.once_in(2) {
        (covariance(large, xy, small), steps)
    } else {
        (covariance(small, xy, large), steps)
    }
}

/// A positive finite float some places on among all floats.
pub fn nudge(value: f64, places: i64) -> f64 {
    f64::from_bits((value.to_bits() as i64 + places) as u64)
}

/// Floats that a variance, a cosine or a sine may wrongly be.
fn odd_floats() -> Vec<f64> {
    let mut list: Vec<f64> = [
        0x7ff8_0000_0000_0000,
        0x7ff8_0000_0000_0001,
        0xfff8_0000_0000_0000,
        0x7ff0_0000_0000_0001,
        0xfff7_ffff_ffff_ffff,
        0x7fff_ffff_ffff_ffff,
        0xffff_ffff_ffff_ffff,
    ]
    .map(f64::from_bits)
    .to_vec();
    list.extend([
        f64::INFINITY,
        f64::NEG_INFINITY,
        f64::MAX,
        f64::MIN,
        -f64::from_bits(1),
        -f64::MIN_POSITIVE,
        -1.0 / 8192.0,
        -1.0,
        -64.0,
        nudge(64.0, 1),
        65.0,
        1e300,
    ]);
    list
}

/// Variances inside the limits that lie on or near a border of the conversion.
fn border_variances() -> Vec<f64> {
    let mut list = vec![
        0.0,
        -0.0,
        f64::from_bits(1),
        f64::from_bits(2),
        f64::from_bits((1 << 52) - 1),
        f64::MIN_POSITIVE,
        1e-300,
        1e-20,
        1.0 / 4096.0,
        1.0 / 16384.0,
        0.25,
        0.5,
        1.0,
        nudge(1.0, 1),
        nudge(1.0, -1),
        64.0,
        nudge(64.0, -1),
        0.1,
        1.0 / 3.0,
        std::f64::consts::PI,
    ];
    for n in [0, 1, 2, 3, 2047, 2048, 4095, 4096, 100_000, 262_143] {
        let half = f64::from(2 * n + 1) / 8192.0;
        list.extend([half, nudge(half, 1), nudge(half, -1)]);
    }
    list
}

fn oval(long: f64, short: f64, cosine: f64, sine: f64) -> Shape {
    Shape::Oval {
        long,
        short,
        direction: Direction { cosine, sine },
    }
}

/// The axis directions, with both zeros.
const AXES: [(f64, f64); 8] = [
    (1.0, 0.0),
    (1.0, -0.0),
    (-1.0, 0.0),
    (-1.0, -0.0),
    (0.0, 1.0),
    (-0.0, 1.0),
    (0.0, -1.0),
    (-0.0, -1.0),
];

/// The ends of the range of c·c + s·s.
const SQUARE_ENDS: [f64; 2] = [1023.0 / 1024.0, 1025.0 / 1024.0];

/// Shapes and step counts that stand on a border.
pub fn listed_shapes() -> Vec<(Shape, u32)> {
    let mut list = Vec::new();
    for variance in odd_floats() {
        list.push((Shape::Round(variance), 64));
        list.push((Shape::Round(variance), 0));
        list.push((oval(variance, 1.0, 1.0, 0.0), 64));
        list.push((oval(1.0, variance, 1.0, 0.0), 64));
        list.push((oval(1.0, 1.0, variance, 0.0), 64));
        list.push((oval(1.0, 1.0, 0.0, variance), 64));
        // Several faults at once: the first in checking order is answered.
        list.push((oval(variance, 1.0, 2.0, 0.0), 0));
        list.push((oval(1.0, 1.0, variance, variance), 65));
    }
    for variance in border_variances() {
        for steps in [1, 2, 64] {
            list.push((Shape::Round(variance), steps));
        }
        for (cosine, sine) in [(1.0, 0.0), (-0.0, -1.0), (1.0, 0.03125), (-1.0, 0.03125)] {
            list.push((oval(variance, 0.0, cosine, sine), 64));
            list.push((oval(0.0, variance, cosine, sine), 64));
        }
    }
    for steps in BAD_STEPS {
        list.push((Shape::Round(1.0), steps));
        list.push((Shape::Round(-1.0), steps));
        list.push((oval(2.0, 1.0, 1.0, 0.0), steps));
        list.push((oval(2.0, 1.0, 1.0, 1.0), steps));
        list.push((Shape::matrix(-1, 0, 0), steps));
        list.push((Shape::matrix(2048, 0, 2048), steps));
    }
    for (cosine, sine) in AXES {
        for (long, short) in [(2.0, 0.5), (0.5, 2.0), (1.0, 1.0), (64.0, 0.0), (0.0, 64.0)] {
            list.push((oval(long, short, cosine, sine), 64));
            list.push((oval(long, short, cosine, sine), 1));
        }
    }
    for (cosine, sine) in [
        (0.6, 0.8),
        (0.8, -0.6),
        (-0.6, -0.8),
        (
            std::f64::consts::FRAC_1_SQRT_2,
            std::f64::consts::FRAC_1_SQRT_2,
        ),
        (
            std::f64::consts::FRAC_1_SQRT_2,
            -std::f64::consts::FRAC_1_SQRT_2,
        ),
        (1.0, 0.03125),
        (0.03125, -1.0),
        (1.0, nudge(0.03125, 1)),
        (1.0, nudge(0.03125, -1)),
        // The last sine whose float sum of squares is rounded to the end, and the next.
        (1.0, nudge(0.03125, 256)),
        (1.0, nudge(0.03125, 257)),
        (nudge(1.0, 1), 0.0),
        (-nudge(1.0, 1), 0.0),
        (1.0, 1.0),
        (0.0, 0.0),
        (0.5, 0.5),
        (1.0, f64::from_bits(1)),
    ] {
        for (long, short) in [
            (3.0, 1.0),
            (1.0, 3.0),
            (64.0, 64.0),
            (64.0, 0.0),
            (2.0, 2.0),
        ] {
            list.push((oval(long, short, cosine, sine), 64));
            list.push((oval(long, short, cosine, sine), 4));
        }
    }
    // xy at exact halves of both signs: c·s is ±1/32.
    for n in [0, 1, 2, 7, 500] {
        let long = f64::from(2 * n + 1) / 256.0;
        for sine in [0.03125, -0.03125] {
            list.push((oval(long, 0.0, 1.0, sine), 64));
            list.push((oval(0.0, long, 1.0, sine), 64));
            list.push((oval(10.0 + long, 10.0, 1.0, sine), 64));
            list.push((oval(10.0, 10.0 + long, 1.0, sine), 64));
        }
    }
    list
}

fn random_variance(random: &mut Random) -> f64 {
    match random.below(16) {
        0 => random.pick(&odd_floats()),
        1 | 2 => random.pick(&border_variances()),
        // Near an exact half of 1/4096.
        3..=6 => {
            let size = random.between(1, 18);
            let n = random.below(1 << size);
            nudge((2 * n + 1) as f64 / 8192.0, random.between(-2, 2))
        }
        7 => f64::from_bits(random.bits()),
        // Subnormal.
        8 => f64::from_bits(random.bits() >> random.between(12, 63)),
        9 => random.between(0, 64) as f64,
        10 => 64.0 * random.fraction(),
        11 => random.fraction() / 4096.0,
        _ => 4.0 * random.fraction(),
    }
}

fn random_direction(random: &mut Random) -> (f64, f64) {
    // A point of the unit circle by rational functions, so that it does not
    // depend on the machine's sines.
    let t = random.fraction();
    let (mut c, mut s) = ((1.0 - t * t) / (1.0 + t * t), 2.0 * t / (1.0 + t * t));
    match random.below(16) {
        0 => {
            c = random.pick(&odd_floats());
        }
        1 => {
            s = random.pick(&odd_floats());
        }
        2 | 3 => {
            return random.pick(&AXES);
        }
        // The sum of squares near an end of its range.
        4..=7 => {
            let end = random.pick(&SQUARE_ENDS);
            c *= random.fraction().max(0.5);
            s = (end - c * c).sqrt();
            if s >= 1.0 {
                s = 1.0;
                c = (end - 1.0).max(0.0).sqrt();
            }
            s = nudge(s, random.between(-4, 4));
        }
        8 => {
            c = f64::from_bits(random.bits());
            s = f64::from_bits(random.bits());
        }
        // Few digits, so that products are often exact.
        9 => {
            c = 1.0;
            s = random.between(0, 256) as f64 / 8192.0;
        }
        _ => {}
    }
    if random.once_in(2) {
        c = -c;
    }
    if random.once_in(2) {
        s = -s;
    }
    if random.once_in(2) {
        (c, s) = (s, c);
    }
    (c, s)
}

/// A shape and a step count.
pub fn random_shape(random: &mut Random) -> (Shape, u32) {
    let steps = random_steps(random);
    match random.below(8) {
        0 => {
            let (covariance, steps) = random_covariance(random);
            (Shape::Matrix(covariance), steps)
        }
        1 | 2 => (Shape::Round(random_variance(random)), steps),
        kind => {
            let (cosine, sine) = random_direction(random);
            // Mostly inside the limits, so that the direction is reached.
            let (long, short) = if kind == 3 {
                (random_variance(random), random_variance(random))
            } else {
                let size = random.pick(&[0.01, 1.0, f64::from(steps.min(64)), 64.0]);
                let long = size * random.fraction();
                let short = match random.below(4) {
                    0 => long,
                    1 => 0.0,
                    2 => 64.0 * random.fraction(),
                    _ => long * (0.5 + random.fraction()),
                };
                (long.min(64.0), short.min(64.0))
            };
            (oval(long, short, cosine, sine), steps)
        }
    }
}

/// Case f of docs/REFERENCE.md: a shape that leans along (1, 1).
pub const LEANING: Covariance = Covariance {
    xx: 1000,
    xy: 1000,
    yy: 1000,
};

/// Pixels of one of several kinds: any, the ends, few units, single bright ones.
pub fn random_pixels(random: &mut Random, count: usize) -> Vec<u16> {
    let kind = random.below(5);
    (0..count)
        .map(|_| match kind {
            0 => random.pick(&[0, 65535]),
            1 => random.below(3) as u16,
            2 => random.pick(&[0, 0, 0, 0, 0, 0, 0, 1600]),
            _ => random.bits() as u16,
        })
        .collect()
}

/// Pixels for peaks and hollows: those above, even grey but for a unit here and
/// there, or bright at the border and dark inside or the other way round.
pub fn random_heights(random: &mut Random, width: u32, height: u32) -> Vec<u16> {
    let area = width as usize * height as usize;
    match random.below(4) {
        0 => {
            let level = random.below(65535) as u16;
            (0..area)
                .map(|_| level + u16::from(random.once_in(4)))
                .collect()
        }
        1 => {
            let (border, inside) = random.pick(&[(65535, 0), (0, 65535), (1, 0), (7, 8)]);
            let at_border = |place, side| place == 0 || place == i64::from(side) - 1;
            places(width, height)
                .map(|(x, y)| {
                    if at_border(x, width) || at_border(y, height) {
                        border
                    } else {
                        inside
                    }
                })
                .collect()
        }
        _ => random_pixels(random, area),
    }
}

/// How far two pictures may differ at each pixel: not at all, by little, by all.
pub fn random_gap(random: &mut Random) -> u16 {
    match random.below(4) {
        0 => random.below(4) as u16,
        1 => random.pick(&[0, 1, 65535]),
        2 => random.below(300) as u16,
        _ => random.bits() as u16,
    }
}

/// A picture that differs from another one by at most `gap` at each pixel:
/// anyhow, by all of it up or down, or by all of it to one side.
pub fn pixels_within(random: &mut Random, pixels: &[u16], gap: u16) -> Vec<u16> {
    let gap = i64::from(gap);
    let kind = random.below(3);
    pixels
        .iter()
        .map(|pixel| {
            let moved = match kind {
                0 => random.between(-gap, gap),
                1 => random.pick(&[-gap, gap]),
                _ => gap,
            };
            (i64::from(*pixel) + moved).clamp(0, 65535) as u16
        })
        .collect()
}

/// The ends of the numbers f with which the weights of a filled slot's kernel
/// are not negative; the slot is one of a record in order, by either rules.
pub fn f_bounds(slot: &Slot) -> (i64, i64) {
    let [xx, xy, yy] = [slot.xx, slot.xy, slot.yy].map(i64::from);
    free_numbers(xx, xy, yy, UNITS * i64::from(slot.steps)).into_inner()
}

/// One of a filled slot's numbers f: often an end or next to it.
pub fn random_f(random: &mut Random, slot: &Slot) -> u32 {
    let (least, most) = f_bounds(slot);
    let near = match random.below(6) {
        0 => least,
        1 => most,
        2 => least + 1,
        3 => most - 1,
        _ => random.between(least, most),
    };
    near.clamp(least, most) as u32
}

/// A record of the new rules whose filled slots have any of their numbers f, not
/// only those that a choice gives.
pub fn with_any_f(random: &mut Random, record: &Record) -> Record {
    assert_eq!(record.rules, Rules::New);
    let mut record = *record;
    for slot in record.slots.iter_mut().filter(|slot| slot.number != 0) {
        slot.f = random_f(random, slot);
    }
    record
}

/// Changes one field of a record to something else, or to what it was.
pub fn damage(random: &mut Random, record: &mut Record) {
    let i = random.below(SLOTS as u64) as usize;
    let odd = random.pick(&[0, 1, 2, 8, 64, 65, 1024, 1025, u32::MAX]);
    let entry = random.pick(&[-1, 0, 1, 4096, i32::MIN, i32::MAX]);
    let fields = match record.rules {
        Rules::Old => 12,
        Rules::New => 15,
    };
    let next = record.slots[(i + 1) % SLOTS];
    let slot: &mut Slot = &mut record.slots[i];
    match random.below(fields) {
        0 => slot.number = random.pick(&[0, 1, 2, u64::MAX]),
        1 => slot.xx = entry,
        2 => slot.xy = entry,
        3 => slot.yy = entry,
        4 => slot.steps = odd,
        5 => slot.steps_left = odd,
        6 => slot.width = odd,
        7 => slot.height = odd,
        8 => record.last_number = random.pick(&[0, 1, u64::MAX - 1, u64::MAX]),
        9 => record.last_filled = odd,
        10 => record.last_served = odd,
        11 => *slot = next,
        12 => slot.f = odd,
        // Next to a bound, on either side of it; of an empty slot that is next to 0.
        _ => {
            let (least, most) = f_bounds(slot);
            let near = random.pick(&[least - 1, least, most, most + 1]);
            slot.f = near.clamp(0, u32::MAX.into()) as u32;
        }
    }
}

/// Words with one or two changed: to one that does not fit 32 bits, or to one
/// that stands elsewhere.
pub fn damaged_words(random: &mut Random, words: &[u64]) -> Vec<u64> {
    let mut words = words.to_vec();
    for _ in 0..=random.below(2) {
        let place = random.below(words.len() as u64) as usize;
        words[place] = match random.below(6) {
            0 => words[place] | 1 << random.between(32, 63),
            1 => words[place] | u64::MAX << 32,
            2 => words[place].wrapping_add(1),
            3 => words[place].wrapping_sub(1),
            4 => 0,
            _ => random.pick(&words),
        };
    }
    words
}

/// The text of a job, in which @ stands for the letter of a format, and % for a
/// tab and the letter of a choice where the format has them; see [`written`].
pub const A_JOB: &str = "@\t1000\t-1\t2000\t1\t2\t2%\n0\t65535\n10\t9\n";

/// Each of these differs from the text of a job in one thing, in both formats.
pub const TEXTS_THAT_ARE_NO_JOBS: &[&str] = &[
    "",
    "\n",
    "@",
    "@\n",
    "@%",
    "@%\n",
    "@\t0\t0\t0\t1\t1\t1%\n",
    "@\t0\t0\t0\t1\t1\t1%\n0",
    "@\t0\t0\t0\t1\t1\t1%\n0\n\n",
    "@\t0\t0\t0\t1\t1\t1%\n0\n0\n",
    "@\t0\t0\t0\t1\t1\t1%\n0\t0\n",
    "@\t0\t0\t0\t1\t1\t1%\n\n",
    "@\t0\t0\t0\t1\t1\t1%\n0\t\n",
    "@\t0\t0\t0\t1\t1\t1%\n\t0\n",
    "@\t0\t0\t0\t1\t1\t1%\r\n0\n",
    "@\t0\t0\t0\t1\t1\t1%\n0\r\n",
    "@\t0\t0\t0\t1\t1\t1%\n 0\n",
    "@\t0\t0\t0\t1\t1\t1%\n00\n",
    "@\t0\t0\t0\t1\t1\t1%\n-0\n",
    "@\t0\t0\t0\t1\t1\t1%\n+0\n",
    "@\t0\t0\t0\t1\t1\t1%\n-1\n",
    "@\t0\t0\t0\t1\t1\t1%\n65536\n",
    "@\t0\t0\t0\t1\t1\t1%\na\n",
    "@\t0\t0\t0\t1\t1\t1%\n1a\n",
    "@\t0\t0\t0\t1\t1\t1%\n0x1\n",
    "@\t0\t0\t0\t1\t1\t1%\n100000000000000000000000000000000000000000\n",
    "j\t0\t0\t0\t1\t1\t1%\n0\n",
    "n\t0\t0\t0\t1\t1\t1%\n0\n",
    "@@\t0\t0\t0\t1\t1\t1%\n0\n",
    "\n@\t0\t0\t0\t1\t1\t1%\n0\n",
    "@ \t0\t0\t0\t1\t1\t1%\n0\n",
    "@\t0\t0\t0\t1\t1%\n0\n",
    "@\t0\t0\t0\t1\t1\t1\t1%\n0\n",
    "@\t\t0\t0\t0\t1\t1\t1%\n0\n",
    "@\t0\t0\t0\t1\t1\t1\t%\n0\n",
    "@ 0 0 0 1 1 1%\n0\n",
    "@\t-0\t0\t0\t1\t1\t1%\n0\n",
    "@\t0\t01\t0\t1\t1\t1%\n0\n",
    "@\t0\t-01\t0\t1\t1\t1%\n0\n",
    "@\t0\t--1\t0\t1\t1\t1%\n0\n",
    "@\t0\t-\t0\t1\t1\t1%\n0\n",
    "@\t0\t+1\t0\t1\t1\t1%\n0\n",
    "@\t2147483648\t0\t0\t1\t1\t1%\n0\n",
    "@\t-2147483649\t0\t0\t1\t1\t1%\n0\n",
    "@\t4294967296\t0\t0\t1\t1\t1%\n0\n",
    "@\t0\t0\t0\t4294967296\t1\t1%\n0\n",
    "@\t0\t0\t0\t4294967297\t1\t1%\n0\n",
    "@\t0\t0\t0\t-1\t1\t1%\n0\n",
    "@\t0\t0\t0\t1\t-1\t1%\n0\n",
    "@\t0\t0\t0\t1\t4294967297\t1%\n0\n",
    "@\t0\t0\t0\t1\t65536\t65536%\n",
    "@\t0\t0\t0\t1\t4294967295\t4294967295%\n0\n",
    "@\t0\t0\t0\t1\t0\t3%\n\n\n\n",
    "@\t0\t0\t0\t1\t0\t1%\n\n",
    "@\t0\t0\t0\t1\t3\t0%\n\n",
    "@\t0\t0\t0\t1\t0\t0%\n0\n",
    "@\t0\t0\t0\t1\t0\t0%\nx",
    "@\t0\t0\t0\t1\t0\t0%",
    "@\t0\t0\t0\t1\t0\t0%\r\n",
    "@\t0\t0\t0\t1\t1\t1%0\n",
    "@\t0\t0\t0\t1\t1\t1%\t0\n",
];

/// What is no choice between h and the newline of line one; a J text has nothing
/// there, and an N text one of "\ts" and "\tb".
pub const NO_CHOICES: &[&str] = &[
    "\t",
    "s",
    "b",
    " s",
    " b",
    "\tS",
    "\tB",
    "\ta",
    "\tc",
    "\tr",
    "\tt",
    "\tJ",
    "\tN",
    "\tx",
    "\t0",
    "\t1",
    "\t-",
    "\tss",
    "\tsb",
    "\tbs",
    "\tbb",
    "\tsx",
    "\ts0",
    "\tsmallest",
    "\ts ",
    "\tb ",
    "\t s",
    "\t b",
    "\ts\t",
    "\tb\t",
    "\t\ts",
    "\t\tb",
    "\ts\ts",
    "\ts\tb",
    "\tb\ts",
    "\t0\ts",
    "\ts\r",
    "\tb\r",
    "\r\ts",
    "\ts\0",
    "\t\0s",
    "\t\u{17f}",
    "\ns",
    "\n\ts",
    "\ts\n",
];

/// Jobs that the bench program refuses, with the number: the converter takes
/// them.
pub const REFUSED_JOBS: &[(&str, ErrorCode)] = &[
    ("@\t0\t0\t0\t0\t0\t0%\n", 5),
    ("@\t2048\t0\t2048\t0\t1\t1%\n0\n", 5),
    ("@\t0\t0\t0\t65\t1\t1%\n0\n", 5),
    ("@\t-1\t0\t0\t65\t1\t1%\n0\n", 5),
    ("@\t0\t0\t0\t4294967295\t4294967295\t0%\n", 5),
    // The longest line one.
    (
        "@\t-2147483648\t-2147483648\t-2147483648\t4294967295\t4294967295\t0%\n",
        5,
    ),
    (
        "@\t-2147483648\t-2147483648\t-2147483648\t4294967295\t0\t4294967295%\n",
        5,
    ),
    ("@\t0\t0\t0\t1\t4000000000\t0%\n", 6),
    ("@\t0\t0\t0\t1\t4294967295\t0%\n", 6),
    ("@\t0\t0\t0\t1\t0\t4294967295%\n", 6),
    ("@\t-1\t0\t0\t1\t0\t0%\n", 6),
    ("@\t-1\t0\t0\t1\t1\t1%\n0\n", 11),
    ("@\t4097\t0\t4096\t1\t1\t1%\n7\n", 11),
    ("@\t1000\t1001\t1000\t1\t1\t1%\n7\n", 11),
    ("@\t2147483647\t-2147483648\t2147483647\t64\t1\t1%\n0\n", 11),
];

/// A text such as [`A_JOB`] in a format and with a choice that it can name.
pub fn written(format: Format, choice: Choice, text: &str) -> Vec<u8> {
    assert!(format.choices().contains(&choice));
    let named = match (format, choice) {
        (Format::J, _) => "",
        (Format::N, Choice::Smallest) => "\ts",
        (Format::N, Choice::Binomial) => "\tb",
    };
    let text = text.replace('@', format.letter()).replace('%', named);
    text.into_bytes()
}

/// Texts that are no jobs in a format: those listed above, by each of its
/// choices; with what is no choice; with the letter, the fields or both of the
/// other format.
pub fn texts_that_are_no_jobs(format: Format) -> Vec<Vec<u8>> {
    let mut list = Vec::new();
    for choice in format.choices() {
        for text in TEXTS_THAT_ARE_NO_JOBS {
            list.push(written(format, *choice, text));
        }
    }
    for no_choice in NO_CHOICES {
        let text = format!("@\t0\t0\t0\t1\t1\t1{no_choice}\n0\n");
        list.push(text.replace('@', format.letter()).into_bytes());
    }
    for one in Format::ALL {
        for other in Format::ALL {
            for choice in one.choices() {
                let mut text = written(one, *choice, A_JOB);
                text[..1].copy_from_slice(other.letter().as_bytes());
                if (one, other) != (format, format) {
                    list.push(text);
                }
            }
        }
    }
    list
}

/// Numbers of the fields' types, one of the format's choices, and a small
/// picture.
pub fn random_job(random: &mut Random, format: Format) -> Job {
    let width = random.below(6) as u32;
    let height = random.below(6) as u32;
    Job {
        covariance: Covariance {
            xx: random.bits() as i32 >> random.below(32),
            xy: random.bits() as i32 >> random.below(32),
            yy: random.bits() as i32 >> random.below(32),
        },
        steps: random.bits() as u32 >> random.below(32),
        width,
        height,
        choice: random.pick(format.choices()),
        pixels: (0..width * height)
            .map(|_| random.bits() as u16 >> random.below(16))
            .collect(),
    }
}

/// The text of such a job, whose shape mostly is close to where kernels end or
/// one whose two choices differ.
pub fn random_text(random: &mut Random, format: Format) -> Vec<u8> {
    let mut job = random_job(random, format);
    match random.below(4) {
        0 => {}
        1 => (job.covariance, job.steps) = random_half(random),
        _ => (job.covariance, job.steps) = random_covariance(random),
    }
    print(format, &job)
}

/// A text with one or two bytes changed, left out or added.
pub fn damaged_text(random: &mut Random, text: &[u8]) -> Vec<u8> {
    const BYTES: &[u8] = b"0123456789-+\t\n\r JNRsbSx\0\xff";
    let mut text = text.to_vec();
    for _ in 0..=random.below(2) {
        let place = random.below(text.len() as u64) as usize;
        match random.below(3) {
            0 => text[place] = random.pick(BYTES),
            1 => {
                text.remove(place);
            }
            _ => text.insert(place, random.pick(BYTES)),
        }
    }
    text
}

/// A job's N text with something else in place of the choice: what is none, or
/// nothing.
pub fn without_choice(random: &mut Random, text: &[u8]) -> Vec<u8> {
    let end = text.iter().position(|byte| *byte == b'\n');
    let end = end.expect("line one ends");
    let instead = match random.below(8) {
        0 => "",
        _ => random.pick(NO_CHOICES),
    };
    [&text[..end - 2], instead.as_bytes(), &text[end..]].concat()
}

/// Lengths around both formats' longest.
pub const LONG: RangeInclusive<usize> = 16_370..=16_400;

/// Sides of pictures whose texts can have these lengths: with pixels of five
/// digits, of several, and almost all of one.
pub const LARGE_SIDES: [(u32, u32); 6] = [
    (53, 53),
    (1024, 7),
    (7, 1024),
    (90, 90),
    (8170, 1),
    (1, 8170),
];

/// A job's text but for its length, which is so many bytes.
pub fn text_of_length(
    format: Format,
    choice: Choice,
    (width, height): (u32, u32),
    length: usize,
) -> Vec<u8> {
    let mut job = Job {
        covariance: covariance(2048, 0, 2048),
        steps: 2,
        width,
        height,
        choice,
        pixels: vec![7; (width * height) as usize],
    };
    // Longer pixels make up the rest.
    let mut missing = length - print(format, &job).len();
    for pixel in &mut job.pixels {
        let digits = missing.min(4);
        *pixel = [7, 10, 100, 1000, 10_000][digits];
        missing -= digits;
    }
    assert_eq!(missing, 0, "{width} × {height}: {length}");
    print(format, &job)
}

/// The text with the most pixels of all, 8184 of one digit: its first fields have
/// one digit each, so it has as many bytes as a text may have.
pub fn fullest_text(format: Format, choice: Choice) -> Vec<u8> {
    let (width, height) = (93, 88);
    let pixels = (0..width * height).map(|n| (n % 10) as u16).collect();
    print(
        format,
        &Job {
            covariance: covariance(0, 0, 0),
            steps: 1,
            width,
            height,
            choice,
            pixels,
        },
    )
}
