//! Calls over lent pictures: reading, runs, differences. A picture is its pixels by rows, with its width and height.

use crate::error::{outcome, Error};
use crate::exported;
use crate::shape::{Choice, Direction, Shape};

/// One of the five undivided differences of a picture. L is its pixel at a place, L(x+1) the one to the right of it, L(y+1) the one
/// below it.
#[derive(Clone, Copy, Debug, PartialEq, Eq, Hash)]
pub enum Difference {
    /// L(x+1) − L(x−1), twice the derivative in x.
    FirstX,
    /// L(y+1) − L(y−1), twice the derivative in y.
    FirstY,
    /// L(x+1) − 2L + L(x−1), the second derivative in x.
    SecondX,
    /// L(y+1) − 2L + L(y−1), the second derivative in y.
    SecondY,
    /// L(+,+) − L(−,+) − L(+,−) + L(−,−), four times the mixed derivative; the first sign is of x, the second of y.
    Mixed,
}

/// The pixel at a column x and a row y, both counted from 0; outside the picture the nearest one, on each axis separately.
///
/// # Errors
/// In checking order:
/// - 6, [`SideOutOfRange`](Error::SideOutOfRange): the width or height is not 1 to 1024.
/// - 9, [`WrongLength`](Error::WrongLength): there are not width × height pixels.
///
/// ```
/// use vokhsaot::{pixel, Error};
///
/// let pixels = [0, 1, 2, 3, 4, 5];
/// assert_eq!(pixel(&pixels, 3, 2, 1, 1), Ok(4));
/// assert_eq!(pixel(&pixels, 3, 2, 7, 0), Ok(2)); // to the right of the picture, in the same row
/// assert_eq!(pixel(&pixels, 2, 2, 0, 0), Err(Error::WrongLength));
/// ```
pub fn pixel(pixels: &[u16], width: u32, height: u32, column: i32, row: i32) -> Result<u16, Error> {
    let mut found = 0;
    // SAFETY: the pointer and the length are of one slice.
    let code = unsafe {
        exported::vokhsaot_pixel(
            pixels.as_ptr(),
            pixels.len(),
            width,
            height,
            column,
            row,
            &mut found,
        )
    };
    outcome(code)?;
    Ok(found)
}

/// The picture after a run of `steps` steps, by [`Choice::Binomial`]. The pixels that are given stay as they are: the run goes on
/// between two pictures of its own. [`smooth_in_place`] does without these, and takes up to a quarter longer.
///
/// # Errors
/// 3, 4, 5, 6, 9 and 11, checked in this order; [`run_by`] says when each occurs.
///
/// ```
/// use vokhsaot::{smooth, Shape};
///
/// let spot = [0, 0, 0, 0, 1600, 0, 0, 0, 0];
/// let smoothed = smooth(Shape::Round(0.5), 1, 3, 3, &spot).unwrap();
/// assert_eq!(smoothed, [100, 200, 100, 200, 400, 200, 100, 200, 100]);
/// ```
pub fn smooth(
    shape: Shape,
    steps: u32,
    width: u32,
    height: u32,
    pixels: &[u16],
) -> Result<Vec<u16>, Error> {
    smooth_by(Choice::default(), shape, steps, width, height, pixels)
}

/// The picture after a run of `steps` steps by the kernel of a choice.
///
/// # Errors
/// 3, 4, 5, 6, 9 and 11, checked in this order; [`run_by`] says when each occurs.
pub fn smooth_by(
    choice: Choice,
    shape: Shape,
    steps: u32,
    width: u32,
    height: u32,
    pixels: &[u16],
) -> Result<Vec<u16>, Error> {
    let (mut first, mut second) = (pixels.to_vec(), vec![0; pixels.len()]);
    run_by(choice, shape, steps, width, height, &mut first, &mut second)?;
    with_last_step(steps, first, second)
}

/// Smooths a lent picture where it stands: a run of `steps` steps within one picture, by [`Choice::Binomial`]. Afterwards it holds the
/// last step, exactly the pixels that [`run`] leaves in the picture that is [`shown`].
///
/// It needs no second picture: beside the lent one it keeps two lines of 1024 pixels on its stack, whatever the picture's size. Where
/// the step before the last is wanted too, take [`run`]; where the picture as it was is wanted, or memory counts less than time, take [`smooth`].
///
/// # Errors
/// 3, 4, 5, 6, 9 and 11, checked in this order; [`smooth_in_place_by`] says when each occurs. The picture then is as it was.
///
/// ```
/// use vokhsaot::{smooth_in_place, Error, Shape};
///
/// let mut picture = [0, 0, 1600, 0, 0];
/// let sideways = Shape::Matrix { xx: 4096, xy: 0, yy: 0 };
/// smooth_in_place(sideways, 2, 5, 1, &mut picture)?;
/// assert_eq!(picture, [100, 400, 600, 400, 100]);
///
/// // A refused call changes nothing: here the picture has not 4 pixels.
/// assert_eq!(smooth_in_place(sideways, 2, 4, 1, &mut picture), Err(Error::WrongLength));
/// assert_eq!(picture, [100, 400, 600, 400, 100]);
/// # Ok::<(), Error>(())
/// ```
pub fn smooth_in_place(
    shape: Shape,
    steps: u32,
    width: u32,
    height: u32,
    picture: &mut [u16],
) -> Result<(), Error> {
    smooth_in_place_by(Choice::default(), shape, steps, width, height, picture)
}

/// The run of [`smooth_in_place`] by the kernel of a choice.
///
/// # Errors
/// In checking order, the same for each choice; the picture then is as it was:
/// - 3, [`VarianceOutOfRange`](Error::VarianceOutOfRange): a variance of a round or an oval is not a number or lies outside 0 to 64.
/// - 4, [`NotADirection`](Error::NotADirection): an oval's direction is none: a cosine or sine is not a number or lies outside −1 to 1,
///   or the sum of their squares lies outside 1023/1024 to 1025/1024.
/// - 5, [`StepsOutOfRange`](Error::StepsOutOfRange): the steps are not 1 to 64.
/// - 6, [`SideOutOfRange`](Error::SideOutOfRange): the width or height is not 1 to 1024.
/// - 9, [`WrongLength`](Error::WrongLength): the picture has not width × height pixels, be it more or fewer.
/// - 11, [`NoKernel`](Error::NoKernel): the shape has no kernel with so many steps: |xy| is more than the smaller of xx and yy, or the
///   larger of them is more than 4096 × steps.
///
/// ```
/// use vokhsaot::{smooth_in_place_by, Choice, Shape};
///
/// let mut spot = [0, 0, 0, 0, 1600, 0, 0, 0, 0];
/// smooth_in_place_by(Choice::Smallest, Shape::Round(0.5), 1, 3, 3, &mut spot).unwrap();
/// assert_eq!(spot, [0, 400, 0, 400, 0, 400, 0, 400, 0]);
/// ```
pub fn smooth_in_place_by(
    choice: Choice,
    shape: Shape,
    steps: u32,
    width: u32,
    height: u32,
    picture: &mut [u16],
) -> Result<(), Error> {
    let choice = choice.number();
    let (pixels, len) = (picture.as_mut_ptr(), picture.len());
    // SAFETY: the pointer and the length are of one slice, which nobody else reads until the call returns.
    outcome(unsafe {
        match shape {
            Shape::Matrix { xx, xy, yy } => exported::vokhsaot_run_in_place_matrix_by(
                choice, xx, xy, yy, steps, width, height, pixels, len,
            ),
            Shape::Round(variance) => exported::vokhsaot_run_in_place_round_by(
                choice, variance, steps, width, height, pixels, len,
            ),
            Shape::Oval {
                long_variance,
                short_variance,
                direction: Direction { cosine, sine },
            } => exported::vokhsaot_run_in_place_oval_by(
                choice,
                long_variance,
                short_variance,
                cosine,
                sine,
                steps,
                width,
                height,
                pixels,
                len,
            ),
        }
    })
}

/// A run of `steps` steps between two lent pictures, starting in the first, by [`Choice::Binomial`]. What the second held does not
/// count. Afterwards [`shown`] is the picture with the last step; the other holds the step before. Where that is not wanted,
/// [`smooth_in_place`] does the same within one picture, and [`smooth`] without a lent one.
///
/// In each step a pixel that is at least as large as each of its up to eight neighbours inside the picture does not rise, and
/// one that is at most as large does not fall; after the call the two pictures are the last step's, before and after it. Two
/// pictures of equal sides that differ by at most d at each pixel still do after runs of one shape, step count and choice.
///
/// # Errors
/// 3, 4, 5, 6, 9 and 11, checked in this order; [`run_by`] says when each occurs.
///
/// ```
/// use vokhsaot::{run, shown, Shape};
///
/// let (mut first, mut second) = ([0, 0, 1600, 0, 0], [0; 5]);
/// run(Shape::Matrix { xx: 4096, xy: 0, yy: 0 }, 2, 5, 1, &mut first, &mut second).unwrap();
/// assert_eq!(shown(2, &first, &second).unwrap(), [100, 400, 600, 400, 100]);
/// ```
pub fn run(
    shape: Shape,
    steps: u32,
    width: u32,
    height: u32,
    first: &mut [u16],
    second: &mut [u16],
) -> Result<(), Error> {
    run_by(
        Choice::default(),
        shape,
        steps,
        width,
        height,
        first,
        second,
    )
}

/// The run of [`run`] by the kernel of a choice.
///
/// # Errors
/// In checking order, the same for each choice:
/// - 3, [`VarianceOutOfRange`](Error::VarianceOutOfRange): a variance of a round or an oval is not a number or lies outside 0 to 64.
/// - 4, [`NotADirection`](Error::NotADirection): an oval's direction is none: a cosine or sine is not a number or lies outside −1 to 1,
///   or the sum of their squares lies outside 1023/1024 to 1025/1024.
/// - 5, [`StepsOutOfRange`](Error::StepsOutOfRange): the steps are not 1 to 64.
/// - 6, [`SideOutOfRange`](Error::SideOutOfRange): the width or height is not 1 to 1024.
/// - 9, [`WrongLength`](Error::WrongLength): one of the pictures has not width × height pixels.
/// - 11, [`NoKernel`](Error::NoKernel): the shape has no kernel with so many steps: |xy| is more than the smaller of xx and yy, or the
///   larger of them is more than 4096 × steps.
pub fn run_by(
    choice: Choice,
    shape: Shape,
    steps: u32,
    width: u32,
    height: u32,
    first: &mut [u16],
    second: &mut [u16],
) -> Result<(), Error> {
    let choice = choice.number();
    let (one, one_len) = (first.as_mut_ptr(), first.len());
    let (two, two_len) = (second.as_mut_ptr(), second.len());
    // SAFETY: each pointer stands with the length of its own slice, and the two do not overlap.
    outcome(unsafe {
        match shape {
            Shape::Matrix { xx, xy, yy } => exported::vokhsaot_run_matrix_by(
                choice, xx, xy, yy, steps, width, height, one, one_len, two, two_len,
            ),
            Shape::Round(variance) => exported::vokhsaot_run_round_by(
                choice, variance, steps, width, height, one, one_len, two, two_len,
            ),
            Shape::Oval {
                long_variance,
                short_variance,
                direction: Direction { cosine, sine },
            } => exported::vokhsaot_run_oval_by(
                choice,
                long_variance,
                short_variance,
                cosine,
                sine,
                steps,
                width,
                height,
                one,
                one_len,
                two,
                two_len,
            ),
        }
    })
}

/// The one of a run's two pictures that holds its last step: the first where the number of steps is even. With the two pictures
/// changed round it is the one that holds the step before.
///
/// # Errors
/// 5, [`StepsOutOfRange`](Error::StepsOutOfRange): the steps are not 1 to 64, so there was no such run.
pub fn shown<'a>(steps: u32, first: &'a [u16], second: &'a [u16]) -> Result<&'a [u16], Error> {
    with_last_step(steps, first, second)
}

/// The one of the two that belongs to the picture with a run's last step.
fn with_last_step<T>(steps: u32, first: T, second: T) -> Result<T, Error> {
    let mut picture = 0;
    // SAFETY: the pointer is of a number of its own.
    outcome(unsafe { exported::vokhsaot_shown(steps, &mut picture) })?;
    Ok(if picture == 0 { first } else { second })
}

/// One of the five undivided differences, into a lent result of the picture's size. Outside the picture the nearest pixel stands.
///
/// # Errors
/// In checking order:
/// - 6, [`SideOutOfRange`](Error::SideOutOfRange): the width or height is not 1 to 1024.
/// - 9, [`WrongLength`](Error::WrongLength): there are not width × height pixels, or the result has not so many entries.
///
/// ```
/// use vokhsaot::{difference, Difference};
///
/// let mut result = [0; 4];
/// difference(Difference::FirstX, &[10, 20, 40, 40], 4, 1, &mut result).unwrap();
/// assert_eq!(result, [10, 30, 20, 0]);
/// ```
pub fn difference(
    which: Difference,
    pixels: &[u16],
    width: u32,
    height: u32,
    result: &mut [i32],
) -> Result<(), Error> {
    let call = match which {
        Difference::FirstX => exported::vokhsaot_first_x,
        Difference::FirstY => exported::vokhsaot_first_y,
        Difference::SecondX => exported::vokhsaot_second_x,
        Difference::SecondY => exported::vokhsaot_second_y,
        Difference::Mixed => exported::vokhsaot_mixed,
    };
    // SAFETY: each pointer stands with the length of its own slice, and the two do not overlap.
    outcome(unsafe {
        call(
            pixels.as_ptr(),
            pixels.len(),
            width,
            height,
            result.as_mut_ptr(),
            result.len(),
        )
    })
}

/// The directional difference (c·dx) + (s·dy), into a lent result of the picture's size: c and s are the direction's cosine and
/// sine, dx and dy the [first differences](Difference::FirstX) in x and y. It is exact along the axes.
///
/// It is computed in floats, which takes the thread's usual rounding mode and subnormal numbers for granted (see the crate's first
/// page). A refused call keeps the result's entries; of one that is a NaN it is proved that it stays one, and nothing of its sign
/// and payload.
///
/// # Errors
/// In checking order:
/// - 4, [`NotADirection`](Error::NotADirection): a cosine or sine is not a number or lies outside −1 to 1, or the sum of their squares
///   lies outside 1023/1024 to 1025/1024.
/// - 6, [`SideOutOfRange`](Error::SideOutOfRange): the width or height is not 1 to 1024.
/// - 9, [`WrongLength`](Error::WrongLength): there are not width × height pixels, or the result has not so many entries.
///
/// ```
/// use vokhsaot::{directional, Direction};
///
/// let mut result = [0.0; 4];
/// let downward = Direction::from_degrees(90.0);
/// directional(downward, &[10, 20, 40, 40], 1, 4, &mut result).unwrap();
/// assert_eq!(result, [10.0, 30.0, 20.0, 0.0]);
/// ```
pub fn directional(
    direction: Direction,
    pixels: &[u16],
    width: u32,
    height: u32,
    result: &mut [f64],
) -> Result<(), Error> {
    // SAFETY: each pointer stands with the length of its own slice, and the two do not overlap.
    outcome(unsafe {
        exported::vokhsaot_directional(
            direction.cosine,
            direction.sine,
            pixels.as_ptr(),
            pixels.len(),
            width,
            height,
            result.as_mut_ptr(),
            result.len(),
        )
    })
}
