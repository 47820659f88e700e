//! The fourteen numbered refusals (docs/REFERENCE.md, "Refusals in checking order").

use std::fmt;

/// A refusal. A call that is refused has changed nothing: no record, no store and nothing that it was lent.
///
/// There are fourteen, in checking order: each call checks those that concern it in this order and answers the first that applies.
/// The last is out of its turn: it comes after the first, and so before 9.
/// `Display` writes the refusal's sentence, the one that the C header's `vokhsaot_refusal_text` has.
///
/// ```
/// use vokhsaot::{kernel, Error, Shape};
///
/// let refusal = kernel(Shape::Round(2.0), 1).unwrap_err();
/// assert_eq!(refusal, Error::NoKernel);
/// assert_eq!(refusal.number(), 11);
/// assert_eq!(refusal.to_string(), "No kernel exists.");
/// ```
#[derive(Clone, Copy, Debug, PartialEq, Eq, Hash)]
pub enum Error {
    /// 1: a text is not the one spelling of a job in the format that the call takes, or is too long. [`convert_j_to_n`] and
    /// [`convert_n_to_j`] return it; of [`answer_text`] it stands in the answer.
    ///
    /// [`convert_j_to_n`]: crate::convert_j_to_n
    /// [`convert_n_to_j`]: crate::convert_n_to_j
    /// [`answer_text`]: crate::answer_text
    TextIsNoJob,
    /// 2: the record of a service is not in order, or, in the calls that work in the store
    /// ([`submit`](crate::Service::submit), [`tick`](crate::Service::tick), [`collect`](crate::Service::collect)), the store's
    /// length is not [`STORE_PIXELS`](crate::STORE_PIXELS). The calls leave every record in order: words and stores from elsewhere
    /// ([`from_parts`](crate::Service::from_parts)) are refused with it. [`change_over`](crate::Service::change_over) refuses with
    /// it what is not in order by the rule of the release before.
    RecordOutOfOrder,
    /// 3: a variance of a [`Round`](crate::Shape::Round) or an [`Oval`](crate::Shape::Oval) is not a number or lies outside 0 to
    /// 64. A [`Matrix`](crate::Shape::Matrix) never meets this.
    VarianceOutOfRange,
    /// 4: a cosine or sine is not a number or lies outside −1 to 1, or the sum of their squares lies outside 1023/1024 to
    /// 1025/1024.
    NotADirection,
    /// 5: the steps are not 1 to 64.
    StepsOutOfRange,
    /// 6: a width or height is not 1 to 1024.
    SideOutOfRange,
    /// 7: no seat has this job number: none was given it, or the job was collected or withdrawn. No job has the number 0.
    NoSuchJob,
    /// 8: the job that is to be collected has steps left.
    StepsAreLeft,
    /// 9: the length of a lent picture or result is not width × height, or that of the converter's output is not two bytes more or
    /// less than the text's.
    WrongLength,
    /// 10: a submitted picture has more than [`BUFFER_PIXELS`](crate::BUFFER_PIXELS) pixels.
    TooManyPixels,
    /// 11: the shape has no kernel with so many steps: |xy| is more than the smaller of xx and yy, or the larger of them is more than
    /// 4096 × steps. In the first case no number of steps has one.
    NoKernel,
    /// 12: fewer than two buffers are free, so all eight seats hold jobs.
    NoFreeBuffers,
    /// 13: the last job number given is 2^64 − 1.
    NumbersUsedUp,
    /// 14: an N text whose choice is b cannot go back to J, which names no choice and means the smallest. It comes after 1.
    CannotGoBack,
}

const ALL: [Error; 14] = [
    Error::TextIsNoJob,
    Error::RecordOutOfOrder,
    Error::VarianceOutOfRange,
    Error::NotADirection,
    Error::StepsOutOfRange,
    Error::SideOutOfRange,
    Error::NoSuchJob,
    Error::StepsAreLeft,
    Error::WrongLength,
    Error::TooManyPixels,
    Error::NoKernel,
    Error::NoFreeBuffers,
    Error::NumbersUsedUp,
    Error::CannotGoBack,
];

impl Error {
    /// The refusal's number, 1 to 14.
    pub fn number(self) -> u32 {
        self as u32 + 1
    }

    /// The refusal of this number; `None` where it is not 1 to 14.
    pub fn from_number(number: u32) -> Option<Error> {
        ALL.into_iter().find(|error| error.number() == number)
    }
}

impl fmt::Display for Error {
    fn fmt(&self, f: &mut fmt::Formatter<'_>) -> fmt::Result {
        f.write_str(match self {
            Error::TextIsNoJob => "The text is not a job.",
            Error::RecordOutOfOrder => {
                "The service record is not in order, or the store's length is not 16,384."
            }
            Error::VarianceOutOfRange => {
                "A variance of a Round or an Oval is not a number or lies outside 0 to 64."
            }
            Error::NotADirection => {
                "A cosine or sine is not a number or lies outside −1 to 1, or (c·c) + (s·s) lies outside 1023/1024 to 1025/1024."
            }
            Error::StepsOutOfRange => "Steps are not 1 to 64.",
            Error::SideOutOfRange => "A width or height is not 1 to 1024.",
            Error::NoSuchJob => "No seat has this job number.",
            Error::StepsAreLeft => "The job has steps left.",
            Error::WrongLength => "A lent picture's length is not w × h, or another lent slice has a wrong length.",
            Error::TooManyPixels => "A submitted picture has more than 1024 pixels.",
            Error::NoKernel => "No kernel exists.",
            Error::NoFreeBuffers => "Fewer than two buffers are free.",
            Error::NumbersUsedUp => "The last number given is 2^64 − 1.",
            Error::CannotGoBack => "An N text with b cannot go back to J.",
        })
    }
}

impl std::error::Error for Error {}

/// What an exported call returned: 0, or the number of a refusal.
pub(crate) fn outcome(code: u32) -> Result<(), Error> {
    match code {
        0 => Ok(()),
        _ => Err(Error::from_number(code).expect("a call returns 0 or the number of a refusal")),
    }
}

#[cfg(test)]
mod tests {
    use super::*;

    #[test]
    fn numbers_and_sentences() {
        for number in 1..=14 {
            let error = Error::from_number(number).unwrap();
            assert_eq!(error.number(), number);
            assert!(error.to_string().ends_with('.'));
        }
        assert_eq!(Error::from_number(0), None);
        assert_eq!(Error::from_number(15), None);
    }
}
