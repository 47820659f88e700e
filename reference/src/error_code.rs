//! The numbered refusals (N1 to N14 of docs/REFERENCE.md), and the checks that
//! several calls share.

/// A refusal's number in that list.
pub type ErrorCode = u8;

/// The text is not a job of the format that is read.
pub const NOT_A_JOB: ErrorCode = 1;
/// The service record is not in order, or the store's length is not 16,384.
pub const SERVICE_NOT_IN_ORDER: ErrorCode = 2;
/// A variance of a Round or an Oval is not a number or lies outside 0 to 64.
pub const BAD_VARIANCE: ErrorCode = 3;
/// A direction's cosine or sine, or the sum of their squares, is outside its limits.
pub const BAD_DIRECTION: ErrorCode = 4;
/// Steps are not 1 to 64.
pub const BAD_STEPS: ErrorCode = 5;
/// A width or height is not 1 to 1024.
pub const BAD_SIDES: ErrorCode = 6;
/// No seat has this job number (0 included).
pub const UNKNOWN_JOB: ErrorCode = 7;
/// The job has steps left (collect only).
pub const JOB_UNFINISHED: ErrorCode = 8;
/// A lent picture's length is not w × h, or the converter's output has not two
/// bytes more or less than the text.
pub const BAD_LENGTH: ErrorCode = 9;
/// A submitted picture has more than 1024 pixels.
pub const PICTURE_TOO_LARGE: ErrorCode = 10;
/// No kernel exists.
pub const NO_KERNEL: ErrorCode = 11;
/// Fewer than two buffers are free.
pub const NO_FREE_BUFFERS: ErrorCode = 12;
/// The last number given is 2^64 − 1.
pub const NUMBERS_EXHAUSTED: ErrorCode = 13;
/// An N text with b cannot go back to J; it comes after 1.
pub const CANNOT_GO_BACK: ErrorCode = 14;

/// Most steps of a run.
pub const MAX_STEPS: u32 = 64;
/// Largest width and largest height.
pub const MAX_SIDE: u32 = 1024;

/// `Ok` where `holds`, else the refusal.
pub fn require(holds: bool, refusal: ErrorCode) -> Result<(), ErrorCode> {
    if holds {
        Ok(())
    } else {
        Err(refusal)
    }
}

/// Refusal 5.
pub fn check_steps(steps: u32) -> Result<(), ErrorCode> {
    require((1..=MAX_STEPS).contains(&steps), BAD_STEPS)
}

/// Refusal 6.
pub fn check_sides(width: u32, height: u32) -> Result<(), ErrorCode> {
    require(
        (1..=MAX_SIDE).contains(&width) && (1..=MAX_SIDE).contains(&height),
        BAD_SIDES,
    )
}

/// Refusal 9, for one lent picture.
pub fn check_length(length: usize, width: u32, height: u32) -> Result<(), ErrorCode> {
    require(
        length as u128 == u128::from(width) * u128::from(height),
        BAD_LENGTH,
    )
}
