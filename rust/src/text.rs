//! The bench program's work on a text, and the converter between the two formats of a text.

use crate::error::{outcome, Error};
use crate::exported;
use crate::limits::{ANSWER_BYTES, CHOICE_BYTES};

/// What the bench program prints for a job text: kernel and picture, or the line of a refusal. The format is in docs/REFERENCE.md,
/// "Bench program": the text begins with N, and the last field of line one names the choice by which the job goes, s for
/// [`Choice::Smallest`](crate::Choice::Smallest) and b for [`Choice::Binomial`](crate::Choice::Binomial).
///
/// It is never refused. The answer to a text that is refused is the line `R`, a tab and the refusal's number. In checking order:
///
/// - 1, `TextIsNoJob`: the text is not the one spelling of a job that begins with N, or has more than
///   [`TEXT_BYTES`](crate::TEXT_BYTES) bytes. An archived text, which begins with J, is none: [`convert_j_to_n`] makes an N text of it;
/// - 5, `StepsOutOfRange`: its steps are not 1 to 64;
/// - 6, `SideOutOfRange`: its width or height is not 1 to 1024;
/// - 11, `NoKernel`: its shape has no kernel with so many steps.
///
/// ```
/// use vokhsaot::answer_text;
///
/// let spot = "0\t0\t0\n0\t1600\t0\n0\t0\t0\n";
/// let answer = answer_text(format!("N\t2048\t0\t2048\t1\t3\t3\tb\n{spot}").as_bytes());
/// assert_eq!(answer, b"K\t16\t1\t2\t1\t2\t4\t2\t1\t2\t1\nP\t3\t3\n100\t200\t100\n200\t400\t200\n100\t200\t100\n");
/// let answer = answer_text(format!("N\t2048\t0\t2048\t1\t3\t3\ts\n{spot}").as_bytes());
/// assert_eq!(answer, b"K\t4\t0\t1\t0\t1\t0\t1\t0\t1\t0\nP\t3\t3\n0\t400\t0\n400\t0\t400\n0\t400\t0\n");
///
/// assert_eq!(answer_text(b"N\t4097\t0\t0\t1\t1\t1\tb\n0\n"), b"R\t11\n");
/// assert_eq!(answer_text(b"J\t4096\t0\t0\t1\t1\t1\n0\n"), b"R\t1\n");
/// assert_eq!(answer_text(b"no job"), b"R\t1\n");
/// ```
pub fn answer_text(text: &[u8]) -> Vec<u8> {
    let mut out = vec![0; ANSWER_BYTES];
    let mut length = 0;
    // SAFETY: each pointer stands with the length of its own slice, and the two do not overlap.
    let code = unsafe {
        exported::vokhsaot_answer_text(
            text.as_ptr(),
            text.len(),
            out.as_mut_ptr(),
            out.len(),
            &mut length,
        )
    };
    outcome(code).expect("a buffer of ANSWER_BYTES is long enough");
    out.truncate(length);
    out
}

/// The N text of an archived J text: the same job, with the choice written down by which it went, s for
/// [`Choice::Smallest`](crate::Choice::Smallest). It is N, line one from its second byte on, a tab and s, and all that follows from
/// line one's newline on, each byte as it was. [`convert_n_to_j`] goes back to the same bytes.
///
/// Steps, sides and shape are not checked: a job that [`answer_text`] would refuse converts.
///
/// The releases 0.2.0 to 0.4.0 took J texts, and answered them by [`Choice::Binomial`](crate::Choice::Binomial). A text that was
/// written for these is none from the archives: it needs N and b, which its writer has to put there.
///
/// # Errors
///
/// - 1, [`TextIsNoJob`](Error::TextIsNoJob): the text is not the one spelling of a job that begins with J and has seven fields in
///   line one, or has more than [`ARCHIVED_TEXT_BYTES`](crate::ARCHIVED_TEXT_BYTES) bytes. An N text is none.
///
/// ```
/// use vokhsaot::{convert_j_to_n, convert_n_to_j, Error};
///
/// let archived = b"J\t2048\t0\t2048\t1\t2\t1\n0\t1600\n";
/// let text = convert_j_to_n(archived)?;
/// assert_eq!(text, b"N\t2048\t0\t2048\t1\t2\t1\ts\n0\t1600\n");
/// assert_eq!(convert_n_to_j(&text)?, archived);
/// assert_eq!(convert_j_to_n(&text), Err(Error::TextIsNoJob));
/// # Ok::<(), Error>(())
/// ```
pub fn convert_j_to_n(text: &[u8]) -> Result<Vec<u8>, Error> {
    let mut out = vec![0; text.len() + CHOICE_BYTES];
    convert_j_to_n_into(text, &mut out)?;
    Ok(out)
}

/// The J text of an N text whose choice is s, for programs of before the choice: it is J, line one from its second byte on without
/// the last field and its tab, and all that follows from line one's newline on, each byte as it was. [`convert_j_to_n`] goes back
/// to the same bytes.
///
/// Steps, sides and shape are not checked: a job that [`answer_text`] would refuse converts.
///
/// # Errors
///
/// In checking order:
///
/// - 1, [`TextIsNoJob`](Error::TextIsNoJob): the text is not the one spelling of a job that begins with N and has eight fields in
///   line one, the last s or b, or has more than [`TEXT_BYTES`](crate::TEXT_BYTES) bytes. A J text is none;
/// - 14, [`CannotGoBack`](Error::CannotGoBack): its choice is b.
///
/// ```
/// use vokhsaot::{convert_n_to_j, Error};
///
/// assert_eq!(convert_n_to_j(b"N\t0\t0\t0\t1\t1\t1\ts\n7\n")?, b"J\t0\t0\t0\t1\t1\t1\n7\n");
/// assert_eq!(convert_n_to_j(b"N\t0\t0\t0\t1\t1\t1\tb\n7\n"), Err(Error::CannotGoBack));
/// assert_eq!(convert_n_to_j(b"N\t0\t0\t0\t1\t1\t1\tb\n7"), Err(Error::TextIsNoJob));
/// # Ok::<(), Error>(())
/// ```
pub fn convert_n_to_j(text: &[u8]) -> Result<Vec<u8>, Error> {
    // A shorter text is no job: it is refused with 1, before the output's length is looked at.
    let mut out = vec![0; text.len().saturating_sub(CHOICE_BYTES)];
    convert_n_to_j_into(text, &mut out)?;
    Ok(out)
}

/// [`convert_j_to_n`] into a lent output, which has exactly [`CHOICE_BYTES`] more than the text. A refused call leaves it as it was.
///
/// # Errors
///
/// In checking order:
///
/// - 1, [`TextIsNoJob`](Error::TextIsNoJob): as for [`convert_j_to_n`];
/// - 9, [`WrongLength`](Error::WrongLength): the output's length is not the text's and [`CHOICE_BYTES`] more.
///
/// ```
/// use vokhsaot::{convert_j_to_n_into, Error};
///
/// let archived = b"J\t0\t0\t0\t1\t0\t0\n";
/// let mut out = *b"????????????????";
/// assert_eq!(convert_j_to_n_into(archived, &mut out[1..]), Err(Error::WrongLength));
/// assert_eq!(&out, b"????????????????");
/// convert_j_to_n_into(archived, &mut out)?;
/// assert_eq!(&out, b"N\t0\t0\t0\t1\t0\t0\ts\n");
/// # Ok::<(), Error>(())
/// ```
pub fn convert_j_to_n_into(text: &[u8], out: &mut [u8]) -> Result<(), Error> {
    // SAFETY: each pointer stands with the length of its own slice, and the two do not overlap.
    let code = unsafe {
        exported::vokhsaot_convert_j_to_n(text.as_ptr(), text.len(), out.as_mut_ptr(), out.len())
    };
    outcome(code)
}

/// [`convert_n_to_j`] into a lent output, which has exactly [`CHOICE_BYTES`] less than the text. A refused call leaves it as it was.
///
/// # Errors
///
/// In checking order:
///
/// - 1, [`TextIsNoJob`](Error::TextIsNoJob): as for [`convert_n_to_j`];
/// - 14, [`CannotGoBack`](Error::CannotGoBack): the text's choice is b; also where the output's length is wrong;
/// - 9, [`WrongLength`](Error::WrongLength): the output's length is not the text's and [`CHOICE_BYTES`] less.
///
/// ```
/// use vokhsaot::{convert_n_to_j_into, Error};
///
/// let mut out = *b"??????????????";
/// assert_eq!(convert_n_to_j_into(b"N\t0\t0\t0\t1\t0\t0\tb\n", &mut out[1..]), Err(Error::CannotGoBack));
/// assert_eq!(convert_n_to_j_into(b"N\t0\t0\t0\t1\t0\t0\ts\n", &mut out[1..]), Err(Error::WrongLength));
/// assert_eq!(&out, b"??????????????");
/// convert_n_to_j_into(b"N\t0\t0\t0\t1\t0\t0\ts\n", &mut out)?;
/// assert_eq!(&out, b"J\t0\t0\t0\t1\t0\t0\n");
/// # Ok::<(), Error>(())
/// ```
pub fn convert_n_to_j_into(text: &[u8], out: &mut [u8]) -> Result<(), Error> {
    // SAFETY: each pointer stands with the length of its own slice, and the two do not overlap.
    let code = unsafe {
        exported::vokhsaot_convert_n_to_j(text.as_ptr(), text.len(), out.as_mut_ptr(), out.len())
    };
    outcome(code)
}
