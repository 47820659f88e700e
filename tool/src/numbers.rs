//! Numbers as text, and exact fractions for printing kernels.

use std::fmt;
use std::ops::RangeInclusive;

/// The longest side of a picture that the library takes: nothing longer is made.
pub const MOST_SIDE: u32 = vokhsaot::LONGEST_SIDE;

/// A whole number in a range; the message for anything else names both.
pub fn whole<T: TryFrom<i128>>(text: &str, range: RangeInclusive<i128>) -> Result<T, String> {
    let digits = text.strip_prefix('-').unwrap_or(text);
    let plain = !digits.is_empty() && digits.bytes().all(|byte| byte.is_ascii_digit());
    let value = text
        .parse()
        .ok()
        .filter(|value| plain && range.contains(value));
    value
        .and_then(|value| T::try_from(value).ok())
        .ok_or_else(|| {
            let (low, high) = range.into_inner();
            format!("\"{text}\" is not a whole number from {low} to {high}")
        })
}

/// An unsigned 32-bit number: a step count, a width or a height. Its limits are the library's to refuse.
pub fn unsigned(text: &str) -> Result<u32, String> {
    whole(text, 0..=u32::MAX.into())
}

/// An unsigned 64-bit number: a seed or a job number.
pub fn long_unsigned(text: &str) -> Result<u64, String> {
    whole(text, 0..=u64::MAX.into())
}

/// A float, NaN and the infinities included: refusing them is the library's part.
pub fn float(text: &str) -> Result<f64, String> {
    text.parse()
        .map_err(|_| format!("\"{text}\" is not a number"))
}

/// So many of something.
pub fn counted(count: u64, what: &str) -> String {
    match count {
        1 => format!("1 {what}"),
        _ => format!("{count} {what}s"),
    }
}

/// Entries by rows: a row a line, tabs between.
pub fn rows<T: fmt::Display>(entries: &[T], width: u32) -> String {
    let mut text = String::new();
    for row in entries.chunks(width as usize) {
        let row: Vec<String> = row.iter().map(T::to_string).collect();
        text += &row.join("\t");
        text.push('\n');
    }
    text
}

/// A fraction in lowest terms with a positive denominator.
#[derive(Clone, Copy, Debug, PartialEq, Eq)]
pub struct Fraction {
    numerator: i128,
    denominator: i128,
}

impl Fraction {
    /// `numerator` / `denominator`, the latter positive.
    pub fn new(numerator: i128, denominator: i128) -> Fraction {
        let (mut a, mut b) = (numerator.abs(), denominator);
        while b != 0 {
            (a, b) = (b, a % b);
        }
        Fraction {
            numerator: numerator / a,
            denominator: denominator / a,
        }
    }

    /// This fraction times a whole number.
    pub fn times(self, factor: i128) -> Fraction {
        Fraction::new(self.numerator * factor, self.denominator)
    }

    /// The product of two fractions.
    pub fn product(self, other: Fraction) -> Fraction {
        Fraction::new(
            self.numerator * other.numerator,
            self.denominator * other.denominator,
        )
    }

    /// This fraction less another.
    pub fn less(self, other: Fraction) -> Fraction {
        Fraction::new(
            self.numerator * other.denominator - other.numerator * self.denominator,
            self.denominator * other.denominator,
        )
    }
}

impl fmt::Display for Fraction {
    fn fmt(&self, f: &mut fmt::Formatter<'_>) -> fmt::Result {
        if self.denominator == 1 {
            f.pad(&self.numerator.to_string())
        } else {
            f.pad(&format!("{}/{}", self.numerator, self.denominator))
        }
    }
}

#[cfg(test)]
mod tests {
    use super::*;

    #[test]
    fn whole_numbers_are_digits_in_their_range() {
        assert_eq!(whole::<i32>("-12", -12..=3), Ok(-12));
        assert_eq!(unsigned("4294967295"), Ok(u32::MAX));
        assert_eq!(long_unsigned("18446744073709551615"), Ok(u64::MAX));
        for text in [
            "",
            "-",
            "+1",
            " 1",
            "1 ",
            "1.0",
            "4294967296",
            "-1",
            "1e3",
            "0x1",
        ] {
            assert!(unsigned(text).is_err(), "{text:?}");
        }
        // More digits than 128 bits hold.
        assert!(long_unsigned(&"9".repeat(60)).is_err());
    }

    #[test]
    fn one_and_several() {
        let texts = [0, 1, 2].map(|count| counted(count, "job"));
        assert_eq!(texts, ["0 jobs", "1 job", "2 jobs"]);
    }

    #[test]
    fn fractions_are_reduced() {
        assert_eq!(Fraction::new(8190, 32768).to_string(), "4095/16384");
        assert_eq!(Fraction::new(-6, 4).to_string(), "-3/2");
        assert_eq!(Fraction::new(0, 16384).to_string(), "0");
        assert_eq!(
            Fraction::new(1, 2).less(Fraction::new(1, 3)),
            Fraction::new(1, 6)
        );
        assert_eq!(
            Fraction::new(2, 3).product(Fraction::new(3, 4)),
            Fraction::new(1, 2)
        );
        assert_eq!(Fraction::new(4097, 2).times(2).to_string(), "4097");
        assert_eq!(format!("[{:>5}]", Fraction::new(1, 4)), "[  1/4]");
    }
}
