//! The limits, the record's layout and the refusals have the same names and numbers here and in the C header.

use std::collections::BTreeMap;
use vokhsaot::Error;

const HEADER: &str = include_str!("../../c/include/vokhsaot.h");

/// Constants of the crate by their names.
macro_rules! constants {
    ($($name:ident),* $(,)?) => {
        BTreeMap::from([$((stringify!($name).to_owned(), vokhsaot::$name as u32)),*])
    };
}

/// The header's macros that are whole numbers, without those of the version.
fn macros() -> BTreeMap<String, u32> {
    let defined = HEADER
        .lines()
        .filter_map(|line| line.strip_prefix("#define VOKHSAOT_"));
    let numbers = defined.filter_map(|line| {
        let (name, value) = line.split_once(' ')?;
        Some((name.to_owned(), value.parse().ok()?))
    });
    numbers
        .filter(|(name, _)| !name.starts_with("VERSION_"))
        .collect()
}

#[test]
fn limits_and_layout() {
    let own = constants![
        LARGEST_PIXEL,
        MOST_STEPS,
        LONGEST_SIDE,
        UNITS_PER_SQUARE_PIXEL,
        LARGEST_VARIANCE,
        SEATS,
        BUFFERS,
        BUFFER_PIXELS,
        STORE_PIXELS,
        WORDS,
        OLD_WORDS,
        SEAT_WORDS,
        OLD_SEAT_WORDS,
        SEAT_JOB,
        SEAT_XX,
        SEAT_XY,
        SEAT_YY,
        SEAT_STEPS,
        SEAT_STEPS_LEFT,
        SEAT_WIDTH,
        SEAT_HEIGHT,
        SEAT_F,
        WORD_LAST_NUMBER,
        WORD_LAST_FILLED,
        WORD_LAST_SERVED,
        COVARIANCE_ENTRIES,
        KERNEL_NUMBERS,
        TEXT_BYTES,
        ARCHIVED_TEXT_BYTES,
        CHOICE_BYTES,
        ANSWER_BYTES,
    ];
    assert_eq!(macros(), own);
}

/// A refusal's name as C writes it: `NoSuchJob` is `NO_SUCH_JOB`.
fn c_name(error: Error) -> String {
    let mut name = String::new();
    for letter in format!("{error:?}").chars() {
        if letter.is_uppercase() && !name.is_empty() {
            name.push('_');
        }
        name.push(letter.to_ascii_uppercase());
    }
    name
}

#[test]
fn refusals() {
    let (_, named) = HEADER.split_once("/* ---- Refusals").unwrap();
    let (named, _) = named.split_once("};").unwrap();
    let stated: Vec<&str> = named
        .lines()
        .filter(|line| line.trim().starts_with("VOKHSAOT_"))
        .map(|line| line.trim().trim_end_matches(','))
        .collect();
    let errors = (1..).map_while(Error::from_number);
    let due = errors.map(|error| format!("VOKHSAOT_{} = {}", c_name(error), error.number()));
    assert_eq!(stated, due.collect::<Vec<String>>());
}
