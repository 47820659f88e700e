//! Where a text is no job, and why: for people alone. What is a job the library decides; this reader is asked about a text that the
//! library refused, and looks for the first place that docs/REFERENCE.md, "Bench program", does not allow.

use crate::numbers::counted;
use std::ops::RangeInclusive;
use vokhsaot::{ARCHIVED_TEXT_BYTES, LARGEST_PIXEL, TEXT_BYTES};

/// The formats of a job text, by the letter that it begins with.
#[derive(Clone, Copy, Debug, PartialEq, Eq)]
pub enum Format {
    /// Archived: line one has seven fields and names no choice, since f was the smallest then.
    J,
    /// Today's: the eighth field of line one names the choice of f.
    N,
}

impl Format {
    pub fn letter(self) -> &'static str {
        match self {
            Format::J => "J",
            Format::N => "N",
        }
    }

    pub fn other(self) -> Format {
        match self {
            Format::J => Format::N,
            Format::N => Format::J,
        }
    }

    /// A text of this format, in a sentence.
    pub fn text(self) -> &'static str {
        match self {
            Format::J => "a J text",
            Format::N => "an N text",
        }
    }

    fn longest(self) -> usize {
        match self {
            Format::J => ARCHIVED_TEXT_BYTES,
            Format::N => TEXT_BYTES,
        }
    }

    /// The fields of line one after its letter.
    fn fields(self) -> &'static [Field] {
        match self {
            Format::J => &FIELDS[..6],
            Format::N => &FIELDS,
        }
    }
}

/// What a field of line one holds.
enum Field {
    Number(&'static str, RangeInclusive<i64>),
    Choice,
}

const SIGNED: RangeInclusive<i64> = i32::MIN as i64..=i32::MAX as i64;
const UNSIGNED: RangeInclusive<i64> = 0..=u32::MAX as i64;
const PIXEL: RangeInclusive<i64> = 0..=LARGEST_PIXEL as i64;

/// In order; the last is not in a J text.
const FIELDS: [Field; 7] = [
    Field::Number("xx", SIGNED),
    Field::Number("xy", SIGNED),
    Field::Number("yy", SIGNED),
    Field::Number("k", UNSIGNED),
    Field::Number("w", UNSIGNED),
    Field::Number("h", UNSIGNED),
    Field::Choice,
];

/// Of a longer field only the beginning is shown.
const MOST_SHOWN: usize = 20;

/// The first place where a text is no job of a format, with what is wrong there; none where nothing is.
pub fn first_fault(text: &[u8], format: Format) -> Option<String> {
    let fault = fault_of(text, format)?;
    let other = format.other();
    // That all of it is of the other format tells more than its first letter does.
    Some(match fault_of(text, other) {
        None => format!("it is {} already", other.text()),
        Some(_) => fault,
    })
}

fn fault_of(text: &[u8], format: Format) -> Option<String> {
    let longest = format.longest();
    if text.len() > longest {
        let kind = format.text();
        return Some(format!(
            "{kind} has at most {longest} bytes, and it has more"
        ));
    }
    read(text, format).err()
}

/// Goes through a text from its first byte to its last.
fn read(text: &[u8], format: Format) -> Result<(), String> {
    let lines = text.split_inclusive(|byte| *byte == b'\n');
    let mut lines = (1..)
        .zip(lines)
        .map(|(number, line)| Line::new(number, line));
    let (width, height) = lines.next().ok_or("it is empty")?.sizes(format)?;
    let rows = if width == 0 { 0 } else { height };
    for row in 0..rows {
        let line = lines.next();
        let line = line.ok_or_else(|| format!("line {} is missing: h is {height}", row + 2))?;
        line.pixels(width)?;
    }
    let why = match rows {
        0 => "no pixel line follows where w or h is 0".to_owned(),
        _ => format!("h is {height}"),
    };
    lines.next().map_or(Ok(()), |line| {
        Err(format!("line {} is one too many: {why}", line.number))
    })
}

/// A line of a text, counted from 1.
struct Line<'a> {
    number: usize,
    fields: Vec<&'a [u8]>,
    has_newline: bool,
}

impl<'a> Line<'a> {
    fn new(number: usize, line: &'a [u8]) -> Line<'a> {
        let held = line.strip_suffix(b"\n");
        let fields = held.unwrap_or(line).split(|byte| *byte == b'\t');
        let mut fields: Vec<&[u8]> = fields.collect();
        // Of a text that was cut off after a tab the end is missing, and not a field.
        if held.is_none() {
            fields.pop_if(|last| last.is_empty());
        }
        Line {
            number,
            fields,
            has_newline: held.is_some(),
        }
    }

    /// Line one: the width and the height that it gives.
    fn sizes(&self, format: Format) -> Result<(i64, i64), String> {
        let (letter, fields) = self.fields.split_first().expect("a line has a field");
        if *letter != format.letter().as_bytes() {
            let what = format!("{} is not {}", shown(letter), format.letter());
            return Err(self.at(1, "", &what));
        }
        let kinds = format.fields();
        let mut numbers = Vec::new();
        for ((place, field), kind) in (2..).zip(fields).zip(kinds) {
            match kind {
                Field::Number(name, range) => {
                    let found = number(field, range);
                    numbers
                        .push(found.map_err(|what| self.at(place, &format!(" ({name})"), &what))?);
                }
                Field::Choice => {
                    choice(field).map_err(|what| self.at(place, " (the choice)", &what))?
                }
            }
        }
        self.has_fields(1 + kinds.len() as i64)?;
        Ok((numbers[4], numbers[5]))
    }

    /// A line of so many pixels.
    fn pixels(&self, width: i64) -> Result<(), String> {
        for (place, field) in (1..=width).zip(&self.fields) {
            number(field, &PIXEL).map_err(|what| self.at(place, "", &what))?;
        }
        self.has_fields(width)
    }

    /// Whether the line has so many fields, and its newline. Of a text that was cut off the newline is missing first.
    fn has_fields(&self, due: i64) -> Result<(), String> {
        let (number, count) = (self.number, self.fields.len() as i64);
        if !self.has_newline {
            return Err(format!("line {number} has no newline at its end"));
        }
        match count == due {
            true => Ok(()),
            false => Err(format!(
                "line {number} has {}, and {due} are due",
                counted(count as u64, "field")
            )),
        }
    }

    fn at(&self, place: i64, name: &str, what: &str) -> String {
        format!("line {}, field {place}{name}: {what}", self.number)
    }
}

/// A field as it is shown: what is no plain letter is escaped, and a long one is cut.
fn shown(field: &[u8]) -> String {
    let begin = &field[..field.len().min(MOST_SHOWN)];
    let rest = if begin.len() < field.len() { ".." } else { "" };
    format!("\"{}{rest}\"", begin.escape_ascii())
}

/// A number in the one spelling that it has.
fn number(field: &[u8], range: &RangeInclusive<i64>) -> Result<i64, String> {
    let digits = field.strip_prefix(b"-").unwrap_or(field);
    let what = match digits {
        [] if field.is_empty() => return Err("it is empty".to_owned()),
        _ if field.contains(&b'\r') => "has a carriage return".to_owned(),
        [b'+', ..] => "has a plus".to_owned(),
        _ if digits.is_empty() || !digits.iter().all(u8::is_ascii_digit) => {
            "is no whole number".to_owned()
        }
        [b'0', _, ..] => "has a leading zero".to_owned(),
        [b'0'] if digits.len() < field.len() => "is a minus zero".to_owned(),
        _ => {
            let text = std::str::from_utf8(field).ok();
            // More digits than 64 bits hold are no number of a field either.
            match text.and_then(|text| text.parse().ok()) {
                Some(value) if range.contains(&value) => return Ok(value),
                _ => format!("is not {} to {}", range.start(), range.end()),
            }
        }
    };
    Err(format!("{} {what}", shown(field)))
}

/// The choice is one letter.
fn choice(field: &[u8]) -> Result<(), String> {
    match field {
        b"s" | b"b" => Ok(()),
        _ if field.contains(&b'\r') => Err(format!("{} has a carriage return", shown(field))),
        _ => Err(format!("{} is neither s nor b", shown(field))),
    }
}

#[cfg(test)]
mod tests {
    use super::*;
    use reference::random::Random;
    use vokhsaot::{convert_j_to_n, convert_n_to_j, Error};

    /// A text and what is wrong with it as a J text.
    const ARCHIVED: [(&str, &str); 40] = [
        ("", "it is empty"),
        ("\n", "line 1, field 1: \"\" is not J"),
        (
            "K\t0\t0\t0\t1\t1\t1\n7\n",
            "line 1, field 1: \"K\" is not J",
        ),
        (
            "j\t0\t0\t0\t1\t1\t1\n7\n",
            "line 1, field 1: \"j\" is not J",
        ),
        (
            " J\t0\t0\t0\t1\t1\t1\n7\n",
            "line 1, field 1: \" J\" is not J",
        ),
        (
            "J 0 0 0 1 1 1\n7\n",
            "line 1, field 1: \"J 0 0 0 1 1 1\" is not J",
        ),
        ("J\r\n", "line 1, field 1: \"J\\r\" is not J"),
        ("N\t0\t0\t0\t1\t1\t1\ts\n7\n", "it is an N text already"),
        ("N\t0\t0\t0\t1\t1\t1\tb\n7\n", "it is an N text already"),
        (
            "N\t0\t0\t0\t1\t1\t1\n7\n",
            "line 1, field 1: \"N\" is not J",
        ),
        ("J", "line 1 has no newline at its end"),
        ("J\t0\t0\t0\t1\t1\t", "line 1 has no newline at its end"),
        (
            "J\t0\t0\t0\t1\t2\t1\n7\t",
            "line 2 has no newline at its end",
        ),
        ("J\n", "line 1 has 1 field, and 7 are due"),
        (
            "J\t0\t0\t0\t1\t1\n7\n",
            "line 1 has 6 fields, and 7 are due",
        ),
        (
            "J\t0\t0\t0\t1\t1\t1\ts\n7\n",
            "line 1 has 8 fields, and 7 are due",
        ),
        (
            "J\t0\t0\t0\t1\t1\t1\t\n7\n",
            "line 1 has 8 fields, and 7 are due",
        ),
        (
            "J\t\t0\t0\t1\t1\t1\n7\n",
            "line 1, field 2 (xx): it is empty",
        ),
        (
            "J\t0\t+5\t0\t1\t1\t1\n7\n",
            "line 1, field 3 (xy): \"+5\" has a plus",
        ),
        (
            "J\t0\t-0\t0\t1\t1\t1\n7\n",
            "line 1, field 3 (xy): \"-0\" is a minus zero",
        ),
        (
            "J\t0\t-05\t0\t1\t1\t1\n7\n",
            "line 1, field 3 (xy): \"-05\" has a leading zero",
        ),
        (
            "J\t0\t0\t-\t1\t1\t1\n7\n",
            "line 1, field 4 (yy): \"-\" is no whole number",
        ),
        (
            "J\t0\t0\t2147483648\t1\t1\t1\n7\n",
            "line 1, field 4 (yy): \"2147483648\" is not -2147483648 to 2147483647",
        ),
        (
            "J\t0\t-2147483649\t0\t1\t1\t1\n7\n",
            "line 1, field 3 (xy): \"-2147483649\" is not -2147483648 to 2147483647",
        ),
        (
            "J\t0\t0\t0\t-1\t1\t1\n7\n",
            "line 1, field 5 (k): \"-1\" is not 0 to 4294967295",
        ),
        (
            "J\t0\t0\t0\t1\t4294967296\t1\n7\n",
            "line 1, field 6 (w): \"4294967296\" is not 0 to 4294967295",
        ),
        (
            "J\t0\t0\t0\t1\t1\t1\r\n7\r\n",
            "line 1, field 7 (h): \"1\\r\" has a carriage return",
        ),
        (
            "J\t0\t0\t0\t1\t1\t1\n7\r\n",
            "line 2, field 1: \"7\\r\" has a carriage return",
        ),
        (
            "J\t0\t0\t0\t1\t1\t1 \n7\n",
            "line 1, field 7 (h): \"1 \" is no whole number",
        ),
        ("J\t0\t0\t0\t1\t1\t1\n7", "line 2 has no newline at its end"),
        ("J\t0\t0\t0\t1\t1\t1\n", "line 2 is missing: h is 1"),
        ("J\t0\t0\t0\t1\t2\t2\n1\t2\n", "line 3 is missing: h is 2"),
        (
            "J\t0\t0\t0\t1\t2\t2\n1\t2\n3\n",
            "line 3 has 1 field, and 2 are due",
        ),
        (
            "J\t0\t0\t0\t1\t2\t2\n1\t2\n3\t4\t\n",
            "line 3 has 3 fields, and 2 are due",
        ),
        (
            "J\t0\t0\t0\t1\t2\t1\n1\t65536\n",
            "line 2, field 2: \"65536\" is not 0 to 65535",
        ),
        (
            "J\t0\t0\t0\t1\t1\t1\n7\n8\n",
            "line 3 is one too many: h is 1",
        ),
        (
            "J\t0\t0\t0\t1\t1\t1\n7\n\n",
            "line 3 is one too many: h is 1",
        ),
        (
            "J\t0\t0\t0\t1\t0\t9\n7\n",
            "line 2 is one too many: no pixel line follows where w or h is 0",
        ),
        (
            "J\t0\t0\t0\t1\t1\t1\n123456789012345678901234567890\n",
            "line 2, field 1: \"12345678901234567890..\" is not 0 to 65535",
        ),
        (
            "J\t0\t0\t0\t1\t4294967295\t4294967295\n7\n",
            "line 2 has 1 field, and 4294967295 are due",
        ),
    ];

    /// The same of N texts, where they differ.
    const TODAYS: [(&str, &str); 9] = [
        ("J\t0\t0\t0\t1\t1\t1\n7\n", "it is a J text already"),
        (
            "J\t0\t0\t0\t1\t1\t1\ts\n7\n",
            "line 1, field 1: \"J\" is not N",
        ),
        (
            "N\t0\t0\t0\t1\t1\t1\n7\n",
            "line 1 has 7 fields, and 8 are due",
        ),
        (
            "N\t0\t0\t0\t1\t1\t1\t\n7\n",
            "line 1, field 8 (the choice): \"\" is neither s nor b",
        ),
        (
            "N\t0\t0\t0\t1\t1\t1\tS\n7\n",
            "line 1, field 8 (the choice): \"S\" is neither s nor b",
        ),
        (
            "N\t0\t0\t0\t1\t1\t1\tsb\n7\n",
            "line 1, field 8 (the choice): \"sb\" is neither s nor b",
        ),
        (
            "N\t0\t0\t0\t1\t1\t1\tb\r\n7\r\n",
            "line 1, field 8 (the choice): \"b\\r\" has a carriage return",
        ),
        ("N\t0\t0\t0\t1\t1\t1\tb", "line 1 has no newline at its end"),
        (
            "N\t0\t0\t0\t1\t1\t1\ts\tb\n7\n",
            "line 1 has 9 fields, and 8 are due",
        ),
    ];

    #[test]
    fn first_places() {
        for (text, fault) in ARCHIVED {
            let found = first_fault(text.as_bytes(), Format::J);
            assert_eq!(found.as_deref(), Some(fault), "{text:?}");
        }
        for (text, fault) in TODAYS {
            let found = first_fault(text.as_bytes(), Format::N);
            assert_eq!(found.as_deref(), Some(fault), "{text:?}");
        }
        let bytes = first_fault(b"J\t0\t0\t0\t1\t1\t1\n\xff\n", Format::J);
        let fault = "line 2, field 1: \"\\xff\" is no whole number";
        assert_eq!(bytes.as_deref(), Some(fault));
    }

    /// Whether the library takes a text for a job of a format.
    fn is_job(text: &[u8], format: Format) -> bool {
        let answer = match format {
            Format::J => convert_j_to_n(text),
            Format::N => convert_n_to_j(text),
        };
        answer != Err(Error::TextIsNoJob)
    }

    /// The reader and the library say the same of a text, in both formats; in how many it is a job.
    fn agreed(text: &[u8]) -> usize {
        let jobs = [Format::J, Format::N].into_iter().filter(|format| {
            let fault = first_fault(text, *format);
            let shown = text.escape_ascii();
            assert_eq!(fault.is_none(), is_job(text, *format), "{fault:?}: {shown}");
            fault.is_none()
        });
        jobs.count()
    }

    /// A text of either format, with numbers at the ends of their ranges among them.
    fn random_text(random: &mut Random) -> String {
        let format = random.pick(&[Format::J, Format::N]);
        let signed = [i32::MIN, -1, 0, 1, 4096, i32::MAX].map(i64::from);
        let (width, height) = (random.between(0, 4), random.between(0, 4));
        let mut fields: Vec<String> = (0..3).map(|_| random.pick(&signed).to_string()).collect();
        let steps = random.pick(&[0, 1, 64, u32::MAX]);
        fields.extend([steps.to_string(), width.to_string(), height.to_string()]);
        if format == Format::N {
            fields.push(random.pick(&["s", "b"]).to_owned());
        }
        let mut text = format!("{}\t{}\n", format.letter(), fields.join("\t"));
        for _ in 0..if width == 0 { 0 } else { height } {
            let row = (0..width).map(|_| random.pick(&[0u16, 7, 10, 65535]).to_string());
            text += &(row.collect::<Vec<String>>().join("\t") + "\n");
        }
        text
    }

    /// A byte is taken away, put in or exchanged.
    fn damage(random: &mut Random, text: &mut Vec<u8>) {
        let byte = random.pick(b"\t\n\r 0123456789-+JNsbS\xff");
        let place = random.below(text.len() as u64 + 1) as usize;
        match random.below(3) {
            0 => text.insert(place, byte),
            _ if place == text.len() => _ = text.pop(),
            1 => text[place] = byte,
            _ => _ = text.remove(place),
        }
    }

    #[test]
    fn reader_agrees_with_the_library() {
        let mut random = Random::new(4);
        let mut jobs = [0; 3];
        for _ in 0..30_000 {
            let mut text = random_text(&mut random).into_bytes();
            let damages = random.below(4);
            (0..damages).for_each(|_| damage(&mut random, &mut text));
            jobs[agreed(&text)] += 1;
        }
        // Many of each; a text is of one format at most.
        assert!(jobs[0] > 10_000 && jobs[1] > 8_000, "{jobs:?}");
        assert_eq!(jobs[2], 0);
        for (text, _) in ARCHIVED.into_iter().chain(TODAYS) {
            agreed(text.as_bytes());
        }
    }

    /// A text of one row that has so many bytes.
    fn long_text(format: Format, length: usize) -> Vec<u8> {
        let choice = if format == Format::N { "\tb" } else { "" };
        for width in (length - 60) / 6.. {
            let head = format!("{}\t0\t0\t0\t1\t{width}\t1{choice}\n", format.letter());
            // Each pixel takes 2 to 6 bytes, a tab or the newline with it.
            let Some(room) = length
                .checked_sub(head.len())
                .filter(|room| *room <= 6 * width)
            else {
                continue;
            };
            let mut spare = room - 2 * width;
            let pixels = (0..width).map(|_| {
                let digits = 1 + spare.min(4);
                spare -= digits - 1;
                "1".repeat(digits)
            });
            let row: Vec<String> = pixels.collect();
            return (head + &row.join("\t") + "\n").into_bytes();
        }
        unreachable!("a row can be that long")
    }

    #[test]
    fn longest_texts() {
        for format in [Format::J, Format::N] {
            for length in 16_370..16_400 {
                let text = long_text(format, length);
                assert_eq!(text.len(), length);
                assert_eq!(agreed(&text) == 1, length <= format.longest(), "{length}");
            }
        }
        let fault = first_fault(&long_text(Format::J, 16_385), Format::J);
        let said = "a J text has at most 16384 bytes, and it has more";
        assert_eq!(fault.as_deref(), Some(said));
        let fault = first_fault(&long_text(Format::N, 16_386), Format::J);
        assert_eq!(fault.as_deref(), Some("it is an N text already"));
        let fault = first_fault(&long_text(Format::N, 16_387), Format::N);
        let said = "an N text has at most 16386 bytes, and it has more";
        assert_eq!(fault.as_deref(), Some(said));
    }
}
