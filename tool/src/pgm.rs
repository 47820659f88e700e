//! PGM pictures: P2 (plain) and P5 (raw) are read, P5 is written.
//!
//! As netpbm reads them: a comment stands for the line end that closes it, so one right after a raw picture's maxval is
//! also the single whitespace byte before the pixels, while after a blank the pixels begin at once.
//!
//! A file is read as it comes. What its sides claim is checked before its pixels are read, and whatever may be of any
//! length has a most here, so that an input without an end is no work without an end.

use crate::pictures::{check_end, check_sides, next_byte, words_of, Picture, Place};
use std::fmt;
use std::io::{BufRead, Read};

/// The longest header, comments included: far more than any tool writes.
const MOST_HEADER: u64 = 1 << 16;
/// The most bytes of plain pixels and their comments: 16 for each pixel of the largest picture.
const MOST_PLAIN: u64 = 1 << 24;

/// Reads a PGM file that holds one picture and nothing else.
pub fn read(input: &mut impl BufRead) -> Result<Picture, String> {
    let mut scan = Scan::new(input, MOST_HEADER, "the header");
    let plain = scan.magic()?;
    let width = scan.side("width")?;
    let height = scan.side("height")?;
    check_sides(width, height)?;
    let maxval = scan.maxval()?;
    let mut picture = Picture {
        width,
        height,
        maxval,
        pixels: Vec::with_capacity((width * height) as usize),
    };
    if plain {
        picture.read_plain(Scan::new(input, MOST_PLAIN, "the plain picture"))?;
    } else {
        scan.delimiter()?;
        picture.read_raw(input)?;
    }
    check_end(input)?;
    Ok(picture)
}

impl Picture {
    /// The number of pixels that the sides claim.
    fn area(&self) -> u64 {
        u64::from(self.width) * u64::from(self.height)
    }

    fn bytes_per_pixel(&self) -> usize {
        if self.maxval > 255 {
            2
        } else {
            1
        }
    }

    /// Takes a pixel up; the place of one above maxval follows from the number of those before it.
    fn push(&mut self, pixel: u32) -> Result<(), String> {
        match u16::try_from(pixel) {
            Ok(fitting) if fitting <= self.maxval => {
                self.pixels.push(fitting);
                Ok(())
            }
            _ => Err(format!(
                "the pixel in {} is {pixel}, above the maxval {}",
                self.next_place(),
                self.maxval
            )),
        }
    }

    /// The place of the pixel that is read next.
    fn next_place(&self) -> Place {
        self.place(self.pixels.len())
    }

    /// Says where a file is too short for what its sides claim.
    fn check_length(&self, needed: u64, there: u64) -> Result<(), String> {
        if needed <= there {
            return Ok(());
        }
        Err(format!(
            "the file is too short for {} × {} pixels (bytes: {there})",
            self.width, self.height
        ))
    }

    fn read_raw(&mut self, input: &mut impl BufRead) -> Result<(), String> {
        let size = self.bytes_per_pixel();
        let needed = self.area() * size as u64;
        let mut raster = Vec::with_capacity(needed as usize);
        let found = input.take(needed).read_to_end(&mut raster);
        self.check_length(needed, found.map_err(words_of)? as u64)?;
        for bytes in raster.chunks_exact(size) {
            self.push(
                bytes
                    .iter()
                    .fold(0, |value, byte| value << 8 | u32::from(*byte)),
            )?;
        }
        Ok(())
    }

    fn read_plain(&mut self, mut scan: Scan<'_, impl BufRead>) -> Result<(), String> {
        for _ in 0..self.area() {
            scan.skip_space()?;
            if scan.peek()?.is_none() {
                // A blank and a digit for each pixel at least.
                self.check_length(2 * self.area(), scan.taken)?;
            }
            let place = self.next_place();
            self.push(scan.number(format_args!("the pixel in {place}"))?)?;
        }
        scan.skip_space()
    }

    /// The picture as a P5 file.
    pub fn pgm(&self) -> Vec<u8> {
        let header = format!("P5\n{} {}\n{}\n", self.width, self.height, self.maxval);
        let mut bytes = header.into_bytes();
        let unused = 2 - self.bytes_per_pixel();
        bytes.reserve(self.pixels.len() * self.bytes_per_pixel());
        for pixel in &self.pixels {
            bytes.extend_from_slice(&pixel.to_be_bytes()[unused..]);
        }
        bytes
    }
}

/// A file from where it is read on, up to a most of bytes.
struct Scan<'a, R> {
    input: &'a mut R,
    taken: u64,
    most: u64,
    /// What is too long where there are more bytes.
    what: &'static str,
}

fn is_space(byte: u8) -> bool {
    matches!(byte, b' ' | b'\t' | b'\n' | b'\r')
}

impl<'a, R: BufRead> Scan<'a, R> {
    fn new(input: &'a mut R, most: u64, what: &'static str) -> Scan<'a, R> {
        Scan {
            input,
            taken: 0,
            most,
            what,
        }
    }

    /// The next byte, which is still to be taken; none at the file's end.
    fn peek(&mut self) -> Result<Option<u8>, String> {
        match next_byte(self.input)? {
            Some(_) if self.taken == self.most => {
                Err(format!("{} is longer than {} bytes", self.what, self.most))
            }
            next => Ok(next),
        }
    }

    /// Takes the byte that was peeked at.
    fn take(&mut self) {
        self.input.consume(1);
        self.taken += 1;
    }

    fn take_next(&mut self) -> Result<Option<u8>, String> {
        let next = self.peek()?;
        if next.is_some() {
            self.take();
        }
        Ok(next)
    }

    /// Whether the picture is plain.
    fn magic(&mut self) -> Result<bool, String> {
        let plain = match (self.take_next()?, self.take_next()?) {
            (Some(b'P'), Some(b'2')) => true,
            (Some(b'P'), Some(b'5')) => false,
            (Some(b'P'), Some(kind @ (b'1' | b'3' | b'4' | b'6' | b'7'))) => {
                let kind = char::from(kind);
                return Err(format!(
                    "this is P{kind}: of the PNM files only P2 and P5 are read"
                ));
            }
            _ => return Err("this is no PGM file: it does not begin with P2 or P5".to_owned()),
        };
        self.check_separated(format_args!("P{}", if plain { 2 } else { 5 }))?;
        Ok(plain)
    }

    /// Whether a number or the magic ends here, and not in the midst of something else.
    fn check_separated(&mut self, what: fmt::Arguments<'_>) -> Result<(), String> {
        match self.peek()? {
            None | Some(b'#') => Ok(()),
            Some(byte) if is_space(byte) => Ok(()),
            Some(byte) => Err(format!("after {what} stands the byte {byte:#04x}")),
        }
    }

    /// Passes a comment up to its line end, and tells whether one was there.
    fn skip_comment(&mut self) -> Result<bool, String> {
        let commented = self.peek()? == Some(b'#');
        while commented && !matches!(self.peek()?, None | Some(b'\n' | b'\r')) {
            self.take();
        }
        Ok(commented)
    }

    fn skip_space(&mut self) -> Result<(), String> {
        loop {
            let commented = self.skip_comment()?;
            match self.peek()? {
                Some(byte) if is_space(byte) => self.take(),
                _ if commented => {}
                _ => return Ok(()),
            }
        }
    }

    /// The one whitespace byte before raw pixels, or the comment that stands for it.
    fn delimiter(&mut self) -> Result<(), String> {
        self.skip_comment()?;
        self.take_next()?;
        Ok(())
    }

    /// A number after whitespace or comments.
    fn number(&mut self, what: fmt::Arguments<'_>) -> Result<u32, String> {
        self.skip_space()?;
        match self.peek()? {
            None => return Err(format!("the file ends before {what}")),
            Some(byte) if !byte.is_ascii_digit() => {
                return Err(format!("in place of {what} stands the byte {byte:#04x}"));
            }
            Some(_) => {}
        }
        let mut value = Some(0u32);
        while let Some(digit @ b'0'..=b'9') = self.peek()? {
            self.take();
            let digit = u32::from(digit - b'0');
            value = value.and_then(|value| value.checked_mul(10)?.checked_add(digit));
        }
        self.check_separated(what)?;
        value.ok_or_else(|| format!("{what} is too large a number"))
    }

    fn side(&mut self, what: &str) -> Result<u32, String> {
        match self.number(format_args!("the {what}"))? {
            0 => Err(format!("the {what} is 0")),
            side => Ok(side),
        }
    }

    fn maxval(&mut self) -> Result<u16, String> {
        let number = self.number(format_args!("the maxval"))?;
        match u16::try_from(number) {
            Ok(maxval) if maxval > 0 => Ok(maxval),
            _ => Err(format!("the maxval is {number}, not 1 to 65535")),
        }
    }
}

#[cfg(test)]
mod tests {
    use super::*;
    use reference::random::Random;
    use std::io::{self, BufReader};

    fn read(bytes: &[u8]) -> Result<Picture, String> {
        let mut rest = bytes;
        super::read(&mut rest)
    }

    fn picture(width: u32, height: u32, maxval: u16, pixels: &[u16]) -> Result<Picture, String> {
        Ok(Picture {
            width,
            height,
            maxval,
            pixels: pixels.to_vec(),
        })
    }

    #[test]
    fn good_files() {
        let bytes = picture(2, 1, 255, &[65, 66]);
        for file in [
            "P5\n2 1\n255\nAB",
            "P5 2 1 255 AB",
            "P5\r2\t1\r255\rAB",
            "P5#c\n2#c\n1#c\n255\nAB",
            "P5\n# a\n# 9 9\n2 # w\r1\n255#c\nAB",
            "P2\n2 1\n255\n65 66\n",
            "P2\n2 1\n255\n65\n#c 9\n66",
            "P2 2 1 255 065#c\n66 #end",
        ] {
            assert_eq!(read(file.as_bytes()), bytes, "{file:?}");
        }
        // The single whitespace byte: what follows it are pixels, blanks and # included.
        assert_eq!(read(b"P5 2 1 255\n\n "), picture(2, 1, 255, &[10, 32]));
        assert_eq!(read(b"P5 2 1 255 #c"), picture(2, 1, 255, &[35, 99]));
        // Two bytes from maxval 256 on, most significant first.
        assert_eq!(read(b"P5 1 1 256 \x01\x00"), picture(1, 1, 256, &[256]));
        assert_eq!(
            read(b"P5 1 2 65535 \x00\xff\xff\x00"),
            picture(1, 2, 65535, &[255, 65280])
        );
    }

    /// A damaged file and what is said about it, a line each.
    const FAULTS: &str = "\
|this is no PGM file: it does not begin with P2 or P5
P|this is no PGM file: it does not begin with P2 or P5
P6 1 1 255 AAA|this is P6: of the PNM files only P2 and P5 are read
P52 1 255 AB|after P5 stands the byte 0x32
P5|the file ends before the width
P5 2 1 # c|the file ends before the maxval
P5 -2 1 255 AB|in place of the width stands the byte 0x2d
P5 2x1 255 AB|after the width stands the byte 0x78
P5 0 1 255 |the width is 0
P5 1 0 255 |the height is 0
P5 4294967296 1 255 A|the width is too large a number
P5 1 1 0 A|the maxval is 0, not 1 to 65535
P5 1 1 65536 AA|the maxval is 65536, not 1 to 65535
P5 2 1 255 A|the file is too short for 2 × 1 pixels (bytes: 1)
P5 2 1 255|the file is too short for 2 × 1 pixels (bytes: 0)
P5 2 1 256 ABC|the file is too short for 2 × 1 pixels (bytes: 3)
P5 2 1 255 ABC|the file goes on after the picture (bytes: 1)
P5 2 1 65 AB|the pixel in column 1, row 0 is 66, above the maxval 65
P2 2 1 255 65|the file is too short for 2 × 1 pixels (bytes: 3)
P2 2 1 255 65   |the file ends before the pixel in column 1, row 0
P2 2 2 255 1 2 3 x|in place of the pixel in column 1, row 1 stands the byte 0x78
P2 2 1 255 65 66 6|the file goes on after the picture (bytes: 1)
P2 2 1 255 65 256|the pixel in column 1, row 0 is 256, above the maxval 255
P2 1 1 255 99999999999|the pixel in column 0, row 0 is too large a number
";

    #[test]
    fn each_fault_has_its_own_message() {
        for line in FAULTS.lines() {
            let (file, message) = line.split_once('|').unwrap();
            assert_eq!(read(file.as_bytes()), Err(message.to_owned()), "{file:?}");
        }
    }

    /// Sides that the library would refuse are told before anything else is read: here nothing else is there.
    #[test]
    fn huge_claims() {
        for sides in [(u32::MAX, u32::MAX), (1025, 1), (1, 1025), (60000, 7)] {
            let (width, height) = sides;
            for file in ["P5", "P2"].map(|magic| format!("{magic} {width} {height} ")) {
                let message = format!(
                    "{width} × {height} pixels: refused (6): A width or height is not 1 to 1024."
                );
                assert_eq!(read(file.as_bytes()), Err(message), "{file}");
            }
        }
        let largest = [b"P5 1024 1024 255 ".to_vec(), vec![7; 1 << 20]].concat();
        assert_eq!(read(&largest), picture(1024, 1024, 255, &[7; 1 << 20]));
    }

    /// Inputs without an end, which a file's beginning leads into.
    #[test]
    fn endless_inputs() {
        for (start, byte, message) in [
            ("P5", b' ', "the header is longer than 65536 bytes"),
            ("P2#", b'#', "the header is longer than 65536 bytes"),
            ("P5 ", b'0', "the header is longer than 65536 bytes"),
            ("P5 2 1 255#", b'c', "the header is longer than 65536 bytes"),
            (
                "P2 2 1 255",
                b' ',
                "the plain picture is longer than 16777216 bytes",
            ),
            (
                "P2 2 1 255 1 2#",
                b'c',
                "the plain picture is longer than 16777216 bytes",
            ),
            (
                "P2 2 1 255 1 ",
                b'0',
                "the plain picture is longer than 16777216 bytes",
            ),
            (
                "P5 2 1 255 ",
                b'7',
                "the file goes on after the picture (bytes: 4096 or more)",
            ),
            (
                "P2 2 1 255 1 2 ",
                b'7',
                "the file goes on after the picture (bytes: 4096 or more)",
            ),
        ] {
            let mut input = BufReader::new(start.as_bytes().chain(io::repeat(byte)));
            assert_eq!(super::read(&mut input), Err(message.to_owned()), "{start}");
        }
        // A header of the most bytes is taken, and so is a file that ends there.
        let filled = |length: usize| format!("P5{:>1$} 1 255\n", 2, length - 9);
        let header = filled(1 << 16);
        assert_eq!(header.len(), 1 << 16);
        assert_eq!(
            read(&[header.as_bytes(), b"AB"].concat()),
            picture(2, 1, 255, &[65, 66])
        );
        let longer = [filled((1 << 16) + 1).as_bytes(), b"AB"].concat();
        assert_eq!(
            read(&longer),
            Err("the header is longer than 65536 bytes".to_owned())
        );
    }

    /// However few bytes come at a time, the picture is the same.
    #[test]
    fn bytes_that_come_one_by_one() {
        for file in ["P5 #c\n2 1\n255#d\nAB", "P2 2 1 255\n65#e\n66\n"] {
            let mut input = BufReader::with_capacity(1, file.as_bytes());
            assert_eq!(
                super::read(&mut input),
                picture(2, 1, 255, &[65, 66]),
                "{file:?}"
            );
        }
    }

    #[test]
    fn what_is_written_reads_back_and_damage_never_panics() {
        let mut random = Random::new(1);
        for _ in 0..20_000 {
            let (width, height) = (1 + random.below(5) as u32, 1 + random.below(5) as u32);
            let any = 1 + random.below(65535) as u16;
            let maxval = random.pick(&[1, 255, 256, 65535, any]);
            let pixels: Vec<u16> = (0..width * height)
                .map(|_| random.below(u64::from(maxval) + 1) as u16)
                .collect();
            let good = picture(width, height, maxval, &pixels);
            let mut file = good.clone().unwrap().pgm();
            assert_eq!(read(&file), good);
            for _ in 0..=random.below(3) {
                let place = random.below(file.len() as u64) as usize;
                match random.below(4) {
                    0 => file[place] = random.bits() as u8,
                    1 => file.truncate(place + 1),
                    2 => file.insert(place, random.pick(b"P0123456789 \n\r\t#\0\xff")),
                    _ => drop(file.remove(place)),
                }
                if file.is_empty() {
                    break;
                }
            }
            if let Ok(found) = read(&file) {
                let area = u64::from(found.width) * u64::from(found.height);
                assert_eq!(found.pixels.len() as u64, area);
                assert!(found.pixels.iter().all(|pixel| *pixel <= found.maxval));
            }
        }
    }
}
