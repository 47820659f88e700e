//! PNG pictures: greyscale of 1, 2, 4, 8 and 16 bits is read, of 8 and 16 bits is written. Pixels are taken as they stand.
//!
//! The package `png` inflates, undoes the filters and the interlacing. It would also make room for whatever a compressed
//! profile or text claims to be, and cannot tell what follows the picture; so the chunks of a file are walked here, and it
//! is given the header, the pixels' data and the end alone. What else a file may tell (gamma, profiles, texts, dates) is
//! passed over. Transparency is refused, whether as a channel or as one grey (the chunk tRNS): no run would keep it. Data
//! are inflated once only to be counted, since a few of them may become very many.

use crate::pictures::{check_end, check_sides, words_of, Picture};
use png::{BitDepth, ColorType};
use std::io::{BufRead, ErrorKind, Read, Take};

/// The first byte of every PNG file, and of no text.
pub const FIRST: u8 = 0x89;
const SIGNATURE: [u8; 8] = *b"\x89PNG\r\n\x1a\n";

/// No file is read further: the pixels of the largest picture are 2 MiB.
const MOST_BYTES: u64 = 1 << 24;

const IHDR: [u8; 4] = *b"IHDR";
const IDAT: [u8; 4] = *b"IDAT";
const IEND: [u8; 4] = *b"IEND";
const TRNS: [u8; 4] = *b"tRNS";

/// Reads a PNG file that holds one greyscale picture.
pub fn read(input: &mut impl BufRead) -> Result<Picture, String> {
    let mut file = File(input.take(MOST_BYTES));
    let mut kept = file.signature()?.to_vec();
    let header = file.header(&mut kept)?;
    file.data(&mut kept)?;
    let mut rest = file.0.into_inner();
    check_end(&mut rest)?;
    header.check_data(&kept)?;
    let pixels = header.pixels(&kept)?;
    Ok(Picture {
        width: header.width,
        height: header.height,
        maxval: u16::MAX >> (16 - header.depth),
        pixels,
    })
}

/// What the first chunk tells of a picture that is taken.
struct Header {
    width: u32,
    height: u32,
    /// Bits of a pixel: 1, 2, 4, 8 or 16.
    depth: u8,
    interlaced: bool,
}

/// The first column and row of each pass over an interlaced picture, and how far it is to the next.
const PASSES: [(u32, u32, u32, u32); 7] = [
    (0, 0, 8, 8),
    (4, 0, 8, 8),
    (0, 4, 4, 8),
    (2, 0, 4, 4),
    (0, 2, 2, 4),
    (1, 0, 2, 2),
    (0, 1, 1, 2),
];

/// How a chunk begins.
struct Head {
    length: u32,
    kind: [u8; 4],
}

impl Head {
    fn name(&self) -> String {
        self.kind.escape_ascii().to_string()
    }

    /// Whether a reader that does not know the chunk may pass it over.
    fn is_extra(&self) -> bool {
        self.kind[0].is_ascii_lowercase()
    }

    fn bytes(&self) -> [u8; 8] {
        let mut bytes = [0; 8];
        bytes[..4].copy_from_slice(&self.length.to_be_bytes());
        bytes[4..].copy_from_slice(&self.kind);
        bytes
    }
}

/// A file from where it is read on.
struct File<R>(Take<R>);

impl<R: Read> File<R> {
    fn fill(&mut self, bytes: &mut [u8]) -> Result<(), String> {
        self.0.read_exact(bytes).map_err(|error| {
            if error.kind() != ErrorKind::UnexpectedEof {
                words_of(error)
            } else if self.0.limit() == 0 {
                format!("this PNG file is longer than {MOST_BYTES} bytes")
            } else {
                "the PNG file is too short".to_owned()
            }
        })
    }

    fn array<const N: usize>(&mut self) -> Result<[u8; N], String> {
        let mut bytes = [0; N];
        self.fill(&mut bytes)?;
        Ok(bytes)
    }

    fn signature(&mut self) -> Result<[u8; 8], String> {
        match self.array()? {
            SIGNATURE => Ok(SIGNATURE),
            _ => Err("this begins like a PNG file, but its signature is damaged".to_owned()),
        }
    }

    fn head(&mut self) -> Result<Head, String> {
        let length = u32::from_be_bytes(self.array()?);
        let kind = self.array()?;
        Ok(Head { length, kind })
    }

    /// The rest of a chunk, piece by piece, with its checksum compared.
    fn contents(&mut self, head: &Head, mut each: impl FnMut(&[u8])) -> Result<(), String> {
        let mut sum = checksum(u32::MAX, &head.kind);
        let mut space = [0; 4096];
        let mut left = head.length as usize;
        while left > 0 {
            let piece = &mut space[..left.min(4096)];
            self.fill(piece)?;
            sum = checksum(sum, piece);
            each(piece);
            left -= piece.len();
        }
        let found = self.array()?;
        each(&found);
        if found != (!sum).to_be_bytes() {
            return Err(format!(
                "the PNG chunk {} is damaged: its checksum differs",
                head.name()
            ));
        }
        Ok(())
    }

    /// A chunk with all that belongs to it, put behind what is kept.
    fn keep(&mut self, head: &Head, kept: &mut Vec<u8>) -> Result<(), String> {
        kept.extend(head.bytes());
        self.contents(head, |piece| kept.extend_from_slice(piece))
    }

    fn header(&mut self, kept: &mut Vec<u8>) -> Result<Header, String> {
        let head = self.head()?;
        if (head.kind, head.length) != (IHDR, 13) {
            return Err("the PNG file does not begin with its header".to_owned());
        }
        let start = kept.len() + 8;
        self.keep(&head, kept)?;
        Header::of(&kept[start..])
    }

    /// Keeps the chunks with pixels and the last one, and passes over the others.
    fn data(&mut self, kept: &mut Vec<u8>) -> Result<(), String> {
        loop {
            let head = self.head()?;
            match head.kind {
                IDAT => self.keep(&head, kept)?,
                IEND => return self.keep(&head, kept),
                TRNS => return Err(not_taken("has a transparent grey")),
                _ if head.is_extra() => self.contents(&head, |_| {})?,
                _ => return Err(format!("the PNG chunk {} has no place here", head.name())),
            }
        }
    }
}

fn damaged(error: png::DecodingError) -> String {
    format!("the PNG file is damaged: {error}")
}

impl Header {
    fn of(contents: &[u8]) -> Result<Header, String> {
        let side = |bytes: &[u8]| {
            bytes
                .iter()
                .fold(0, |side, byte| side << 8 | u32::from(*byte))
        };
        let (width, height) = (side(&contents[..4]), side(&contents[4..8]));
        let depth = contents[8];
        match contents[9] {
            0 => {}
            2 => return Err(not_taken("has colours")),
            3 => return Err(not_taken("has a palette")),
            4 | 6 => return Err(not_taken("has an alpha channel")),
            kind => return Err(format!("the PNG file has the unknown colour type {kind}")),
        }
        if ![1, 2, 4, 8, 16].contains(&depth) {
            return Err(format!("the PNG file has {depth} bits a pixel"));
        }
        check_sides(width, height)?;
        Ok(Header {
            width,
            height,
            depth,
            interlaced: contents[12] == 1,
        })
    }

    /// The bytes that the data become: in each row one for its filter, and its pixels up to a whole byte.
    fn inflated(&self) -> u64 {
        let rows = |width: u32, height: u32| {
            let row = 1 + (u64::from(width) * u64::from(self.depth)).div_ceil(8);
            u64::from(height) * if width == 0 { 0 } else { row }
        };
        if !self.interlaced {
            return rows(self.width, self.height);
        }
        let passes = PASSES.iter().map(|(x, y, wide, high)| {
            rows(
                self.width.saturating_sub(*x).div_ceil(*wide),
                self.height.saturating_sub(*y).div_ceil(*high),
            )
        });
        passes.sum()
    }

    /// Whether the data are as many as the pixels'.
    fn check_data(&self, file: &[u8]) -> Result<(), String> {
        let mut decoder = png::StreamingDecoder::new();
        let (mut rest, mut piece, mut found) = (file, Vec::new(), 0);
        while !rest.is_empty() {
            let (taken, _) = decoder.update(rest, &mut piece).map_err(damaged)?;
            rest = &rest[taken..];
            found += piece.len() as u64;
            piece.clear();
            if found > self.inflated() {
                return Err("the PNG file has more data than its pixels".to_owned());
            }
        }
        if found < self.inflated() {
            return Err("the PNG file has fewer data than its pixels".to_owned());
        }
        Ok(())
    }

    /// The pixels of a file of which nothing is kept but what they need.
    fn pixels(&self, file: &[u8]) -> Result<Vec<u16>, String> {
        let mut reader = png::Decoder::new(file).read_info().map_err(damaged)?;
        let mut bytes = vec![0; reader.output_buffer_size()];
        reader.next_frame(&mut bytes).map_err(damaged)?;
        Ok(match self.depth {
            16 => {
                let pairs = bytes.chunks_exact(2);
                pairs
                    .map(|pair| u16::from_be_bytes([pair[0], pair[1]]))
                    .collect()
            }
            8 => bytes.into_iter().map(u16::from).collect(),
            _ => {
                let rows = bytes.chunks_exact(reader.output_line_size(self.width));
                rows.flat_map(|row| self.unpacked(row)).collect()
            }
        })
    }

    /// The pixels of a row of less than a byte each, the first ones in the highest bits.
    fn unpacked<'a>(&self, row: &'a [u8]) -> impl Iterator<Item = u16> + 'a {
        let depth = self.depth;
        let mask = u8::MAX >> (8 - depth);
        let in_a_byte = 8 / usize::from(depth);
        (0..self.width as usize).map(move |x| {
            let behind = in_a_byte - 1 - x % in_a_byte;
            let byte = row[x / in_a_byte] >> (behind * usize::from(depth));
            u16::from(byte & mask)
        })
    }
}

fn not_taken(what: &str) -> String {
    format!("this PNG picture {what}: only greyscale of 1, 2, 4, 8 or 16 bits is taken")
}

/// CRC-32 of one more byte, for each value of the lowest eight bits.
const CHECKSUMS: [u32; 256] = {
    let mut sums = [0; 256];
    let mut byte = 0;
    while byte < 256 {
        let mut sum = byte as u32;
        let mut bit = 0;
        while bit < 8 {
            let odd = sum & 1 == 1;
            sum >>= 1;
            if odd {
                sum ^= 0xedb8_8320;
            }
            bit += 1;
        }
        sums[byte] = sum;
        byte += 1;
    }
    sums
};

/// A chunk's checksum goes on over more bytes: from all ones, and inverted at the end.
fn checksum(sum: u32, bytes: &[u8]) -> u32 {
    bytes.iter().fold(sum, |sum, byte| {
        CHECKSUMS[(sum as u8 ^ byte) as usize] ^ (sum >> 8)
    })
}

impl Picture {
    /// The picture as a PNG file: 8 bits where they are enough for the maxval, else 16.
    pub fn png(&self) -> Result<Vec<u8>, String> {
        if self.maxval > 255 {
            let bytes: Vec<u8> = self
                .pixels
                .iter()
                .flat_map(|pixel| pixel.to_be_bytes())
                .collect();
            write(self.width, self.height, BitDepth::Sixteen, &bytes)
        } else {
            let bytes: Vec<u8> = self.pixels.iter().map(|pixel| *pixel as u8).collect();
            write(self.width, self.height, BitDepth::Eight, &bytes)
        }
    }
}

fn write(width: u32, height: u32, depth: BitDepth, bytes: &[u8]) -> Result<Vec<u8>, String> {
    let mut file = Vec::new();
    let mut encoder = png::Encoder::new(&mut file, width, height);
    encoder.set_color(ColorType::Grayscale);
    encoder.set_depth(depth);
    let written = encoder.write_header().and_then(|mut writer| {
        writer.write_image_data(bytes)?;
        writer.finish()
    });
    match written {
        Ok(()) => Ok(file),
        Err(error) => Err(format!("no PNG file can be made of this picture: {error}")),
    }
}

#[cfg(test)]
mod tests {
    use super::*;
    use reference::random::Random;
    use std::io::{self, BufReader};

    fn read(bytes: &[u8]) -> Result<Picture, String> {
        let mut rest = bytes;
        super::read(&mut rest)
    }

    fn random_picture(random: &mut Random) -> Picture {
        let (width, height) = (1 + random.below(9) as u32, 1 + random.below(9) as u32);
        let maxval = random.pick(&[255, 65535]);
        let pixels = (0..width * height).map(|_| random.below(u64::from(maxval) + 1) as u16);
        Picture {
            width,
            height,
            maxval,
            pixels: pixels.collect(),
        }
    }

    fn chunk(kind: &[u8; 4], contents: &[u8]) -> Vec<u8> {
        let named = [&kind[..], contents].concat();
        let sum = !checksum(u32::MAX, &named);
        let length = contents.len() as u32;
        [&length.to_be_bytes()[..], &named, &sum.to_be_bytes()].concat()
    }

    /// A file of two pixels, 1 and 2, of 8 bits, out of its chunks.
    fn parts() -> [Vec<u8>; 4] {
        let picture = Picture {
            width: 2,
            height: 1,
            maxval: 255,
            pixels: vec![1, 2],
        };
        let file = picture.png().unwrap();
        let (head, rest) = file.split_at(8);
        let (header, rest) = rest.split_at(25);
        let (data, end) = rest.split_at(rest.len() - 12);
        [head, header, data, end].map(<[u8]>::to_vec)
    }

    fn header(width: u32, height: u32, depth: u8, colour: u8) -> Vec<u8> {
        let sides = [width.to_be_bytes(), height.to_be_bytes()].concat();
        chunk(b"IHDR", &[&sides[..], &[depth, colour, 0, 0, 0]].concat())
    }

    fn assert_fault(parts: &[&[u8]], message: &str) {
        assert_eq!(read(&parts.concat()), Err(message.to_owned()));
    }

    /// The check value of the standard.
    #[test]
    fn checksums() {
        assert_eq!(!checksum(u32::MAX, b"123456789"), 0xcbf4_3926);
        let [_, header, _, end] = parts();
        assert_eq!(header, chunk(b"IHDR", &header[8..21]));
        assert_eq!(end, chunk(b"IEND", b""));
    }

    #[test]
    fn what_is_written_reads_back() {
        let mut random = Random::new(2);
        for _ in 0..2000 {
            let picture = random_picture(&mut random);
            let file = picture.png().unwrap();
            assert_eq!(read(&file).as_ref(), Ok(&picture));
            let mut slow = BufReader::with_capacity(1, file.as_slice());
            assert_eq!(super::read(&mut slow), Ok(picture));
        }
        // Any maxval up to 255 becomes 255, and any above 65535.
        for (maxval, written) in [(1, 255), (254, 255), (256, 65535), (65534, 65535)] {
            let picture = Picture {
                width: 1,
                height: 1,
                maxval,
                pixels: vec![maxval],
            };
            let found = read(&picture.png().unwrap()).unwrap();
            assert_eq!((found.maxval, found.pixels), (written, vec![maxval]));
        }
    }

    /// Nine pixels of less than a byte in two bytes or more, the first in the highest bits.
    #[test]
    fn few_bits() {
        for (depth, bytes, pixels) in [
            (
                BitDepth::One,
                &[0b0110_0101, 0b1000_0000][..],
                [0, 1, 1, 0, 0, 1, 0, 1, 1],
            ),
            (
                BitDepth::Two,
                &[0b00_01_10_11, 0b11_10_01_00, 0b10_00_00_00],
                [0, 1, 2, 3, 3, 2, 1, 0, 2],
            ),
            (
                BitDepth::Four,
                &[0x01, 0x23, 0x9a, 0xef, 0x70],
                [0, 1, 2, 3, 9, 10, 14, 15, 7],
            ),
        ] {
            let found = read(&write(9, 1, depth, bytes).unwrap()).unwrap();
            let maxval = (1 << depth as u16) - 1;
            assert_eq!((found.maxval, found.pixels), (maxval, pixels.to_vec()));
        }
    }

    #[test]
    fn pictures_that_are_not_taken() {
        let [signature, _, data, end] = parts();
        let taken = "only greyscale of 1, 2, 4, 8 or 16 bits is taken";
        for (colour, what) in [
            (2, "has colours"),
            (3, "has a palette"),
            (4, "has an alpha channel"),
            (6, "has an alpha channel"),
        ] {
            let message = format!("this PNG picture {what}: {taken}");
            assert_fault(&[&signature, &header(2, 1, 8, colour)], &message);
        }
        let [good, transparent] = [header(2, 1, 8, 0), chunk(b"tRNS", &[0, 1])];
        let message = format!("this PNG picture has a transparent grey: {taken}");
        assert_fault(&[&signature, &good, &transparent, &data, &end], &message);
        let message = "1025 × 1 pixels: refused (6): A width or height is not 1 to 1024.";
        assert_fault(&[&signature, &header(1025, 1, 8, 0)], message);
        let message = "1 × 4294967295 pixels: refused (6): A width or height is not 1 to 1024.";
        assert_fault(&[&signature, &header(1, u32::MAX, 16, 0)], message);
        let message = "0 × 1 pixels: refused (6): A width or height is not 1 to 1024.";
        assert_fault(&[&signature, &header(0, 1, 1, 0)], message);
        let message = "the PNG file has the unknown colour type 7";
        assert_fault(&[&signature, &header(2, 1, 8, 7)], message);
        let message = "the PNG file has 3 bits a pixel";
        assert_fault(&[&signature, &header(2, 1, 3, 0)], message);
    }

    #[test]
    fn each_damage_has_its_own_message() {
        let [signature, header, data, end] = parts();
        let short = "the PNG file is too short";
        let whole = [&signature[..], &header, &data, &end].concat();
        for length in 0..whole.len() {
            assert_fault(&[&whole[..length]], short);
        }
        let message = "this begins like a PNG file, but its signature is damaged";
        assert_fault(&[b"\x89PNG\n\x1a\n", &header, &data, &end], message);
        let message = "the PNG file does not begin with its header";
        assert_fault(&[&signature, &data, &header, &end], message);
        assert_fault(&[&signature, &chunk(b"IHDR", b""), &data, &end], message);
        let message = "the PNG chunk IHDR has no place here";
        assert_fault(&[&signature, &header, &header, &data, &end], message);
        let message = "the PNG chunk A\\xffBC has no place here";
        assert_fault(
            &[&signature, &header, &chunk(b"A\xffBC", b""), &data, &end],
            message,
        );
        let message = "the file goes on after the picture (bytes: 1)";
        assert_fault(&[&whole, b"\n"], message);
        for (place, kind) in [
            (20, "IHDR"),
            (29, "IHDR"),
            (45, "IDAT"),
            (whole.len() - 1, "IEND"),
        ] {
            let mut damaged = whole.clone();
            damaged[place] ^= 1;
            let message = format!("the PNG chunk {kind} is damaged: its checksum differs");
            assert_fault(&[&damaged], &message);
        }
        for (contents, what) in [
            (&b""[..], "short"),
            (b"abc", "no zlib"),
            (&data[8..data.len() - 5], "cut off"),
        ] {
            let file = [&signature[..], &header, &chunk(b"IDAT", contents), &end].concat();
            let message = read(&file).unwrap_err();
            let known = ["the PNG file is damaged: ", "the PNG file has fewer data"];
            assert!(
                known.iter().any(|start| message.starts_with(start)),
                "{what}: {message}"
            );
            assert_eq!(message.lines().count(), 1);
        }
        let message = read(&[&signature[..], &header, &end].concat()).unwrap_err();
        assert!(
            message.starts_with("the PNG file has fewer data"),
            "{message}"
        );
    }

    /// Chunks that need not be known are passed over without being made anything of: this profile claims to be zlib.
    #[test]
    fn other_chunks() {
        let [signature, header, data, end] = parts();
        for kind in [b"iCCP", b"gAMA", b"tEXt", b"acTL", b"fcTL", b"abCD"] {
            let other = chunk(kind, &[0; 10_000]);
            let file = [&signature[..], &header, &other, &data, &other, &end].concat();
            assert_eq!(read(&file).map(|picture| picture.pixels), Ok(vec![1, 2]));
            let damaged = [&other[..other.len() - 1], b"?"].concat();
            let kind = std::str::from_utf8(kind).unwrap();
            let message = format!("the PNG chunk {kind} is damaged: its checksum differs");
            assert_fault(&[&signature, &header, &damaged, &data, &end], &message);
        }
    }

    /// Data in several chunks, of which some are empty.
    #[test]
    fn data_in_pieces() {
        let [signature, header, data, end] = parts();
        let mut file = [signature, header].concat();
        for piece in data[8..data.len() - 4].chunks(1) {
            file.extend(chunk(b"IDAT", piece));
            file.extend(chunk(b"IDAT", b""));
        }
        file.extend(end);
        assert_eq!(read(&file).map(|picture| picture.pixels), Ok(vec![1, 2]));
    }

    /// No input goes on for ever, and no claim of a length makes room.
    #[test]
    fn endless_inputs() {
        let [signature, header, data, _] = parts();
        let longest = 0xffff_ffffu32.to_be_bytes();
        let start = |kind: &[u8; 4]| [&signature[..], &header, &data, &longest, kind].concat();
        for (start, message) in [
            (
                start(b"abcd"),
                "this PNG file is longer than 16777216 bytes",
            ),
            (
                start(b"IEND"),
                "this PNG file is longer than 16777216 bytes",
            ),
            (
                start(b"IDAT"),
                "this PNG file is longer than 16777216 bytes",
            ),
        ] {
            let mut input = BufReader::new(start.as_slice().chain(io::repeat(0)));
            assert_eq!(super::read(&mut input), Err(message.to_owned()));
        }
        // Empty chunks without an end.
        let mut file = [&signature[..], &header].concat();
        while file.len() <= MOST_BYTES as usize {
            file.extend(chunk(b"IDAT", b"").repeat(100));
        }
        let message = "this PNG file is longer than 16777216 bytes";
        assert_eq!(read(&file), Err(message.to_owned()));
    }

    /// Pictures without compression, as data: a filter's zero before each row.
    fn stored(rows: &[u8]) -> Vec<u8> {
        let length = rows.len() as u16;
        let (mut low, mut high) = (1u32, 0u32);
        for byte in rows {
            low = (low + u32::from(*byte)) % 65521;
            high = (high + low) % 65521;
        }
        let mut data = vec![0x78, 0x01, 0x01];
        data.extend(length.to_le_bytes());
        data.extend((!length).to_le_bytes());
        data.extend(rows);
        data.extend((high << 16 | low).to_be_bytes());
        data
    }

    /// As many data as the pixels are taken, one row less and one more are not; interlaced or not.
    #[test]
    fn as_many_data_as_pixels() {
        for interlaced in [0, 1] {
            for (width, height, depth) in [
                (1, 1, 1),
                (5, 3, 2),
                (9, 9, 4),
                (8, 16, 8),
                (3, 70, 16),
                (33, 2, 1),
            ] {
                let sides = [u32::to_be_bytes(width), u32::to_be_bytes(height)].concat();
                let header = [&sides[..], &[depth, 0, 0, 0, interlaced]].concat();
                let known = Header::of(&header).unwrap();
                let whole = known.inflated() as usize;
                for (length, start) in [
                    (whole, ""),
                    (whole - 1, "the PNG file has fewer data than its pixels"),
                    (whole + 1, "the PNG file has more data than its pixels"),
                ] {
                    let data = chunk(b"IDAT", &stored(&vec![0; length]));
                    let parts = [
                        &SIGNATURE[..],
                        &chunk(b"IHDR", &header),
                        &data,
                        &chunk(b"IEND", b""),
                    ];
                    let message = read(&parts.concat()).err().unwrap_or_default();
                    assert!(message.starts_with(start), "{width} × {height}: {message}");
                    assert_eq!(
                        message.is_empty(),
                        start.is_empty(),
                        "{width} × {height}: {message}"
                    );
                }
            }
        }
    }

    /// A few data that become very many are given up at once.
    #[test]
    fn data_that_grow() {
        let [signature, _, _, end] = parts();
        let zeros = write(1024, 4000, BitDepth::Sixteen, &vec![0; 2048 * 4000]).unwrap();
        let data = &zeros[33..zeros.len() - 12];
        let message = "the PNG file has more data than its pixels";
        assert_fault(
            &[&signature, &header(1024, 1024, 16, 0), data, &end],
            message,
        );
    }

    /// A damaged file is refused, or is whole: no damage of a few bytes leaves a checksum as it was.
    #[test]
    fn damaged_files() {
        let mut random = Random::new(3);
        for _ in 0..5000 {
            let good = random_picture(&mut random).png().unwrap();
            let mut file = good.clone();
            for _ in 0..=random.below(3) {
                damage(&mut random, &mut file);
            }
            match read(&file) {
                Ok(_) => assert_eq!(file, good),
                Err(message) => assert_eq!(message.lines().count(), 1),
            }
        }
    }

    fn damage(random: &mut Random, bytes: &mut Vec<u8>) {
        let place = random.below(bytes.len() as u64 + 1) as usize;
        match random.below(4) {
            0 if place < bytes.len() => bytes[place] = random.bits() as u8,
            1 => bytes.truncate(place),
            2 if place < bytes.len() => drop(bytes.remove(place)),
            _ => bytes.insert(place, random.bits() as u8),
        }
    }

    /// Damage under checksums that are right again: it reaches the header's numbers and the inflating.
    #[test]
    fn damage_below_the_checksums() {
        let mut random = Random::new(4);
        let mut taken = 0;
        for _ in 0..20_000 {
            let file = random_picture(&mut random).png().unwrap();
            let mut header = file[16..29].to_vec();
            let mut data = file[41..file.len() - 16].to_vec();
            if random.once_in(3) {
                let place = random.below(13) as usize;
                header[place] = random.pick(&[0, 1, 2, 4, 8, 16, 255]);
            }
            for _ in 0..random.below(3) {
                damage(&mut random, &mut data);
            }
            let chunks = [chunk(b"IHDR", &header), chunk(b"IDAT", &data)].concat();
            let file = [&SIGNATURE[..], &chunks, &chunk(b"IEND", b"")].concat();
            if let Ok(found) = read(&file) {
                assert_eq!(found.pixels.len() as u32, found.width * found.height);
                assert!(found.pixels.iter().all(|pixel| *pixel <= found.maxval));
                taken += 1;
            }
        }
        assert!((2000..18_000).contains(&taken), "{taken} taken");
    }
}
