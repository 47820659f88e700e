//! The bench program of the reference: reads one job's text from standard
//! input and prints the answer that docs/REFERENCE.md has for it.

use reference::job_text::{answer, Format};
use std::io::{self, Read, Write};

fn main() -> io::Result<()> {
    let mut text = Vec::new();
    // One byte more than a job may have shows that a text is too long.
    io::stdin()
        .lock()
        .take(Format::N.max_text() as u64 + 1)
        .read_to_end(&mut text)?;
    io::stdout().lock().write_all(&answer(&text))
}
