//! What happens where somebody ends the program from outside (Ctrl-C, a signal to end): no temporary file is left, and a soak
//! tells what it has found so far.

use std::fs::{self, File};
use std::io;
use std::path::{Path, PathBuf};
use std::sync::atomic::{AtomicBool, Ordering};
use std::sync::{Mutex, MutexGuard, PoisonError};

/// As a shell tells it of a program that was interrupted.
const STATUS: i32 = 130;

static ASKED: AtomicBool = AtomicBool::new(false);
/// Whether the command looks at [`asked`] itself.
static ENDS_BY_ITSELF: AtomicBool = AtomicBool::new(false);
/// Files that are not in their places yet.
static TEMPORARY: Mutex<Vec<PathBuf>> = Mutex::new(Vec::new());

fn temporary() -> MutexGuard<'static, Vec<PathBuf>> {
    TEMPORARY.lock().unwrap_or_else(PoisonError::into_inner)
}

/// From here on an interrupt is noticed. Where that cannot be had, it ends the program as ever.
pub fn notice() {
    let _ = ctrlc::set_handler(|| {
        let again = ASKED.swap(true, Ordering::Relaxed);
        if again || !ENDS_BY_ITSELF.load(Ordering::Relaxed) {
            // Held to the end: no file is made any more.
            let files = temporary();
            files.iter().for_each(|file| _ = fs::remove_file(file));
            std::process::exit(STATUS);
        }
    });
}

/// The command will end by itself where it is asked to; a second time it is not waited for.
pub fn ends_by_itself() {
    ENDS_BY_ITSELF.store(true, Ordering::Relaxed);
}

/// Whether the program is to end.
pub fn asked() -> bool {
    ASKED.load(Ordering::Relaxed)
}

/// Makes a file that is to vanish with the program. The program does not end in between, so none is left that nobody knows of.
pub fn make_temporary(
    make: impl FnOnce() -> io::Result<(PathBuf, File)>,
) -> io::Result<(PathBuf, File)> {
    let mut files = temporary();
    let (path, file) = make()?;
    files.push(path.clone());
    Ok((path, file))
}

/// The file is in its place, or gone.
pub fn forget_temporary(file: &Path) {
    temporary().retain(|other| other != file);
}
