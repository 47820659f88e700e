//! Files in and out. An output appears whole or not at all: it is written beside its place and renamed when everything
//! is done, so that no error leaves half a picture or changes an old one.

use crate::error::{one_line, Failure};
use crate::interrupt;
use crate::pictures::{self, Picture};
use std::ffi::OsStr;
use std::fs::{self, File, OpenOptions};
use std::io::{self, BufReader, ErrorKind, IsTerminal, Read, Write};
use std::os::unix::fs::MetadataExt;
use std::path::{Path, PathBuf};

/// The name that stands for standard input and standard output.
const STANDARD: &str = "-";

/// A fault of a file, in one line whatever its name is.
pub fn fault(name: &OsStr, message: impl std::fmt::Display) -> Failure {
    let name = one_line(&name.to_string_lossy());
    let name = if name.is_empty() { "\"\"" } else { &name };
    Failure::Input(format!("{name}: {message}"))
}

/// The name of an input in messages.
pub fn input_name(name: &OsStr) -> &OsStr {
    if name == STANDARD {
        OsStr::new("standard input")
    } else {
        name
    }
}

/// Whether a name stands for standard input or standard output.
pub fn is_standard(name: &OsStr) -> bool {
    name == STANDARD
}

/// Reads a picture as it comes. Nobody types one: a terminal in its place is a name that was forgotten.
pub fn read_picture(name: &OsStr) -> Result<Picture, Failure> {
    let picture = if is_standard(name) {
        let mut input = io::stdin().lock();
        if input.is_terminal() {
            let message = "no picture is named, and standard input is a terminal";
            return Err(Failure::Input(message.to_owned()));
        }
        pictures::read(&mut input)
    } else {
        let file = File::open(name).map_err(|error| fault(name, error))?;
        pictures::read(&mut BufReader::with_capacity(1 << 16, file))
    };
    picture.map_err(|message| fault(input_name(name), message))
}

/// Reads a text, or its first so many bytes where it is longer: nobody waits for the end of one that is too long anyway.
pub fn read_text(name: &OsStr, most: usize) -> Result<Vec<u8>, Failure> {
    let text = if is_standard(name) {
        let input = io::stdin().lock();
        if input.is_terminal() {
            let message = "no text is named, and standard input is a terminal";
            return Err(Failure::Input(message.to_owned()));
        }
        beginning(input, most)
    } else {
        read_beginning(Path::new(name), most)
    };
    text.map_err(|error| fault(input_name(name), error))
}

/// The first so many bytes of a file, or all.
pub fn read_beginning(path: &Path, most: usize) -> io::Result<Vec<u8>> {
    beginning(File::open(path)?, most)
}

fn beginning(input: impl Read, most: usize) -> io::Result<Vec<u8>> {
    let mut bytes = Vec::new();
    input.take(most as u64).read_to_end(&mut bytes)?;
    Ok(bytes)
}

/// Prints on standard output. A reader that has seen enough and went away ends the command without a word.
pub fn print(bytes: &[u8]) -> Result<(), Failure> {
    let mut out = io::stdout().lock();
    out.write_all(bytes)
        .and_then(|()| out.flush())
        .map_err(|error| match error.kind() {
            ErrorKind::BrokenPipe => Failure::ReaderGone,
            _ => fault(OsStr::new("standard output"), error),
        })
}

/// Where an output goes.
#[derive(PartialEq, Eq)]
enum Target {
    Standard,
    /// A device or a pipe: a file renamed to its place would do away with it.
    Direct(PathBuf),
    /// A file, whether there is one or not, by the place that links lead to.
    File(PathBuf),
}

impl Target {
    fn of(name: &OsStr) -> Result<Target, Failure> {
        if name == STANDARD {
            return Ok(Target::Standard);
        }
        let path = Path::new(name);
        match fs::metadata(path) {
            Ok(found) if found.is_dir() => Err(fault(name, "this is a folder")),
            Ok(found) if !found.is_file() => Ok(Target::Direct(path.to_owned())),
            // Renaming asks for no right to the file itself, and root has every right: the mode is the owner's word.
            Ok(found) if found.permissions().readonly() => {
                Err(fault(name, "this file is write-protected"))
            }
            Ok(_) => {
                // Who may not write the file may not replace it either.
                let opened = OpenOptions::new().write(true).open(path);
                opened.map_err(|error| fault(name, error))?;
                resolved(name, path).map(Target::File)
            }
            Err(_) => Target::of_new(name, path),
        }
    }
}

impl Target {
    /// A file that is not there yet, or that a link leads to.
    fn of_new(name: &OsStr, path: &Path) -> Result<Target, Failure> {
        if let Ok(leads_to) = fs::read_link(path) {
            let place = folder_of(path).join(leads_to);
            return match fs::symlink_metadata(&place) {
                Ok(_) => Err(fault(name, "this link leads to a link that leads nowhere")),
                Err(_) => Target::of_new(name, &place),
            };
        }
        match path.file_name() {
            Some(file) if is_file_name(path) => {
                let folder = resolved(name, folder_of(path))?;
                Ok(Target::File(folder.join(file)))
            }
            _ => Err(fault(name, NO_FILE_NAME)),
        }
    }
}

const NO_FILE_NAME: &str = "this is no file's name";

/// Whether a path can be that of a new file. The path itself takes no notice of a slash at its end.
fn is_file_name(path: &Path) -> bool {
    path.file_name().is_some() && !path.to_string_lossy().ends_with('/')
}

/// The place that links lead to.
pub fn resolved(name: &OsStr, path: &Path) -> Result<PathBuf, Failure> {
    fs::canonicalize(path).map_err(|error| fault(name, error))
}

/// The folder that a file or folder lies in.
pub fn folder_of(path: &Path) -> &Path {
    match path.parent() {
        Some(folder) if folder != Path::new("") => folder,
        _ => Path::new("."),
    }
}

/// A file written beside its place; it vanishes unless it is renamed to it.
struct Staged {
    temporary: PathBuf,
    place: PathBuf,
}

impl Staged {
    fn new(place: PathBuf, bytes: &[u8]) -> io::Result<Staged> {
        let create = || Staged::create(folder_of(&place));
        let (temporary, mut file) = interrupt::make_temporary(create)?;
        let staged = Staged { temporary, place };
        if let Ok(old) = fs::metadata(&staged.place) {
            file.set_permissions(old.permissions())?;
        }
        file.write_all(bytes)?;
        Ok(staged)
    }

    /// A new file of a name that no other run has.
    fn create(folder: &Path) -> io::Result<(PathBuf, File)> {
        let process = std::process::id();
        let mut attempt = 0;
        loop {
            let path = folder.join(format!(".vokhsaot-{process}-{attempt}.tmp"));
            match OpenOptions::new().write(true).create_new(true).open(&path) {
                Err(error) if error.kind() == ErrorKind::AlreadyExists && attempt < 100 => {
                    attempt += 1;
                }
                file => return file.map(|file| (path, file)),
            }
        }
    }

    /// Puts the file in its place if nothing has that name, and tells whether it did. A link never replaces anything, whoever
    /// takes the name meanwhile.
    fn place_new(&self) -> io::Result<bool> {
        match fs::hard_link(&self.temporary, &self.place) {
            Ok(()) => Ok(true),
            Err(error) if error.kind() == ErrorKind::AlreadyExists => Ok(false),
            // Not every file system has links.
            Err(_) => self.place_claimed(),
        }
    }

    /// The same without links: an empty file takes the name, and is replaced by the whole one.
    fn place_claimed(&self) -> io::Result<bool> {
        let place = &self.place;
        let claim = || Ok((place.clone(), File::create_new(place)?));
        match interrupt::make_temporary(claim) {
            Err(error) if error.kind() == ErrorKind::AlreadyExists => return Ok(false),
            claimed => _ = claimed?,
        }
        let placed = fs::rename(&self.temporary, place);
        if placed.is_err() {
            let _ = fs::remove_file(place);
        }
        interrupt::forget_temporary(place);
        placed.map(|()| true)
    }
}

impl Drop for Staged {
    fn drop(&mut self) {
        // After the renaming there is nothing of this name.
        let _ = fs::remove_file(&self.temporary);
        interrupt::forget_temporary(&self.temporary);
    }
}

/// Nobody reads a picture's bytes: a terminal in the place of a file is a name that was forgotten.
pub fn check_picture_goes(name: &OsStr) -> Result<(), Failure> {
    match is_standard(name) && io::stdout().is_terminal() {
        true => {
            let message = "no output is named, and standard output is a terminal";
            Err(Failure::Input(message.to_owned()))
        }
        false => Ok(()),
    }
}

/// Whether files of these names could be written now: work of hours is not to be done in vain.
pub fn check_writable(names: &[&OsStr]) -> Result<(), Failure> {
    for name in names {
        if let Target::File(place) = Target::of(name)? {
            Staged::new(place, b"").map_err(|error| fault(name, error))?;
        }
    }
    Ok(())
}

/// Writes a picture, as the kind of file that its name asks for.
pub fn write_picture(name: &OsStr, picture: &Picture) -> Result<(), Failure> {
    check_picture_goes(name)?;
    write_all(&[(name, picture.written(name)?)])
}

/// Writes all outputs of a command, or none: the files are put in their places when everything else went well.
pub fn write_all(outputs: &[(&OsStr, Vec<u8>)]) -> Result<(), Failure> {
    let mut targets = Vec::new();
    for (name, _) in outputs {
        let target = Target::of(name)?;
        if targets.contains(&target) && !matches!(target, Target::Direct(_)) {
            return Err(fault(name, "two outputs would go there"));
        }
        targets.push(target);
    }
    let mut staged = Vec::new();
    let mut streams: Vec<(&OsStr, Target, &[u8])> = Vec::new();
    for ((name, bytes), target) in outputs.iter().zip(targets) {
        match target {
            Target::File(place) => {
                let file = Staged::new(place, bytes).map_err(|error| fault(name, error))?;
                staged.push((name, file));
            }
            stream => streams.push((name, stream, bytes)),
        }
    }
    for (name, target, bytes) in streams {
        match target {
            Target::Direct(path) => fs::write(path, bytes).map_err(|error| fault(name, error))?,
            _ => print(bytes)?,
        }
    }
    for (name, file) in &staged {
        fs::rename(&file.temporary, &file.place).map_err(|error| fault(name, error))?;
    }
    Ok(())
}

/// Writes a file that is not there yet: all of it, or nothing. False where something has its name, be it a link that leads
/// nowhere, and then nothing is changed.
pub fn write_new_file(place: &Path, bytes: &[u8]) -> io::Result<bool> {
    match fs::symlink_metadata(place) {
        Ok(_) => Ok(false),
        Err(_) => Staged::new(place.to_owned(), bytes)?.place_new(),
    }
}

/// The same under any name: standard output, devices and pipes are written to.
pub fn write_new(name: &OsStr, bytes: &[u8]) -> Result<bool, Failure> {
    if is_standard(name) {
        print(bytes)?;
        return Ok(true);
    }
    let path = Path::new(name);
    let written = match fs::metadata(path) {
        Ok(found) if found.is_dir() => return Err(fault(name, "this is a folder")),
        Ok(found) if !found.is_file() => fs::write(path, bytes).map(|()| true),
        Err(_) if !is_file_name(path) => return Err(fault(name, NO_FILE_NAME)),
        _ => write_new_file(path, bytes),
    };
    written.map_err(|error| fault(name, error))
}

/// Whether two names are one file or folder, by whatever links.
pub fn is_same(one: &Path, other: &Path) -> bool {
    let place = |path| fs::metadata(path).map(|found| (found.dev(), found.ino()));
    matches!((place(one), place(other)), (Ok(one), Ok(other)) if one == other)
}

#[cfg(test)]
mod tests {
    use super::*;
    use std::os::unix::fs::symlink;

    /// An empty folder.
    fn folder(name: &str) -> PathBuf {
        let name = format!("vokhsaot-{}-{name}", std::process::id());
        let path = std::env::temp_dir().join(name);
        fs::create_dir(&path).unwrap();
        path
    }

    /// By a link and without one: a new file is whole, what has the name is left, and nothing else stays behind.
    #[test]
    fn new_files_replace_nothing() {
        type Placing = fn(&Staged) -> io::Result<bool>;
        let folder = folder("new");
        let placings: [(&str, Placing); 2] = [
            ("link", Staged::place_new),
            ("claim", Staged::place_claimed),
        ];
        for (name, placing) in placings {
            let path = folder.join(name);
            let staged = Staged::new(path.clone(), b"new").unwrap();
            assert!(placing(&staged).unwrap());
            drop(staged);
            // The second comes too late.
            let staged = Staged::new(path.clone(), b"newer").unwrap();
            assert!(!placing(&staged).unwrap());
            drop(staged);
            assert_eq!(fs::read(&path).unwrap(), b"new");
            let nowhere = folder.join(format!("{name}-nowhere"));
            symlink("none", &nowhere).unwrap();
            let staged = Staged::new(nowhere.clone(), b"new").unwrap();
            assert!(!placing(&staged).unwrap());
            drop(staged);
            assert!(nowhere.symlink_metadata().unwrap().is_symlink());
            // Without the file that is to be placed there is none, not an empty one either.
            let staged = Staged::new(folder.join("gone"), b"new").unwrap();
            fs::remove_file(&staged.temporary).unwrap();
            assert!(placing(&staged).is_err());
        }
        let mut names: Vec<_> = fs::read_dir(&folder)
            .unwrap()
            .map(|entry| entry.unwrap().file_name())
            .collect();
        names.sort();
        assert_eq!(names, ["claim", "claim-nowhere", "link", "link-nowhere"]);
        fs::remove_dir_all(folder).unwrap();
    }
}
