//! A folder of texts converted into another folder: every regular file below it, to the same name there. What cannot be converted
//! is named and passed by, and the last line counts all.

use crate::convert::{converted, Kept, MOST_READ};
use crate::error::{one_line, Failure, Outcome};
use crate::files;
use crate::interrupt;
use crate::job_text::Format;
use crate::numbers::counted;
use crate::progress::Progress;
use std::collections::{BTreeMap, HashSet};
use std::ffi::OsStr;
use std::fs::{self, DirEntry, FileType};
use std::io;
use std::os::unix::fs::FileTypeExt;
use std::path::{Path, PathBuf};

pub fn convert(input: &OsStr, output: &OsStr, to: Format, quiet: bool) -> Result<Outcome, Failure> {
    if files::is_standard(output) {
        return Err(Failure::Usage {
            command: Some("convert"),
            message: "INPUT is a folder, and OUTPUT is none".to_owned(),
        });
    }
    check_apart(input, output)?;
    interrupt::ends_by_itself();
    let mut found = Vec::new();
    let listed = list(Path::new(input), Path::new(""), &mut found);
    listed.map_err(|error| files::fault(input, error))?;
    let is_listed = !interrupt::asked();
    if !Path::new(output).exists() {
        fs::create_dir(output).map_err(|error| files::fault(output, error))?;
    }
    let total = found.iter().filter(|entry| entry.is_file()).count();
    let mut archive = Archive {
        input: Path::new(input),
        output: Path::new(output),
        to,
        quiet,
        progress: Progress::new("file", total as u64),
        fates: BTreeMap::new(),
        unmade: HashSet::new(),
        bad_folders: 0,
        is_stopped: !is_listed,
    };
    found.iter().try_for_each(|entry| archive.entry(entry))?;
    archive.finish()
}

/// The two folders are apart: neither is the other or lies in it, by whatever links. So nothing is written among the inputs.
fn check_apart(input: &OsStr, output: &OsStr) -> Result<(), Failure> {
    let place = Path::new(output);
    let is_there = place.exists();
    if is_there && !place.is_dir() {
        return Err(files::fault(output, "this is no folder, and INPUT is one"));
    }
    let known = if is_there {
        place
    } else {
        files::folder_of(place)
    };
    let output_place = files::resolved(output, known)?;
    let input_place = files::resolved(input, Path::new(input))?;
    if lies_in(&output_place, &input_place) {
        return Err(files::fault(output, "this folder is INPUT, or lies in it"));
    }
    if is_there && lies_in(&input_place, &output_place) {
        return Err(files::fault(output, "INPUT lies in this folder"));
    }
    Ok(())
}

/// Whether a place is a folder or lies in it; both are without links.
fn lies_in(place: &Path, folder: &Path) -> bool {
    let mut above = place.ancestors();
    above.any(|above| files::is_same(above, folder))
}

/// What lies below a folder, by its name from there.
struct Entry {
    name: PathBuf,
    kind: Kind,
}

enum Kind {
    Folder,
    UnreadFolder(io::Error),
    File,
    UnreadFile(io::Error),
    /// Neither a folder nor a regular file, with what it is.
    Other(&'static str),
}

impl Entry {
    /// Whether it counts as a file; all that is no folder does.
    fn is_file(&self) -> bool {
        !matches!(self.kind, Kind::Folder | Kind::UnreadFolder(_))
    }
}

/// All that lies below a folder: a folder before what is in it, and names in the order of their bytes.
fn list(root: &Path, below: &Path, found: &mut Vec<Entry>) -> io::Result<()> {
    let entries = fs::read_dir(root.join(below))?;
    let mut entries = entries.collect::<io::Result<Vec<DirEntry>>>()?;
    entries.sort_by_key(DirEntry::file_name);
    for entry in entries {
        if interrupt::asked() {
            break;
        }
        let name = below.join(entry.file_name());
        let kind = match entry.file_type() {
            Ok(kind) if kind.is_dir() => Kind::Folder,
            Ok(kind) if kind.is_file() => Kind::File,
            Ok(kind) => Kind::Other(other_kind(kind)),
            Err(error) => Kind::UnreadFile(error),
        };
        let is_folder = matches!(kind, Kind::Folder);
        found.push(Entry {
            name: name.clone(),
            kind,
        });
        if is_folder {
            if let Err(error) = list(root, &name, found) {
                let kind = Kind::UnreadFolder(error);
                found.push(Entry { name, kind });
            }
        }
    }
    Ok(())
}

/// What something is that is neither a folder nor a regular file.
fn other_kind(kind: FileType) -> &'static str {
    if kind.is_symlink() {
        "a link, and links are not followed"
    } else if kind.is_fifo() {
        "a pipe"
    } else if kind.is_socket() {
        "a socket"
    } else {
        "a device"
    }
}

/// What became of a file, in the order of the last line.
#[derive(Clone, Copy, Debug, PartialEq, Eq, PartialOrd, Ord)]
enum Fate {
    Converted,
    Refused(u32),
    NotBack,
    TargetThere,
    NoRegularFile,
    Trouble,
    NotReached,
}

impl Fate {
    /// So many files, in the last line.
    fn counted(self, count: u64, to: Format) -> String {
        match self {
            Fate::Converted => format!("{count} converted to {}", to.letter()),
            Fate::Refused(number) => format!("{count} refused with {number}"),
            Fate::NotBack => format!("{count} NOT THE SAME BACK"),
            Fate::TargetThere => format!("{count} with a target that is there already"),
            Fate::NoRegularFile => format!("{count} left out (links, pipes, devices)"),
            Fate::Trouble => format!("{count} not read or not written"),
            Fate::NotReached => format!("{count} not reached"),
        }
    }
}

/// A conversion in progress.
struct Archive<'a> {
    input: &'a Path,
    output: &'a Path,
    to: Format,
    quiet: bool,
    progress: Progress,
    /// How many files had each fate.
    fates: BTreeMap<Fate, u64>,
    /// The folders that could not be made: nothing can be written in them.
    unmade: HashSet<PathBuf>,
    /// How many folders could not be read or made.
    bad_folders: u64,
    is_stopped: bool,
}

impl Archive<'_> {
    fn entry(&mut self, entry: &Entry) -> Result<(), Failure> {
        let name = &entry.name;
        self.is_stopped |= interrupt::asked();
        let (fate, said) = match &entry.kind {
            Kind::Folder | Kind::UnreadFolder(_) if self.is_stopped => return Ok(()),
            _ if self.is_stopped => (Fate::NotReached, String::new()),
            Kind::Folder => return self.folder(name),
            Kind::UnreadFolder(error) => return self.bad_folder(name, &error.to_string()),
            Kind::File => self.file(name),
            Kind::UnreadFile(error) => (Fate::Trouble, error.to_string()),
            Kind::Other(what) => (Fate::NoRegularFile, format!("left out: this is {what}")),
        };
        *self.fates.entry(fate).or_default() += 1;
        self.progress.advance();
        self.tell(name, &said)
    }

    /// Makes a folder where there is none. A link to one is none: what it leads to may be anywhere.
    fn folder(&mut self, name: &Path) -> Result<(), Failure> {
        if self.is_in_unmade(name) {
            self.unmade.insert(name.to_owned());
            return Ok(());
        }
        let place = self.output.join(name);
        let made = match fs::symlink_metadata(&place) {
            Ok(found) if found.is_dir() => return Ok(()),
            Ok(_) => Err("this is there already, and is no folder".to_owned()),
            Err(_) => fs::create_dir(&place).map_err(|error| error.to_string()),
        };
        match made {
            Ok(()) => Ok(()),
            Err(why) => {
                self.unmade.insert(name.to_owned());
                self.bad_folder(name, &format!("{}: {why}", place.display()))
            }
        }
    }

    fn is_in_unmade(&self, name: &Path) -> bool {
        let folder = name.parent();
        folder.is_some_and(|folder| self.unmade.contains(folder))
    }

    fn bad_folder(&mut self, name: &Path, why: &str) -> Result<(), Failure> {
        self.bad_folders += 1;
        self.tell(name, why)
    }

    /// Converts a file: what becomes of it, and what is said about that.
    fn file(&self, name: &Path) -> (Fate, String) {
        if self.is_in_unmade(name) {
            return (Fate::Trouble, "its folder could not be made".to_owned());
        }
        let text = match files::read_beginning(&self.input.join(name), MOST_READ) {
            Ok(text) => text,
            Err(error) => return (Fate::Trouble, error.to_string()),
        };
        let bytes = match converted(&text, self.to) {
            Ok(bytes) => bytes,
            Err(kept) => return (fate_of(&kept), kept.text(&text, self.to)),
        };
        let place = self.output.join(name);
        let shown = place.display();
        match files::write_new_file(&place, &bytes) {
            Ok(true) => (Fate::Converted, String::new()),
            Ok(false) => {
                let how = how_it_is(&place, &bytes);
                let said = format!("not written: {shown} is there already, {how}");
                (Fate::TargetThere, said)
            }
            Err(error) => (Fate::Trouble, format!("{shown}: {error}")),
        }
    }

    /// A line about a file or folder, where there is anything to say.
    fn tell(&self, name: &Path, said: &str) -> Result<(), Failure> {
        if self.quiet || said.is_empty() {
            return Ok(());
        }
        let line = one_line(&format!("{}: {said}", self.input.join(name).display()));
        self.progress
            .aside(|| files::print(format!("{line}\n").as_bytes()))
    }

    fn count(&self, fate: Fate) -> u64 {
        self.fates.get(&fate).copied().unwrap_or(0)
    }

    /// The last line.
    fn summary(&self) -> String {
        let total: u64 = self.fates.values().sum();
        let mut parts = vec![Fate::Converted.counted(self.count(Fate::Converted), self.to)];
        let others = self
            .fates
            .iter()
            .filter(|(fate, _)| **fate != Fate::Converted);
        parts.extend(others.map(|(fate, count)| fate.counted(*count, self.to)));
        if self.bad_folders > 0 {
            let folders = counted(self.bad_folders, "folder");
            parts.push(format!("{folders} not read or not made"));
        }
        if self.is_stopped {
            parts.push("stopped".to_owned());
        }
        format!("{}: {}\n", counted(total, "file"), parts.join(", "))
    }

    fn finish(mut self) -> Result<Outcome, Failure> {
        self.progress.finish();
        files::print(self.summary().as_bytes())?;
        let troubles = self.count(Fate::Trouble) + self.bad_folders;
        if troubles > 0 {
            let why = format!("{troubles} of its files and folders could not be read or written");
            return Err(files::fault(self.input.as_os_str(), why));
        }
        // A folder without a text is hardly the one that was meant.
        let is_all = self.fates.keys().eq(&[Fate::Converted]);
        Ok(Outcome::good_if(is_all && !self.is_stopped))
    }
}

fn fate_of(kept: &Kept) -> Fate {
    match kept {
        Kept::Refused(refusal) => Fate::Refused(refusal.number()),
        Kept::NotBack(_) => Fate::NotBack,
    }
}

/// How a target is that was there before: an earlier run that was stopped leaves the bytes that are due.
fn how_it_is(place: &Path, due: &[u8]) -> &'static str {
    if !fs::symlink_metadata(place).is_ok_and(|found| found.is_file()) {
        return "and is no file";
    }
    match files::read_beginning(place, due.len() + 1) {
        Ok(bytes) if bytes == due => "with the bytes that are due",
        Ok(_) => "with other bytes",
        Err(_) => "and cannot be read",
    }
}
