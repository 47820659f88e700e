//! What the tests share: folders of their own, the tool, and the commands of netpbm.
#![allow(dead_code)]

use reference::kernel::Choice;
use reference::random::Random;
use reference::shape::Shape;
use std::fs;
use std::io::Write;
use std::path::{Path, PathBuf};
use std::process::{Command, Output, Stdio};
use std::sync::atomic::{AtomicUsize, Ordering};
use std::thread;

/// The tool.
pub const TOOL: &str = env!("CARGO_BIN_EXE_vokhsaot");

/// The choices of f with their options. Who names none gets the first.
pub const CHOICES: [(Choice, &str); 3] = [
    (Choice::Binomial, ""),
    (Choice::Binomial, "--choice binomial"),
    (Choice::Smallest, "--choice smallest"),
];

/// An empty folder, taken away at the end.
pub struct Folder(PathBuf);

impl Folder {
    pub fn new(name: &str) -> Folder {
        static COUNT: AtomicUsize = AtomicUsize::new(0);
        let (process, count) = (std::process::id(), COUNT.fetch_add(1, Ordering::Relaxed));
        let name = format!("{name}-{process}-{count}");
        let path = Path::new(env!("CARGO_TARGET_TMPDIR")).join(name);
        let _ = fs::remove_dir_all(&path);
        fs::create_dir_all(&path).unwrap();
        Folder(path)
    }

    pub fn path(&self) -> &Path {
        &self.0
    }

    pub fn file(&self, name: &str, bytes: impl AsRef<[u8]>) -> String {
        fs::write(self.0.join(name), bytes).unwrap();
        name.to_owned()
    }

    pub fn read(&self, name: &str) -> Vec<u8> {
        fs::read(self.0.join(name)).unwrap()
    }

    /// The names of all files, in order.
    pub fn names(&self) -> Vec<String> {
        let entries = fs::read_dir(&self.0).unwrap();
        let mut names: Vec<String> = entries
            .map(|entry| entry.unwrap().file_name().into_string().unwrap())
            .collect();
        names.sort();
        names
    }

    /// Runs the tool here with the words of a line.
    pub fn run(&self, line: &str, input: &[u8]) -> Ran {
        let mut command = Command::new(TOOL);
        command.args(line.split_whitespace()).current_dir(&self.0);
        Ran::of(fed(command, input))
    }
}

impl Drop for Folder {
    fn drop(&mut self) {
        let _ = fs::remove_dir_all(&self.0);
    }
}

/// What a run of the tool did.
#[derive(Debug, PartialEq)]
pub struct Ran {
    pub status: i32,
    pub stdout: Vec<u8>,
    pub stderr: String,
}

impl Ran {
    fn of(output: Output) -> Ran {
        let stderr = String::from_utf8(output.stderr).unwrap();
        assert!(!stderr.contains("panicked"), "{stderr}");
        Ran {
            status: output.status.code().expect("an exit status"),
            stdout: output.stdout,
            stderr,
        }
    }

    /// What was printed by a run without error.
    pub fn good(self) -> Vec<u8> {
        assert_eq!((self.status, self.stderr.as_str()), (0, ""));
        self.stdout
    }

    pub fn text(self) -> String {
        String::from_utf8(self.good()).unwrap()
    }

    /// A run that printed only this error.
    pub fn assert_failed(self, status: i32, message: &str) {
        assert_eq!(self.stderr, format!("vokhsaot: {message}\n"));
        assert_eq!((self.status, self.stdout.as_slice()), (status, &b""[..]));
    }
}

/// Runs a command that is fed an input.
pub fn fed(mut command: Command, input: &[u8]) -> Output {
    command.stdin(Stdio::piped());
    command.stdout(Stdio::piped()).stderr(Stdio::piped());
    let mut child = command.spawn().unwrap();
    let mut pipe = child.stdin.take().unwrap();
    thread::scope(|scope| {
        // A command that does not read its input closes the pipe, which is no fault.
        scope.spawn(move || pipe.write_all(input));
        child.wait_with_output().unwrap()
    })
}

/// Runs a command of netpbm; what it prints, where it is satisfied.
pub fn netpbm(line: &str, input: &[u8]) -> Option<Vec<u8>> {
    let mut words = line.split_whitespace();
    let name = words.next().unwrap();
    let found = std::env::split_paths(&std::env::var_os("PATH").unwrap_or_default())
        .any(|folder| folder.join(name).is_file());
    assert!(found, "{name} is missing: apt-get install netpbm");
    let mut command = Command::new(name);
    command.args(words);
    let output = fed(command, input);
    output.status.success().then_some(output.stdout)
}

/// The header and the pixels of a picture as netpbm reads it: width, height, maxval, pixels. It wants something after the
/// last plain pixel, which the format does not ask for.
pub fn numbers(picture: &[u8]) -> Option<Vec<u32>> {
    let ended = [picture, b"\n"].concat();
    let plain = netpbm(
        "pgmtopgm -plain",
        if picture.starts_with(b"P2") {
            &ended
        } else {
            picture
        },
    )?;
    let text = String::from_utf8(plain).unwrap();
    let numbers = text.strip_prefix("P2")?.split_whitespace();
    Some(numbers.map(|word| word.parse().unwrap()).collect())
}

/// A plain picture.
pub fn plain(width: u32, height: u32, maxval: u16, pixels: &[u16]) -> String {
    let pixels: Vec<String> = pixels.iter().map(u16::to_string).collect();
    format!("P2\n{width} {height}\n{maxval}\n{}\n", pixels.join("\n"))
}

/// The option of a shape.
pub fn option(shape: Shape) -> String {
    match shape {
        Shape::Matrix(c) => format!("--matrix {},{},{}", c.xx, c.xy, c.yy),
        Shape::Round(variance) => format!("--round {variance}"),
        Shape::Oval {
            long,
            short,
            direction,
        } => format!(
            "--oval {long},{short},{},{}",
            direction.cosine, direction.sine
        ),
    }
}

/// A matrix whose larger variance is all that its steps can carry, or one unit less.
pub fn full_shape(random: &mut Random) -> (Shape, u32) {
    let steps = random.between(1, 64) as u32;
    let larger = 4096 * i64::from(steps) - random.between(0, 1);
    let smaller = random.between(0, larger);
    let xy = random.between(-smaller, smaller);
    let (xx, yy) = random.pick(&[(larger, smaller), (smaller, larger)]);
    (Shape::matrix(xx as i32, xy as i32, yy as i32), steps)
}
