//! What can end a command early, and the exit statuses, as `cmp`'s and `grep`'s: 0 done, 1 something differs, 2 trouble.

use std::fmt;
use std::io::{self, Write};

/// How a command that did its work ends.
#[derive(Clone, Copy, Debug, PartialEq, Eq)]
pub enum Outcome {
    /// Nothing is amiss.
    Good,
    /// Something differs, a promise is broken, or nothing was judged: what was printed tells.
    Differs,
}

impl Outcome {
    pub fn good_if(good: bool) -> Outcome {
        if good {
            Outcome::Good
        } else {
            Outcome::Differs
        }
    }

    pub fn status(self) -> u8 {
        match self {
            Outcome::Good => 0,
            Outcome::Differs => 1,
        }
    }
}

/// Why a command did not do its work.
#[derive(Debug, PartialEq)]
pub enum Failure {
    /// The command line asks for nothing that exists; with the command whose help tells more.
    Usage {
        command: Option<&'static str>,
        message: String,
    },
    /// The proved library refused a call.
    Refused(vokhsaot::Error),
    /// An input that cannot be understood, or a file that cannot be read or written.
    Input(String),
    /// Whoever read standard output went away, which is nothing to talk about.
    ReaderGone,
}

impl Failure {
    /// The same with the line of a list that it belongs to.
    pub fn in_line(self, number: usize) -> Failure {
        match self {
            Failure::Input(message) => Failure::Input(format!("line {number}: {message}")),
            failure => failure,
        }
    }
}

/// The exit status of every failure.
pub const TROUBLE: u8 = 2;

impl From<vokhsaot::Error> for Failure {
    fn from(refusal: vokhsaot::Error) -> Failure {
        Failure::Refused(refusal)
    }
}

/// A text in one line, whatever it was made of: no name and no list moves the cursor.
pub fn one_line(text: &str) -> String {
    text.replace(char::is_control, "?")
}

/// A line on standard error, where there is anything to say. That nobody can read it changes nothing.
pub fn say(text: &str) {
    if !text.is_empty() {
        let _ = writeln!(io::stderr(), "vokhsaot: {}", one_line(text));
    }
}

/// A refusal by number and sentence, the same wherever one is printed.
pub fn refusal_text(refusal: vokhsaot::Error) -> String {
    format!("refused ({}): {refusal}", refusal.number())
}

impl fmt::Display for Failure {
    fn fmt(&self, f: &mut fmt::Formatter<'_>) -> fmt::Result {
        match self {
            Failure::Usage {
                command: None,
                message,
            } => write!(f, "{message} (see vokhsaot --help)"),
            Failure::Usage {
                command: Some(command),
                message,
            } => write!(f, "{message} (see vokhsaot {command} --help)"),
            Failure::Refused(refusal) => f.write_str(&refusal_text(*refusal)),
            Failure::Input(message) => f.write_str(message),
            Failure::ReaderGone => Ok(()),
        }
    }
}
