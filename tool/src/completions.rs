//! `completions`: what a shell completes after `vokhsaot`.

use crate::command_line;
use crate::error::{Failure, Outcome};
use crate::files;
use clap_complete::Shell;

/// Print what a shell needs to complete command lines
#[derive(clap::Args)]
#[command(
    before_help = "\
Prints a script for a shell. Bash reads one from
~/.local/share/bash-completion/completions/vokhsaot, zsh from a file _vokhsaot in
a folder of its fpath, fish from ~/.config/fish/completions/vokhsaot.fish.",
    after_help = "\
Examples:
  $ vokhsaot completions bash > vokhsaot.bash"
)]
pub struct Options {
    /// The shell
    #[arg(value_enum)]
    shell: Shell,
}

pub fn command(options: &Options) -> Result<Outcome, Failure> {
    let mut definition = command_line::definition();
    let mut script = Vec::new();
    clap_complete::generate(options.shell, &mut definition, "vokhsaot", &mut script);
    if options.shell == Shell::Bash {
        script = without_operands(&String::from_utf8_lossy(&script)).into_bytes();
    }
    files::print(&script)?;
    Ok(Outcome::Good)
}

/// A script for bash without the names of operands, which clap_complete offers as words to be typed: `[INPUT]`. Where no
/// other word is left bash completes names of files.
fn without_operands(script: &str) -> String {
    let mut found = String::new();
    for line in script.lines() {
        match line.split_once("opts=\"") {
            None => found += line,
            Some((before, words)) => {
                let is_operand = |word: &&str| word.starts_with(['[', '<']);
                let words = words.trim_end_matches('"').split(' ');
                let words: Vec<&str> = words.filter(|word| !is_operand(word)).collect();
                found += &format!("{before}opts=\"{}\"", words.join(" "));
            }
        }
        found.push('\n');
    }
    found
}

#[cfg(test)]
mod tests {
    use super::*;

    #[test]
    fn names_of_operands_are_no_words() {
        let script = "a)\n  opts=\"-h --at bash [INPUT] <OTHER>...\"\n  if [[ <x> ]]\n";
        let found = "a)\n  opts=\"-h --at bash\"\n  if [[ <x> ]]\n";
        assert_eq!(without_operands(script), found);
    }
}
