//! Tells the tool which commit it is built from, for `--version`, the manual and reports.

use std::fs;
use std::path::PathBuf;
use std::process::Command;

/// What the tool is made of. What else changes in the repository does not make it another tool.
const SOURCES: [&str; 8] = [
    "src",
    "build.rs",
    "Cargo.toml",
    "Cargo.lock",
    "../rust/src",
    "../rust/build.rs",
    "../reference/src",
    "../crates",
];

/// What git prints about the repository, where there is one.
fn git(arguments: &[&str]) -> Option<String> {
    let output = Command::new("git").args(arguments).output().ok()?;
    let text = String::from_utf8(output.stdout).ok()?;
    output.status.success().then(|| text.trim().to_owned())
}

/// The commit, and whether a source is not as it is there.
fn commit() -> Option<String> {
    let commit = git(&["rev-parse", "--short=12", "HEAD"])?;
    let status = ["status", "--porcelain", "--untracked-files=no", "--"];
    let changes = git(&[&status[..], &SOURCES[..]].concat())?;
    Some(match changes.as_str() {
        "" => commit,
        _ => format!("{commit} with changes"),
    })
}

/// The files and folders whose change is one of a source: of `../crates` the parts of each crate, without what the prover keeps in its `out`.
fn watched(source: &str) -> Vec<PathBuf> {
    if source != "../crates" {
        return vec![source.into()];
    }
    let entries = |folder: PathBuf| fs::read_dir(folder).into_iter().flatten().flatten();
    let parts = entries(source.into()).flat_map(|one| entries(one.path()));
    parts
        .filter(|part| part.file_name() != "out")
        .map(|part| part.path())
        .collect()
}

fn main() {
    let commit = commit().unwrap_or_else(|| "unknown".to_owned());
    println!("cargo:rustc-env=VOKHSAOT_COMMIT={commit}");
    let date = git(&["log", "-1", "--format=%cs"]).unwrap_or_default();
    println!("cargo:rustc-env=VOKHSAOT_DATE={date}");
    for path in SOURCES.iter().flat_map(|source| watched(source)) {
        println!("cargo:rerun-if-changed={}", path.display());
    }
    // HEAD's log has a line for each commit and checkout.
    for file in ["HEAD", "index", "logs/HEAD"] {
        if let Some(path) = git(&["rev-parse", "--git-path", file]) {
            println!("cargo:rerun-if-changed={path}");
        }
    }
}
