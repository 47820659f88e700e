//! The examples print what is stored beside them.
//!
//! `cargo test` builds them before it runs this; `cargo test --test examples` alone does not, and needs `--examples` too.

use std::path::PathBuf;
use std::process::Command;

/// The program of an example: cargo puts it beside the folder of the test programs.
fn program(name: &str) -> PathBuf {
    let this = std::env::current_exe().unwrap();
    let built = this.parent().and_then(|folder| folder.parent()).unwrap();
    built.join("examples").join(name)
}

/// The names of the files in `examples` with an ending, in order.
fn names(ending: &str) -> Vec<String> {
    let folder = concat!(env!("CARGO_MANIFEST_DIR"), "/examples");
    let files = std::fs::read_dir(folder)
        .unwrap()
        .map(|entry| entry.unwrap());
    let mut names: Vec<String> = files
        .filter_map(|file| {
            let name = file.file_name().into_string().unwrap();
            name.strip_suffix(ending).map(str::to_owned)
        })
        .collect();
    names.sort();
    names
}

#[test]
fn examples_print_what_is_stored() {
    let programs = names(".rs");
    assert_eq!(
        programs,
        ["change_over", "kernels", "service", "smooth_picture"]
    );
    assert_eq!(names(".expected"), programs);
    for name in programs {
        let printed = Command::new(program(&name))
            .output()
            .unwrap_or_else(|error| panic!("{name}: {error}; run cargo test as a whole"));
        assert!(printed.status.success(), "{name}: {printed:?}");
        assert_eq!(printed.stderr, b"", "{name}");
        let path = format!("{}/examples/{name}.expected", env!("CARGO_MANIFEST_DIR"));
        let stored = std::fs::read_to_string(path).unwrap();
        assert_eq!(String::from_utf8(printed.stdout).unwrap(), stored, "{name}");
    }
}
