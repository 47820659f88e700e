//! Finds the proved static library and links it: `libvokhsaot.a`, as it is installed, or `libcapi.a`, as `rt lib` writes it in
//! `crates/capi`. `VOKHSAOT_LIB_DIR` names its folder; without it, it is looked for in the repository.

use std::env;
use std::path::{Path, PathBuf};
use std::process::exit;
use std::time::SystemTime;

/// What the library is called to the linker, in the order in which a folder is searched.
const NAMES: [&str; 2] = ["vokhsaot", "capi"];

/// Where the repository has it, below its root.
const BUILT: [&str; 2] = ["target/dist/lib", "crates/capi/out"];

/// A library that was found.
struct Library {
    folder: PathBuf,
    name: &'static str,
    changed: SystemTime,
}

fn file(folder: &Path, name: &str) -> PathBuf {
    folder.join(format!("lib{name}.a"))
}

/// The library of a folder, where it has one.
fn library_in(folder: &Path) -> Option<Library> {
    NAMES.iter().find_map(|name| {
        let about = file(folder, name).metadata().ok()?;
        about.is_file().then(|| Library {
            folder: folder.to_owned(),
            name,
            changed: about.modified().unwrap_or(SystemTime::UNIX_EPOCH),
        })
    })
}

/// A folder as the caller of cargo means it. Cargo runs this program in the package's folder, and so the caller's is known by
/// PWD alone.
fn as_called(named: &Path) -> Result<PathBuf, String> {
    if named.is_absolute() {
        return Ok(named.to_owned());
    }
    println!("cargo:rerun-if-env-changed=PWD");
    match env::var_os("PWD").map(PathBuf::from) {
        Some(caller) if caller.is_absolute() => Ok(caller.join(named)),
        _ => Err(format!(
            "VOKHSAOT_LIB_DIR is {}, a relative path, and PWD does not tell from which folder: set it to a path that begins with /.",
            named.display()
        )),
    }
}

/// The library of the folder that the caller names.
fn named(folder: &Path) -> Result<Library, String> {
    let folder = as_called(folder)?;
    let library = library_in(&folder).ok_or_else(|| {
        format!(
            "VOKHSAOT_LIB_DIR names {}, which has neither libvokhsaot.a nor libcapi.a: run ./build.sh in the repository, which \
             writes libvokhsaot.a to target/dist/lib, or name the folder where it is installed.",
            folder.display()
        )
    })?;
    watch(&library);
    Ok(library)
}

/// The repository's own library: of two the one that was written last.
fn built() -> Result<Library, String> {
    let package = env::var_os("CARGO_MANIFEST_DIR").expect("cargo sets it");
    let root = Path::new(&package).join("..");
    let folders = BUILT.iter().map(|folder| root.join(folder));
    let libraries: Vec<Library> = folders.filter_map(|folder| library_in(&folder)).collect();
    libraries.iter().for_each(watch);
    let last = libraries.into_iter().max_by_key(|library| library.changed);
    last.ok_or_else(|| {
        "the proved static library is not built yet: run ./build.sh in the repository, or set VOKHSAOT_LIB_DIR to the folder \
         that has libvokhsaot.a."
            .to_owned()
    })
}

/// Has cargo run this program again when the library changes.
fn watch(library: &Library) {
    let file = file(&library.folder, library.name);
    println!("cargo:rerun-if-changed={}", file.display());
}

fn main() {
    println!("cargo:rerun-if-changed=build.rs");
    println!("cargo:rerun-if-env-changed=VOKHSAOT_LIB_DIR");
    let folder = env::var_os("VOKHSAOT_LIB_DIR").filter(|folder| !folder.is_empty());
    let found = match folder {
        Some(folder) => named(Path::new(&folder)),
        None => built(),
    };
    let library = found.unwrap_or_else(|message| {
        eprintln!("{message}");
        exit(1)
    });
    println!(
        "cargo:rustc-link-search=native={}",
        library.folder.display()
    );
    println!("cargo:rustc-link-lib=static={}", library.name);
}
