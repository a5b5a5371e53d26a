//! Finds the proved library and links it: one archive, libunderhill_mem.a, for protector and
//! registrar.
//!
//! It is looked for in the folder that UNDERHILL_MEM_LIB names, else in target/staticlib of the
//! repository. There, where it is missing or older than its source, it is made: `rt lib` builds
//! crates/underhill_mem_c, and what that gives is copied under the name that C callers know.

use std::fs;
use std::path::Path;
use std::path::PathBuf;
use std::process::Command;
use std::time::SystemTime;

/// The crate that exports the entries, a static library.
const LIBRARY: &str = "underhill_mem_c";

/// The name of the archive, without lib and .a.
const ARCHIVE: &str = "underhill_mem";

fn main() {
    println!("cargo::rerun-if-changed=build.rs");
    println!("cargo::rerun-if-env-changed=UNDERHILL_MEM_LIB");
    let folder = match std::env::var_os("UNDERHILL_MEM_LIB").map(PathBuf::from) {
        Some(folder) => named(folder),
        None => made(),
    };
    let archive = file(&folder, ARCHIVE);
    println!("cargo::rerun-if-changed={}", archive.display());
    println!("cargo::rustc-link-search=native={}", folder.display());
    println!("cargo::rustc-link-lib=static={ARCHIVE}");
    // For the test that links it to a C program.
    let archive = archive.display();
    println!("cargo::rustc-env=UNDERHILL_MEM_ARCHIVE={archive}");
}

fn file(folder: &Path, name: &str) -> PathBuf {
    folder.join(format!("lib{name}.a"))
}

/// The folder that the variable names: nothing is made there.
fn named(folder: PathBuf) -> PathBuf {
    if !folder.is_absolute() {
        stop("UNDERHILL_MEM_LIB is no absolute path");
    }
    let archive = file(&folder, ARCHIVE);
    if !archive.is_file() {
        stop(&format!(
            "{} is not there (UNDERHILL_MEM_LIB names the folder)",
            archive.display()
        ));
    }
    folder
}

/// The repository's own folder.
fn made() -> PathBuf {
    // This package is repository/rust/underhill_mem_port.
    let package = PathBuf::from(std::env::var_os("CARGO_MANIFEST_DIR").expect("cargo sets it"));
    let repository = package.ancestors().nth(2).expect("it lies two deep");
    // A crate that is new has its line there. Not the folder of the crates: rt writes below it.
    println!(
        "cargo::rerun-if-changed={}",
        repository.join("crates.txt").display()
    );
    let sources = sources(&repository.join("crates"));
    for source in &sources {
        println!("cargo::rerun-if-changed={}", source.display());
    }
    let folder = repository.join("target/staticlib");
    let archive = file(&folder, ARCHIVE);
    if changed(&archive).is_none_or(|made| newest(&sources) > Some(made)) {
        make(repository, &archive);
    }
    folder
}

/// Builds the library, and copies it to its place.
fn make(repository: &Path, archive: &Path) {
    let missing = format!(
        "{} is not at hand (or older than its source), and `rt lib` in crates/{LIBRARY} did not \
         make it",
        archive.display()
    );
    let hint = "Put the Rattle kit's rt on the PATH, or name a folder with the library in \
                UNDERHILL_MEM_LIB.";
    if !repository.join("crates.txt").is_file() {
        let place = repository.display();
        stop(&format!("{missing}: {place} has no crates.txt. {hint}"));
    }
    let package = repository.join("crates").join(LIBRARY);
    let built = file(&package.join("out"), LIBRARY);
    let mut command = Command::new("rt");
    command.arg("lib").current_dir(&package);
    match command.output() {
        Err(error) => stop(&format!("{missing}: rt: {error}. {hint}")),
        Ok(output) if !output.status.success() || !built.is_file() => {
            let said = [output.stdout, output.stderr].concat();
            stop(&format!(
                "{missing} ({}). It said:\n{}",
                output.status,
                String::from_utf8_lossy(&said)
            ));
        }
        Ok(_) => (),
    }
    let folder = archive.parent().expect("it lies in a folder");
    if let Err(error) = fs::create_dir_all(folder).and_then(|()| fs::copy(&built, archive)) {
        stop(&format!("{missing}: {}: {error}", built.display()));
    }
}

fn changed(file: &Path) -> Option<SystemTime> {
    fs::metadata(file).ok()?.modified().ok()
}

/// The source folder of each crate, crates/NAME/src.
fn sources(crates: &Path) -> Vec<PathBuf> {
    let folders = fs::read_dir(crates).into_iter().flatten().flatten();
    let sources = folders.map(|folder| folder.path().join("src"));
    sources.filter(|source| source.is_dir()).collect()
}

/// When a file in them was changed last.
fn newest(sources: &[PathBuf]) -> Option<SystemTime> {
    let folders = sources
        .iter()
        .filter_map(|source| fs::read_dir(source).ok());
    let files = folders.flatten().flatten();
    files.filter_map(|file| changed(&file.path())).max()
}

fn stop(text: &str) -> ! {
    eprintln!("underhill_mem_port: {text}");
    std::process::exit(1)
}
