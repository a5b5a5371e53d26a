//! Copies the three source files beside our init.rs, compares them byte for byte, and writes the
//! line that makes a module of them. Nothing of theirs is kept outside the build folder.

use std::fs;
use std::path::Path;
use std::path::PathBuf;

const SOURCES: [&str; 3] = ["lib.rs", "mapping.rs", "registrar.rs"];

/// From this package (repository/rust/oracle/source) to the folder beside the repository.
const BESIDE: &str = "../../../../shared/docs/src/openhcl/underhill_mem/src";

fn main() {
    let from = source_folder();
    let out = PathBuf::from(variable("OUT_DIR"));
    for name in SOURCES {
        copy_unchanged(&from.join(name), &out.join(name));
    }
    let own = Path::new(&variable("CARGO_MANIFEST_DIR")).join("src/init.rs");
    copy_unchanged(&own, &out.join("init.rs"));
    let module =
        "#[allow(unused, private_interfaces, clippy::all)]\n#[path = \"lib.rs\"]\nmod unchanged;\n";
    fs::write(out.join("module.rs"), module).expect("the build folder can be written");
    println!("cargo::rerun-if-changed=build.rs");
    println!("cargo::rerun-if-env-changed=UNDERHILL_MEM_SRC");
}

fn source_folder() -> PathBuf {
    match std::env::var_os("UNDERHILL_MEM_SRC").map(PathBuf::from) {
        Some(folder) if folder.is_absolute() => folder,
        Some(_) => panic!("UNDERHILL_MEM_SRC is no absolute path"),
        None => Path::new(&variable("CARGO_MANIFEST_DIR")).join(BESIDE),
    }
}

fn copy_unchanged(from: &Path, to: &Path) {
    println!("cargo::rerun-if-changed={}", from.display());
    let read = |path: &Path| match fs::read(path) {
        Ok(bytes) => bytes,
        Err(error) => panic!(
            "{}: {error} (UNDERHILL_MEM_SRC names the folder with {})",
            path.display(),
            SOURCES.join(", ")
        ),
    };
    let bytes = read(from);
    fs::write(to, &bytes).expect("the build folder can be written");
    assert!(read(to) == read(from), "{} was changed", to.display());
}

fn variable(name: &str) -> String {
    std::env::var(name).expect("cargo sets it")
}
