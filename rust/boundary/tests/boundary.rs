//! That the entries are the same in the header, in the Rust declarations, in the crates and in the
//! theorem over every list of calls: a new one can't be left out of any.

use boundary::Fields;
use boundary::Records;
use boundary::Signature;
use boundary::Signatures;
use boundary::differences;
use boundary::header;
use boundary::rattle;
use boundary::rattle::Sources;
use boundary::rust;
use boundary::theorem;
use std::collections::BTreeMap;
use std::collections::BTreeSet;
use std::fs;
use std::path::PathBuf;

/// A file or folder of the repository, which lies two above this package.
fn place(path: &str) -> PathBuf {
    let package = PathBuf::from(env!("CARGO_MANIFEST_DIR"));
    package.ancestors().nth(2).expect("two above").join(path)
}

fn read(path: &str) -> String {
    fs::read_to_string(place(path)).unwrap_or_else(|error| panic!("{path}: {error}"))
}

fn header_text() -> String {
    read("include/underhill_mem.h")
}

/// What each crate's `src` holds.
fn sources() -> Sources {
    let folders = fs::read_dir(place("crates")).expect("the crates").flatten();
    let source = |folder: fs::DirEntry| {
        let files = fs::read_dir(folder.path().join("src")).ok()?.flatten();
        let texts = files.filter_map(|file| fs::read_to_string(file.path()).ok());
        let name = folder.file_name().into_string().ok()?;
        Some((name, texts.collect::<Vec<_>>().join("\n")))
    };
    folders.filter_map(source).collect()
}

fn shown(signature: &Signature) -> String {
    signature.to_string()
}

fn same(unlike: Vec<String>) {
    assert!(unlike.is_empty(), "{}", unlike.join("\n"));
}

/// The header against the crates and against Rust.
fn same_thrice<T: PartialEq>(
    header: &BTreeMap<String, T>,
    entries: &BTreeMap<String, T>,
    declared: &BTreeMap<String, T>,
    shown: impl Fn(&T) -> String,
) {
    let header = ("the header", header);
    same(differences(header, ("the crates", entries), &shown));
    same(differences(header, ("Rust", declared), &shown));
}

fn in_header(text: &str) -> Signatures {
    header::signatures(text).expect("the header is read")
}

fn in_crates() -> (Signatures, BTreeMap<String, String>) {
    rattle::entries(&sources()).expect("the crates are read")
}

#[test]
fn signatures_are_the_same_everywhere() {
    let header = in_header(&header_text());
    let (entries, _) = in_crates();
    let declared = rust::signatures(&read("rust/underhill_mem_port/src/raw/entries.rs"));
    let declared = declared.expect("the declarations are read");
    assert!(!entries.is_empty());
    same_thrice(&header, &entries, &declared, shown);
}

#[test]
fn records_are_the_same_everywhere() {
    let header = header::records(&header_text()).expect("the header is read");
    let entries = rattle::records(&sources()).expect("the crates are read");
    let of = |family: &str, names: &[&str]| {
        let text = read(&format!("rust/underhill_mem_port/src/raw/{family}.rs"));
        rust::records(&text, family, names).expect("the declarations are read")
    };
    let mut declared: Records = of("protector", &["Reply", "Value"]);
    declared.extend(of("registrar", &["Reply"]));
    let shown = |fields: &Fields| format!("{fields:?}");
    same_thrice(&header, &entries, &declared, shown);
}

#[test]
fn constants_are_the_same_in_rust() {
    let constants = header::constants(&header_text());
    assert_eq!(constants.len(), 5);
    let folder = "rust/underhill_mem_port/src/raw";
    let protector =
        ["protector.rs", "protector/changes.rs"].map(|f| read(&format!("{folder}/{f}")));
    let registrar = [read(&format!("{folder}/registrar.rs"))];
    for (name, number) in constants {
        let (family, name) = name.split_once('_').expect("a family and a name");
        let texts = match family {
            "PROTECTOR" => &protector[..],
            _ => &registrar,
        };
        let mut lines = texts.iter().flat_map(|text| text.lines());
        let found = lines.find(|line| line.starts_with(&format!("pub const {name}:")));
        let found = found.unwrap_or_else(|| panic!("Rust has no {name} of the {family}"));
        assert!(found.ends_with(&format!(" = {number};")), "{found}");
    }
}

/// What the claims read of the protector's entries: their contracts (`Made`), and what they ask
/// for (`Unasked`); and of the registrar's what they ask for.
fn made_text() -> String {
    read("crates/history/specs/Made.antt")
}

fn asked_of_registrar() -> String {
    read("crates/registrar_claims/specs/Entries.antt")
}

/// The entries of the header with that prefix, with their crates, and those whose part a text reads.
fn theorem_differs(header: &Signatures, prefix: &str, text: &str, part: &str) -> Vec<String> {
    let (_, crates) = in_crates();
    let of_prefix = header.keys().filter(|name| name.starts_with(prefix));
    let wanted = of_prefix.map(|name| {
        let place = crates.get(name).cloned();
        (name.clone(), place.unwrap_or_default())
    });
    let read = theorem::entries(text, part);
    differences(
        ("the header", &wanted.collect()),
        ("the theorem", &read),
        String::clone,
    )
}

#[test]
fn the_theorems_are_about_every_entry() {
    let header = in_header(&header_text());
    let made = made_text();
    same(theorem_differs(&header, "protector_", &made, "Learnt"));
    same(theorem_differs(&header, "protector_", &made, "Asked"));
    let asked = asked_of_registrar();
    same(theorem_differs(&header, "registrar_", &asked, "Asked"));
}

#[test]
fn what_is_exported_is_linked() {
    let build = read("rust/underhill_mem_port/build.rs");
    let linked = build
        .split_once("const LIBRARY: &str = \"")
        .expect("the library's crate");
    let linked = linked.1.split_once('"').expect("its end").0;
    let exports = rattle::exports(&sources()).expect("the crates are read");
    let exported: BTreeSet<_> = exports.values().map(|e| e.exported_by.as_str()).collect();
    assert_eq!(exported, BTreeSet::from([linked]));
    let line = format!("{linked} staticlib:");
    assert!(
        read("crates.txt").lines().any(|l| l.starts_with(&line)),
        "{line}"
    );
}

#[test]
fn an_export_is_the_libraries_function() {
    let mut sources = sources();
    let wrong = rattle::wrong_calls(&sources).expect("the crates are read");
    same(wrong);
    // Another function, arguments in another order, another clause, another answer.
    let place = "underhill_mem_c";
    let text = sources[place].clone();
    for (from, to) in [
        ("::protector_lock_gpns(", "::protector_unlock_gpns("),
        ("(state, tables, vtl, gpn)", "(state, tables, gpn, vtl)"),
        ("≡ enable_of state.old", "≡ enable_of state.new"),
        ("setting_entries::", "registrar::"),
        ("    registrar::", "    let _ = registrar::"),
    ] {
        assert!(text.contains(from), "{from}");
        sources.insert(place.to_string(), text.replacen(from, to, 1));
        let wrong = rattle::wrong_calls(&sources).expect("the crates are read");
        assert_eq!(wrong.len(), 1, "{from}: {wrong:?}");
    }
}

/// An edit of the header, and the entry at which it is seen.
fn is_seen(entry: &str, from: &str, to: &str) {
    let text = header_text();
    let (before, declared) = text.split_once(&format!("{entry}(")).expect("an entry");
    assert!(declared.contains(from), "{entry}: {from}");
    let edited = format!("{before}{entry}({}", declared.replacen(from, to, 1));
    let (entries, _) = in_crates();
    match header::signatures(&edited) {
        Err(error) => assert!(error.starts_with(entry), "{error}"),
        Ok(header) => {
            let unlike = differences(("header", &header), ("crates", &entries), shown);
            assert_eq!(unlike.len(), 1, "{unlike:?}");
            assert!(unlike[0].starts_with(&format!("{entry}:")), "{unlike:?}");
        }
    }
}

/// Order, width, const for mut and the other way round, a length in front, in another unit, none.
#[rustfmt::skip]
const EDITS: [(&str, &str, &str); 8] = [
    ("protector_page_fault", "mapping, uint64_t view", "view, uint64_t mapping"),
    ("protector_answer_failed", "uint16_t code", "uint64_t code"),
    ("protector_build", "const uint64_t *ram", "uint64_t *ram"),
    ("protector_lock_gpns", "uint64_t *tables", "const uint64_t *tables"),
    ("registrar_register", "uint64_t *state, size_t state_words", "size_t state_words, uint64_t *state"),
    ("protector_is_overlay_page", "tables_words", "tables_bytes"),
    ("protector_query_host_visibility", ", size_t out_bytes", ""),
    ("registrar_answer_done", ");\n", ", uint64_t code);\n"),
];

#[test]
fn a_wrong_header_is_seen() {
    for (entry, from, to) in EDITS {
        is_seen(entry, from, to);
    }
}

#[test]
fn an_entry_that_is_left_out_is_seen() {
    let (entries, _) = in_crates();
    let mut header = in_header(&header_text());
    let setter = "protector_set_vtl1_protections_enabled";
    header.remove(setter).expect("the setter");
    let unlike = differences(("header", &header), ("crates", &entries), shown);
    assert_eq!(unlike.len(), 1, "{unlike:?}");
    let unlike = theorem_differs(&header, "protector_", &made_text(), "Learnt");
    assert!(
        unlike.len() == 1 && unlike[0].starts_with(setter),
        "{unlike:?}"
    );
    // A contract that isn't read, and one that is read and not used.
    let made = made_text();
    let known = theorem::entries(&made, "Learnt").len();
    let reads = made.lines().find(|line| line.contains(".Reads as "));
    let reads = reads.expect("a contract is read");
    let name = reads.rsplit(' ').next().expect("its name");
    let used = format!("{name}.Learnt");
    for edited in [made.replace(reads, ""), made.replace(&used, name)] {
        assert_eq!(theorem::entries(&edited, "Learnt").len(), known - 1);
    }
}
