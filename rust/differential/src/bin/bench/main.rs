//! Measures the port against the original in one run, on the same calls, with backends that do
//! nothing. Build it with --release.
//!
//! `bench [--instructions [--keep FOLDER]] [FAMILY | TEXT ..]`: times, or with --instructions what
//! callgrind counts (valgrind must be at hand); of families of rows, or of rows whose name has that
//! text in it; of all if none is named. Callgrind's files stay in the folder of --keep.

mod builds;
mod instructions;
mod protections;
mod queries;
mod registrar;
mod row;
mod subjects;
mod tables;
mod visibility;

use row::Row;
use std::process::ExitCode;

/// Rows with a name and a heading.
pub struct Family {
    name: &'static str,
    heading: &'static str,
    rows: fn() -> Vec<Row>,
}

const FAMILIES: [Family; 9] = [
    Family {
        name: "visibility",
        heading: "4 GiB, tracked",
        rows: visibility::plain,
    },
    Family {
        name: "held",
        heading: "SNP, 4 GiB, tracked, more held",
        rows: visibility::held,
    },
    Family {
        name: "builds",
        heading: "SNP, tracked",
        rows: builds::rows,
    },
    Family {
        name: "protections",
        heading: "SNP, 1 GiB, tracked",
        rows: protections::lists,
    },
    Family {
        name: "defaults",
        heading: "SNP, tracked",
        rows: protections::defaults,
    },
    Family {
        name: "overlays",
        heading: "SNP, 1 GiB, tracked",
        rows: tables::overlays,
    },
    Family {
        name: "locks",
        heading: "SNP, 1 GiB, tracked",
        rows: tables::locks,
    },
    Family {
        name: "queries",
        heading: "SNP, 1 GiB, tracked",
        rows: queries::rows,
    },
    Family {
        name: "registrar",
        heading: "granularity 2 MiB",
        rows: registrar::rows,
    },
];

/// What the command line names.
#[derive(Default)]
struct Options {
    instructions: bool,
    /// In a run under callgrind.
    counted: bool,
    keep: Option<String>,
    texts: Vec<String>,
}

fn main() -> ExitCode {
    let Some(options) = options() else {
        eprintln!("usage: bench [--instructions [--keep FOLDER]] [FAMILY | TEXT ..]");
        return ExitCode::from(2);
    };
    recorder::set_idle(true);
    match &options {
        Options { counted: true, .. } => instructions::counted(&options.texts),
        Options {
            instructions: true, ..
        } => return instructions::print(&options.texts, options.keep.as_deref()),
        _ => print_times(&options.texts),
    }
    ExitCode::SUCCESS
}

fn options() -> Option<Options> {
    let mut options = Options::default();
    let mut args = std::env::args().skip(1);
    while let Some(arg) = args.next() {
        match arg.as_str() {
            "--instructions" => options.instructions = true,
            instructions::COUNTED => options.counted = true,
            "--keep" => options.keep = Some(args.next()?),
            _ if arg.starts_with("--") => return None,
            _ => options.texts.push(arg),
        }
    }
    Some(options)
}

/// The rows of a family that are asked for.
fn chosen(family: &Family, texts: &[String]) -> Vec<Row> {
    let mut rows = (family.rows)();
    if !texts.is_empty() && !texts.iter().any(|text| text == family.name) {
        let is_family = |text: &str| FAMILIES.iter().any(|family| family.name == text);
        let texts: Vec<_> = texts.iter().filter(|text| !is_family(text)).collect();
        rows.retain(|row| {
            let has = |name: &str| texts.iter().any(|text| name.contains(text.as_str()));
            row.named().any(|(_, name)| has(name))
        });
    }
    rows
}

fn print_times(texts: &[String]) {
    let clock = row::clock();
    println!("the clock's {} ns are taken off", clock.as_nanos());
    for family in &FAMILIES {
        let rows = chosen(family, texts);
        if !rows.is_empty() {
            heading(&format!("{}; median of a call", family.heading), "ns");
        }
        for row in rows {
            let times = row::times(&row, clock);
            for (part, name) in row.named() {
                show(name, times[part]);
            }
        }
    }
}

fn heading(what: &str, unit: &str) {
    let (port, original) = (format!("port {unit}"), format!("Rust {unit}"));
    println!("{what:70} {port:>13} {original:>13} {:>8}", "ratio");
}

fn show(name: &str, [port, original]: [f64; 2]) {
    let ratio = port / original;
    println!("{name:70} {port:13.0} {original:13.0} {ratio:8.3}");
}
