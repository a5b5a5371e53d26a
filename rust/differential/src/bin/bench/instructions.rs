//! Instructions instead of times: the program runs itself under callgrind, which counts in
//! `bench_measured` alone and writes a file at each end of it.

use crate::FAMILIES;
use crate::chosen;
use crate::heading;
use crate::row::KINDS;
use crate::row::Kind;
use crate::row::Row;
use crate::row::bench_measured;
use crate::show;
use std::io;
use std::io::BufRead;
use std::io::BufReader;
use std::path::Path;
use std::path::PathBuf;
use std::process::Command;
use std::process::ExitCode;
use std::process::Stdio;

/// What is measured, as callgrind names it.
const MEASURED: &str = "bench::row::bench_measured";

/// The option of a run under callgrind.
pub const COUNTED: &str = "--counted";

/// Under callgrind: does each part once, after a round that isn't measured unless rounds are long,
/// and prints a line behind each.
pub fn counted(texts: &[String]) {
    for family in &FAMILIES {
        let rows = chosen(family, texts);
        if !rows.is_empty() {
            println!("{}", family.heading);
        }
        for row in rows.iter().filter(|row| !texts.is_empty() || !is_long(row)) {
            count(row);
        }
    }
}

/// Whether it takes minutes under callgrind: such a row is counted if it is named.
fn is_long(row: &Row) -> bool {
    row.rounds <= 3
}

fn count(row: &Row) {
    let mut works = KINDS.map(|kind| (row.make)(kind));
    for warm in [true, false] {
        if warm && row.rounds <= 21 {
            continue;
        }
        for (part, name) in row.parts.iter().enumerate() {
            for (kind, work) in KINDS.iter().zip(&mut works) {
                let well = match name {
                    Some(_) if !warm => bench_measured(work, part),
                    _ => work(part),
                };
                assert!(well, "{name:?}");
                if let (Some(name), false) = (name, warm) {
                    println!("{kind:?}\t{}\t{name}", row.calls);
                }
            }
        }
    }
}

/// Runs this program under callgrind and prints what it counted.
pub fn print(texts: &[String], keep: Option<&str>) -> ExitCode {
    let folder = match keep {
        Some(folder) => PathBuf::from(folder),
        None => std::env::temp_dir().join(format!("bench.{}", std::process::id())),
    };
    let printed = std::fs::create_dir_all(&folder).and_then(|()| print_in(&folder, texts));
    if keep.is_none() {
        // It may not be there.
        let _ = std::fs::remove_dir_all(&folder);
    }
    match printed {
        Ok(true) => ExitCode::SUCCESS,
        Ok(false) => {
            eprintln!("bench: the run under valgrind failed");
            ExitCode::FAILURE
        }
        Err(error) => {
            eprintln!("bench: valgrind: {error}");
            ExitCode::FAILURE
        }
    }
}

/// Whether the run ended well.
fn print_in(folder: &Path, texts: &[String]) -> io::Result<bool> {
    let file = folder.join("callgrind.out");
    let mut child = Command::new("valgrind")
        .args(["--quiet", "--tool=callgrind", "--collect-atstart=no"])
        .arg(format!("--toggle-collect={MEASURED}"))
        .arg(format!("--dump-after={MEASURED}"))
        .arg(format!("--callgrind-out-file={}", file.display()))
        .arg(std::env::current_exe()?)
        .arg(COUNTED)
        .args(texts)
        .stdout(Stdio::piped())
        .spawn()?;
    let lines = BufReader::new(child.stdout.take().expect("it is piped")).lines();
    let mut dumps = 0;
    let mut port = 0.0;
    for line in lines {
        let line = line?;
        let fields: Vec<&str> = line.split('\t').collect();
        let [kind, calls, name] = fields[..] else {
            heading(&format!("{line}; instructions of a call"), "Ir");
            continue;
        };
        dumps += 1;
        let calls: f64 = calls.parse().map_err(io::Error::other)?;
        let each = total(&folder.join(format!("callgrind.out.{dumps}")))? / calls;
        match kind == format!("{:?}", Kind::Port) {
            true => port = each,
            false => show(name, [port, each]),
        }
    }
    Ok(child.wait()?.success())
}

/// The instructions that a file of callgrind's sums up.
fn total(file: &Path) -> io::Result<f64> {
    let text = std::fs::read_to_string(file)?;
    let totals = text.lines().find_map(|line| line.strip_prefix("totals: "));
    let totals = totals.ok_or_else(|| io::Error::other("no totals"))?;
    totals.trim().parse().map_err(io::Error::other)
}
