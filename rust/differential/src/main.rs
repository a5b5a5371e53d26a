//! `differential --calls N --seed S [--part P] [--case I]`: runs the port and the original on N
//! generated calls and compares. `--part registrar|registrar-raw|protector|raw` takes the
//! cases of one part alone; `--case` runs one case of that seed alone and prints it. It
//! fails at a difference, and at a million calls or more also where something wasn't met.

use differential::coverage::Coverage;
use differential::part::Case;
use differential::part::Part;
use std::process::ExitCode;
use std::time::Duration;
use std::time::Instant;

struct Options {
    calls: u64,
    seed: u64,
    part: Option<Part>,
    case: Option<u64>,
}

fn main() -> ExitCode {
    let options = match options() {
        Ok(options) => options,
        Err(text) => {
            eprintln!("differential: {text}");
            eprintln!(
                "usage: differential --calls N --seed S [--part registrar|registrar-raw|protector|raw] [--case I]"
            );
            return ExitCode::from(2);
        }
    };
    // The original's panics are caught and compared.
    std::panic::set_hook(Box::new(|_| {}));
    let mut coverage = Coverage::default();
    match options.case {
        Some(case) => one(&options, case, &mut coverage),
        None => all(&options, &mut coverage),
    }
}

fn options() -> Result<Options, String> {
    let mut options = Options {
        calls: 100_000,
        seed: 1,
        part: None,
        case: None,
    };
    let mut args = std::env::args().skip(1);
    while let Some(name) = args.next() {
        let value = args.next().ok_or(format!("{name} wants a value"))?;
        if name == "--part" {
            options.part = Some(Part::named(&value).ok_or(format!("no part is {value}"))?);
            continue;
        }
        let number: u64 = value
            .parse()
            .map_err(|_| format!("{name} wants a number"))?;
        match name.as_str() {
            "--calls" => options.calls = number,
            "--seed" => options.seed = number,
            "--case" => options.case = Some(number),
            _ => return Err(format!("{name} is unknown")),
        }
    }
    Ok(options)
}

fn all(options: &Options, coverage: &mut Coverage) -> ExitCode {
    let (calls, seed) = (options.calls, options.seed);
    let mut last = Instant::now();
    let mut number = 0;
    while coverage.calls() < calls {
        let case = Case::new(seed, number, options.part);
        if let Some(difference) = case.run(coverage) {
            println!("{coverage}");
            println!("differential: case {number} of seed {seed} differs");
            print!("{}", case.report(difference));
            return ExitCode::FAILURE;
        }
        number += 1;
        if last.elapsed() > Duration::from_secs(2) {
            last = Instant::now();
            let done = coverage.calls();
            eprintln!("differential: {done} of {calls} calls, case {number} of seed {seed}");
        }
    }
    println!("{coverage}");
    println!("differential: {number} cases of seed {seed}, no difference");
    // One part alone can't meet everything.
    if options.part.is_none() && coverage.falls_short(calls) {
        println!("differential: failed, since something that can arise was not met");
        return ExitCode::FAILURE;
    }
    ExitCode::SUCCESS
}

fn one(options: &Options, number: u64, coverage: &mut Coverage) -> ExitCode {
    let case = Case::new(options.seed, number, options.part);
    print!("{}", case.script());
    match case.run(coverage) {
        Some(difference) => {
            print!("{}", case.report(difference));
            ExitCode::FAILURE
        }
        None => {
            println!("differential: no difference");
            ExitCode::SUCCESS
        }
    }
}
