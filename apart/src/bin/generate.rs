//! Writes bench lines or sheets that look for differences:
//! `generate lines SEED COUNT`, `generate sheets SEED COUNT`; `generate wrongs` lists the
//! names of the wrong rules.

use apart::{damage, play, wrong};
use std::io::{BufWriter, Write};
use std::process::ExitCode;

fn generate(what: &str, seed: u64, count: u64) -> std::io::Result<bool> {
    let mut out = BufWriter::with_capacity(65_536, std::io::stdout().lock());
    match what {
        "lines" => play::play(seed, count, &mut out)?,
        "sheets" => damage::sheets(seed, count, &mut out)?,
        _ => return Ok(false),
    }
    out.flush()?;
    Ok(true)
}

fn main() -> ExitCode {
    let arguments: Vec<String> = std::env::args().skip(1).collect();
    if arguments == ["wrongs"] {
        for (_, name, meaning) in wrong::ALL {
            println!("{name} {meaning}");
        }
        return ExitCode::SUCCESS;
    }
    let numbers: Vec<u64> = arguments.iter().skip(1).filter_map(|text| text.parse().ok()).collect();
    let done = match (arguments.as_slice(), numbers.as_slice()) {
        ([what, _, _], [seed, count]) => generate(what, *seed, *count),
        _ => Ok(false),
    };
    match done {
        Ok(true) => ExitCode::SUCCESS,
        Ok(false) => {
            eprintln!("usage: generate lines|sheets SEED COUNT, or generate wrongs");
            ExitCode::from(2)
        }
        Err(error) => {
            eprintln!("generate: {error}");
            ExitCode::FAILURE
        }
    }
}
