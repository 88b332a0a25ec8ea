//! Reads each line of standard input as a sheet in hex and prints answer and value, and for
//! an accepted sheet the sheet written back from the board that was read.

use apart::board::{Answer, DONE};
use apart::lines::{each_line, from_hex, to_hex};
use apart::sheet;
use apart::wrong::Wrong;
use std::io::{BufWriter, Write};
use std::process::ExitCode;

const MOST_DIGITS: usize = 16_384;

fn say<W: Write>(out: &mut W, bytes: &[u8], wrong: Wrong) -> std::io::Result<()> {
    let board = match sheet::read(bytes, wrong) {
        Ok(board) => board,
        Err(Answer { number, value }) => return writeln!(out, "{number} {value}"),
    };
    let mut buffer = vec![0; sheet::length(&board)];
    sheet::write(&board, &mut buffer);
    writeln!(out, "{} {} {}", DONE.number, DONE.value, to_hex(&buffer))
}

fn sheets(wrong: Wrong) -> std::io::Result<()> {
    let mut out = BufWriter::with_capacity(65_536, std::io::stdout().lock());
    each_line(&mut std::io::stdin().lock(), MOST_DIGITS, |line| match line.and_then(from_hex) {
        Some(bytes) => say(&mut out, &bytes, wrong),
        None => writeln!(out, "-"),
    })?;
    out.flush()
}

fn main() -> ExitCode {
    let wrong = match Wrong::from_arguments() {
        Ok(wrong) => wrong,
        Err(complaint) => {
            eprintln!("sheets: {complaint}");
            return ExitCode::from(2);
        }
    };
    match sheets(wrong) {
        Ok(()) => ExitCode::SUCCESS,
        Err(error) => {
            eprintln!("sheets: {error}");
            ExitCode::FAILURE
        }
    }
}
