//! Document 01's bench program: one answer line for each line of standard input.

use apart::board::Board;
use apart::lines::{answer, each_line, print, LONGEST_LINE};
use apart::wrong::Wrong;
use std::io::{BufWriter, Write};
use std::process::ExitCode;

fn bench(wrong: Wrong) -> std::io::Result<()> {
    let mut out = BufWriter::with_capacity(65_536, std::io::stdout().lock());
    let mut board = Board::unopened(wrong);
    each_line(&mut std::io::stdin().lock(), LONGEST_LINE, |line| {
        let answered = answer(&mut board, line);
        print(&mut out, &board, answered)
    })?;
    out.flush()
}

fn main() -> ExitCode {
    let wrong = match Wrong::from_arguments() {
        Ok(wrong) => wrong,
        Err(complaint) => {
            eprintln!("bench: {complaint}");
            return ExitCode::from(2);
        }
    };
    match bench(wrong) {
        Ok(()) => ExitCode::SUCCESS,
        Err(error) => {
            eprintln!("bench: {error}");
            ExitCode::FAILURE
        }
    }
}
