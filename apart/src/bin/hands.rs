//! Boards made by hand, for the answers that no calls reach: 14, 18 and 23. The program
//! `hands` of the proved crates makes the same boards and must print the same lines.

use apart::board::{Board, Lock, Number, Server, State, CLOCK_END};
use apart::lines::{answer, print};
use apart::sheet;
use apart::wrong::Wrong;
use std::io::{Result, Stdout, Write};

/// A running board with a frame of 60: slot 0 is P 10, Q 4, H(0) 2, slot 1 P 30, Q 9,
/// H(0) 3, H(1) 1 and idle.
fn made(clock: Number, locked: u8, closed: u8) -> Board {
    let servers =
        vec![Server::new(10, 4, [2, 0, 0, 0, 0, 0, 0, 0]), Server::new(30, 9, [3, 1, 0, 0, 0, 0, 0, 0])];
    Board { frame: Some(60), running: true, clock, servers, locked, closed, wrong: Wrong::None }
}

/// The same with slot 0 ready and started.
fn ready(clock: Number, sets: (u8, u8), q: Number, d: Number, lock: Option<Lock>) -> Board {
    let mut board = made(clock, sets.0, sets.1);
    let server = &mut board.servers[0];
    (server.state, server.q, server.d, server.started, server.lock) = (State::Ready, q, d, true, lock);
    board
}

/// The same with slot 0 idle.
fn idle(clock: Number, q: Number, d: Number) -> Board {
    let mut board = made(clock, 0, 0);
    (board.servers[0].q, board.servers[0].d) = (q, d);
    board
}

fn ask(out: &mut Stdout, board: &mut Board, line: &[u8]) -> Result<()> {
    let answered = answer(board, Some(line));
    print(out, board, answered)
}

/// A locked resource that nobody holds: 10 and 13 come before 14, the budget after it.
fn locked(out: &mut Stdout) -> Result<()> {
    ask(out, &mut ready(3, (1, 0), 4, 10, None), b"L 0 0")?;
    ask(out, &mut ready(3, (1, 0), 1, 10, None), b"L 0 0")?;
    ask(out, &mut ready(3, (1, 1), 4, 10, None), b"L 0 0")?;
    ask(out, &mut ready(3, (3, 0), 4, 10, None), b"L 0 1")
}

/// The clock's end: up to it and not past it, whatever would end the run earlier.
fn clock_end(out: &mut Stdout) -> Result<()> {
    let mut quiet = idle(CLOCK_END - 5, 0, 0);
    for line in [b"R 6".as_slice(), b"R 5", b"R 1", b"R 0", b"R 1000001"] {
        ask(out, &mut quiet, line)?;
    }
    let mut short = ready(CLOCK_END - 5, (0, 0), 2, CLOCK_END + 3, None);
    ask(out, &mut short, b"R 6")?;
    ask(out, &mut short, b"R 5")?;
    let at_hold = Some(Lock { resource: 0, held: 2 });
    ask(out, &mut ready(CLOCK_END, (1, 0), 2, CLOCK_END + 4, at_hold), b"R 1")?;
    ask(out, &mut ready(CLOCK_END - 1, (1, 0), 2, CLOCK_END + 4, at_hold), b"R 1")?;
    ask(out, &mut idle(CLOCK_END, 1, CLOCK_END + 4), b"W 0")?;
    ask(out, &mut idle(CLOCK_END, 0, CLOCK_END), b"W 0")
}

/// A sheet written into so many bytes of 170: how many of them stand as they were, then
/// "-", the answer's number and its value.
fn write(out: &mut Stdout, board: &Board, size: usize) -> Result<()> {
    let mut buffer = vec![170; size];
    let answered = sheet::write(board, &mut buffer);
    let kept = buffer.iter().filter(|&&byte| byte == 170).count();
    writeln!(out, "{kept} - {} {}", answered.number, answered.value)
}

fn main() -> Result<()> {
    let mut out = std::io::stdout();
    locked(&mut out)?;
    clock_end(&mut out)?;
    let board = made(0, 0, 0);
    for size in [0, 95, 96, 100] {
        write(&mut out, &board, size)?;
    }
    write(&mut out, &Board::unopened(Wrong::None), 9)
}
