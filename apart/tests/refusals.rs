//! The order of checks: where several refusals apply, the first in document 01's order answers.

mod common;
use apart::board::{Board, State, CLOCK_END, LONGEST_RUN};
use apart::wrong::Wrong;
use common::{answer, board_with_x};

fn refuses(board: &Board, number: u8, call: impl Fn(&mut Board) -> apart::board::Answer) {
    let mut after = board.clone();
    assert_eq!(call(&mut after), answer(number, 0));
    assert_eq!(&after, board, "a refusal leaves the board as it was");
}

#[test]
fn before_a_frame_all_answer_one() {
    let board = Board::unopened(Wrong::None);
    refuses(&board, 1, |b| b.admit(0, 0, [9; 8]));
    refuses(&board, 1, |b| b.start());
    refuses(&board, 1, |b| b.arrive(99));
    refuses(&board, 1, |b| b.done(99));
    refuses(&board, 1, |b| b.lock(99, 99));
    refuses(&board, 1, |b| b.unlock(99));
    refuses(&board, 1, |b| b.run(0));
    refuses(&board, 3, |b| b.open(0));
    refuses(&board, 3, |b| b.open(1_000_000_001));
}

#[test]
fn admit_order() {
    let mut board = Board::unopened(Wrong::None);
    board.open(60);
    refuses(&board, 4, |b| b.admit(0, 0, [1; 8]));
    refuses(&board, 4, |b| b.admit(7, 8, [9; 8]));
    refuses(&board, 4, |b| b.admit(1_000_001, 8, [9; 8]));
    refuses(&board, 5, |b| b.admit(10, 0, [1; 8]));
    refuses(&board, 5, |b| b.admit(10, 11, [12; 8]));
    assert_eq!(board.admit(60, 60, [0; 8]), answer(0, 0));
    refuses(&board, 6, |b| b.admit(10, 4, [0, 0, 0, 0, 0, 0, 0, 5]));
    refuses(&board, 7, |b| b.admit(60, 1, [0; 8]));
    board.open(1_000_000);
    for slot in 0..16 {
        assert_eq!(board.admit(1_000_000, 1, [0; 8]), answer(0, slot));
    }
    refuses(&board, 2, |b| b.admit(0, 0, [1; 8]));
    board.start();
    refuses(&board, 1, |b| b.admit(0, 0, [1; 8]));
    refuses(&board, 1, |b| b.start());
    refuses(&board, 3, |b| b.open(0));
    assert_eq!(board.open(1), answer(0, 0));
    assert_eq!(board, Board { frame: Some(1), ..Board::unopened(Wrong::None) });
}

#[test]
fn arrive_order() {
    let mut board = board_with_x();
    refuses(&board, 8, |b| b.arrive(1));
    refuses(&board, 8, |b| b.arrive(1 << 32));
    board.arrive(0);
    refuses(&board, 15, |b| b.arrive(0));
    board.servers[0].state = State::Stopped;
    refuses(&board, 16, |b| b.arrive(0));
}

#[test]
fn done_order() {
    let mut board = board_with_x();
    refuses(&board, 8, |b| b.done(1));
    refuses(&board, 9, |b| b.done(0));
    board.servers[0].state = State::Suspended(5);
    refuses(&board, 9, |b| b.done(0));
    board.servers[0].state = State::Stopped;
    refuses(&board, 16, |b| b.done(0));
    board.servers[0].state = State::Spent;
    board.servers[0].d = 10;
    assert_eq!(board.done(0), answer(0, 0));
    assert_eq!(board.arrive(0), answer(20, 10));
    let mut board = board_with_x();
    board.arrive(0);
    board.lock(0, 0);
    refuses(&board, 11, |b| b.done(0));
}

#[test]
fn lock_order() {
    let mut board = board_with_x();
    refuses(&board, 8, |b| b.lock(1, 9));
    refuses(&board, 9, |b| b.lock(0, 9));
    board.arrive(0);
    refuses(&board, 10, |b| b.lock(0, 8));
    refuses(&board, 10, |b| b.lock(0, 1));
    refuses(&board, 10, |b| b.lock(0, 1 << 32));
    let mut closed = board.clone();
    closed.closed = 0b11;
    closed.locked = 0b01;
    closed.servers[0].started = true;
    refuses(&closed, 13, |b| b.lock(0, 0));
    refuses(&closed, 10, |b| b.lock(0, 1));
    closed.closed = 0;
    closed.servers[0].q = 0;
    refuses(&closed, 14, |b| b.lock(0, 0));
    assert_eq!(board.lock(0, 0), answer(0, 0));
    refuses(&board, 11, |b| b.lock(0, 9));
    board.servers[0].state = State::Stopped;
    refuses(&board, 16, |b| b.lock(0, 9));
}

#[test]
fn unlock_order() {
    let mut board = board_with_x();
    refuses(&board, 8, |b| b.unlock(1));
    refuses(&board, 9, |b| b.unlock(0));
    board.arrive(0);
    refuses(&board, 12, |b| b.unlock(0));
    board.servers[0].state = State::Stopped;
    refuses(&board, 16, |b| b.unlock(0));
}

#[test]
fn run_order() {
    let mut board = board_with_x();
    board.arrive(0);
    board.lock(0, 0);
    board.run(2);
    board.clock = CLOCK_END - 5;
    refuses(&board, 17, |b| b.run(0));
    refuses(&board, 17, |b| b.run(LONGEST_RUN + 1));
    refuses(&board, 18, |b| b.run(6));
    assert_eq!(board.run(5), answer(22, 0));
    assert_eq!((board.locked, board.closed, board.clock), (0, 1, CLOCK_END - 5));
    assert_eq!((board.servers[0].state, board.servers[0].q), (State::Stopped, 2));
    assert_eq!(board.run(5), answer(0, 5));
    refuses(&board, 18, |b| b.run(1));
}

#[test]
fn the_largest_hold_counts_for_every_lock() {
    let mut board = Board::unopened(Wrong::None);
    board.open(60);
    board.admit(10, 4, [1, 3, 0, 0, 0, 0, 0, 0]);
    board.start();
    board.arrive(0);
    board.run(2);
    assert_eq!(board.lock(0, 0), answer(20, 5));
}
