//! What the tests share.

use apart::board::{Answer, Board, Number};
use apart::lines;
use apart::wrong::Wrong;

#[allow(dead_code)]
pub const X: [Number; 8] = [2, 0, 0, 0, 0, 0, 0, 0];

/// Server X of document 01 (P 10, Q 4, H(0) 2) on a running board with frame 60.
#[allow(dead_code)]
pub fn board_with_x() -> Board {
    let mut board = Board::unopened(Wrong::None);
    board.open(60);
    assert_eq!(board.admit(10, 4, X).number, 0);
    board.start();
    board
}

#[allow(dead_code)]
pub fn answer(number: u8, value: Number) -> Answer {
    Answer { number, value }
}

/// The bench program's output for an input.
#[allow(dead_code)]
pub fn bench(input: &[u8]) -> String {
    let mut board = Board::unopened(Wrong::None);
    let mut out = Vec::new();
    let mut input = input;
    lines::each_line(&mut input, lines::LONGEST_LINE, |line| {
        let answered = lines::answer(&mut board, line);
        lines::print(&mut out, &board, answered)
    })
    .expect("a slice can be read and a vector written");
    String::from_utf8(out).expect("the output is digits, spaces and dashes")
}
