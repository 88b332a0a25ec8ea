//! The whole case and the cases C1 to C10 of document 01.

mod common;
use apart::board::{Board, State};
use apart::wrong::Wrong;
use common::{answer, bench, board_with_x, X};

#[test]
fn whole_case() {
    let input = b"F 60\nA 10 4 2 0 0 0 0 0 0 0\nA 30 9 3 0 0 0 0 0 0 0\nS\nW 0\nR 3\nL 0 0\nW 1\nL 1 0\nR 5\nU 1\nR 5\n";
    let output = "0 - 0 0\n0 - 0 0\n0 - 0 1\n0 - 0 0\n0 0 0 0\n3 0 0 3\n3 - 20 8\n3 1 0 0\n3 1 0 0\n6 1 0 3\n6 1 0 0\n8 0 0 2\n";
    assert_eq!(bench(input), output);
    // A last line without its line end counts as a line.
    assert_eq!(bench(&input[..input.len() - 1]), output);
}

#[test]
fn c1_to_c4_admission() {
    let second = |period, hold| {
        let mut board = Board::unopened(Wrong::None);
        board.open(60);
        board.admit(10, 4, X);
        board.admit(period, 9, [hold, 0, 0, 0, 0, 0, 0, 0])
    };
    assert_eq!(second(30, 6), answer(0, 1));
    assert_eq!(second(30, 7), answer(7, 0));
    assert_eq!(second(30, 0), answer(0, 1));
    assert_eq!(second(40, 0), answer(4, 0));
}

#[test]
fn c5_to_c7_replenishment_instant() {
    let mut board = board_with_x();
    board.servers[0].d = 10;
    for (q, tr) in [(1, 8), (4, 0), (0, 10)] {
        board.servers[0].q = q;
        assert_eq!(board.replenishment_instant(0), tr);
    }
}

#[test]
fn c8_and_c9_lock_at_seven_and_at_eight() {
    let ask_at = |now| {
        let mut board = board_with_x();
        board.arrive(0);
        board.clock = now;
        board.servers[0].q = 1;
        let answered = board.lock(0, 0);
        (answered, board)
    };
    let (answered, board) = ask_at(7);
    assert_eq!((answered, board.servers[0].state), (answer(20, 8), State::Suspended(8)));
    let (answered, board) = ask_at(8);
    assert_eq!((answered, board.servers[0].d, board.servers[0].q), (answer(21, 0), 18, 4));
    assert_eq!(board.locked, 0);
    let (answered, board) = ask_at(9);
    assert_eq!((answered, board.servers[0].d), (answer(21, 0), 18));
}

#[test]
fn c10_arrival_at_nine() {
    let mut board = board_with_x();
    board.servers[0].d = 10;
    board.servers[0].q = 1;
    board.clock = 9;
    assert_eq!(board.arrive(0), answer(0, 0));
    assert_eq!((board.servers[0].d, board.servers[0].q), (19, 4));
}

#[test]
fn only_a_started_server_may_go_when_the_first_is_held_back() {
    // Slot 0 is the holder, slot 1 is held back, slot 2 is fresh and below the ceiling.
    let input = b"F 60\nA 60 5 5 0 0 0 0 0 0 0\nA 12 1 1 0 0 0 0 0 0 0\nA 10 1 0 0 0 0 0 0 0 0\nS\nW 0\nL 0 0\nW 1\nR 3\nW 2\nU 0\nR 1\n";
    let output = bench(input);
    let said: Vec<&str> = output.lines().skip(4).collect();
    assert_eq!(
        said,
        ["0 - 0 0", "0 0 0 0", "0 0 0 0", "0 0 0 0", "3 0 0 3", "3 0 0 0", "3 1 0 0", "4 2 0 1"]
    );
}

#[test]
fn a_run_ends_at_the_hold_and_the_next_is_overheld() {
    let output = bench(b"F 60\nA 10 4 2 0 0 0 0 0 0 0\nS\nW 0\nL 0 0\nR 9\nR 0\nR 9\nR 3\nW 0\nL 0 0\nS\n");
    let said: Vec<&str> = output.lines().skip(4).collect();
    assert_eq!(
        said,
        ["0 0 0 0", "2 0 0 2", "2 0 17 0", "2 - 22 0", "5 - 0 3", "5 - 16 0", "5 - 16 0", "5 - 1 0"]
    );
}

#[test]
fn an_unlock_with_nothing_left_spends_and_may_replenish_at_once() {
    let mut board = board_with_x();
    board.arrive(0);
    assert_eq!(board.run(2), answer(0, 2));
    assert_eq!(board.lock(0, 0), answer(0, 0));
    assert_eq!(board.run(9), answer(0, 2));
    assert_eq!((board.servers[0].q, board.servers[0].state), (0, State::Ready));
    let mut at_deadline = board.clone();
    assert_eq!(board.unlock(0), answer(0, 0));
    assert_eq!((board.servers[0].state, board.named()), (State::Spent, None));
    at_deadline.clock = 10;
    assert_eq!(at_deadline.unlock(0), answer(0, 0));
    assert_eq!((at_deadline.servers[0].state, at_deadline.servers[0].d), (State::Ready, 20));
}

#[test]
fn spent_and_replenished_can_fall_in_one_tick() {
    let mut board = Board::unopened(Wrong::None);
    board.open(60);
    board.admit(10, 10, [0; 8]);
    board.start();
    board.arrive(0);
    assert_eq!(board.run(50), answer(0, 10));
    assert_eq!(
        (board.servers[0].state, board.servers[0].d, board.servers[0].started),
        (State::Ready, 20, false)
    );
}
