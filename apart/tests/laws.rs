//! Laws that hold whatever is played: a run equals its single ticks, refusals change
//! nothing, no budget goes below 0, no resource is found locked by another.

use apart::board::{Board, State};
use apart::lines;
use apart::play;
use apart::wrong::Wrong;

fn played(seed: u64) -> Vec<Vec<u8>> {
    let mut text = Vec::new();
    play::play(seed, 20_000, &mut text).expect("a vector can be written");
    text.split(|&byte| byte == b'\n').map(<[u8]>::to_vec).collect()
}

/// The same run made of single ticks.
fn by_ones(mut board: Board, ticks: i128) -> Board {
    for _ in 0..ticks {
        let one = board.run(1);
        assert_eq!((one.number, one.value), (0, 1));
    }
    board
}

fn sound(board: &Board) {
    let mut locked = 0;
    for server in &board.servers {
        assert!(server.q >= 0 && server.q <= server.budget);
        if let Some(lock) = server.lock {
            assert_eq!(locked & (1 << lock.resource), 0);
            locked |= 1 << lock.resource;
            assert_eq!(server.state, State::Ready);
            assert!(lock.held <= server.holds[lock.resource]);
            assert!(server.q >= server.holds[lock.resource] - lock.held);
        }
        // Every budget is used up or given up by its deadline on an admitted board.
        if server.state == State::Ready {
            assert!(board.clock <= server.d);
        }
    }
    assert_eq!(board.locked, locked);
}

#[test]
fn laws_of_play() {
    for seed in 100..106 {
        let mut board = Board::unopened(Wrong::None);
        for line in played(seed) {
            let before = board.clone();
            let answer = lines::answer(&mut board, Some(&line));
            assert!(![14, 18, 23].contains(&answer.number));
            if (1..=19).contains(&answer.number) {
                assert_eq!(board, before);
                assert_eq!(answer.value, 0);
            }
            if line.first() == Some(&b'R') && answer.number == 0 {
                assert_eq!(board.clock, before.clock + answer.value);
                assert_eq!(by_ones(before, answer.value), board);
            }
            sound(&board);
        }
    }
}
