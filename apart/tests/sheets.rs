//! The sheet: reading, writing and the offsets of refusals.

mod common;
use apart::board::{Answer, Board, Number};
use apart::sheet::{length, read, write};
use apart::wrong::Wrong;
use common::{answer, X};

fn field(tag: u8, numbers: &[u32]) -> Vec<u8> {
    let mut bytes = vec![tag, 0, (numbers.len() * 4) as u8];
    numbers.iter().for_each(|number| bytes.extend_from_slice(&number.to_be_bytes()));
    bytes
}

fn server(period: u32, budget: u32, hold: u32) -> Vec<u8> {
    field(2, &[period, budget, hold, 0, 0, 0, 0, 0, 0, 0])
}

fn sheet(frame: u32, servers: &[Vec<u8>]) -> Vec<u8> {
    [field(1, &[frame]), servers.concat(), vec![255, 0, 0]].concat()
}

fn refused(bytes: &[u8]) -> Answer {
    read(bytes, Wrong::None).expect_err("this sheet is to be refused")
}

#[test]
fn read_and_write_give_back_the_same_bytes() {
    for count in 0..=16 {
        let bytes = sheet(1_000_000, &vec![server(1_000, 1, 1); count]);
        let board = read(&bytes, Wrong::None).expect("a good sheet");
        assert!(!board.running && board.servers.len() == count);
        let mut buffer = vec![7; bytes.len() + 2];
        assert_eq!(write(&board, &mut buffer), answer(0, bytes.len() as Number));
        assert_eq!((&buffer[..bytes.len()], &buffer[bytes.len()..]), (&bytes[..], &[7, 7][..]));
    }
}

#[test]
fn writing_refuses_one_before_23_and_leaves_the_buffer() {
    let mut board = Board::unopened(Wrong::None);
    let mut buffer = vec![7; 9];
    assert_eq!(write(&board, &mut buffer), answer(1, 0));
    board.open(60);
    assert_eq!(length(&board), 10);
    assert_eq!(write(&board, &mut buffer), answer(23, 0));
    assert_eq!(buffer, vec![7; 9]);
    board.admit(10, 4, X);
    board.start();
    board.arrive(0);
    let mut buffer = vec![0; 53];
    assert_eq!(write(&board, &mut buffer), answer(0, 53));
    let again = read(&buffer, Wrong::None).expect("a written sheet is good");
    assert_eq!((again.running, again.clock, again.servers[0].q), (false, 0, 0));
}

#[test]
fn every_cut_is_bad_at_the_field_cut() {
    let bytes = sheet(60, &[server(10, 4, 2), server(30, 9, 6)]);
    for end in 0..bytes.len() {
        let offset = match end {
            0..=6 => 0,
            7..=49 => 7,
            50..=92 => 50,
            _ => 93,
        };
        assert_eq!(refused(&bytes[..end]), answer(19, offset), "{end}");
    }
}

#[test]
fn bad_fields_answer_their_tags_offset() {
    let good = sheet(60, &[server(10, 4, 2), server(30, 9, 6)]);
    let with = |place: usize, byte: u8| {
        let mut bytes = good.clone();
        bytes[place] = byte;
        refused(&bytes)
    };
    for (place, byte, offset) in [
        (0, 2, 0),
        (2, 5, 0),
        (1, 1, 0),
        (7, 1, 7),
        (7, 3, 7),
        (9, 39, 7),
        (50, 255, 50),
        (93, 2, 93),
        (95, 1, 93),
    ] {
        assert_eq!(with(place, byte), answer(19, offset), "{place} {byte}");
    }
    for behind in [&[0][..], &[255, 0, 0], &[2], &[1, 0, 4, 0, 0, 0, 60]] {
        assert_eq!(refused(&[&good[..], behind].concat()), answer(19, 96));
    }
}

#[test]
fn form_comes_first_then_the_frame_then_admissions() {
    let mut bad_end = sheet(0, &[server(7, 0, 9)]);
    bad_end.push(0);
    assert_eq!(refused(&bad_end), answer(19, 53));
    assert_eq!(refused(&sheet(0, &[server(7, 0, 9)])), answer(3, 0));
    assert_eq!(refused(&sheet(1_000_000_001, &[])), answer(3, 0));
    assert_eq!(refused(&sheet(60, &[server(7, 0, 9)])), answer(4, 7));
    assert_eq!(refused(&sheet(60, &[server(10, 4, 2), server(10, 0, 9)])), answer(5, 50));
    assert_eq!(refused(&sheet(60, &[server(10, 4, 2), server(30, 9, 10)])), answer(6, 50));
    assert_eq!(refused(&sheet(60, &[server(10, 4, 2), server(30, 9, 7)])), answer(7, 50));
    let many = vec![server(1_000, 1, 0); 18];
    assert_eq!(refused(&sheet(1_000_000, &many)), answer(2, 695));
    let mut bad_last = many;
    bad_last[17][2] = 39;
    assert_eq!(refused(&sheet(1_000_000, &bad_last)), answer(19, 738));
}
