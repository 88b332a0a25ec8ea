//! The bench program's lines.

mod common;
use common::bench;

fn last(line: &[u8]) -> String {
    let input = [b"F 60\nA 10 4 2 0 0 0 0 0 0 0\nS\n".as_slice(), line, b"\n"].concat();
    bench(&input).lines().last().unwrap_or("").to_string()
}

#[test]
fn malformed_lines_get_19_with_the_board_as_it_is() {
    let bad: [&[u8]; 30] = [
        b"",
        b" ",
        b"S ",
        b" S",
        b"s",
        b"SS",
        b"w 0",
        b"W",
        b"W ",
        b"W  0",
        b" W 0",
        b"W 0 ",
        b"W 0 0",
        b"W\t0",
        b"W 0\r",
        b"W 00",
        b"W 01",
        b"W +0",
        b"W -0",
        b"W 0\0",
        b"W \xff",
        b"W 18446744073709551616",
        b"X 0",
        b"L 0",
        b"L 0 0 0",
        b"A 10 4 2 0 0 0 0 0 0",
        b"A 10 4 2 0 0 0 0 0 0 0 0",
        b"R 1.0",
        b"R 0x1",
        b"F",
    ];
    for line in bad {
        assert_eq!(last(line), "0 - 19 0", "{:?}", String::from_utf8_lossy(line));
    }
}

#[test]
fn wide_numbers_get_the_calls_own_answer() {
    assert_eq!(last(b"W 4294967296"), "0 - 8 0");
    assert_eq!(last(b"W 18446744073709551615"), "0 - 8 0");
    assert_eq!(last(b"R 4294967297"), "0 - 17 0");
    assert_eq!(last(b"F 18446744073709551615"), "0 - 3 0");
    assert_eq!(last(b"F 4294967356"), "0 - 3 0");
}

#[test]
fn long_lines_are_swallowed_whole() {
    for length in [255usize, 256, 257, 1_000, 65_536, 200_000] {
        let mut input = vec![b' '; length - 4];
        input.extend_from_slice(b"F 60\nF 60\nS\nR 3");
        assert_eq!(bench(&input), "0 - 19 0\n0 - 0 0\n0 - 0 0\n3 - 0 3\n", "{length}");
        assert_eq!(bench(&vec![b'R'; length]), "0 - 19 0\n");
    }
}

#[test]
fn nothing_in_nothing_out() {
    assert_eq!(bench(b""), "");
    assert_eq!(bench(b"\n"), "0 - 19 0\n");
    assert_eq!(bench(b"\n\nS"), "0 - 19 0\n0 - 19 0\n0 - 1 0\n");
}

#[test]
fn a_crossing_of_blocks_changes_nothing() {
    let line = b"R 1\n".repeat(40_000);
    let input = [b"F 60\nS\n".as_slice(), &line].concat();
    let output = bench(&input);
    assert_eq!(output.lines().count(), 40_002);
    assert_eq!(output.lines().last(), Some("40000 - 0 1"));
}
