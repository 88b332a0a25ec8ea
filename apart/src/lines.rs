//! Lines: reading them in blocks, taking a bench line apart, answering it and printing.

use crate::board::{refusal, Answer, Board, Number, RESOURCES};
use crate::wrong::Wrong;
use std::io::{Read, Result, Write};

/// A longer bench line, without its line end, gets 19.
pub const LONGEST_LINE: usize = 255;

const BLOCK: usize = 65_536;

/// Hands each line of the input to `take`, None for one longer than `longest` bytes.
/// Keeps no more than one block and one line.
pub fn each_line<R: Read>(
    input: &mut R,
    longest: usize,
    mut take: impl FnMut(Option<&[u8]>) -> Result<()>,
) -> Result<()> {
    let mut block = vec![0; BLOCK];
    let mut line: Vec<u8> = Vec::with_capacity(longest);
    let mut length = 0usize;
    loop {
        let count = match input.read(&mut block) {
            Err(error) if error.kind() == std::io::ErrorKind::Interrupted => continue,
            other => other?,
        };
        if count == 0 {
            break;
        }
        for &byte in &block[..count] {
            if byte == b'\n' {
                take(if length > longest { None } else { Some(&line) })?;
                line.clear();
                length = 0;
                continue;
            }
            if length < longest {
                line.push(byte);
            }
            // Past the longest the length says no more than that it is too long.
            length = (length + 1).min(longest + 1);
        }
    }
    // A last line without a line end counts as a line.
    if length > 0 {
        take(if length > longest { None } else { Some(&line) })?;
    }
    Ok(())
}

/// A decimal number: digits alone, no needless leading zero, at most 2^64 - 1.
pub fn number(field: &[u8]) -> Option<Number> {
    if field.is_empty() || field.len() > 20 || !field.iter().all(u8::is_ascii_digit) {
        return None;
    }
    if field.len() > 1 && field[0] == b'0' {
        return None;
    }
    let value = field.iter().fold(0, |value: Number, &byte| value * 10 + Number::from(byte - b'0'));
    if value > Number::from(u64::MAX) {
        return None;
    }
    Some(value)
}

/// The letter of a line and its numbers; none if the line is not well formed.
pub fn take_apart(line: &[u8]) -> Option<(u8, Vec<Number>)> {
    if line.len() > LONGEST_LINE {
        return None;
    }
    let mut fields = line.split(|&byte| byte == b' ');
    let letter = match fields.next() {
        Some(&[letter]) => letter,
        _ => return None,
    };
    let wanted = match letter {
        b'S' => 0,
        b'F' | b'W' | b'D' | b'U' | b'R' => 1,
        b'L' => 2,
        b'A' => 2 + RESOURCES,
        _ => return None,
    };
    let numbers: Vec<Number> = fields.map(number).collect::<Option<Vec<Number>>>()?;
    if numbers.len() != wanted {
        return None;
    }
    Some((letter, numbers))
}

/// Answers one line; None is a line that was too long to keep.
pub fn answer(board: &mut Board, line: Option<&[u8]>) -> Answer {
    let Some((letter, mut numbers)) = line.and_then(take_apart) else {
        return refusal(19);
    };
    if board.wrong == Wrong::CutNumbers {
        numbers.iter_mut().for_each(|number| *number &= 0xFFFF_FFFF);
    }
    match letter {
        b'F' => board.open(numbers[0]),
        b'A' => {
            let mut holds = [0; RESOURCES];
            holds.copy_from_slice(&numbers[2..]);
            board.admit(numbers[0], numbers[1], holds)
        }
        b'S' => board.start(),
        b'W' => board.arrive(numbers[0]),
        b'D' => board.done(numbers[0]),
        b'L' => board.lock(numbers[0], numbers[1]),
        b'U' => board.unlock(numbers[0]),
        // Taking apart lets no other letter through.
        _ => board.run(numbers[0]),
    }
}

/// Prints clock, named slot or "-", answer number and value.
pub fn print<W: Write>(out: &mut W, board: &Board, answer: Answer) -> Result<()> {
    match board.named() {
        Some(slot) => writeln!(out, "{} {} {} {}", board.clock, slot, answer.number, answer.value),
        None => writeln!(out, "{} - {} {}", board.clock, answer.number, answer.value),
    }
}

/// The bytes of a lower-case hex line; none if it has an odd digit or any other byte.
pub fn from_hex(line: &[u8]) -> Option<Vec<u8>> {
    if line.len() & 1 == 1 {
        return None;
    }
    line.chunks(2).map(|pair| Some(digit(pair[0])? * 16 + digit(pair[1])?)).collect()
}

fn digit(byte: u8) -> Option<u8> {
    match byte {
        b'0'..=b'9' => Some(byte - b'0'),
        b'a'..=b'f' => Some(byte - b'a' + 10),
        _ => None,
    }
}

pub fn to_hex(bytes: &[u8]) -> String {
    bytes.iter().map(|byte| format!("{byte:02x}")).collect()
}
