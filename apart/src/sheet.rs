//! The sheet: tagged fields of one byte tag, two bytes length and a body, big-endian.

use crate::board::{refusal, Answer, Board, Number, RESOURCES};
use crate::wrong::Wrong;

pub const FRAME_TAG: u8 = 1;
pub const SERVER_TAG: u8 = 2;
pub const END_TAG: u8 = 255;
pub const FRAME_LENGTH: usize = 4;
pub const SERVER_LENGTH: usize = 40;
pub const HEAD: usize = 3;

/// A field whose head and body lie wholly in the sheet.
struct Field<'a> {
    tag: u8,
    body: &'a [u8],
}

/// The field whose tag is at the offset; none if it is missing or cut off.
fn field(sheet: &[u8], offset: usize) -> Option<Field<'_>> {
    let head = sheet.get(offset..offset + HEAD)?;
    let length = usize::from(head[1]) * 256 + usize::from(head[2]);
    let body = sheet.get(offset + HEAD..offset + HEAD + length)?;
    Some(Field { tag: head[0], body })
}

/// The form of the whole sheet: the offset of its first bad field, or of where one is
/// missing; otherwise the number of its servers.
fn form(sheet: &[u8], wrong: Wrong) -> Result<usize, usize> {
    match field(sheet, 0) {
        Some(first) if first.tag == FRAME_TAG && first.body.len() == FRAME_LENGTH => {}
        _ => return Err(0),
    }
    let mut offset = HEAD + FRAME_LENGTH;
    let mut servers = 0;
    loop {
        let next = field(sheet, offset).ok_or(offset)?;
        match (next.tag, next.body.len()) {
            (SERVER_TAG, SERVER_LENGTH) => servers += 1,
            (END_TAG, 0) => break,
            _ => return Err(offset),
        }
        offset += HEAD + SERVER_LENGTH;
    }
    let behind = offset + HEAD;
    if behind != sheet.len() && wrong != Wrong::SheetBehind {
        return Err(behind);
    }
    Ok(servers)
}

/// Four bytes, the highest first.
fn number(bytes: &[u8], wrong: Wrong) -> Number {
    let value = bytes.iter().fold(0u32, |value, &byte| value << 8 | u32::from(byte));
    Number::from(if wrong == Wrong::SheetTurned { value.swap_bytes() } else { value })
}

/// Reads a sheet; a refusal's value is the offset of the field.
pub fn read(sheet: &[u8], wrong: Wrong) -> Result<Board, Answer> {
    let bad = |number: u8, offset: usize| Answer { number, value: offset as Number };
    let formed = form(sheet, wrong);
    let servers = match formed {
        Ok(servers) => servers,
        // The wrong rule lets the fields before the bad one speak first.
        Err(offset) if wrong == Wrong::SheetFormLate && offset >= 7 => (offset - 7) / 43,
        Err(offset) => return Err(bad(19, offset)),
    };
    let mut board = Board::unopened(wrong);
    let opened = board.open(number(&sheet[HEAD..HEAD + FRAME_LENGTH], wrong));
    if opened.number != 0 {
        return Err(bad(opened.number, 0));
    }
    for slot in 0..servers {
        let offset = HEAD + FRAME_LENGTH + slot * (HEAD + SERVER_LENGTH);
        let body = &sheet[offset + HEAD..offset + HEAD + SERVER_LENGTH];
        let answer = admit_from(&mut board, body);
        if answer.number != 0 {
            let inside = if wrong == Wrong::SheetBody { HEAD } else { 0 };
            return Err(bad(answer.number, offset + inside));
        }
    }
    match formed {
        Ok(_) => Ok(board),
        Err(offset) => Err(bad(19, offset)),
    }
}

/// Admits the server of one body: P, Q, eight holds, four bytes each.
fn admit_from(board: &mut Board, body: &[u8]) -> Answer {
    let wrong = board.wrong;
    let at = |place: usize| number(&body[place * 4..place * 4 + 4], wrong);
    let mut holds = [0; RESOURCES];
    for (resource, hold) in holds.iter_mut().enumerate() {
        *hold = at(2 + resource);
    }
    board.admit(at(0), at(1), holds)
}

/// The number of bytes of a board's sheet.
pub fn length(board: &Board) -> usize {
    HEAD + FRAME_LENGTH + board.servers.len() * (HEAD + SERVER_LENGTH) + HEAD
}

/// Writes the table of a board; bytes of the buffer after the sheet stay.
pub fn write(board: &Board, buffer: &mut [u8]) -> Answer {
    let Some(frame) = board.frame else {
        return refusal(1);
    };
    if buffer.len() < length(board) {
        return refusal(23);
    }
    let mut sheet = Vec::with_capacity(length(board));
    sheet.extend_from_slice(&[FRAME_TAG, 0, FRAME_LENGTH as u8]);
    put(&mut sheet, frame, board.wrong);
    for server in &board.servers {
        sheet.extend_from_slice(&[SERVER_TAG, 0, SERVER_LENGTH as u8]);
        put(&mut sheet, server.period, board.wrong);
        put(&mut sheet, server.budget, board.wrong);
        for hold in server.holds {
            put(&mut sheet, hold, board.wrong);
        }
    }
    sheet.extend_from_slice(&[END_TAG, 0, 0]);
    buffer[..sheet.len()].copy_from_slice(&sheet);
    Answer { number: 0, value: sheet.len() as Number }
}

fn put(sheet: &mut Vec<u8>, value: Number, wrong: Wrong) {
    // Every number of an admitted table is below 2^32.
    let value = value as u32;
    let turned = if wrong == Wrong::SheetTurned { value.swap_bytes() } else { value };
    sheet.extend_from_slice(&turned.to_be_bytes());
}
