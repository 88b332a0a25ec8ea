//! The generator's sheets: good ones, refused ones and damaged ones, in hex.

use crate::board::{Number, LONGEST_PERIOD};
use crate::lines::to_hex;
use crate::random::Random;
use crate::sheet::{END_TAG, FRAME_LENGTH, FRAME_TAG, HEAD, SERVER_LENGTH, SERVER_TAG};
use crate::tables::{self, Figures};
use std::io::{Result, Write};

const WIDEST: Number = (1 << 32) - 1;

/// A sheet before it is put into bytes.
#[derive(Clone)]
struct Draft {
    frame: Number,
    table: Vec<Figures>,
}

/// Writes `count` sheet lines; with an odd seed the last one is without its line end.
pub fn sheets<W: Write>(seed: u64, count: u64, out: &mut W) -> Result<()> {
    let mut random = Random::new(seed ^ 0x5EE7);
    let mut series: Vec<String> = Vec::new();
    for written in 0..count {
        if series.is_empty() && random.chance(1, 400) {
            series = cuts(&mut random);
        }
        let line = series.pop().unwrap_or_else(|| line(&mut random));
        out.write_all(line.as_bytes())?;
        if written + 1 < count || seed & 1 == 0 || line.is_empty() {
            out.write_all(b"\n")?;
        }
    }
    Ok(())
}

fn line(random: &mut Random) -> String {
    let draft = draft(random);
    match random.below(20) {
        0..=3 => to_hex(&bytes(&draft)),
        4..=8 => to_hex(&bytes(&refused(random, draft))),
        9 => to_hex(&bytes(&crowded(random))),
        10 => to_hex(&bytes(&with_frame(random, draft))),
        11 => {
            let twice = refused(random, draft);
            to_hex(&damaged(random, bytes(&twice)))
        }
        12 => spoilt_hex(random, to_hex(&bytes(&draft))),
        _ => to_hex(&damaged(random, bytes(&draft))),
    }
}

fn draft(random: &mut Random) -> Draft {
    let frame = match random.below(6) {
        0 => tables::odd_frame(random),
        1 => tables::big_frame(random),
        _ => tables::small_frame(random),
    };
    let count = if random.chance(1, 12) { random.below(17) } else { random.below(6) };
    Draft { frame, table: tables::inside(random, frame, count) }
}

fn field(sheet: &mut Vec<u8>, tag: u8, numbers: &[Number]) {
    let length = numbers.len() * 4;
    sheet.extend_from_slice(&[tag, 0, length as u8]);
    for &number in numbers {
        sheet.extend_from_slice(&(number as u32).to_be_bytes());
    }
}

fn bytes(draft: &Draft) -> Vec<u8> {
    let mut sheet = Vec::new();
    field(&mut sheet, FRAME_TAG, &[draft.frame]);
    for figures in &draft.table {
        let mut numbers = vec![figures.period, figures.budget];
        numbers.extend_from_slice(&figures.holds);
        field(&mut sheet, SERVER_TAG, &numbers);
    }
    field(&mut sheet, END_TAG, &[]);
    sheet
}

/// A table that is refused, mostly at one slot, with 4, 5, 6 or 7.
fn refused(random: &mut Random, mut draft: Draft) -> Draft {
    if random.chance(1, 3) {
        return edged(random, draft);
    }
    if draft.table.is_empty() {
        draft.table.push(Figures { period: 1, budget: 1, holds: [0; 8] });
    }
    for _ in 0..random.pick(&[1, 1, 1, 2]) {
        let slot = random.below(draft.table.len());
        let figures = &mut draft.table[slot];
        match random.below(3) {
            0 => tables::spoil(random, figures, WIDEST),
            1 => figures.budget = figures.period,
            _ => {
                let frame = draft.frame.min(LONGEST_PERIOD);
                let hold = random.between(1, figures.budget);
                figures.holds[random.below(3)] = hold;
                draft.table.push(Figures { period: frame, budget: 1 + frame / 2, holds: [1 + frame / 3; 8] });
            }
        }
    }
    draft
}

/// Servers on the edge of admission or one over it.
fn edged(random: &mut Random, mut draft: Draft) -> Draft {
    let mut board = crate::board::Board::unopened(crate::wrong::Wrong::None);
    board.open(draft.frame);
    draft.table.truncate(4);
    for figures in &draft.table {
        board.admit(figures.period, figures.budget, figures.holds);
    }
    let from = tables::periods(draft.frame);
    for _ in 0..random.between(1, 5) {
        let figures = tables::edge(random, &board, &from);
        board.admit(figures.period, figures.budget, figures.holds);
        draft.table.push(figures);
    }
    draft
}

/// Sixteen servers, seventeen, eighteen, or as many as a line takes.
fn crowded(random: &mut Random) -> Draft {
    let frame = random.pick(&[5_040, 27_720, 720_720, 1_000_000_000]);
    let mut table = tables::inside(random, frame, 16);
    let count = random.pick(&[16, 17, 17, 18, 190]);
    let admitted = table.len();
    while table.len() < count {
        table.push(table[table.len() % admitted]);
    }
    if random.chance(1, 3) {
        let slot = random.below(table.len().min(20));
        tables::spoil(random, &mut table[slot], WIDEST);
    }
    Draft { frame, table }
}

fn with_frame(random: &mut Random, mut draft: Draft) -> Draft {
    draft.frame = random.pick(&[0, 1, 999_999_999, 1_000_000_000, 1_000_000_001, 1 << 31, WIDEST]);
    if random.chance(1, 2) {
        draft.table.clear();
    }
    draft
}

/// All the cuts of one sheet.
fn cuts(random: &mut Random) -> Vec<String> {
    let mut draft = draft(random);
    draft.table.truncate(3);
    let sheet = bytes(&draft);
    (0..=sheet.len()).map(|end| to_hex(&sheet[..end])).collect()
}

/// The offset of one of the sheet's fields; 0 is the frame, the last is the end.
fn some_field(random: &mut Random, sheet: &[u8]) -> usize {
    let first = HEAD + FRAME_LENGTH;
    let servers = sheet.len().saturating_sub(first) / (HEAD + SERVER_LENGTH);
    let which = random.below(servers + 2);
    if which == 0 {
        0
    } else {
        first + (which - 1) * (HEAD + SERVER_LENGTH)
    }
}

fn damaged(random: &mut Random, mut sheet: Vec<u8>) -> Vec<u8> {
    let at = some_field(random, &sheet);
    match random.below(14) {
        0 => sheet.truncate(random.below(sheet.len() + 1)),
        1 => sheet.truncate(at + random.below(HEAD + 1)),
        2 => sheet[at] = random.pick(&[0, 1, 2, 3, 4, 127, 128, 254, 255]),
        3 | 4 => wrong_length(random, &mut sheet, at),
        5 => {
            let behind =
                random.pick(&[&[0][..], &[255], &[255, 0, 0], &[1, 0, 4, 0, 0, 0, 60], &[2, 0], &[10]]);
            sheet.extend_from_slice(behind);
        }
        6 => sheet = fields_swapped(random, &sheet),
        7 => sheet.truncate(sheet.len() - HEAD),
        8 => {
            sheet.splice(at..at, [1, 0, 4, 0, 0, 0, 60]);
        }
        9 => {
            let tag = random.pick(&[0, 3, 4, 16, 127, 254]);
            let length = random.pick(&[0u8, 1, 4, 40]);
            let mut unknown = vec![tag, 0, length];
            unknown.resize(HEAD + usize::from(length), 0);
            sheet.splice(at..at, unknown);
        }
        10 | 11 => {
            let place = random.below(sheet.len());
            sheet[place] ^= 1 << random.below(8);
        }
        12 => {
            let place = random.below(sheet.len() + 1);
            sheet.insert(place, random.pick(&[0, 1, 2, 255]));
        }
        _ => {
            sheet.remove(random.below(sheet.len()));
        }
    }
    sheet
}

/// A wrong length, with the body as it was or grown or cut to go with it.
fn wrong_length(random: &mut Random, sheet: &mut Vec<u8>, at: usize) {
    let length = usize::from(sheet[at + 2]);
    let other = random.pick(&[0, 1, 4, 8, 39, 40, 41, 44, 256, 260, 296, length * 256, 65_535]);
    sheet[at + 1] = (other / 256 % 256) as u8;
    sheet[at + 2] = (other % 256) as u8;
    if other < 300 && random.chance(1, 2) {
        let body = at + HEAD..at + HEAD + length;
        let mut changed = sheet[body.clone()].to_vec();
        changed.resize(other, 0);
        sheet.splice(body, changed);
    }
}

/// Swaps the frame with the first field behind it, or the end with the one before it.
fn fields_swapped(random: &mut Random, sheet: &[u8]) -> Vec<u8> {
    let first = HEAD + FRAME_LENGTH;
    let second = if sheet.len() > first + HEAD { first + HEAD + SERVER_LENGTH } else { first + HEAD };
    let last = sheet.len() - HEAD;
    if random.chance(1, 2) {
        return [&sheet[first..second], &sheet[..first], &sheet[second..]].concat();
    }
    let before = if last > first { last - HEAD - SERVER_LENGTH } else { 0 };
    [&sheet[..before], &sheet[last..], &sheet[before..last]].concat()
}

/// Lines that are no hex of a sheet, or just so.
fn spoilt_hex(random: &mut Random, mut hex: String) -> String {
    match random.below(10) {
        0 => hex.to_uppercase(),
        1 => {
            hex.pop();
            hex
        }
        2 => hex + "0",
        3 => hex + "\r",
        4 => hex + "g0",
        5 => format!(" {hex}"),
        6 => format!("0x{hex}"),
        7 => hex.replacen('f', "F", 1),
        8 => String::new(),
        _ => {
            let digits = random.pick(&[16_382, 16_383, 16_384, 16_385, 16_386, 20_000, 70_000]);
            while hex.len() < digits {
                hex.push('0');
            }
            hex
        }
    }
}
