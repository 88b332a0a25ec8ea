//! Tables for the generator: figures on the edge of the admission test and tables aimed at
//! the dispatcher.

use crate::board::{Board, Number, LONGEST_PERIOD, RESOURCES};
use crate::random::Random;
use crate::wrong::Wrong;

/// The figures of an A line or of a server's field.
#[derive(Clone, Copy, PartialEq, Eq, Debug)]
pub struct Figures {
    pub period: Number,
    pub budget: Number,
    pub holds: [Number; RESOURCES],
}

const SMALL_FRAMES: [Number; 22] =
    [12, 16, 20, 24, 30, 36, 40, 48, 60, 60, 60, 72, 84, 90, 96, 120, 180, 240, 360, 420, 720, 840];
const ODD_FRAMES: [Number; 10] = [1, 2, 3, 7, 97, 1_000_000, 720_720, 999_983, 999_999_999, 1_000_000_000];
const BIG_FRAMES: [Number; 6] = [1_000_000, 720_720, 5_040_000, 735_134_400, 999_999_000, 1_000_000_000];

pub fn small_frame(random: &mut Random) -> Number {
    random.pick(&SMALL_FRAMES)
}

pub fn odd_frame(random: &mut Random) -> Number {
    random.pick(&ODD_FRAMES)
}

pub fn big_frame(random: &mut Random) -> Number {
    random.pick(&BIG_FRAMES)
}

/// The periods a frame allows, from the shortest to the longest.
pub fn periods(frame: Number) -> Vec<Number> {
    let mut found = Vec::new();
    let mut small = 1;
    while small * small <= frame {
        if frame % small == 0 {
            found.push(small);
            found.push(frame / small);
        }
        small += 1;
    }
    found.retain(|&period| period <= LONGEST_PERIOD);
    found.sort_unstable();
    found.dedup();
    found
}

pub fn fits(board: &Board, figures: &Figures) -> bool {
    board.clone().admit(figures.period, figures.budget, figures.holds).number == 0
}

/// The largest number up to `most` that fits; 0 if none does. What fits, fits when smaller.
pub fn largest(most: Number, fits: impl Fn(Number) -> bool) -> Number {
    let (mut yes, mut no) = (0, most + 1);
    while no - yes > 1 {
        let middle = (yes + no) / 2;
        if fits(middle) {
            yes = middle;
        } else {
            no = middle;
        }
    }
    yes
}

fn with_budget(period: Number, budget: Number, wishes: &[Number; RESOURCES]) -> Figures {
    Figures { period, budget, holds: wishes.map(|wish| wish.min(budget)) }
}

/// Wishes for holds: mostly a few resources, low numbers preferred so that servers share.
fn wishes(random: &mut Random, most: Number) -> [Number; RESOURCES] {
    let mut holds = [0; RESOURCES];
    for _ in 0..random.pick(&[0, 1, 1, 2, 2, 3, 8]) {
        let resource = if random.chance(3, 4) { random.below(3) } else { random.below(RESOURCES) };
        holds[resource] = random.between(1, most);
    }
    holds
}

/// A new server for the board: on the edge of admission, one over it, or well inside.
pub fn edge(random: &mut Random, board: &Board, from: &[Number]) -> Figures {
    let period = random.pick(from);
    let wish = wishes(random, 1 + period / 3);
    let top = largest(period, |budget| fits(board, &with_budget(period, budget, &wish)));
    let part = random.between(2, 8);
    let share = random.between(1, (top / part).max(1));
    match random.below(10) {
        0 => with_budget(period, top.max(1), &wish),
        1 => with_budget(period, (top + 1).min(period), &wish),
        2 => edge_hold(random, board, with_budget(period, share, &[0; RESOURCES]), 0),
        3 => edge_hold(random, board, with_budget(period, share, &[0; RESOURCES]), 1),
        4 => edge_hold(random, board, with_budget(period, top.max(1), &wish), 0),
        5 => far_over(random, with_budget(period, top.max(1), &wish)),
        _ => with_budget(period, share, &wish),
    }
}

/// Makes one hold the largest that is admitted, and more by `over` where Q allows it.
fn edge_hold(random: &mut Random, board: &Board, figures: Figures, over: Number) -> Figures {
    let resource = random.below(3);
    let with_hold = |hold: Number| {
        let mut changed = figures;
        changed.holds[resource] = hold;
        changed
    };
    let top = largest(figures.budget, |hold| fits(board, &with_hold(hold)));
    with_hold((top + over).min(figures.budget))
}

/// Holds anywhere up to Q, so that the sum may be far above L and above any width.
fn far_over(random: &mut Random, mut figures: Figures) -> Figures {
    for resource in 0..3 {
        figures.holds[resource] = random.between(0, figures.budget);
    }
    figures
}

/// A table whose servers are all inside, at most `count` of them.
pub fn inside(random: &mut Random, frame: Number, count: usize) -> Vec<Figures> {
    let mut board = Board::unopened(Wrong::None);
    board.open(frame);
    let from = periods(frame);
    let mut table = Vec::new();
    for _ in 0..count * 3 {
        let period = random.pick(&from);
        let wish = wishes(random, 1 + period / 4);
        let top = largest(period, |budget| fits(&board, &with_budget(period, budget, &wish)));
        let room = (count - table.len()) as Number + 1;
        let figures = with_budget(period, random.between(1, (top / room).max(1)), &wish);
        if board.admit(figures.period, figures.budget, figures.holds).number == 0 {
            table.push(figures);
        }
        if table.len() == count {
            break;
        }
    }
    table
}

/// A table aimed at the dispatcher: periods close to one another and a long server whose
/// hold lasts longer than the gap, so that a shorter server can arrive later under the
/// ceiling and still stand behind a longer one that is held back.
pub fn ladder(random: &mut Random) -> (Number, Vec<Figures>) {
    let frame = random.pick(&[60, 60, 120, 120, 180, 240, 360, 720, 840]);
    let from: Vec<Number> = periods(frame).into_iter().filter(|&p| p >= 5).collect();
    let low = random.below(from.len() - 3);
    let middle = low + random.below(2) + random.below(2);
    let high = middle + 1 + random.below(from.len() - middle - 1);
    let shared = random.below(3);
    let mut board = Board::unopened(Wrong::None);
    board.open(frame);
    let mut table = Vec::new();
    for place in [low, middle] {
        let period = from[place];
        let mut wish = [0; RESOURCES];
        if place == middle || random.chance(1, 4) {
            wish[shared] = random.between(1, 2);
        }
        if random.chance(1, 3) {
            wish[(shared + 1) % 4] = random.between(1, 2);
        }
        keep(&mut board, &mut table, with_budget(period, random.between(1, 1 + period / 6), &wish));
    }
    long_holder(random, &mut board, &mut table, from[high], shared);
    for _ in 0..random.below(4) {
        let figures = edge(random, &board, &from);
        keep(&mut board, &mut table, figures);
    }
    shuffle(random, &mut table);
    (frame, table)
}

/// Servers of one period that fill it wholly or but for a tick: the last in the order runs
/// up to the deadline, and its lock comes late. Equal periods never block one another.
pub fn full(random: &mut Random) -> (Number, Vec<Figures>) {
    let frame = small_frame(random).max(20);
    let from: Vec<Number> = periods(frame).into_iter().filter(|&p| p >= 4).collect();
    let period = random.pick(&from);
    let mut left = period - random.pick(&[0, 0, 0, 1]);
    let mut table = Vec::new();
    let count = random.between(2, 4);
    for place in 1..=count {
        let share = if place == count { left } else { random.between(1, (left / 2).max(1)) };
        if share < 1 {
            break;
        }
        table.push(with_budget(period, share, &wishes(random, share)));
        left -= share;
    }
    shuffle(random, &mut table);
    (frame, table)
}

/// A short server on a huge frame and a long hold against it: sums beyond 32 bits.
pub fn heavy(random: &mut Random) -> (Number, Vec<Figures>) {
    let frame = random.pick(&[735_134_400, 999_999_000, 1_000_000_000]);
    let from = periods(frame);
    let short = from[2 + random.below(12)];
    let long = from[from.len() - 1 - random.below(4)];
    let mut wish = [0; RESOURCES];
    wish[random.below(2)] = 1;
    let mut table = vec![with_budget(short, 1, &wish)];
    for _ in 0..6 {
        let budget = random.between(1, long / 3);
        table.push(far_over(random, with_budget(long, budget, &[0; RESOURCES])));
    }
    (frame, table)
}

fn keep(board: &mut Board, table: &mut Vec<Figures>, figures: Figures) {
    if board.admit(figures.period, figures.budget, figures.holds).number == 0 {
        table.push(figures);
    }
}

/// Adds a server of a long period with as long a hold as is admitted, or nearly.
fn long_holder(
    random: &mut Random,
    board: &mut Board,
    table: &mut Vec<Figures>,
    period: Number,
    shared: usize,
) {
    let with_hold = |budget: Number| {
        let mut wish = [0; RESOURCES];
        wish[shared] = budget;
        with_budget(period, budget, &wish)
    };
    let top = largest(period, |budget| fits(board, &with_hold(budget)));
    let mut figures = with_hold((top - random.between(0, 2)).max(1));
    if random.chance(1, 2) {
        figures.holds[(shared + 1) % 4] = random.between(1, figures.budget);
    }
    keep(board, table, figures);
}

/// Any part of an admitted table is admitted too, so the order may be any.
pub fn shuffle<T>(random: &mut Random, table: &mut [T]) {
    for last in (1..table.len()).rev() {
        table.swap(last, random.below(last + 1));
    }
}

/// Numbers at which a range or a width ends.
pub const ENDS: [Number; 19] = [
    0,
    1,
    255,
    256,
    65_535,
    65_536,
    999_999,
    1_000_000,
    1_000_001,
    1_000_000_000,
    1_000_000_001,
    (1 << 31) - 1,
    1 << 31,
    (1 << 32) - 1,
    1 << 32,
    1_000_000_000_000,
    1_000_000_000_001,
    (1 << 63) - 1,
    (1 << 64) - 1,
];

/// Spoils figures so that one or more of 4, 5, 6 apply; `widest` bounds the numbers.
pub fn spoil(random: &mut Random, figures: &mut Figures, widest: Number) {
    let kinds = random.between(1, 7);
    if kinds & 1 != 0 {
        figures.period = match random.below(5) {
            0 => 0,
            1 => LONGEST_PERIOD + 1,
            2 => figures.period + 1,
            3 => figures.period * 7,
            _ => random.pick(&ENDS).min(widest),
        };
    }
    if kinds & 2 != 0 {
        figures.budget = match random.below(3) {
            0 => 0,
            1 => (figures.period + 1).min(widest),
            _ => random.pick(&ENDS).min(widest),
        };
    }
    if kinds & 4 != 0 {
        figures.holds[random.below(RESOURCES)] = match random.below(2) {
            0 => (figures.budget + 1).min(widest),
            _ => random.pick(&ENDS).min(widest),
        };
    }
}
