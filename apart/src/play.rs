//! The generator's lines: it keeps a board beside it and plays against it.

use crate::board::{Answer, Board, Number, State, LONGEST_RUN, RESOURCES};
use crate::lines;
use crate::random::Random;
use crate::tables::{self, Figures, ENDS};
use crate::wrong::Wrong;
use std::io::{Result, Write};

/// Ticks earned by each line, so that a long file stays quick to answer.
const TICKS_A_LINE: Number = 150;

pub struct Player {
    board: Board,
    random: Random,
    text: Vec<u8>,
    lines: u64,
    ticks: Number,
}

/// Writes at least `count` lines; with an odd seed the last one is without its line end.
pub fn play<W: Write>(seed: u64, count: u64, out: &mut W) -> Result<()> {
    let mut player = Player {
        board: Board::unopened(Wrong::None),
        random: Random::new(seed),
        text: Vec::new(),
        lines: 0,
        ticks: 0,
    };
    for _ in 0..12 {
        player.any_call();
    }
    while player.lines < count {
        player.game();
        out.write_all(&player.text)?;
        player.text.clear();
    }
    player.call(b'S', &[]);
    if seed & 1 == 0 {
        player.text.push(b'\n');
    }
    out.write_all(&player.text)
}

// Saying a line.
impl Player {
    fn say(&mut self, line: &[u8]) -> Answer {
        if self.lines > 0 {
            self.text.push(b'\n');
        }
        self.text.extend_from_slice(line);
        self.lines += 1;
        let ran = line.first() == Some(&b'R');
        let answer = lines::answer(&mut self.board, Some(line));
        self.ticks += TICKS_A_LINE - if ran { answer.value } else { 0 };
        answer
    }

    fn call(&mut self, letter: u8, numbers: &[Number]) -> Answer {
        let line = compose(letter, numbers);
        self.say(&line)
    }

    fn call_slot(&mut self, letter: u8, slot: usize) -> Answer {
        self.call(letter, &[slot as Number])
    }

    fn admit(&mut self, figures: &Figures) -> Answer {
        let mut numbers = vec![figures.period, figures.budget];
        numbers.extend_from_slice(&figures.holds);
        self.call(b'A', &numbers)
    }

    /// A run, cut down where it would take more ticks than the lines have earned.
    fn run(&mut self, n: Number) -> Answer {
        let passing = self.next_event().unwrap_or(n).min(n);
        if passing > self.ticks.max(60) {
            let short = self.random.between(1, 40);
            return self.call(b'R', &[short]);
        }
        self.call(b'R', &[n.clamp(1, LONGEST_RUN)])
    }
}

fn compose(letter: u8, numbers: &[Number]) -> Vec<u8> {
    let mut line = vec![letter];
    for number in numbers {
        line.push(b' ');
        line.extend_from_slice(number.to_string().as_bytes());
    }
    line
}

// Looking at the board.
impl Player {
    fn slots(&self, asked: impl Fn(&State) -> bool) -> Vec<usize> {
        let servers = self.board.servers.iter().enumerate();
        servers.filter(|(_, server)| asked(&server.state)).map(|(slot, _)| slot).collect()
    }

    fn idle(&self) -> Vec<usize> {
        self.slots(|state| *state == State::Idle)
    }

    /// Ticks until a run would end by itself.
    fn next_event(&self) -> Option<Number> {
        let now = self.board.clock;
        let mut ends: Vec<Number> = Vec::new();
        for server in &self.board.servers {
            match server.state {
                State::Suspended(tr) => ends.push(tr - now),
                State::Spent => ends.push(server.d - now),
                _ => {}
            }
        }
        if let Some(slot) = self.board.named() {
            let server = &self.board.servers[slot];
            ends.push(match server.lock {
                Some(lock) => server.holds[lock.resource] - lock.held,
                None => server.q,
            });
        }
        ends.into_iter().min()
    }

    /// A resource the server uses, open ones and long holds preferred.
    fn used_resource(&mut self, slot: usize) -> Option<usize> {
        let server = &self.board.servers[slot];
        let used: Vec<usize> = (0..RESOURCES).filter(|&r| server.uses(r)).collect();
        let open: Vec<usize> = used.iter().copied().filter(|r| self.board.closed & (1 << r) == 0).collect();
        let from = if open.is_empty() || self.random.chance(1, 8) { used } else { open };
        if from.is_empty() {
            return None;
        }
        if self.random.chance(1, 2) {
            return from.into_iter().max_by_key(|&r| self.board.servers[slot].holds[r]);
        }
        Some(self.random.pick(&from))
    }
}

// Commissioning.
impl Player {
    fn game(&mut self) {
        match self.random.below(20) {
            0..=7 => self.commission_ladder(),
            8..=11 => self.commission_edge(),
            12..=14 => self.commission_full(),
            15 => self.commission_crowd(),
            16 => self.commission_equals(),
            17 | 18 => self.commission_big(),
            _ => self.commission_empty(),
        }
        if self.random.chance(1, 4) {
            self.any_call();
        }
        self.call(b'S', &[]);
        if self.random.chance(1, 2) {
            self.hold_back();
        }
        let moves = self.random.pick(&[5, 10, 20, 40, 80, 160]);
        for _ in 0..moves {
            self.one_move();
            // A board with nobody left to run has little more to show.
            let alive = self.slots(|state| *state != State::Stopped).len();
            if alive == 0 && self.random.chance(1, 8) {
                break;
            }
        }
    }

    fn open(&mut self, frame: Number) {
        if self.random.chance(1, 5) {
            let refused =
                self.random.pick(&[0, 1_000_000_001, (1 << 32) - 1, 1 << 32, (1 << 32) + 60, (1 << 64) - 1]);
            self.call(b'F', &[refused]);
        }
        self.call(b'F', &[frame]);
        if self.random.chance(1, 30) {
            self.call(b'F', &[frame]);
        }
    }

    /// What may come between two admissions.
    fn between_admissions(&mut self, figures: &Figures) {
        if self.random.chance(1, 4) {
            let mut spoilt = *figures;
            tables::spoil(&mut self.random, &mut spoilt, (1 << 64) - 1);
            self.admit(&spoilt);
        }
        if self.random.chance(1, 25) {
            self.any_call();
        }
        if self.random.chance(1, 25) {
            self.malformed();
        }
    }

    fn commission_ladder(&mut self) {
        let (frame, table) = tables::ladder(&mut self.random);
        self.commission(frame, &table);
    }

    fn commission_full(&mut self) {
        let (frame, table) = tables::full(&mut self.random);
        self.commission(frame, &table);
    }

    fn commission(&mut self, frame: Number, table: &[Figures]) {
        self.open(frame);
        for figures in table {
            self.admit(figures);
            self.between_admissions(figures);
        }
    }

    fn commission_edge(&mut self) {
        let small = self.random.chance(5, 6);
        let frame =
            if small { tables::small_frame(&mut self.random) } else { tables::odd_frame(&mut self.random) };
        let from = tables::periods(frame);
        self.open(frame);
        for _ in 0..self.random.between(1, 9) {
            let figures = tables::edge(&mut self.random, &self.board, &from);
            self.admit(&figures);
            self.between_admissions(&figures);
        }
    }

    /// Sixteen servers and more calls than there are slots.
    fn commission_crowd(&mut self) {
        let frame = self.random.pick(&[720, 840, 5_040, 27_720, 720_720]);
        self.open(frame);
        let table = tables::inside(&mut self.random, frame, 16);
        for figures in &table {
            self.admit(figures);
        }
        for figures in table.iter().take(2) {
            self.admit(figures);
            self.between_admissions(figures);
        }
    }

    /// Two or three periods only, so that deadlines tie.
    fn commission_equals(&mut self) {
        let frame = tables::small_frame(&mut self.random);
        let all = tables::periods(frame);
        let from: Vec<Number> = (0..2).map(|_| all[self.random.below(all.len() - 3) + 3]).collect();
        self.open(frame);
        for _ in 0..self.random.between(3, 7) {
            let figures = tables::edge(&mut self.random, &self.board, &from);
            self.admit(&figures);
        }
    }

    fn commission_big(&mut self) {
        if self.random.chance(1, 2) {
            let (frame, table) = tables::heavy(&mut self.random);
            return self.commission(frame, &table);
        }
        let frame = tables::big_frame(&mut self.random);
        let from = tables::periods(frame);
        let shortest = self.random.below(from.len());
        self.open(frame);
        for _ in 0..self.random.between(1, 6) {
            let figures = tables::edge(&mut self.random, &self.board, &from[shortest..]);
            self.admit(&figures);
            self.between_admissions(&figures);
        }
    }

    fn commission_empty(&mut self) {
        let frame = tables::odd_frame(&mut self.random);
        self.open(frame);
    }
}

// Moves of a running board.
impl Player {
    fn one_move(&mut self) {
        match self.random.below(100) {
            0..=25 => self.named_call(),
            26..=45 => self.arrive_some(),
            46..=70 => self.run_some(),
            71 | 72 => self.hold_back(),
            73 | 74 => self.late_lock(),
            75 => self.overhold(),
            76 => self.stop_shortest(),
            77..=80 => self.near_end(),
            81..=84 => self.done_and_arrive(),
            85 => self.arrive_all(),
            86..=91 => self.any_call(),
            92..=94 => self.malformed(),
            95..=97 => self.wide_call(),
            98 => self.out_of_phase(),
            _ => self.long_run(),
        }
    }

    /// A call of the named server, mostly a legal one.
    fn named_call(&mut self) {
        let Some(slot) = self.board.named() else {
            return self.arrive_some();
        };
        let resource = self.used_resource(slot);
        let holds = self.board.servers[slot].lock.is_some();
        match (holds, resource, self.random.below(20)) {
            (true, _, 0) => self.call_slot(b'D', slot),
            (true, Some(r), 1) => self.call(b'L', &[slot as Number, r as Number]),
            (true, _, 2..=14) => self.call_slot(b'U', slot),
            (true, _, _) => self.run(1),
            (false, _, 0) => self.call_slot(b'U', slot),
            (false, _, 1) => {
                let any = self.random.between(0, 9);
                self.call(b'L', &[slot as Number, any])
            }
            (false, Some(r), 2..=15) => self.call(b'L', &[slot as Number, r as Number]),
            _ => self.call_slot(b'D', slot),
        };
    }

    /// An arrival of an idle server; a spent one is done first now and then.
    fn arrive_some(&mut self) {
        let spent = self.slots(|state| *state == State::Spent);
        if !spent.is_empty() && self.random.chance(1, 4) {
            let slot = self.random.pick(&spent);
            self.call_slot(b'D', slot);
        }
        let idle = self.idle();
        if idle.is_empty() {
            self.run_some();
            return;
        }
        let slot = self.random.pick(&idle);
        self.call_slot(b'W', slot);
    }

    fn arrive_all(&mut self) {
        let mut idle = self.idle();
        tables::shuffle(&mut self.random, &mut idle);
        for slot in idle {
            self.call_slot(b'W', slot);
        }
    }

    fn run_some(&mut self) {
        let event = self.next_event().unwrap_or(3);
        let n = match self.random.below(10) {
            0 | 1 => 1,
            2 => self.random.between(2, 5),
            3 | 4 => event,
            5 => event - 1,
            6 => event + 1,
            7 => self.random.between(1, 40),
            8 => LONGEST_RUN,
            _ => self.random.between(1, event.max(1)),
        };
        self.run(n);
    }

    fn long_run(&mut self) {
        let n = self.random.pick(&[100, 1_000, 10_000, 100_000, 999_999, LONGEST_RUN]);
        self.run(n);
    }

    /// Runs the named server until its budget is just enough for a lock, or just not.
    fn near_end(&mut self) {
        let Some(slot) = self.board.named() else {
            return self.arrive_all();
        };
        let Some(resource) = self.used_resource(slot) else {
            return self.run_some();
        };
        if self.board.servers[slot].lock.is_some() {
            self.call_slot(b'U', slot);
        }
        let server = &self.board.servers[slot];
        let rest = server.q - server.largest_hold() + self.random.between(0, 1);
        if rest > 0 {
            self.run(rest);
        }
        self.call(b'L', &[slot as Number, resource as Number]);
    }

    /// Done, then an arrival at once or about tr.
    fn done_and_arrive(&mut self) {
        let Some(slot) = self.board.named() else {
            return self.arrive_some();
        };
        if self.call_slot(b'D', slot).number != 0 {
            return;
        }
        let wait = self.board.replenishment_instant(slot) - self.board.clock + self.random.between(-1, 2);
        if wait > 0 && self.random.chance(3, 4) {
            self.run(wait);
        }
        self.call_slot(b'W', slot);
    }
}

// Longer plans.
impl Player {
    /// Brings all servers to idle, past their deadlines.
    fn rest(&mut self) {
        for _ in 0..40 {
            if let Some(slot) = self.board.named() {
                let letter = if self.board.servers[slot].lock.is_some() { b'U' } else { b'D' };
                self.call_slot(letter, slot);
                continue;
            }
            let spent = self.slots(|state| *state == State::Spent);
            if let Some(&slot) = spent.first() {
                self.call_slot(b'D', slot);
                continue;
            }
            match self.next_event() {
                Some(wait) => self.run(wait),
                None => break,
            };
        }
        let latest = self.board.servers.iter().map(|s| s.d).max().unwrap_or(0);
        if latest > self.board.clock {
            self.run(latest - self.board.clock);
        }
    }

    /// A long server locks; the others arrive under its ceiling from the longest period to
    /// the shortest, each about as much later as its period is shorter.
    fn hold_back(&mut self) {
        self.rest();
        let mut idle = self.idle();
        idle.sort_by_key(|&slot| -self.board.servers[slot].period);
        let uses_open = |slot: &usize| {
            (0..RESOURCES).any(|r| self.board.servers[*slot].uses(r) && self.board.closed & (1 << r) == 0)
        };
        let Some(holder) = idle.iter().copied().find(uses_open) else {
            return;
        };
        self.call_slot(b'W', holder);
        if self.random.chance(1, 3) {
            self.run(1);
        }
        let Some(resource) = self.used_resource(holder) else {
            return;
        };
        if self.call(b'L', &[holder as Number, resource as Number]).number == 0 {
            idle.retain(|&slot| slot != holder);
            if self.random.chance(1, 2) {
                self.arrive_in_pair(&idle);
            } else {
                self.arrive_under_ceiling(&idle);
            }
            self.end_hold(holder);
        }
    }

    /// One server that the ceiling holds back, then one below the ceiling at about the
    /// instant from which its deadline is the later one.
    fn arrive_in_pair(&mut self, slots: &[usize]) {
        let ceiling = self.board.ceiling().unwrap_or(0);
        let room = self.next_event().unwrap_or(0);
        let mut pairs = Vec::new();
        for &first in slots {
            for &second in slots {
                let (longer, shorter) = (self.board.servers[first].period, self.board.servers[second].period);
                if longer >= ceiling && shorter < ceiling && longer - shorter < room {
                    pairs.push((first, second, longer - shorter));
                }
            }
        }
        if pairs.is_empty() {
            return self.arrive_under_ceiling(slots);
        }
        let (first, second, gap) = self.random.pick(&pairs);
        self.call_slot(b'W', first);
        let wait = gap + self.random.between(-1, 1);
        if wait > 0 {
            self.run(wait);
        }
        self.call_slot(b'W', second);
    }

    fn arrive_under_ceiling(&mut self, slots: &[usize]) {
        let mut before: Option<Number> = None;
        for &slot in slots {
            if self.random.chance(1, 5) {
                continue;
            }
            let period = self.board.servers[slot].period;
            let gap = before.map_or(0, |longer| longer - period) + self.random.between(-1, 1);
            let room = self.next_event().unwrap_or(0);
            if gap > 0 && gap < room {
                self.run(gap);
            } else if room > 1 && self.random.chance(1, 3) {
                self.run(1);
            }
            self.call_slot(b'W', slot);
            before = Some(period);
        }
    }

    /// All arrive at once and run out their budgets; the last in the order comes late to its
    /// lock, so that its tr may have passed before it asks.
    fn late_lock(&mut self) {
        self.rest();
        self.arrive_all();
        let last = self.slots(|state| *state == State::Ready).into_iter();
        let Some(last) = last.max_by_key(|&slot| (self.board.servers[slot].d, slot)) else {
            return;
        };
        for _ in 0..10 {
            if self.board.named() == Some(last) {
                break;
            }
            let wait = self.next_event().unwrap_or(1);
            self.run(wait);
        }
        self.near_end();
        if let Some(lock) = self.board.servers[last].lock {
            self.run(self.board.servers[last].holds[lock.resource]);
            self.call_slot(b'U', last);
        }
        self.named_call();
    }

    /// Stops the shortest server that uses anything: its periods still make the ceilings.
    fn stop_shortest(&mut self) {
        self.rest();
        let users = |slot: &usize| self.board.servers[*slot].largest_hold() > 0;
        let shortest =
            self.idle().into_iter().filter(users).min_by_key(|&slot| self.board.servers[slot].period);
        if let Some(slot) = shortest {
            self.call_slot(b'W', slot);
            self.overhold();
        }
        self.hold_back();
    }

    /// Unlocks the holder when it is named, or lets it run to its hold and past it.
    fn end_hold(&mut self, holder: usize) {
        let over = self.random.chance(1, 4);
        for _ in 0..8 {
            let server = &self.board.servers[holder];
            let Some(lock) = server.lock else {
                return;
            };
            let rest = server.holds[lock.resource] - lock.held;
            if self.board.named() == Some(holder) && !over && (rest == 0 || self.random.chance(1, 3)) {
                self.call_slot(b'U', holder);
                return;
            }
            // One that preempts a holder at its hold delays the stop.
            if rest == 0 && self.random.chance(1, 2) {
                self.arrive_some();
            }
            let more = self.random.pick(&[0, 1, 2, 8]);
            self.run(rest + more);
        }
    }

    /// Locks and runs to the hold and on, then tries the closed resource and the stopped server.
    fn overhold(&mut self) {
        let Some(slot) = self.board.named() else {
            return self.arrive_all();
        };
        let Some(resource) = self.used_resource(slot) else {
            return self.named_call();
        };
        self.call(b'L', &[slot as Number, resource as Number]);
        let preempted = self.random.chance(1, 3);
        for _ in 0..6 {
            if self.board.servers[slot].lock.is_none() {
                break;
            }
            let n = self.next_event().unwrap_or(1) + self.random.between(0, 1);
            if n <= 1 && self.random.chance(1, 4) {
                let refused = self.random.pick(&[0, LONGEST_RUN + 1]);
                self.call(b'R', &[refused]);
            }
            if preempted {
                self.arrive_some();
            }
            self.run(n);
        }
        self.after_overhold(slot, resource);
    }

    fn after_overhold(&mut self, slot: usize, resource: usize) {
        if self.board.servers[slot].state == State::Stopped && self.random.chance(1, 2) {
            let letter = self.random.pick(b"WDU");
            self.call_slot(letter, slot);
            self.call(b'L', &[slot as Number, resource as Number]);
        }
        let users = |other: &usize| self.board.servers[*other].uses(resource);
        let Some(user) = self.idle().into_iter().find(users) else {
            return;
        };
        self.call_slot(b'W', user);
        if let Some(named) = self.board.named() {
            self.call(b'L', &[named as Number, resource as Number]);
        }
    }
}

// Calls that are mostly refused.
impl Player {
    /// Any call with numbers near those of the table.
    fn any_call(&mut self) {
        let slot = self.random.between(0, self.board.servers.len() as Number);
        let number = self.random.between(0, 9);
        match self.random.below(8) {
            0 => self.call(b'W', &[slot]),
            1 => self.call(b'D', &[slot]),
            2 | 3 => self.call(b'L', &[slot, number]),
            4 => self.call(b'U', &[slot]),
            5 => self.call(b'R', &[number]),
            6 => self.call(b'A', &[0; 2 + RESOURCES]),
            _ if self.board.running || self.board.frame.is_none() => self.call(b'S', &[]),
            _ => self.call(b'R', &[0]),
        };
    }

    /// A call with a number at the end of some range or width.
    fn wide_call(&mut self) {
        let end = self.random.pick(&ENDS);
        let small = self.random.between(0, 3);
        // What a number cut to fewer bits would be taken for.
        let cut = self.random.pick(&[1 << 8, 1 << 16, 1 << 32, 1 << 40, 1 << 63]) + small;
        let wide = if self.random.chance(1, 2) { end } else { cut };
        let slot = self.board.named().map_or(small, |slot| slot as Number);
        match self.random.below(8) {
            0 => self.call(b'W', &[wide]),
            1 => self.call(b'D', &[wide]),
            2 => self.call(b'L', &[wide, small]),
            3 => self.call(b'L', &[slot, wide]),
            4 => self.call(b'U', &[wide]),
            5 if wide > LONGEST_RUN => self.call(b'R', &[wide]),
            6 if wide > 1_000_000_000 => self.call(b'F', &[wide]),
            _ => self.call(b'A', &[wide, small, wide, 0, 0, 0, 0, 0, 0, 0]),
        };
    }

    /// Commissioning calls on a running board and frames that are refused.
    fn out_of_phase(&mut self) {
        match self.random.below(4) {
            0 => self.call(b'S', &[]),
            1 => self.call(b'A', &[10, 1, 0, 0, 0, 0, 0, 0, 0, 0]),
            2 => self.call(b'F', &[0]),
            _ => self.call(b'F', &[1_000_000_001]),
        };
    }

    /// A line that would be good but for one thing.
    fn malformed(&mut self) {
        let slot = self.random.between(0, 2);
        let line = match self.random.below(7) {
            0 => compose(b'W', &[slot]),
            1 => compose(b'L', &[slot, 0]),
            2 => compose(b'R', &[1 + slot]),
            3 => compose(b'F', &[60]),
            4 => compose(b'S', &[]),
            5 => compose(b'A', &[10, 4, 2, 0, 0, 0, 0, 0, 0, 0]),
            _ => compose(b'U', &[slot]),
        };
        let spoilt = match self.random.below(3) {
            0 => self.spoil_spaces(line),
            1 => self.spoil_bytes(line),
            _ => self.spoil_whole(line),
        };
        self.say(&spoilt);
    }

    fn spoil_spaces(&mut self, mut line: Vec<u8>) -> Vec<u8> {
        let space = line.iter().position(|&byte| byte == b' ');
        match (self.random.below(7), space) {
            (0, _) => line.insert(0, b' '),
            (1, _) => line.push(b' '),
            (2, Some(place)) => line.insert(place, b' '),
            (3, Some(place)) => line[place] = b'\t',
            (4, Some(place)) => {
                line.remove(place);
            }
            (5, _) => line.push(b'\r'),
            _ => line.extend_from_slice(b" 0"),
        }
        line
    }

    fn spoil_bytes(&mut self, mut line: Vec<u8>) -> Vec<u8> {
        let place = self.random.below(line.len() + 1);
        let odd = self.random.pick(b"\0\r\t\x0b\x0c+-.,_x#\x7f\x80\xa0\xc3\xff");
        let last = line.iter().rposition(|&byte| byte == b' ').map_or(line.len(), |space| space + 1);
        match self.random.below(8) {
            0 | 1 => line.insert(place, odd),
            2 => line[0] = line[0].to_ascii_lowercase(),
            3 => line.insert(last, b'0'),
            4 => line.insert(last, b'+'),
            5 => line.insert(last, b'-'),
            6 => line[0] = self.random.pick(b"BCEGHIJKMNOPQTVXYZ0[@"),
            _ => line.insert(0, line[0]),
        }
        line
    }

    fn spoil_whole(&mut self, mut line: Vec<u8>) -> Vec<u8> {
        match self.random.below(9) {
            0 => Vec::new(),
            1 => {
                let last = line.iter().rposition(|&byte| byte == b' ').unwrap_or(0);
                line.truncate(last);
                line
            }
            2 => b"W 18446744073709551616".to_vec(),
            3 => b"R 99999999999999999999999999999999999999999999".to_vec(),
            4 => format!("F {}", self.random.pick(&["00", "01", "060", "1e3", "0x10", "1.0", "\u{0661}"]))
                .into_bytes(),
            5 => b"U 36893488147419103232".to_vec(),
            _ => self.long_line(line),
        }
    }

    /// A line about 255 bytes or much longer, a good line at one of its ends.
    fn long_line(&mut self, line: Vec<u8>) -> Vec<u8> {
        let length = self.random.pick(&[254, 255, 256, 257, 258, 300, 511, 512, 1_000, 4_096]);
        let length = if self.random.chance(1, 200) { 140_000 } else { length };
        let filler = self.random.pick(b" 0 1RS\0\xff");
        let mut long = vec![filler; length];
        if self.random.chance(1, 2) {
            long[..line.len()].copy_from_slice(&line);
        } else {
            long[length - line.len()..].copy_from_slice(&line);
        }
        long
    }
}
