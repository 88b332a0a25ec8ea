//! The board of document 01: one processor, up to 16 servers, 8 shared resources, a clock.

use crate::wrong::Wrong;

/// Every quantity; wide enough that no sum or product of document 01 overflows.
pub type Number = i128;

pub const MOST_SERVERS: usize = 16;
pub const RESOURCES: usize = 8;
pub const LONGEST_PERIOD: Number = 1_000_000;
pub const LARGEST_FRAME: Number = 1_000_000_000;
pub const CLOCK_END: Number = 1_000_000_000_000;
pub const LONGEST_RUN: Number = 1_000_000;

/// The answer number of document 01's table and the value that goes with it.
#[derive(Clone, Copy, PartialEq, Eq, Debug)]
pub struct Answer {
    pub number: u8,
    pub value: Number,
}

pub const DONE: Answer = Answer { number: 0, value: 0 };

pub const OVERHELD: Answer = Answer { number: 22, value: 0 };

/// Refusals carry the value 0.
pub fn refusal(number: u8) -> Answer {
    Answer { number, value: 0 }
}

#[derive(Clone, Copy, PartialEq, Eq, Debug)]
pub enum State {
    Idle,
    Ready,
    /// Until this instant.
    Suspended(Number),
    /// Until its deadline.
    Spent,
    Stopped,
}

#[derive(Clone, Copy, PartialEq, Eq, Debug)]
pub struct Lock {
    pub resource: usize,
    /// Ticks the server has run since it locked.
    pub held: Number,
}

#[derive(Clone, PartialEq, Eq, Debug)]
pub struct Server {
    pub period: Number,
    pub budget: Number,
    pub holds: [Number; RESOURCES],
    pub state: State,
    pub q: Number,
    pub d: Number,
    pub started: bool,
    pub lock: Option<Lock>,
    /// Looked at by one wrong rule alone: the held count of the lock before.
    held_before: Number,
}

impl Server {
    /// At start all are idle with q = 0 and d = 0.
    pub fn new(period: Number, budget: Number, holds: [Number; RESOURCES]) -> Server {
        Server {
            period,
            budget,
            holds,
            state: State::Idle,
            q: 0,
            d: 0,
            started: false,
            lock: None,
            held_before: 0,
        }
    }

    /// A matter of the table, never of the state.
    pub fn uses(&self, resource: usize) -> bool {
        self.holds[resource] > 0
    }

    pub fn largest_hold(&self) -> Number {
        self.holds.iter().copied().max().unwrap_or(0)
    }
}

#[derive(Clone, PartialEq, Eq, Debug)]
pub struct Board {
    /// None: no frame yet.
    pub frame: Option<Number>,
    pub running: bool,
    pub clock: Number,
    pub servers: Vec<Server>,
    /// Bit r for resource r.
    pub locked: u8,
    pub closed: u8,
    pub wrong: Wrong,
}

fn bit(resource: usize) -> u8 {
    1 << resource
}

// Opening, admission and start.
impl Board {
    /// The board before any frame.
    pub fn unopened(wrong: Wrong) -> Board {
        Board { frame: None, running: false, clock: 0, servers: Vec::new(), locked: 0, closed: 0, wrong }
    }

    pub fn open(&mut self, frame: Number) -> Answer {
        if !(1..=LARGEST_FRAME).contains(&frame) {
            if self.wrong == Wrong::RefusedOpens {
                *self = Board::unopened(self.wrong);
            }
            return refusal(3);
        }
        *self = Board { frame: Some(frame), ..Board::unopened(self.wrong) };
        DONE
    }

    pub fn admit(&mut self, period: Number, budget: Number, holds: [Number; RESOURCES]) -> Answer {
        let frame = match self.frame {
            Some(frame) if !self.running => frame,
            _ => return refusal(1),
        };
        if self.servers.len() == MOST_SERVERS {
            return refusal(2);
        }
        if !(1..=LONGEST_PERIOD).contains(&period) || frame % period != 0 {
            return refusal(4);
        }
        if self.wrong == Wrong::HoldsFirst && holds.iter().any(|&hold| hold > budget) {
            return refusal(6);
        }
        if budget < 1 || budget > period {
            return refusal(5);
        }
        if holds.iter().any(|&hold| hold > budget) {
            return refusal(6);
        }
        let mut table = self.servers.clone();
        table.push(Server::new(period, budget, holds));
        if !self.admits(&table, frame) {
            return refusal(7);
        }
        self.servers = table;
        Answer { number: 0, value: self.servers.len() as Number - 1 }
    }

    /// The admission test, made for every k of the table with the new server added.
    fn admits(&self, table: &[Server], frame: Number) -> bool {
        let first = if self.wrong == Wrong::AdmitNewOnly { table.len() - 1 } else { 0 };
        table.iter().enumerate().skip(first).all(|(slot, k)| {
            let mut sum = 0;
            for i in table {
                if i.period <= k.period {
                    sum += i.budget * (frame / i.period);
                }
            }
            let need = sum + self.blocking(table, slot) * (frame / k.period);
            match self.wrong {
                Wrong::AdmitBelow => need < frame,
                Wrong::Sum32 => need & 0xFFFF_FFFF <= frame,
                _ => need <= frame,
            }
        })
    }

    /// B(k): the largest hold of a longer server on a resource that some server with a
    /// period up to P_k uses.
    fn blocking(&self, table: &[Server], slot: usize) -> Number {
        let k = &table[slot];
        let mut largest = 0;
        for (other, j) in table.iter().enumerate() {
            let longer = j.period > k.period
                || (self.wrong == Wrong::BlockEqual && j.period == k.period && other != slot);
            for resource in 0..RESOURCES {
                if longer && self.used_up_to(table, k.period, resource) {
                    largest = largest.max(j.holds[resource]);
                }
            }
            if longer && self.wrong == Wrong::BlockSum {
                let used = (0..RESOURCES).filter(|&r| self.used_up_to(table, k.period, r));
                largest = largest.max(used.map(|r| j.holds[r]).sum());
            }
        }
        largest
    }

    fn used_up_to(&self, table: &[Server], period: Number, resource: usize) -> bool {
        match self.wrong {
            Wrong::BlockUnused => true,
            Wrong::BlockBelowOnly => table.iter().any(|x| x.period < period && x.uses(resource)),
            _ => table.iter().any(|x| x.period <= period && x.uses(resource)),
        }
    }

    /// An empty table is allowed.
    pub fn start(&mut self) -> Answer {
        if self.frame.is_none() || self.running {
            return refusal(1);
        }
        self.running = true;
        DONE
    }
}

// Timing rules.
impl Board {
    /// tr = d - floor(q * P / Q); the whole-tick reading rounds tr up.
    pub fn replenishment_instant(&self, slot: usize) -> Number {
        let server = &self.servers[slot];
        let product = server.q * server.period;
        match self.wrong {
            Wrong::TrDown => server.d - (product + server.budget - 1) / server.budget,
            Wrong::Product32 => server.d - (product & 0xFFFF_FFFF) / server.budget,
            _ => server.d - product / server.budget,
        }
    }

    /// "Replenish from s".
    fn replenish(&mut self, slot: usize, s: Number) {
        let kept = self.wrong == Wrong::StartedKept;
        let server = &mut self.servers[slot];
        server.q = server.budget;
        server.d = s + server.period;
        server.state = State::Ready;
        server.started = server.started && kept;
    }

    /// Replenishes a server whose instant has come, and says whether it did.
    fn replenish_if_due(&mut self, slot: usize) -> bool {
        let from = match self.servers[slot].state {
            State::Suspended(tr) => tr,
            State::Spent => self.servers[slot].d,
            _ => return false,
        };
        if self.clock < from {
            return false;
        }
        self.replenish(slot, from);
        true
    }

    /// A ready server with q = 0 and no lock becomes spent at once; says whether it did.
    fn spent_at_once(&mut self, slot: usize) -> bool {
        let server = &mut self.servers[slot];
        if server.state == State::Ready && server.q == 0 && server.lock.is_none() {
            server.state = State::Spent;
            return true;
        }
        false
    }
}

// Who runs.
impl Board {
    pub fn ceiling_of(&self, resource: usize) -> Option<Number> {
        let stopped_counts = self.wrong != Wrong::StoppedNoCeiling;
        let counts = |s: &&Server| s.uses(resource) && (stopped_counts || s.state != State::Stopped);
        self.servers.iter().filter(counts).map(|s| s.period).min()
    }

    /// The least ceiling of the locked resources; none if nothing is locked.
    pub fn ceiling(&self) -> Option<Number> {
        if self.locked == 0 {
            return None;
        }
        let locked = (0..RESOURCES).filter(|&r| self.locked & bit(r) != 0);
        locked.filter_map(|r| self.ceiling_of(r)).min()
    }

    /// The first, by d and then by slot, of the ready servers asked for.
    fn first_ready(&self, asked: impl Fn(usize, &Server) -> bool) -> Option<usize> {
        let mut first: Option<usize> = None;
        for (slot, server) in self.servers.iter().enumerate() {
            if server.state != State::Ready || !asked(slot, server) {
                continue;
            }
            let earlier = match first {
                None => true,
                Some(other) if self.wrong == Wrong::TieHigher => server.d <= self.servers[other].d,
                Some(other) => server.d < self.servers[other].d,
            };
            if earlier {
                first = Some(slot);
            }
        }
        first
    }

    pub fn named(&self) -> Option<usize> {
        let first = self.first_ready(|_, _| true)?;
        let Some(ceiling) = self.ceiling() else {
            return Some(first);
        };
        let below =
            |s: &Server| s.period < ceiling || (self.wrong == Wrong::CeilingEqual && s.period == ceiling);
        if self.servers[first].started || below(&self.servers[first]) {
            return Some(first);
        }
        match self.wrong {
            Wrong::NextFresh => self.first_ready(|_, s| s.started || below(s)),
            Wrong::NextAny => self.first_ready(|slot, _| slot != first),
            _ => self.first_ready(|_, s| s.started),
        }
    }
}

// The calls of a running board.
impl Board {
    /// The checks 1, 8 and 16, in this order.
    fn find(&self, slot: Number) -> Result<usize, Answer> {
        if !self.running {
            return Err(refusal(1));
        }
        if slot < 0 || slot >= self.servers.len() as Number {
            return Err(refusal(8));
        }
        let slot = slot as usize;
        if self.servers[slot].state == State::Stopped && self.wrong != Wrong::StoppedLate {
            return Err(refusal(16));
        }
        Ok(slot)
    }

    /// The checks 1, 8, 16 and 9, in this order.
    fn find_named(&self, slot: Number) -> Result<usize, Answer> {
        let slot = self.find(slot)?;
        if self.named() != Some(slot) {
            return Err(refusal(9));
        }
        Ok(slot)
    }

    fn suspend(&mut self, slot: usize, tr: Number) -> Answer {
        self.servers[slot].state = State::Suspended(tr);
        Answer { number: 20, value: tr }
    }

    pub fn arrive(&mut self, slot: Number) -> Answer {
        let slot = match self.find(slot) {
            Ok(slot) => slot,
            Err(answer) => return answer,
        };
        if self.servers[slot].state != State::Idle {
            return refusal(15);
        }
        let tr = self.replenishment_instant(slot);
        if self.clock < tr || (self.wrong == Wrong::ArriveAtTr && self.clock == tr) {
            return self.suspend(slot, tr);
        }
        let from = if self.wrong == Wrong::ArriveFromTr { tr } else { self.clock };
        self.replenish(slot, from);
        DONE
    }

    pub fn done(&mut self, slot: Number) -> Answer {
        let slot = match self.find(slot) {
            Ok(slot) => slot,
            Err(answer) => return answer,
        };
        let spent = self.servers[slot].state == State::Spent && self.wrong != Wrong::SpentNotDone;
        if !spent && self.named() != Some(slot) {
            return refusal(9);
        }
        if self.servers[slot].lock.is_some() {
            return refusal(11);
        }
        self.servers[slot].state = State::Idle;
        if self.wrong == Wrong::DoneEmpties {
            self.servers[slot].q = 0;
        }
        DONE
    }

    pub fn lock(&mut self, slot: Number, resource: Number) -> Answer {
        let slot = match self.find_named(slot) {
            Ok(slot) => slot,
            Err(answer) => return answer,
        };
        if self.servers[slot].lock.is_some() {
            return refusal(11);
        }
        let known = (0..RESOURCES as Number).contains(&resource);
        let closed = known && self.closed & bit(resource as usize) != 0;
        if closed && self.wrong == Wrong::ClosedBeforeUsed {
            return refusal(13);
        }
        if !known || !self.servers[slot].uses(resource as usize) {
            return refusal(10);
        }
        let resource = resource as usize;
        if closed {
            return refusal(13);
        }
        // The asking server holds no lock here, so a locked resource is another's.
        if self.locked & bit(resource) != 0 {
            return refusal(14);
        }
        self.lock_by_budget(slot, resource)
    }

    fn lock_by_budget(&mut self, slot: usize, resource: usize) -> Answer {
        let over = if self.wrong == Wrong::LockAbove { 1 } else { 0 };
        if self.servers[slot].q >= self.hold_asked_for(slot, resource) + over {
            return self.grant(slot, resource);
        }
        let tr = self.replenishment_instant(slot);
        if self.clock < tr {
            return self.suspend(slot, tr);
        }
        let from = if self.wrong == Wrong::LockFromNow { self.clock } else { tr };
        self.replenish(slot, from);
        if self.wrong == Wrong::GrantInRenewal {
            return self.grant(slot, resource);
        }
        Answer { number: 21, value: 0 }
    }

    /// The largest of the server's holds, closed resources too.
    fn hold_asked_for(&self, slot: usize, resource: usize) -> Number {
        let server = &self.servers[slot];
        match self.wrong {
            Wrong::OwnHoldOnly => server.holds[resource],
            Wrong::ClosedNoHold => {
                let open = (0..RESOURCES).filter(|&r| self.closed & bit(r) == 0);
                open.map(|r| server.holds[r]).max().unwrap_or(0)
            }
            _ => server.largest_hold(),
        }
    }

    fn grant(&mut self, slot: usize, resource: usize) -> Answer {
        let wrong = self.wrong;
        let server = &mut self.servers[slot];
        let held = if wrong == Wrong::HeldKept { server.held_before } else { 0 };
        server.lock = Some(Lock { resource, held });
        server.started = server.started || wrong != Wrong::LockNotStarted;
        self.locked |= bit(resource);
        DONE
    }

    pub fn unlock(&mut self, slot: Number) -> Answer {
        let slot = match self.find_named(slot) {
            Ok(slot) => slot,
            Err(answer) => return answer,
        };
        let Some(lock) = self.servers[slot].lock else {
            return refusal(12);
        };
        self.release(slot, lock);
        if self.spent_at_once(slot) && self.wrong != Wrong::UnlockWaits {
            self.replenish_if_due(slot);
        }
        DONE
    }

    fn release(&mut self, slot: usize, lock: Lock) {
        self.locked &= !bit(lock.resource);
        self.servers[slot].lock = None;
        if self.wrong == Wrong::HeldKept {
            self.servers[slot].held_before = lock.held;
        }
    }
}

// Running.
impl Board {
    pub fn run(&mut self, n: Number) -> Answer {
        if !self.running {
            return refusal(1);
        }
        if self.wrong == Wrong::OverheldFirst && self.stop_overholder() {
            return OVERHELD;
        }
        if !(1..=LONGEST_RUN).contains(&n) {
            return refusal(17);
        }
        if self.clock + n > CLOCK_END {
            return refusal(18);
        }
        if self.stop_overholder() {
            return OVERHELD;
        }
        let mut passed = 0;
        while passed < n {
            let ends = self.tick();
            passed += 1;
            if ends {
                break;
            }
        }
        Answer { number: 0, value: passed }
    }

    /// Stops the named server if it has run its hold, and says whether it did.
    fn stop_overholder(&mut self) -> bool {
        let Some(slot) = self.asked_for_hold() else {
            return false;
        };
        let Some(lock) = self.servers[slot].lock else {
            return false;
        };
        let over = match self.wrong {
            Wrong::OverheldLate => lock.held > self.servers[slot].holds[lock.resource],
            _ => lock.held >= self.hold_limit(slot, lock),
        };
        if !over {
            return false;
        }
        self.servers[slot].state = State::Stopped;
        self.release(slot, lock);
        if self.wrong != Wrong::NotClosed {
            self.closed |= bit(lock.resource);
        }
        true
    }

    /// The server whose hold is looked at when a run begins: the named one.
    fn asked_for_hold(&self) -> Option<usize> {
        if self.wrong == Wrong::OverheldUnnamed {
            return (0..self.servers.len()).find(|&slot| self.at_hold(slot)).or(self.named());
        }
        self.named()
    }

    fn at_hold(&self, slot: usize) -> bool {
        let server = &self.servers[slot];
        server.lock.is_some_and(|lock| lock.held == server.holds[lock.resource])
    }

    fn hold_limit(&self, slot: usize, lock: Lock) -> Number {
        let hold = self.servers[slot].holds[lock.resource];
        if self.wrong == Wrong::HoldOverrun {
            hold + 1
        } else {
            hold
        }
    }

    /// One tick: q, held count, started mark, clock; then spent; then replenishments.
    /// Says whether a run ends with it.
    fn tick(&mut self) -> bool {
        let named = self.named();
        let (mut ends, mut waits) = (false, false);
        if let Some(slot) = named {
            self.servers[slot].q -= 1;
            self.servers[slot].started = true;
            ends |= self.count_hold(slot);
        }
        if self.wrong == Wrong::HeldByClock {
            for slot in (0..self.servers.len()).filter(|&slot| Some(slot) != named) {
                self.count_hold(slot);
            }
        }
        self.clock += 1;
        if let Some(slot) = named {
            let spent = self.spent_at_once(slot);
            ends |= spent && self.wrong != Wrong::RunPastSpent;
            waits = spent && self.wrong == Wrong::SpentWaits;
        }
        ends |= self.wrong == Wrong::HoldStands && (0..self.servers.len()).any(|slot| self.at_hold(slot));
        for slot in (0..self.servers.len()).filter(|&slot| !waits || Some(slot) != named) {
            let replenished = self.replenish_if_due(slot);
            ends |= replenished && self.wrong != Wrong::RunPastReplenish;
        }
        ends
    }

    /// Adds 1 to the held count of a holder; says whether it has reached its hold by it.
    fn count_hold(&mut self, slot: usize) -> bool {
        let Some(mut lock) = self.servers[slot].lock else {
            return false;
        };
        lock.held += 1;
        self.servers[slot].lock = Some(lock);
        lock.held == self.hold_limit(slot, lock) && self.wrong != Wrong::RunPastHold
    }
}
