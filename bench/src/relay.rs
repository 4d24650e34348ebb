//! The relay of docs/RELAY.md by hand: records are changed in place, and nothing is allocated once it is open.

#![allow(dead_code)] // stop, lose and looks are part of the relay, and are not measured

use crate::stores::Store;
use crate::values::*;

#[derive(Clone, Copy, PartialEq, Eq, Debug)]
pub enum Refusal {
    UnsupportedSize,
    SheetTooShort,
    UnsuitableCapacity,
    ProviderNotEmpty,
    NoSuchSeat,
    NoSuchProvider,
    SeatStopped,
    SeatBusy,
    NothingToPost,
    LineDone,
    LineNotFree,
    ProviderLost,
    LineNotSent,
    NoAnswer,
    KeySheetTooShort,
}
use Refusal::*;

/// At most 32 keys: those from place `from` on and before place `end`.
#[derive(Clone, Copy)]
pub struct KeyList {
    keys: [Key; 32],
    from: u8,
    end: u8,
}

impl Default for KeyList {
    fn default() -> KeyList {
        KeyList { keys: [STANDING; 32], from: 0, end: 0 }
    }
}

impl KeyList {
    fn of(keys: &[Key]) -> KeyList {
        let mut list = KeyList::default();
        list.keys[..keys.len()].copy_from_slice(keys);
        list.end = keys.len() as u8;
        list
    }

    fn as_slice(&self) -> &[Key] {
        &self.keys[self.from as usize..self.end as usize]
    }

    fn drop_first(&mut self) {
        if self.from < self.end {
            self.from += 1;
        }
    }

    fn keep_temporary_but(keys: &[Key], other: Key) -> KeyList {
        let mut list = KeyList::default();
        for &key in keys.iter().filter(|&&k| k != STANDING && k != other) {
            list.keys[list.end as usize] = key;
            list.end += 1;
        }
        list
    }
}

#[derive(Clone, Copy, PartialEq, Eq)]
pub enum Phase {
    Idle,
    Listing,
    Storing,
    Gathering,
    Stopped,
}

#[derive(Clone, Copy, PartialEq, Eq)]
pub enum Operation {
    Write,
    PlainRead,
    SettledRead,
}

#[derive(Clone, Copy, PartialEq, Eq)]
pub enum Stage {
    List,
    RemoveOlder,
    PutStanding,
    PutOwn,
    RemoveLargest,
    GetLargest,
    GetStanding,
}

#[derive(Clone, Copy)]
pub struct Seat {
    pub phase: Phase,
    pub operation: Operation,
    pub version: Version,
    pub value: Secret,
}

impl Default for Seat {
    fn default() -> Seat {
        Seat {
            phase: Phase::Idle,
            operation: Operation::Write,
            version: NONE,
            value: Secret::BLANK,
        }
    }
}

pub enum Request {
    List,
    Get(Key),
    Put(Key, Stored),
    Remove(Key),
}

pub enum Reply {
    Keys(KeyList),
    Got(Option<Stored>),
    Put,
    Removed,
    Full,
}

pub enum Transit {
    Free,
    Sent { stale: bool, request: Request },
    Answered { stale: bool, reply: Reply },
}

pub struct Line {
    pub transit: Transit,
    pub stage: Stage,
    pub done: bool,
    pub mark: Version,
    pub older: KeyList,
    pub largest: Key,
    pub found: Option<Stored>,
}

impl Default for Line {
    fn default() -> Line {
        Line {
            transit: Transit::Free,
            stage: Stage::List,
            done: false,
            mark: NONE,
            older: KeyList::default(),
            largest: STANDING,
            found: None,
        }
    }
}

#[derive(Clone, Copy)]
pub enum Answer {
    On,
    Dropped,
    Wrote(Version),
    Read(Version, Secret),
    Nothing,
    Used,
}

impl Line {
    fn is_free(&self) -> bool {
        matches!(self.transit, Transit::Free)
    }

    /// Whether the seat's phase has the line's stage, with the key that it needs.
    fn at_home(&self, phase: Phase) -> bool {
        match (phase, self.stage) {
            (Phase::Listing | Phase::Storing | Phase::Gathering, Stage::List) => true,
            (Phase::Storing, Stage::RemoveOlder) => !self.older.as_slice().is_empty(),
            (Phase::Storing, Stage::PutStanding | Stage::PutOwn) => true,
            (Phase::Storing, Stage::RemoveLargest) => self.largest != STANDING,
            (Phase::Gathering, Stage::GetLargest) => self.largest != STANDING,
            (Phase::Gathering, Stage::GetStanding) => true,
            _ => false,
        }
    }

    fn answer_suits(&self) -> bool {
        let Transit::Answered { stale: false, reply } = &self.transit else {
            return true;
        };
        match self.stage {
            Stage::List => matches!(reply, Reply::Keys(_)),
            Stage::RemoveOlder | Stage::RemoveLargest => {
                matches!(reply, Reply::Removed | Reply::Put)
            }
            Stage::PutStanding | Stage::PutOwn => {
                matches!(reply, Reply::Put | Reply::Removed | Reply::Full)
            }
            Stage::GetLargest | Stage::GetStanding => matches!(reply, Reply::Got(_)),
        }
    }

    fn is_foreign(&self, phase: Phase) -> bool {
        !self.at_home(phase) || self.done && !self.is_free() || !self.answer_suits()
    }

    fn request(&self, seat: &Seat) -> Request {
        let pair = || Stored { version: seat.version, value: seat.value };
        match self.stage {
            Stage::List => Request::List,
            Stage::RemoveOlder => Request::Remove(self.older.as_slice()[0]),
            Stage::PutStanding => Request::Put(STANDING, pair()),
            Stage::PutOwn => Request::Put(seat.version, pair()),
            Stage::RemoveLargest => Request::Remove(self.largest),
            Stage::GetLargest => Request::Get(self.largest),
            Stage::GetStanding => Request::Get(STANDING),
        }
    }

    fn restart(&mut self) {
        match &mut self.transit {
            Transit::Free => {}
            Transit::Sent { stale, .. } | Transit::Answered { stale, .. } => *stale = true,
        }
        self.stage = Stage::List;
        self.done = false;
        self.mark = NONE;
    }

    fn keep(&mut self, keys: &[Key]) {
        self.largest = keys.iter().copied().max().unwrap_or(STANDING);
        self.older = KeyList::keep_temporary_but(keys, self.largest);
    }

    fn remove_or_put(&mut self) {
        self.stage =
            if self.older.as_slice().is_empty() { Stage::PutStanding } else { Stage::RemoveOlder };
    }

    fn finish(&mut self, found: Option<Stored>) {
        self.found = found;
        self.done = true;
    }

    /// A reply that suits the stage moves the line.
    fn advance(&mut self, seat: &Seat, reply: Reply, looks: &mut u32) {
        match (seat.phase, self.stage, reply) {
            (Phase::Listing, _, Reply::Keys(keys)) => {
                self.keep(keys.as_slice());
                self.done = true;
            }
            (Phase::Storing, Stage::List, Reply::Keys(keys)) => {
                self.keep(keys.as_slice());
                self.remove_or_put();
            }
            (Phase::Storing, Stage::RemoveOlder, _) => {
                self.older.drop_first();
                self.remove_or_put();
            }
            (Phase::Storing, Stage::PutStanding, _) => {
                if self.largest == STANDING || self.largest < seat.version {
                    self.stage = Stage::PutOwn;
                } else {
                    self.done = true;
                }
            }
            (Phase::Storing, Stage::PutOwn, _) => {
                if self.largest == STANDING {
                    self.done = true;
                } else {
                    self.stage = Stage::RemoveLargest;
                }
            }
            (Phase::Storing, Stage::RemoveLargest, _) => self.done = true,
            (Phase::Gathering, Stage::List, Reply::Keys(keys)) => {
                self.keep(keys.as_slice());
                if self.largest == STANDING {
                    self.finish(None);
                } else {
                    if self.mark == NONE {
                        self.mark = self.largest;
                    }
                    self.stage = Stage::GetLargest;
                }
            }
            (Phase::Gathering, Stage::GetLargest, Reply::Got(found)) => match found {
                None => self.stage = Stage::GetStanding,
                found => self.finish(found),
            },
            (Phase::Gathering, Stage::GetStanding, Reply::Got(found)) => match found {
                Some(pair) if pair.version >= self.mark => self.finish(found),
                _ => {
                    self.stage = Stage::List;
                    *looks = looks.saturating_add(1);
                }
            },
            _ => {}
        }
    }
}

fn turn(seat: &mut Seat, own: &mut [Line], phase: Phase) {
    seat.phase = phase;
    for line in own {
        line.restart();
    }
}

pub struct Relay<P> {
    providers: Vec<P>,
    lost: Vec<bool>,
    seats: usize,
    looks: u32,
}

impl<P: Store> Relay<P> {
    pub fn open(
        providers: Vec<P>,
        m: usize,
        seats: &mut [Seat],
        lines: &mut [Line],
    ) -> Result<Relay<P>, Refusal> {
        let n = providers.len();
        if !(1..=16).contains(&m) || !(1..=7).contains(&n) {
            return Err(UnsupportedSize);
        }
        if seats.len() < m || lines.len() < m * n {
            return Err(SheetTooShort);
        }
        if providers.iter().any(|p| !(m + 2..=32).contains(&p.capacity())) {
            return Err(UnsuitableCapacity);
        }
        if providers.iter().any(|p| p.count() > 0) {
            return Err(ProviderNotEmpty);
        }
        seats[..m].fill_with(Seat::default);
        lines[..m * n].fill_with(Line::default);
        Ok(Relay { lost: vec![false; n], providers, seats: m, looks: 0 })
    }

    fn seat_place(&self, seats: usize, lines: usize, seat: usize) -> Result<usize, Refusal> {
        if seats < self.seats || lines < self.seats * self.providers.len() {
            return Err(SheetTooShort);
        }
        if !(1..=self.seats).contains(&seat) {
            return Err(NoSuchSeat);
        }
        Ok(seat - 1)
    }

    fn place(
        &self,
        seats: usize,
        lines: usize,
        seat: usize,
        provider: usize,
    ) -> Result<(usize, usize), Refusal> {
        let s = self.seat_place(seats, lines, seat)?;
        if !(1..=self.providers.len()).contains(&provider) {
            return Err(NoSuchProvider);
        }
        Ok((s, provider - 1))
    }

    fn begin<'a>(
        &self,
        seats: &'a mut [Seat],
        lines: &'a mut [Line],
        seat: usize,
    ) -> Result<(&'a mut Seat, &'a mut [Line]), Refusal> {
        let s = self.seat_place(seats.len(), lines.len(), seat)?;
        let n = self.providers.len();
        let seat = &mut seats[s];
        match seat.phase {
            Phase::Stopped => Err(SeatStopped),
            Phase::Idle => Ok((seat, &mut lines[s * n..][..n])),
            _ => Err(SeatBusy),
        }
    }

    pub fn begin_write(
        &self,
        seats: &mut [Seat],
        lines: &mut [Line],
        seat: usize,
        value: Secret,
    ) -> Result<(), Refusal> {
        let (seat, own) = self.begin(seats, lines, seat)?;
        seat.operation = Operation::Write;
        seat.version = NONE;
        seat.value = value;
        turn(seat, own, Phase::Listing);
        Ok(())
    }

    pub fn begin_read(
        &self,
        seats: &mut [Seat],
        lines: &mut [Line],
        seat: usize,
        settled: bool,
    ) -> Result<(), Refusal> {
        let (seat, own) = self.begin(seats, lines, seat)?;
        seat.operation = if settled { Operation::SettledRead } else { Operation::PlainRead };
        seat.version = NONE;
        turn(seat, own, Phase::Gathering);
        Ok(())
    }

    pub fn post(
        &self,
        seats: &[Seat],
        lines: &mut [Line],
        seat: usize,
        provider: usize,
    ) -> Result<(), Refusal> {
        let (s, i) = self.place(seats.len(), lines.len(), seat, provider)?;
        let (seat, line) = (&seats[s], &mut lines[s * self.providers.len() + i]);
        if seat.phase == Phase::Stopped {
            return Err(SeatStopped);
        }
        if seat.phase == Phase::Idle || line.is_foreign(seat.phase) {
            return Err(NothingToPost);
        }
        if line.done {
            return Err(LineDone);
        }
        if !line.is_free() {
            return Err(LineNotFree);
        }
        line.transit = Transit::Sent { stale: false, request: line.request(seat) };
        Ok(())
    }

    pub fn land(
        &mut self,
        seats: &[Seat],
        lines: &mut [Line],
        seat: usize,
        provider: usize,
    ) -> Result<(), Refusal> {
        let (s, i) = self.place(seats.len(), lines.len(), seat, provider)?;
        if self.lost[i] {
            return Err(ProviderLost);
        }
        let line = &mut lines[s * self.providers.len() + i];
        let Transit::Sent { stale, request } = &line.transit else {
            return Err(LineNotSent);
        };
        let provider = &mut self.providers[i];
        let reply = match request {
            Request::List => {
                let mut sheet = [STANDING; 32];
                let n = provider.list(&mut sheet).ok_or(KeySheetTooShort)?;
                Reply::Keys(KeyList::of(&sheet[..n]))
            }
            Request::Get(key) => Reply::Got(provider.get(*key)),
            Request::Put(key, pair) => match provider.put(*key, pair.version, &pair.value) {
                Ok(()) => Reply::Put,
                Err(StoreFull) => Reply::Full,
            },
            Request::Remove(key) => {
                provider.remove(*key);
                Reply::Removed
            }
        };
        line.transit = Transit::Answered { stale: *stale, reply };
        Ok(())
    }

    pub fn fetch(
        &mut self,
        seats: &mut [Seat],
        lines: &mut [Line],
        seat: usize,
        provider: usize,
    ) -> Result<Answer, Refusal> {
        let (s, i) = self.place(seats.len(), lines.len(), seat, provider)?;
        let n = self.providers.len();
        let (seat, own) = (&mut seats[s], &mut lines[s * n..][..n]);
        if seat.phase == Phase::Stopped {
            return Err(SeatStopped);
        }
        let line = &mut own[i];
        match &line.transit {
            Transit::Answered { stale: true, .. } => {
                line.transit = Transit::Free;
                return Ok(Answer::Dropped);
            }
            Transit::Answered { .. } if !line.is_foreign(seat.phase) => {}
            _ => return Err(NoAnswer),
        }
        let Transit::Answered { reply, .. } = std::mem::replace(&mut line.transit, Transit::Free)
        else {
            return Err(NoAnswer);
        };
        if matches!(reply, Reply::Full) {
            return Ok(Answer::On);
        }
        line.advance(seat, reply, &mut self.looks);
        if own.iter().filter(|l| l.done).count() < n / 2 + 1 {
            return Ok(Answer::On);
        }
        Ok(end_phase(seat, own, s as u16 + 1))
    }

    pub fn stop(&self, seats: &mut [Seat], lines: &[Line], seat: usize) -> Result<(), Refusal> {
        let s = self.seat_place(seats.len(), lines.len(), seat)?;
        if seats[s].phase == Phase::Stopped {
            return Err(SeatStopped);
        }
        seats[s].phase = Phase::Stopped;
        Ok(())
    }

    pub fn lose(&mut self, seats: &[Seat], lines: &[Line], provider: usize) -> Result<(), Refusal> {
        if seats.len() < self.seats || lines.len() < self.seats * self.providers.len() {
            return Err(SheetTooShort);
        }
        if !(1..=self.providers.len()).contains(&provider) {
            return Err(NoSuchProvider);
        }
        if self.lost[provider - 1] {
            return Err(ProviderLost);
        }
        self.lost[provider - 1] = true;
        Ok(())
    }

    pub fn looks(&self) -> u32 {
        self.looks
    }
}

fn end_phase(seat: &mut Seat, own: &mut [Line], number: u16) -> Answer {
    match seat.phase {
        Phase::Listing => {
            let largest =
                own.iter().filter(|l| l.done).map(|l| l.largest).max().unwrap_or(STANDING);
            if largest.number >= 999_999 {
                turn(seat, own, Phase::Idle);
                return Answer::Used;
            }
            seat.version = Version { number: largest.number + 1, seat: number };
            turn(seat, own, Phase::Storing);
            Answer::On
        }
        Phase::Gathering => {
            let mut best: Option<&Stored> = None;
            for pair in own.iter().filter(|l| l.done).filter_map(|l| l.found.as_ref()) {
                if best.map_or(NONE, |b| b.version) < pair.version {
                    best = Some(pair);
                }
            }
            let Some(&pair) = best else {
                turn(seat, own, Phase::Idle);
                return Answer::Nothing;
            };
            if seat.operation == Operation::PlainRead {
                turn(seat, own, Phase::Idle);
                return Answer::Read(pair.version, pair.value);
            }
            seat.version = pair.version;
            seat.value = pair.value;
            turn(seat, own, Phase::Storing);
            Answer::On
        }
        Phase::Storing => {
            turn(seat, own, Phase::Idle);
            match seat.operation {
                Operation::Write => Answer::Wrote(seat.version),
                _ => Answer::Read(seat.version, seat.value),
            }
        }
        Phase::Idle | Phase::Stopped => Answer::On,
    }
}
