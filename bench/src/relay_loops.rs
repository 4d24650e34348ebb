//! The same loops as crates/bench/src/relay_loops.rt, over the relay by hand.

use crate::relay::*;
use crate::stores::*;
use crate::tally::Tally;
use crate::values::*;

#[inline(never)]
fn call_begin_write<P: Store>(
    relay: &Relay<P>,
    seats: &mut [Seat],
    lines: &mut [Line],
    seat: usize,
    value: Secret,
) -> Result<(), Refusal> {
    relay.begin_write(seats, lines, seat, value)
}

#[inline(never)]
fn call_begin_read<P: Store>(
    relay: &Relay<P>,
    seats: &mut [Seat],
    lines: &mut [Line],
    seat: usize,
    settled: bool,
) -> Result<(), Refusal> {
    relay.begin_read(seats, lines, seat, settled)
}

#[inline(never)]
fn call_post<P: Store>(
    relay: &Relay<P>,
    seats: &[Seat],
    lines: &mut [Line],
    seat: usize,
    provider: usize,
) -> Result<(), Refusal> {
    relay.post(seats, lines, seat, provider)
}

#[inline(never)]
fn call_land<P: Store>(
    relay: &mut Relay<P>,
    seats: &[Seat],
    lines: &mut [Line],
    seat: usize,
    provider: usize,
) -> Result<(), Refusal> {
    relay.land(seats, lines, seat, provider)
}

#[inline(never)]
fn call_fetch<P: Store>(
    relay: &mut Relay<P>,
    seats: &mut [Seat],
    lines: &mut [Line],
    seat: usize,
    provider: usize,
) -> Result<Answer, Refusal> {
    relay.fetch(seats, lines, seat, provider)
}

fn round<P: Store>(
    relay: &mut Relay<P>,
    seats: &mut [Seat],
    lines: &mut [Line],
    seat: usize,
    provider: usize,
) -> Result<Answer, Refusal> {
    call_post(relay, seats, lines, seat, provider)?;
    call_land(relay, seats, lines, seat, provider)?;
    call_fetch(relay, seats, lines, seat, provider)
}

fn finish<P: Store>(
    relay: &mut Relay<P>,
    seats: &mut [Seat],
    lines: &mut [Line],
    seat: usize,
    tally: &mut Tally,
) {
    for turn in 0..60 {
        let answer = round(relay, seats, lines, seat, turn % 3 + 1);
        if answer.is_ok() {
            tally.rounds += 1;
        }
        match answer {
            Ok(Answer::On | Answer::Dropped) => {}
            Ok(Answer::Wrote(version)) => {
                tally.sum += version.number as u64;
                return;
            }
            Ok(Answer::Read(version, secret)) => {
                tally.sum += version.number as u64;
                tally.sum += secret.bytes[0] as u64;
                return;
            }
            Ok(Answer::Nothing | Answer::Used) => return,
            Err(_) => tally.refused += 1,
        }
    }
}

fn write<P: Store>(
    relay: &mut Relay<P>,
    seats: &mut [Seat],
    lines: &mut [Line],
    seat: usize,
    byte: u8,
    tally: &mut Tally,
) {
    let value = Secret { len: 9, bytes: [byte; 48] };
    if call_begin_write(relay, seats, lines, seat, value).is_ok() {
        tally.begun += 1;
    }
    finish(relay, seats, lines, seat, tally);
}

fn read<P: Store>(
    relay: &mut Relay<P>,
    seats: &mut [Seat],
    lines: &mut [Line],
    seat: usize,
    settled: bool,
    tally: &mut Tally,
) {
    if call_begin_read(relay, seats, lines, seat, settled).is_ok() {
        tally.begun += 1;
    }
    finish(relay, seats, lines, seat, tally);
}

fn operate<P: Store>(
    relay: &mut Relay<P>,
    seats: &mut [Seat],
    lines: &mut [Line],
    kind: u32,
    operations: u64,
    tally: &mut Tally,
) {
    write(relay, seats, lines, 1, 65, tally);
    for i in 0..operations {
        let seat = (i % 2) as usize + 1;
        let byte = (i % 64) as u8 + 33;
        match kind {
            0 => write(relay, seats, lines, seat, byte, tally),
            1 => read(relay, seats, lines, seat, true, tally),
            2 => read(relay, seats, lines, seat, false, tally),
            _ => {
                write(relay, seats, lines, seat, byte, tally);
                read(relay, seats, lines, 3 - seat, true, tally);
            }
        }
    }
}

pub fn run_relay(kind: u32, operations: u64) -> Tally {
    let providers = vec![
        Provider::Sorted(Sorted::new(4)),
        Provider::Log(Log::new(310)),
        Provider::Sorted(Sorted::new(4)),
    ];
    let mut seats = [Seat::default(); 2];
    let mut lines = [(); 6].map(|()| Line::default());
    let mut relay = Relay::open(providers, 2, &mut seats, &mut lines).unwrap();
    let mut tally = Tally::default();
    operate(&mut relay, &mut seats, &mut lines, kind, operations, &mut tally);
    tally
}
