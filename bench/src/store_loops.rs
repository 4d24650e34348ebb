//! The same loops as crates/bench/src/store_loops.rt, over the stores by hand.

use crate::stores::*;
use crate::values::*;

#[inline(never)]
fn call_get<S: Store>(store: &S, key: Key) -> Option<Stored> {
    store.get(key)
}

#[inline(never)]
fn call_put<S: Store>(store: &mut S, key: Key, value: Secret) -> Result<(), StoreFull> {
    store.put(key, key, &value)
}

#[inline(never)]
fn call_remove<S: Store>(store: &mut S, key: Key) {
    store.remove(key)
}

#[inline(never)]
fn call_list<S: Store>(store: &S, sheet: &mut [Key]) -> Option<usize> {
    store.list(sheet)
}

fn key_of(number: u32) -> Key {
    Version { number, seat: 1 }
}

fn secret() -> Secret {
    Secret { len: 9, bytes: [115; 48] }
}

fn fill<S: Store>(store: &mut S, held: u32) {
    for i in 0..held {
        let _ = call_put(store, key_of((i + 1) * 10), secret());
    }
}

fn gets<S: Store>(store: &S, at: u32, times: u64, zero: u32) -> u32 {
    let mut sum: u32 = 0;
    for _ in 0..times {
        match call_get(store, key_of(at ^ (sum & zero))) {
            Some(stored) => {
                sum = sum.wrapping_add(stored.version.number);
                sum = sum.wrapping_add(stored.value.bytes[3] as u32);
            }
            None => sum = sum.wrapping_add(1),
        }
    }
    sum
}

fn puts<S: Store>(store: &mut S, at: u32, times: u64, zero: u32) -> u32 {
    let value = secret();
    let mut sum: u32 = 0;
    for _ in 0..times {
        if call_put(store, key_of(at ^ (sum & zero)), value).is_ok() {
            sum = sum.wrapping_add(3);
        }
    }
    sum
}

fn puts_and_removes<S: Store>(store: &mut S, at: u32, times: u64, zero: u32) -> u32 {
    let value = secret();
    let mut sum: u32 = 0;
    for _ in 0..times {
        if call_put(store, key_of(at ^ (sum & zero)), value).is_ok() {
            sum = sum.wrapping_add(3);
        }
        call_remove(store, key_of(at ^ (sum & zero)));
    }
    sum
}

fn lists<S: Store>(store: &S, times: u64, zero: u32) -> u32 {
    let mut sum: u32 = 0;
    let mut sheet = [STANDING; 32];
    for _ in 0..times {
        if call_list(store, &mut sheet).is_some() {
            sum = sum.wrapping_add(sheet[(zero & 31) as usize].number);
        }
    }
    sum
}

fn removes<S: Store>(store: &mut S, at: u32, times: u64, zero: u32) -> u32 {
    let mut sum: u32 = 0;
    for _ in 0..times {
        call_remove(store, key_of(at ^ (sum & zero)));
        sum = sum.wrapping_add(1);
    }
    sum
}

fn run<S: Store>(store: &mut S, call: u32, held: u32, at: u32, times: u64, zero: u32) -> u64 {
    fill(store, held);
    let sum = match call {
        0 => gets(store, at, times, zero),
        1 => puts(store, at, times, zero),
        2 => puts_and_removes(store, at, times, zero),
        3 => lists(store, times, zero),
        _ => removes(store, at, times, zero),
    };
    sum as u64
}

pub fn run_table(call: u32, held: u32, at: u32, times: u64, zero: u32) -> u64 {
    run(&mut Sorted::new(32), call, held, at, times, zero)
}

pub fn run_log(size: usize, call: u32, held: u32, at: u32, times: u64, zero: u32) -> u64 {
    run(&mut Log::new(size), call, held, at, times, zero)
}
