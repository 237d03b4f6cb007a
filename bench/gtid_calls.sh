#!/usr/bin/env bash
# Times a million calls of GtidSet::add and GtidSet::contains, in nanoseconds per call.
# Usage: bench/gtid_calls.sh
set -eu
. "$(dirname "$0")/scratch.sh"

run_scratch gtid_calls "vs_base vs_gtid" vs_base vs_gtid <<'PROGRAM'
//! Times calls of GtidSet.
#![tactic(auto)]

use std::io;
use std::time::Instant;
use vs_base::Gtid;
use vs_gtid::GtidSet;

const CALLS: u64 = 1_000_000;

/// Adds the numbers from 1 on that leave this remainder, and says whether all were taken.
fn add_all(set: &mut GtidSet, last: u8, step: u64, count: u64) -> bool {
    let mut uuid = [0; 16];
    uuid[15] = last;
    let mut taken = true;
    let mut number: u64 = 1;
    for _ in 0..count {
        match Gtid::new(uuid, number) {
            Some(gtid) => taken = set.add(gtid).is_ok() && taken,
            None => taken = false,
        }
        number = number.wrapping_add(step);
    }
    taken
}

/// How many of the numbers the set has.
fn count_in(set: &GtidSet, last: u8) -> u64 {
    let mut uuid = [0; 16];
    uuid[15] = last;
    let mut found: u64 = 0;
    for number in 1..CALLS + 1 {
        if let Some(gtid) = Gtid::new(uuid, number) {
            if set.contains(&gtid) {
                found = found.wrapping_add(1);
            }
        }
    }
    found
}

fn per_call(start: &Instant, rt: &impl std::rt::Clock) -> io::Result<u64> {
    let elapsed = start.elapsed(rt)?;
    Ok((elapsed.as_secs() % 1_000_000) * (1_000_000_000 / CALLS) + u64::from(elapsed.subsec_nanos()) / CALLS)
}

fn main(rt: HostRuntime) -> io::Result<()> {
    let alloc = rt.alloc();
    let mut set = GtidSet::new(alloc);
    let start = Instant::now(&rt)?;
    let taken = add_all(&mut set, 1, 1, CALLS);
    let add = per_call(&start, &rt)?;
    println!(rt; "add, the next number: {add} ns (taken: {taken})")?;
    let start = Instant::now(&rt)?;
    let found = count_in(&set, 1);
    let contains = per_call(&start, &rt)?;
    println!(rt; "contains, of one interval: {contains} ns (found: {found})")?;
    let mut wide = GtidSet::new(alloc);
    let filled = add_all(&mut wide, 1, 2, 100);
    let start = Instant::now(&rt)?;
    let found = count_in(&wide, 1);
    let contains = per_call(&start, &rt)?;
    println!(rt; "contains, of 100 intervals: {contains} ns (filled: {filled}, found: {found})")?;
    Ok(())
}
PROGRAM
