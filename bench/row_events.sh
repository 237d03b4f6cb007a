#!/usr/bin/env bash
# Times the reading and writing of 100,000 row events of 158 bytes with vs_proto, in MB/s: one by one,
# and as the events of one message.
# Usage: bench/row_events.sh
set -eu
. "$(dirname "$0")/scratch.sh"

run_scratch row_events "vs_base vs_proto" vs_base vs_wire vs_frame vs_proto <<'PROGRAM'
//! Times the reading and writing of row events.
#![tactic(auto)]

use std::alloc::Global;
use std::io;
use std::time::Instant;
use vs_base::List;
use vs_proto::{VEvent, VStreamResponse, read_event, read_response, write_event, write_response};

const EVENTS: u32 = 100_000;

/// An update of a row of five cells, with both images; the last cell was NULL.
const EVENT: &[u8] =
    b"\x08\x0c\x10\x80\xe2\xcf\xaa\x06*\x82\x01\x0a\x08customer\x12v\x0a7\x0a\x05\x0e\x14\x14&\x01\x12.1234567Jane Smith1234567.892024-02-29 12:34:56\x12;\x0a\x05\x0e\x14\x14&\x08\x1221234567Jane Smith1234599.892024-03-01 09:10:11paid\xb2\x01\x08commerce\xba\x01\x03-80";

/// Reads the event so many times, and whether all went well.
fn read_each(alloc: Global, events: &mut List<VEvent>) -> bool {
    let mut done = true;
    for _ in 0..EVENTS {
        match read_event(alloc, EVENT) {
            Ok(event) => done = events.push(event).is_ok() && done,
            Err(_) => done = false,
        }
    }
    done
}

/// Writes the events one behind the other, and whether all went well.
fn write_each(alloc: Global, out: &mut Vec<u8>, events: &List<VEvent>) -> bool {
    let mut done = true;
    for event in events.as_slice() {
        done = write_event(alloc, out, event).is_ok() && done;
    }
    done
}

/// Bytes in a microsecond, which are MB in a second.
fn rate(start: &Instant, bytes: usize, rt: &impl std::rt::Clock) -> io::Result<u64> {
    let elapsed = start.elapsed(rt)?;
    let micros = (elapsed.as_secs() % 1_000_000) * 1_000_000
        + u64::from(elapsed.subsec_nanos()) / 1000;
    Ok(bytes as u64 / (micros + 1))
}

fn main(rt: HostRuntime) -> io::Result<()> {
    let alloc = rt.alloc();
    let mut events = List::new(alloc);
    let start = Instant::now(&rt)?;
    let done = read_each(alloc, &mut events);
    let speed = rate(&start, 15_800_000, &rt)?;
    println!(rt; "read, one by one: {speed} MB/s (done: {done})")?;
    let mut out = Vec::new(alloc);
    let start = Instant::now(&rt)?;
    let done = write_each(alloc, &mut out, &events);
    let bytes = out.len();
    let speed = rate(&start, bytes, &rt)?;
    println!(rt; "write, one by one: {speed} MB/s ({bytes} bytes, done: {done})")?;
    let response = VStreamResponse { events };
    let mut whole = Vec::new(alloc);
    let start = Instant::now(&rt)?;
    let done = write_response(alloc, &mut whole, &response).is_ok();
    let bytes = whole.len();
    let speed = rate(&start, bytes, &rt)?;
    println!(rt; "write, one message: {speed} MB/s ({bytes} bytes, done: {done})")?;
    let start = Instant::now(&rt)?;
    let read = read_response(alloc, whole.as_slice());
    let speed = rate(&start, bytes, &rt)?;
    let done = read.is_ok();
    println!(rt; "read, one message: {speed} MB/s (done: {done})")?;
    Ok(())
}
PROGRAM
