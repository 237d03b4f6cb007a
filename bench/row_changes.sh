#!/usr/bin/env bash
# Times Maps::rows of vs_rows over the sample tables, in rows per second: events of a hundred inserts, and
# events of one, each with its table map before it, as a log of single inserts has them.
# Usage: bench/row_changes.sh
set -eu
. "$(dirname "$0")/scratch.sh"

run_scratch row_changes "vs_base vs_schema vs_rows" vs_base vs_binlog vs_schema vs_columns vs_rows <<'PROGRAM'
//! Times the reading of rows events.
#![tactic(auto)]

use std::alloc::{AllocError, Global};
use std::io;
use std::time::Instant;
use vs_rows::Maps;
use vs_schema::Schema;

const SCHEMA: &[u8] = b"table customer\ncolumn id bigint\ncolumn name varchar(40)\nkey id\ntable orders\ncolumn id bigint\ncolumn total decimal(10,2)\nkey id\ntable shipped\ncolumn id bigint\ncolumn at datetime\nkey id\ntable note\ncolumn id bigint\ncolumn body text\nkey id\n";

const ROWS: u32 = 100;

const EVENTS: u32 = 10_000;

/// The body of an insert of so many rows of two columns into table 7.
fn inserts(alloc: Global, row: &[u8], count: u32) -> Result<Vec<u8>, AllocError> {
    let mut body = Vec::from_slice(alloc, b"\x07\0\0\0\0\0\x01\0\x02\0\x02\x03")?;
    for _ in 0..count {
        body.extend_from_slice(row)?;
    }
    Ok(body)
}

/// Reads the event so many times, and whether all went well.
fn read_all(alloc: Global, maps: &Maps, body: &[u8]) -> bool {
    let mut done = true;
    for _ in 0..EVENTS {
        done = maps.rows(alloc, 30, body).is_ok() && done;
    }
    done
}

/// Reads the table map and the event so many times, and whether all went well.
fn map_and_read_all(alloc: Global, maps: &mut Maps, schema: &Schema, map: &[u8], body: &[u8]) -> bool {
    let mut done = true;
    for _ in 0..EVENTS {
        maps.clear();
        done = maps.put(map, schema, b"c").is_ok() && done;
        done = maps.rows(alloc, 30, body).is_ok() && done;
    }
    done
}

/// Thousands in a second.
fn rate(start: &Instant, count: u64, rt: &impl std::rt::Clock) -> io::Result<u64> {
    let elapsed = start.elapsed(rt)?;
    let micros = (elapsed.as_secs() % 1_000_000) * 1_000_000 + u64::from(elapsed.subsec_nanos()) / 1000;
    Ok(count % 10_000_000 * 1000 / (micros + 1))
}

fn main(rt: HostRuntime) -> io::Result<()> {
    let alloc = rt.alloc();
    let Ok(schema) = Schema::read(alloc, SCHEMA) else {
        return println!(rt; "no schema");
    };
    for (name, map, row) in [
        (
            "customer",
            b"\x07\0\0\0\0\0\x01\0\x04vt_c\0\x08customer\0\x02\x08\x0f\x02\x28\0\x02".as_slice(),
            b"\0\x87\xd6\x12\0\0\0\0\0\x08n1234567".as_slice(),
        ),
        (
            "orders",
            b"\x07\0\0\0\0\0\x01\0\x04vt_c\0\x06orders\0\x02\x08\xf6\x02\x0a\x02\x02",
            b"\0\x87\xd6\x12\0\0\0\0\0\x80\x12\xd6\x87\x07",
        ),
        (
            "shipped",
            b"\x07\0\0\0\0\0\x01\0\x04vt_c\0\x07shipped\0\x02\x08\x12\x01\0\x02",
            b"\0\x87\xd6\x12\0\0\0\0\0\x99\xb2\xba\xc8\xb8",
        ),
        (
            "note",
            b"\x07\0\0\0\0\0\x01\0\x04vt_c\0\x04note\0\x02\x08\xfc\x01\x02\x02",
            b"\0\x87\xd6\x12\0\0\0\0\0\x07\0xxxxxxx",
        ),
    ] {
        let mut maps = Maps::new(alloc);
        let put = maps.put(map, &schema, b"c").is_ok();
        let many = inserts(alloc, row, ROWS)?;
        let start = Instant::now(&rt)?;
        let done = read_all(alloc, &maps, many.as_slice());
        let wide = rate(&start, u64::from(EVENTS) * u64::from(ROWS), &rt)?;
        let one = inserts(alloc, row, 1)?;
        let start = Instant::now(&rt)?;
        let single = map_and_read_all(alloc, &mut maps, &schema, map, one.as_slice());
        let narrow = rate(&start, u64::from(EVENTS), &rt)?;
        println!(rt; "{name}: {wide} thousand rows/s in events of {ROWS} (done: {done}), {narrow} thousand maps and rows/s in events of one (done: {single}, {put})")?;
    }
    Ok(())
}
PROGRAM
