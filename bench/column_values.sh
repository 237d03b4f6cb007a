#!/usr/bin/env bash
# Times the texts of a million values each of an int, a varchar, a datetime and a decimal with
# vs_columns, in values per second: into a buffer that is kept, and as cells of their own.
# Usage: bench/column_values.sh
set -eu
. "$(dirname "$0")/scratch.sh"

run_scratch column_values "vs_base vs_columns" vs_base vs_columns <<'PROGRAM'
//! Times the texts of column values.
#![tactic(auto)]

use std::alloc::Global;
use std::io;
use std::time::Instant;
use vs_base::ColumnKind;
use vs_columns::{put_value, value};

const VALUES: u32 = 1_000_000;

/// Puts the text so many times, the buffer emptied before each, and whether all went well.
fn put_all(alloc: Global, kind: &ColumnKind, meta: &[u8], bytes: &[u8]) -> bool {
    let mut out = Vec::new(alloc);
    let mut done = true;
    for _ in 0..VALUES {
        out.clear();
        done = put_value(kind, meta, bytes, &mut out).is_ok() && done;
    }
    done
}

/// Makes the cell so many times, and whether all went well.
fn make_all(alloc: Global, kind: &ColumnKind, meta: &[u8], bytes: &[u8]) -> bool {
    let mut done = true;
    for _ in 0..VALUES {
        done = value(alloc, kind, meta, bytes).is_ok() && done;
    }
    done
}

/// Values in a second.
fn rate(start: &Instant, rt: &impl std::rt::Clock) -> io::Result<u64> {
    let elapsed = start.elapsed(rt)?;
    let micros = (elapsed.as_secs() % 1_000_000) * 1_000_000 + u64::from(elapsed.subsec_nanos()) / 1000;
    Ok(1_000_000_000_000 / (micros + 1))
}

fn main(rt: HostRuntime) -> io::Result<()> {
    let alloc = rt.alloc();
    let int = ColumnKind::Int { unsigned: false };
    let varchar = ColumnKind::VarChar { length: 40 };
    let datetime = ColumnKind::DateTime { precision: 0 };
    let decimal = ColumnKind::Decimal { precision: 10, scale: 2 };
    for (name, kind, meta, bytes) in [
        ("int", int, b"".as_slice(), b"\x87\xd6\x12\x00".as_slice()),
        ("varchar", varchar, b"\x28\x00", b"\x10sixteen letters."),
        ("datetime", datetime, b"\x00", b"\x99\xb2\xba\xc8\xb8"),
        ("decimal", decimal, b"\x0a\x02", b"\x80\x12\xd6\x87\x59"),
    ] {
        let start = Instant::now(&rt)?;
        let put = put_all(alloc, &kind, meta, bytes);
        let fast = rate(&start, &rt)?;
        let start = Instant::now(&rt)?;
        let made = make_all(alloc, &kind, meta, bytes);
        let own = rate(&start, &rt)?;
        println!(rt; "{name}: {fast} texts/s (done: {put}), {own} cells/s (done: {made})")?;
    }
    Ok(())
}
PROGRAM
