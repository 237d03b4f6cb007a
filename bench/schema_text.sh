#!/usr/bin/env bash
# Times Schema::read of vs_schema over texts of 8,000 and of 32,000 tables, whose names come in an order that
# is not the bytes', and with an eighth of them skipped; in milliseconds of one reading.
# Usage: bench/schema_text.sh
set -eu
. "$(dirname "$0")/scratch.sh"

run_scratch schema_text "vs_base vs_schema" vs_base vs_schema <<'PROGRAM'
//! Times the reading of schema texts.
#![tactic(auto)]

use std::alloc::{AllocError, Global};
use std::io;
use std::time::Instant;
use vs_schema::Schema;

const COUNTS: [u32; 2] = [8_000, 32_000];

/// Appends eight digits, of which the lowest come first.
fn name(text: &mut Vec<u8>, number: u32) -> Result<(), AllocError> {
    let mut rest = number;
    for _ in 0..8 {
        text.push((rest % 10) as u8 + b'0')?;
        rest /= 10;
    }
    Ok(())
}

/// So many tables of one column.
fn text_of(alloc: Global, count: u32) -> Result<Vec<u8>, AllocError> {
    let mut text = Vec::new(alloc);
    for number in 0..count {
        if number % 8 == 0 {
            text.extend_from_slice(b"skip t")?;
            name(&mut text, number)?;
            text.extend_from_slice(b"\n")?;
        } else {
            text.extend_from_slice(b"table t")?;
            name(&mut text, number)?;
            text.extend_from_slice(b"\ncolumn id int\n")?;
        }
    }
    Ok(text)
}

/// The tables of the text; 0 where it is refused.
fn tables_of(alloc: Global, text: &[u8]) -> usize {
    match Schema::read(alloc, text) {
        Ok(schema) => schema.tables().len(),
        Err(_) => 0,
    }
}

fn main(rt: HostRuntime) -> io::Result<()> {
    let alloc = rt.alloc();
    for count in COUNTS {
        let text = text_of(alloc, count)?;
        let start = Instant::now(&rt)?;
        let tables = tables_of(alloc, text.as_slice());
        let elapsed = start.elapsed(&rt)?;
        let millis = (elapsed.as_secs() % 1_000_000) * 1000 + u64::from(elapsed.subsec_nanos()) / 1_000_000;
        println!(rt; "{count} names in {} bytes: {tables} tables in {millis} ms", text.len())?;
    }
    Ok(())
}
PROGRAM
