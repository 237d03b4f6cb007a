#!/usr/bin/env bash
# Times a million calls of Bound::pick of vs_filter, on a row of ten columns that is kept, with a projection to
# three; in milliseconds of all of them.
# Usage: bench/picks.sh
set -eu
. "$(dirname "$0")/scratch.sh"

run_scratch picks "vs_base vs_outside vs_schema vs_select vs_filter" vs_base vs_outside vs_schema vs_select vs_filter <<'PROGRAM'
//! Times picks of a row.
#![tactic(auto)]

use std::alloc::{AllocError, Global};
use std::io;
use std::time::Instant;
use vs_base::{Cell, Change, Image, RuleText, Text};
use vs_filter::{Bound, Filter};
use vs_outside::MemTablets;
use vs_schema::Schema;

const SCHEMA: &[u8] = b"table t\ncolumn a int\ncolumn b int\ncolumn c int\ncolumn d int\ncolumn e int\ncolumn f varchar(20)\ncolumn g varchar(20)\ncolumn h varchar(20)\ncolumn i varchar(20)\ncolumn j varchar(20)\nkey a\n";

/// Rows of t whose a is below 100, with three of their columns.
fn filter_of(alloc: Global) -> Result<Filter, AllocError> {
    let rules = [RuleText {
        pattern: Text::from_bytes(alloc, b"t")?,
        filter: Text::from_bytes(alloc, b"select a, e, j from t where a < 100")?,
    }];
    let mut tablets = MemTablets::new(alloc)?;
    Filter::build(alloc, &rules, &mut tablets).map_err(|_| AllocError)
}

fn bound_of(alloc: Global) -> Result<Bound, AllocError> {
    let schema = Schema::read(alloc, SCHEMA).map_err(|_| AllocError)?;
    filter_of(alloc)?.bind(alloc, &schema).map_err(|_| AllocError)
}

/// An insert of a row of ten cells.
fn insert(alloc: Global) -> Result<Change, AllocError> {
    let mut row = Image::new(alloc);
    for place in 0..10u8 {
        row.push(Cell::Bytes(Text::from_bytes(alloc, &[b'1', b'0' + place])?))?;
    }
    Ok(Change {
        table: Text::from_bytes(alloc, b"t")?,
        before: None,
        after: Some(row),
    })
}

fn pick_many(alloc: Global, bound: &Bound, change: &Change, count: u32) -> Result<u32, AllocError> {
    let mut picked = 0u32;
    for _ in 0..count {
        if bound.pick(alloc, change)?.is_some() {
            picked = picked.saturating_add(1);
        }
    }
    Ok(picked)
}

fn main(rt: HostRuntime) -> io::Result<()> {
    let alloc = rt.alloc();
    let bound = bound_of(alloc)?;
    let change = insert(alloc)?;
    let start = Instant::now(&rt)?;
    let picked = pick_many(alloc, &bound, &change, 1_000_000)?;
    let elapsed = start.elapsed(&rt)?;
    let millis = (elapsed.as_secs() % 1_000_000) * 1000 + u64::from(elapsed.subsec_nanos()) / 1_000_000;
    println!(rt; "{picked} picks in {millis} ms")?;
    Ok(())
}
PROGRAM
