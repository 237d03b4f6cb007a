#!/usr/bin/env bash
# Times a million changes of vs_tables over 100,000 rows: of each row in turn an update, a delete and the insert that
# brings it again; then chunks of the whole by vs_copy. In nanoseconds of processor time a change, without the making
# of the change, and a row; and the bytes of memory a row, by the pages of the process before and with the rows.
# For rows of an id and of a text of 20 and of 200 bytes.
# Usage: bench/tables.sh
set -eu
. "$(dirname "$0")/scratch.sh"

make_scratch tables "vs_base vs_schema vs_select vs_filter vs_tables vs_copy" vs_base vs_gtid vs_model vs_outside vs_schema vs_select vs_filter vs_tables vs_copy <<'PROGRAM'
//! Times changes of rows, and chunks of them.
#![tactic(auto)]

use std::alloc::{AllocError, Global};
use std::fs;
use std::io;
use std::io::Read;
use std::time::{CpuClock, Duration};
use vs_base::{Cell, Change, Image, List, OutOfMemory, Text};
use vs_copy::Copier;
use vs_filter::{Bound, Picked};
use vs_schema::Schema;
use vs_select::BoundSelect;
use vs_tables::{TableRefusal, Tables};

const SCHEMA: &[u8] = b"table t\ncolumn id bigint\ncolumn v varchar(4000)\nkey id\n";

const ROWS: u64 = 100_000;

fn row(alloc: Global, id: u64, bytes: &[u8]) -> Result<Image, AllocError> {
    let mut row = Image::new(alloc);
    let text = id.to_string(alloc)?;
    row.push(Cell::Bytes(Text::from_bytes(alloc, text.as_bytes())?))?;
    row.push(Cell::Bytes(Text::from_bytes(alloc, bytes)?))?;
    Ok(row)
}

fn row_if(alloc: Global, there: bool, id: u64, bytes: &[u8]) -> Result<Option<Image>, AllocError> {
    if there {
        Ok(Some(row(alloc, id, bytes)?))
    } else {
        Ok(None)
    }
}

/// An id that goes through all rows, spread over them.
fn spread(step: u64) -> u64 {
    step.wrapping_mul(48_271) % ROWS
}

fn change(
    alloc: Global,
    id: u64,
    before: bool,
    after: bool,
    bytes: &[u8],
) -> Result<Change, AllocError> {
    Ok(Change {
        table: Text::from_bytes(alloc, b"t")?,
        before: row_if(alloc, before, id, bytes)?,
        after: row_if(alloc, after, id, bytes)?,
    })
}

fn told(answer: Result<(), TableRefusal>) -> Result<(), AllocError> {
    match answer {
        Ok(()) => Ok(()),
        Err(_) => Err(AllocError),
    }
}

fn fill(alloc: Global, tables: &mut Tables, bytes: &[u8]) -> Result<(), AllocError> {
    for step in 0..ROWS {
        let one = [change(alloc, spread(step), false, true, bytes)?];
        told(tables.apply(&one))?;
    }
    Ok(())
}

fn fill_copy(alloc: Global, copier: &mut Copier, bytes: &[u8]) -> Result<(), AllocError> {
    for step in 0..ROWS {
        let one = [change(alloc, spread(step), false, true, bytes)?];
        told(copier.apply(&one))?;
    }
    Ok(())
}

fn three(alloc: Global, id: u64, bytes: &[u8]) -> Result<[Change; 3], AllocError> {
    Ok([
        change(alloc, id, true, true, bytes)?,
        change(alloc, id, true, false, bytes)?,
        change(alloc, id, false, true, bytes)?,
    ])
}

/// A million changes: of each id in turn an update, a delete and an insert.
fn change_many(alloc: Global, tables: &mut Tables, bytes: &[u8]) -> Result<u64, AllocError> {
    let mut made = 0u64;
    for step in 0..333_333u64 {
        let three = three(alloc, spread(step), bytes)?;
        told(tables.apply(&three))?;
        made = made.saturating_add(3);
    }
    Ok(made)
}

/// The changes alone, without tables.
fn make_many(alloc: Global, bytes: &[u8]) -> Result<u64, AllocError> {
    let mut made = 0u64;
    for step in 0..333_333u64 {
        let three = three(alloc, spread(step), bytes)?;
        made = made.saturating_add(three.len() as u64);
    }
    Ok(made)
}

/// All tables of a schema, whole.
fn whole(alloc: Global, schema: &Schema) -> Result<Bound, OutOfMemory> {
    let mut tables = List::new(alloc);
    for table in schema.tables() {
        tables.push(Picked {
            name: table.name.copy(alloc)?,
            columns: table.columns.copy(alloc)?,
            select: BoundSelect::whole(alloc, table)?,
        })?;
    }
    Ok(Bound { tables })
}

/// How many rows come in chunks.
fn copy_all(copier: &mut Copier) -> Result<u64, AllocError> {
    let mut rows = 0u64;
    for _ in 0..=ROWS {
        let Some(chunk) = copier.next_chunk()? else {
            return Ok(rows);
        };
        rows = rows.saturating_add(chunk.rows.as_slice().len() as u64);
    }
    Ok(rows)
}

fn nanos(elapsed: Duration) -> u64 {
    (elapsed.as_secs() % 1_000_000) * 1_000_000_000 + u64::from(elapsed.subsec_nanos())
}

/// A line of what the system says of this process.
fn memory(rt: &HostRuntime) -> io::Result<String> {
    fs::read_to_string(rt, "/proc/self/statm")
}

fn time_changes(rt: &HostRuntime, schema: &Schema, bytes: &[u8]) -> io::Result<()> {
    let alloc = rt.alloc();
    let mut tables = Tables::new(alloc, schema)?;
    let before = memory(rt)?;
    fill(alloc, &mut tables, bytes)?;
    let after = memory(rt)?;
    let start = rt.thread_cpu_time()?;
    let made = make_many(alloc, bytes)?;
    let making = nanos(rt.thread_cpu_time()?.saturating_sub(start));
    let start = rt.thread_cpu_time()?;
    let changed = change_many(alloc, &mut tables, bytes)?;
    let changing = nanos(rt.thread_cpu_time()?.saturating_sub(start));
    println!(rt; "made {made} {making}")?;
    println!(rt; "changed {changed} {changing}")?;
    println!(rt; "before {before}after {after}")
}

fn time_chunks(rt: &HostRuntime, bytes: &[u8]) -> io::Result<()> {
    let alloc = rt.alloc();
    let Ok(schema) = Schema::read(alloc, SCHEMA) else {
        return println!(rt; "no schema");
    };
    let bound = whole(alloc, &schema)?;
    let Ok(mut copier) = Copier::fresh(alloc, &schema, &bound) else {
        return println!(rt; "no copy");
    };
    fill_copy(alloc, &mut copier, bytes)?;
    let start = rt.thread_cpu_time()?;
    let copied = copy_all(&mut copier)?;
    let copying = nanos(rt.thread_cpu_time()?.saturating_sub(start));
    println!(rt; "copied {copied} {copying}")
}

/// The text of the rows is the standard input.
fn main(rt: HostRuntime) -> io::Result<()> {
    let mut bytes = Vec::new(rt.alloc());
    rt.stdin().read_to_end(&mut bytes)?;
    let Ok(schema) = Schema::read(rt.alloc(), SCHEMA) else {
        return println!(rt; "no schema");
    };
    time_changes(&rt, &schema, bytes.as_slice())?;
    time_chunks(&rt, bytes.as_slice())
}
PROGRAM

for size in 20 200; do
    printf "%${size}s" | tr ' ' x | "out/tables" | awk -v size="$size" '
        $1 == "made" { making = $3 / $2 }
        $1 == "changed" { changing = $3 / $2 }
        $1 == "copied" { copying = $3 / $2 }
        $1 == "before" { before = $3 }
        $1 == "after" { after = $3 }
        END {
            cells = size + 4.9
            printf "rows of %d bytes: %d ns a change, %d ns a row in chunks, %d bytes a row (at most %d wanted)\n",
                cells, changing - making, copying, (after - before) * 4096 / 100000, 3 * cells + 64
        }'
done
