#!/usr/bin/env bash
# Times a reader alone, with vs_entries, on a log of statements that comes in pieces of 65,536 bytes;
# each entry is dropped at once. Prints the entries, the seconds of processor time and the peak memory.
# Usage: bench/read_log.sh [SIZE IN MB]     (1000 where none is named)
set -eu
here=$(cd "$(dirname "$0")" && pwd)
. "$here/scratch.sh"

make_scratch read_log "vs_base vs_schema vs_entries" \
    vs_base vs_gtid vs_binlog vs_schema vs_columns vs_rows vs_log vs_journal vs_entries <<'PROGRAM'
//! Reads a log from standard input, drops each entry at once, and prints how many there were.
#![tactic(auto)]

use std::io::{self, Read};
use vs_entries::{Reader, Took};
use vs_schema::Schema;

const PIECE: usize = 65_536;

/// Drops the entries that are whole, and how many they were; None where the log is at fault.
fn drain(reader: &mut Reader) -> Option<u64> {
    let mut count = 0u64;
    for _ in 0..u64::MAX {
        match reader.next_entry() {
            Ok(Took::Entry { .. }) => count = count.saturating_add(1),
            Ok(Took::More) => return Some(count),
            Err(_) => return None,
        }
    }
    None
}

fn main(rt: HostRuntime) -> io::Result<()> {
    let alloc = rt.alloc();
    let mut input = rt.stdin();
    let Ok(schema) = Schema::read(alloc, b"table t\ncolumn id int\nkey id\n") else {
        return Ok(());
    };
    let Ok(mut reader) = Reader::new(alloc, &schema, b"c") else {
        return Ok(());
    };
    let mut piece = [0u8; PIECE];
    let mut total = 0u64;
    for _ in 0..u64::MAX {
        let n = input.read(&mut piece)?;
        if n == 0 || reader.feed(&piece[..n]).is_err() {
            break;
        }
        let Some(count) = drain(&mut reader) else {
            println!(rt; "the log is at fault")?;
            break;
        };
        total = total.saturating_add(count);
    }
    println!(rt; "{total} entries")?;
    Ok(())
}
PROGRAM

python3 -c 'import sys
sys.path.insert(0, sys.argv[1])
import stream_log
stream_log.make_log("/dev/stdout", int(sys.argv[2]) * 1_000_000)' "$here" "${1:-1000}" |
    /usr/bin/time -f '%U s of processor time, %M KB at the peak' out/read_log
