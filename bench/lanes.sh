#!/usr/bin/env bash
# Times a lane alone, with vs_lane, on a log of statements in memory, whose pieces are dropped at once.
# Prints the pieces, the seconds of processor time and the peak memory, which has the log; and, where
# perf or valgrind is there, instructions. Beside it stand bench/read_log.sh (the reader alone) and the
# rendering of as many bodies.
# Usage: bench/lanes.sh [SIZE IN MB]     (100 where none is named)
set -eu
here=$(cd "$(dirname "$0")" && pwd)
. "$here/scratch.sh"

make_scratch lanes "vs_base vs_gtid vs_outside vs_request vs_schema vs_filter vs_pool vs_render vs_lane" \
    vs_base vs_pool vs_wire vs_proto vs_gtid vs_outside vs_request vs_model vs_vector vs_binlog vs_schema vs_select \
    vs_filter vs_columns vs_rows vs_log vs_journal vs_entries vs_render vs_lane <<'PROGRAM'
//! Reads a log from standard input into memory, and drops the pieces of a lane over it.
#![tactic(auto)]

use std::alloc::{AllocError, Global};
use std::io::{self, Read};
use vs_base::{List, ShardName, Text};
use vs_filter::Bound;
use vs_gtid::GtidSet;
use vs_lane::Lane;
use vs_outside::MemFeed;
use vs_pool::Pool;
use vs_render::{Piece, Room};
use vs_request::StartAt;
use vs_schema::Schema;

fn name_of(alloc: Global) -> Result<ShardName, AllocError> {
    let keyspace = Text::from_bytes(alloc, b"c")?;
    ShardName::new(keyspace, Text::from_bytes(alloc, b"0")?).ok_or(AllocError)
}

fn room_of(alloc: Global) -> Result<Room, AllocError> {
    let buf = Pool::new(alloc, 1, 65_536)?.take().ok_or(AllocError)?;
    Ok(Room {
        buf,
        rest: Vec::new(alloc),
    })
}

fn lane_of(alloc: Global, log: Vec<u8>) -> Result<Lane<MemFeed>, AllocError> {
    let Ok(schema) = Schema::read(alloc, b"table t\ncolumn id int\nkey id\n") else {
        return Err(AllocError);
    };
    let bound = Bound {
        tables: List::new(alloc),
    };
    let name = name_of(alloc)?;
    let feed = MemFeed::new(name_of(alloc)?, log, Vec::new(alloc));
    let from = StartAt::At(GtidSet::new(alloc));
    Lane::start(alloc, &name, feed, &schema, bound, from, true).map_err(|_| AllocError)
}

/// The room of a piece.
fn back(piece: Piece) -> Option<Room> {
    match piece {
        Piece::Tx { body, .. } => Some(body.room()),
        Piece::Idle { room } => Some(room),
        _ => None,
    }
}

/// How many pieces the lane gives before its end.
fn count(alloc: Global, lane: &mut Lane<MemFeed>) -> Result<u64, AllocError> {
    let mut pieces = 0u64;
    let mut room = room_of(alloc)?;
    for _ in 0..u64::MAX {
        if lane.has_ended() || lane.is_seeking() {
            break;
        }
        match back(lane.step(alloc, room)) {
            Some(emptied) => room = emptied,
            None => break,
        }
        pieces = pieces.wrapping_add(1);
    }
    Ok(pieces)
}

fn main(rt: HostRuntime) -> io::Result<()> {
    let alloc = rt.alloc();
    let mut log = Vec::new(alloc);
    rt.stdin().read_to_end(&mut log)?;
    if let Ok(mut lane) = lane_of(alloc, log) {
        let pieces = count(alloc, &mut lane).unwrap_or(0);
        println!(rt; "{pieces} pieces")?;
    }
    Ok(())
}
PROGRAM

log=$(mktemp)
python3 -c 'import sys
sys.path.insert(0, sys.argv[1])
import stream_log
stream_log.make_log(sys.argv[3], int(sys.argv[2]) * 1_000_000)' "$here" "${1:-100}" "$log"
/usr/bin/time -f '%U s of processor time, %M KB at the peak' out/lanes < "$log"
if command -v valgrind > /dev/null; then
    valgrind --tool=none --quiet true 2> /dev/null && valgrind --tool=callgrind --callgrind-out-file=/dev/null out/lanes < "$log" 2>&1 | grep -i refs || true
elif command -v perf > /dev/null; then
    perf stat -e instructions:u out/lanes < "$log" 2>&1 | grep instructions || true
fi
rm -f "$log"
