#!/usr/bin/env bash
# Times a million turns of a core over 1, 8 and 64 shards, in nanoseconds per turn, without a skew and
# with one, and tells the memory at the peak: each turn takes a transaction that was rendered before,
# and sends its frame. Four pieces of each lane are held at most.
# Usage: bench/turns.sh
set -eu
. "$(dirname "$0")/scratch.sh"

make_scratch turns "vs_base vs_gtid vs_pool vs_filter vs_vector vs_render vs_request vs_core anyhow" vs_base vs_pace vs_pool vs_wire vs_frame vs_proto vs_gtid vs_outside vs_request vs_model vs_vector vs_gather vs_schema vs_select vs_filter vs_journal vs_render vs_core <<'PROGRAM'
//! Times turns of a core.
#![tactic(auto)]

use anyhow::{Context, Result};
use std::alloc::Global;
use std::time::Instant;
use vs_base::{Gtid, List, ShardName, Text};
use vs_core::Core;
use vs_filter::Bound;
use vs_gtid::{Entry, GtidSet, Work};
use vs_pool::Pool;
use vs_render::{Body, Piece, Room, render};
use vs_request::Flags;
use vs_vector::{Place, ShardAt, Vector};

const TURNS: u64 = 1_000_000;

/// The pieces of a lane that are held at once.
const HELD: u64 = 4;

fn shard(alloc: Global, number: u8) -> Result<ShardName> {
    let keyspace = Text::from_bytes(alloc, b"commerce")?;
    let shard = Text::from_bytes(alloc, &[b'0' + number / 10 % 10, b'0' + number % 10])?;
    ShardName::new(keyspace, shard).context("the name is too long")
}

fn body(alloc: Global, name: &ShardName, gtid: Gtid) -> Result<Body> {
    let buf = Pool::new(alloc, 1, 256)?.take().context("no buffer")?;
    let room = Room {
        buf,
        rest: Vec::new(alloc),
    };
    let entry = Entry {
        gtid,
        time: 100,
        work: Work::Ddl(Text::from_bytes(alloc, b"drop table t")?),
    };
    let bound = Bound {
        tables: List::new(alloc),
    };
    match render(alloc, &entry, name, &bound, room) {
        Ok(body) => Ok(body),
        Err(_) => Err(anyhow::anyhow!("no body")),
    }
}

fn core_over(alloc: Global, shards: u8, max_skew: u64) -> Result<Core> {
    let mut vector = Vector::new(alloc);
    for number in 0..shards {
        let at = ShardAt {
            start: Place::At(GtidSet::new(alloc)),
            last_key: None,
        };
        vector.push(shard(alloc, number)?, at)?;
    }
    let flags = Flags {
        max_skew,
        heartbeat_interval: 0,
        stop_on_reshard: false,
        include_journals: false,
    };
    let mut core = Core::new(alloc, vector, flags, false)?;
    for number in 0..shards {
        let name = shard(alloc, number)?;
        if core.may_begin(&name) {
            core.begin(&name)?;
        }
    }
    Ok(core)
}

/// Takes the pieces of a round, which begins at this turn.
fn take_round(alloc: Global, core: &mut Core, shards: u8, first: u64, turns: u64) -> Result<()> {
    for turn in first..first.saturating_add(turns) {
        let number = (turn % u64::from(shards.max(1))) as u8;
        let mut uuid = [7; 16];
        uuid[15] = number;
        let gtid = Gtid::new(uuid, (turn / u64::from(shards.max(1))).saturating_add(1)).context("no such number")?;
        let name = shard(alloc, number)?;
        let body = body(alloc, &name, gtid)?;
        let piece = Piece::Tx { gtid, time: 100, body };
        if core.may_take(usize::from(number)) {
            let _taken = core.take(usize::from(number), piece).is_ok();
        }
    }
    Ok(())
}

/// The nanoseconds of a turn over so many shards.
fn time_turns(rt: &impl std::rt::Clock, alloc: Global, shards: u8, max_skew: u64) -> Result<u64> {
    let mut core = core_over(alloc, shards, max_skew)?;
    let mut out = Vec::new(alloc);
    let mut spent: u64 = 0;
    let round = HELD * u64::from(shards.max(1));
    for number in 0..TURNS / round {
        take_round(alloc, &mut core, shards, number.saturating_mul(round), round)?;
        let start = Instant::now(rt)?;
        for _ in 0..round {
            out.clear();
            if core.turn(alloc, &mut out).is_err() {
                return Err(anyhow::anyhow!("a turn is refused"));
            }
        }
        let elapsed = start.elapsed(rt)?;
        spent = spent.saturating_add((elapsed.as_secs() % 1_000_000) * 1_000_000_000 + u64::from(elapsed.subsec_nanos()));
    }
    Ok(spent / TURNS)
}

fn main(rt: HostRuntime) -> Result<()> {
    let alloc = rt.alloc();
    for shards in [1, 8, 64] {
        for skew in [0, 5] {
            let each = time_turns(&rt, alloc, shards, skew)?;
            println!(rt; "{shards} shards, skew {skew}: {each} ns a turn")?;
        }
    }
    Ok(())
}
PROGRAM

/usr/bin/time -f '%U s of processor time, %M KB at the peak' out/turns
