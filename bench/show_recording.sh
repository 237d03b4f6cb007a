#!/usr/bin/env bash
# Times vs_show on recordings of so many MB of one frame again and again, an update of a row of five
# cells. For each it prints MB of the recording in a second, the bytes of the lines, and the peak of the
# memory so far, which does not grow with the recording.
# Usage: bench/show_recording.sh [SIZE ..]     (10 and 100 where none is named)
set -eu
. "$(dirname "$0")/scratch.sh"

[ $# -gt 0 ] || set -- 10 100
sizes=$(printf '%s, ' "$@")
sed "s/SIZES/${sizes%, }/" <<'PROGRAM' | run_scratch show_recording "vs_base vs_outside vs_show" \
    vs_base vs_wire vs_frame vs_proto vs_outside vs_show
//! Times the printing of a recording.
#![tactic(auto)]

use std::alloc::{AllocError, Global};
use std::time::Instant;
use std::{fs, io};
use vs_outside::{Failed, Sink, Source};
use vs_show::show;

/// BEGIN, FIELD, ROW with both images, VGTID and COMMIT.
const FRAME: &[u8] = b"\x00\x00\x01\xae\x0a\x19\x08\x02\x10\x80\xe2\xcf\xaa\x06\xb2\x01\x08commerce\xba\x01\
    \x03-80\x0ag\x08\x0d\x10\x80\xe2\xcf\xaa\x062L\x0a\x11commerce.customer\x12\x07\x0a\
    \x02id\x10\x89\x02\x12\x09\x0a\x04name\x10\x950\x12\x0b\x0a\x07balance\x10\x12\x12\
    \x0a\x0a\x05since\x10\x90\x10\x12\x0a\x0a\x05state\x10\x950\xb2\x01\x08commerce\xba\
    \x01\x03-80\x0a\xa7\x01\x08\x0c\x10\x80\xe2\xcf\xaa\x06*\x8b\x01\x0a\x11commerce.cus\
    tomer\x12v\x0a7\x0a\x05\x0e\x14\x14&\x01\x12.1234567Jane Smith1234567.892024-02-29 1\
    2:34:56\x12;\x0a\x05\x0e\x14\x14&\x08\x1221234567Jane Smith1234599.892024-03-01 09:1\
    0:11paid\xb2\x01\x08commerce\xba\x01\x03-80\x0ac\x08\x0f\x10\x80\xe2\xcf\xaa\x06:H\
    \x0aF\x0a\x08commerce\x12\x03-80\x1a5MySQL56/3e11fa47-71ca-11e1-9e33-c80aa9429562:1-\
    123456\xb2\x01\x08commerce\xba\x01\x03-80\x0a\x19\x08\x03\x10\x80\xe2\xcf\xaa\x06\
    \xb2\x01\x08commerce\xba\x01\x03-80";

/// The frame again and again.
#[derive(Drop)]
struct Repeated {
    /// More frames than a read takes.
    block: Vec<u8>,
    at: usize,
    left: usize,
}

impl Source for Repeated {
    ghost use Rattle.std.specs.Prelude.{None};

    ghost left = { λ _. None };

    ghost faults = { λ _. 0 };

    fn read(&mut self, buf: &mut [u8]) -> Result<usize, Failed> {
        let start = self.at.min(self.block.len());
        let n = (self.block.len() - start).min(buf.len()).min(self.left);
        buf[..n].copy_from_slice(&self.block[start..start + n]);
        self.at = (start + n) % FRAME.len();
        self.left -= n;
        Ok(n)
    }
}

/// Counts what it takes.
#[derive(Drop)]
struct Counted {
    bytes: u64,
}

impl Sink for Counted {
    ghost use Rattle.std.specs.Prelude.{None};

    ghost sent = { λ _. None };

    ghost faults = { λ _. 0 };

    fn write(&mut self, bytes: &[u8]) -> Result<usize, Failed> {
        self.bytes = self.bytes.wrapping_add(bytes.len() as u64);
        Ok(bytes.len())
    }
}

/// A recording of so many MB.
fn recording(alloc: Global, megabytes: u32) -> Result<Repeated, AllocError> {
    let mut block = Vec::new(alloc);
    for _ in 0..200 {
        block.extend_from_slice(FRAME)?;
    }
    let left = megabytes as usize * 1_000_000 / FRAME.len() * FRAME.len();
    Ok(Repeated { block, at: 0, left })
}

/// The most memory that the process has had so far, as Linux tells it.
fn peak(rt: &HostRuntime) -> io::Result<()> {
    let status = fs::read_to_string(rt, "/proc/self/status")?;
    for line in status.as_str().lines() {
        if line.starts_with("VmHWM") {
            println!(rt; "{line}")?;
        }
    }
    Ok(())
}

fn main(rt: HostRuntime) -> io::Result<()> {
    for megabytes in [SIZES] {
        let mut input = recording(rt.alloc(), megabytes)?;
        let size = input.left;
        let mut output = Counted { bytes: 0 };
        let start = Instant::now(&rt)?;
        let end = show(rt.alloc(), &mut input, &mut output);
        let elapsed = start.elapsed(&rt)?;
        let micros = (elapsed.as_secs() % 1_000_000) * 1_000_000 + u64::from(elapsed.subsec_nanos()) / 1000;
        let speed = size as u64 / (micros + 1);
        let lines = output.bytes;
        println!(rt; "{size} bytes: {speed} MB/s, {lines} bytes of lines ({end:?})")?;
        peak(&rt)?;
    }
    Ok(())
}
PROGRAM
