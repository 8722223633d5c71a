#!/usr/bin/env python3
"""How many content bytes of a body go through a second: passed on and passed back, over memory, by
a length, and in chunks of 1 KiB and of 64 KiB; beside a plain copy of the same bytes, piece by
piece; and how much memory it takes at most, for bodies of 64 MiB and of 1 GiB.

The two ends are in memory: one copies the bytes from a block that it gives over and over, and the
other into room of its own, as a socket does. It wants the toolchain's command rt, by which it
proves, builds and runs a small program over the crates of bodies.

usage: bench/bodies.py
"""
from over_crates import output_of

PROGRAM = r"""//! Times the passing of bodies.
#![tactic(auto)]

ghost use Rattle.std.specs.Prelude.{◌≡◌, ◌≤◌, ◌<◌, [], length, false, None, Some, List, ℕ, Option};

use body_wire::{pass_back, pass_body};
use http_wire::{Framing, Rest};
use line_base::{Dialer, Failed, Next, Peer, SocketAddress};
use std::alloc::{AllocError, Global};
use std::time::Instant;
use std::{fs, io};

/// The content bytes of a block.
const BLOCK: usize = 65536;

/// How a body goes.
#[derive(Clone, Copy)]
enum Way {
    Onward,
    Back,
    Copied,
}

/// A body of so many blocks of content, in chunks of this size, or by its length where that is 0.
#[derive(Clone, Copy)]
struct Body {
    chunk: usize,
    blocks: u32,
}

impl Body {
    fn content(self) -> u64 {
        u64::from(self.blocks) * 65536
    }

    fn framing(self) -> Framing {
        if self.chunk == 0 {
            Framing::Length(self.content())
        } else {
            Framing::Chunked
        }
    }

    /// The bytes of a block.
    fn block(self, alloc: Global) -> Result<Vec<u8>, AllocError> {
        if self.chunk == 0 {
            return Vec::from_elem(alloc, b'x', BLOCK);
        }
        let mut block = Vec::new(alloc);
        for _ in 0..BLOCK / self.chunk {
            push_chunk(&mut block, self.chunk)?;
        }
        Ok(block)
    }

    /// The bytes behind the last block.
    fn last(self, alloc: Global) -> Result<Vec<u8>, AllocError> {
        Vec::from_slice(alloc, if self.chunk == 0 { b"" } else { b"0\r\n\r\n" })
    }
}

/// Puts a chunk of so many bytes behind the others.
fn push_chunk(bytes: &mut Vec<u8>, size: usize) -> Result<(), AllocError> {
    let alloc = *bytes.allocator();
    let line = format!(in alloc; "{size:x}\r\n")?;
    bytes.extend_from_slice(line.as_bytes())?;
    bytes.append(&mut Vec::from_elem(alloc, b'x', size)?)?;
    bytes.extend_from_slice(b"\r\n")
}

/// The other end of a connection. It gives a block so many times, and then what is behind, and
/// copies what it takes into its room.
#[derive(Drop)]
struct End {
    block: Vec<u8>,
    times: u32,
    last: Vec<u8>,
    at: usize,
    room: [u8; 16384],
    seen: u8,
    ends: u64,
    open_to: Option<(u32, u16)>,
}

impl End {
    fn of(alloc: Global, body: Body) -> Result<End, AllocError> {
        Ok(End {
            block: body.block(alloc)?,
            times: body.blocks,
            last: body.last(alloc)?,
            at: 0,
            room: [0; 16384],
            seen: 0,
            ends: 0,
            open_to: None,
        })
    }

    /// Gives some bytes. 0 is the end, where there is room.
    fn give(&mut self, into: &mut [u8]) -> usize
        ensures within { result ≤ length into.new }
        ensures others { (self.new.ends ≡ self.old.ends) × (self.new.open_to ≡ self.old.open_to) }
    {
        if self.times > 0 && self.at >= self.block.len() {
            self.times -= 1;
            self.at = 0;
        }
        let block = if self.times > 0 { self.block.as_slice() } else { self.last.as_slice() };
        let start = self.at.min(block.len());
        let count = (block.len() - start).min(into.len());
        into[..count].copy_from_slice(&block[start..start + count]);
        self.at = start + count;
        count
    }

    /// Takes some bytes, and at least one, where there is one.
    fn take(&mut self, bytes: &[u8]) -> usize
        ensures within { result ≤ length bytes.now }
        ensures some { 0 < length bytes.now → 0 < result }
        ensures others { (self.new.ends ≡ self.old.ends) × (self.new.open_to ≡ self.old.open_to) }
    {
        let count = bytes.len().min(self.room.len());
        self.room[..count].copy_from_slice(&bytes[..count]);
        count
    }

    /// Looks at bytes, so that no compiler leaves out what wrote them.
    fn look_at(&mut self, bytes: &[u8]) {
        for byte in bytes {
            self.seen ^= *byte;
        }
    }

    /// Looks at its room.
    fn look(&mut self) -> u8 {
        let room = self.room;
        self.look_at(&room);
        self.seen
    }
}

impl Peer for End {
    ghost line = { λ e. record {
      left = None;
      given = None;
      read_faults = 0;
      write_faults = 0;
      ends = e.ends;
      closings = 0;
      quiets = 0;
    } };

    ghost address = { λ e. None };

    fn address(&self) -> Option<SocketAddress> {
        None
    }

    fn read(&mut self, into: &mut [u8]) -> Result<usize, Failed> {
        let count = self.give(into);
        if count == 0 && !into.is_empty() {
            self.ends = self.ends.saturating_add(1);
        }
        Ok(count)
    }

    fn read_next(&mut self, into: &mut [u8]) -> Result<Next, Failed> {
        match self.read(into) {
            Ok(0) => Ok(Next::End),
            Ok(count) => Ok(Next::Bytes(count)),
            Err(failed) => Err(failed),
        }
    }

    fn is_closing(&mut self) -> bool {
        false
    }

    fn write(&mut self, bytes: &[u8]) -> Result<usize, Failed> {
        Ok(self.take(bytes))
    }
}

impl Dialer for End {
    ghost upstream = { λ e. record {
      log = None;
      left = None;
      open_to = e.open_to;
      kept = [];
      keeps = false;
      late = false;
      faults = 0;
    } };

    fn keeps(&self) -> bool {
        false
    }

    fn is_late(&self) -> bool {
        false
    }

    fn dial(&mut self, ip: u32, port: u16) -> Result<(), Failed> {
        self.open_to = Some((ip, port));
        Ok(())
    }

    fn resume(&mut self, _ip: u32, _port: u16) -> bool {
        self.open_to = None;
        false
    }

    fn send(&mut self, bytes: &[u8]) -> Result<usize, Failed> {
        Ok(self.take(bytes))
    }

    fn recv(&mut self, into: &mut [u8]) -> Result<usize, Failed> {
        Ok(self.give(into))
    }

    fn hang(&mut self) {
        self.open_to = None;
    }

    fn keep(&mut self) {
        self.open_to = None;
    }

    fn end_idle(&mut self) {}
}

/// Copies all bytes piece by piece, and gives their number.
fn copied(from: &mut End, piece: &mut [u8], to: &mut End) -> u64 {
    let mut count = 0u64;
    for _ in 0..u64::MAX {
        let got = from.give(piece);
        if got == 0 {
            break;
        }
        count = count.wrapping_add(to.take(&piece[..got]) as u64);
    }
    count
}

/// Passes a body on, and gives the number of its content bytes, or 0.
fn onward(alloc: Global, body: Body, from: &mut End, to: &mut End) -> Result<u64, AllocError> {
    let mut rest = Rest::room(alloc)?;
    let mut out = Vec::new(alloc);
    match to.dial(0x7f000001, 9001) {
        Ok(()) => Ok(pass_body(from, &mut rest, body.framing(), &mut out, to).end.unwrap_or(0)),
        Err(_) => Ok(0),
    }
}

/// Passes a body back, and gives the number of its content bytes, or 0.
fn back(alloc: Global, body: Body, from: &mut End, to: &mut End) -> Result<u64, AllocError> {
    let mut rest = Rest::room(alloc)?;
    let mut out = Vec::new(alloc);
    match from.dial(0x7f000001, 9001) {
        Ok(()) => Ok(pass_back(from, &mut rest, body.framing(), true, &mut out, to)
            .end
            .unwrap_or(0)),
        Err(_) => Ok(0),
    }
}

/// Moves a body, and gives how many bytes were counted.
fn moved(
    alloc: Global,
    way: Way,
    body: Body,
    from: &mut End,
    to: &mut End,
) -> Result<u64, AllocError> {
    match way {
        Way::Onward => onward(alloc, body, from, to),
        Way::Back => back(alloc, body, from, to),
        Way::Copied => {
            let mut piece = Vec::from_elem(alloc, 0, 16384)?;
            let count = copied(from, piece.as_mut_slice(), to);
            to.look_at(piece.as_slice());
            Ok(count)
        }
    }
}

/// Moves a body some times, and writes how many microseconds the fastest took.
fn time(rt: &HostRuntime, name: &str, way: Way, body: Body) -> io::Result<()> {
    let alloc = rt.alloc();
    let mut best = u128::MAX;
    let mut count = 0;
    let mut seen = 0u8;
    for _ in 0..5u32 {
        let mut from = End::of(alloc, body)?;
        let mut to = End::of(alloc, body)?;
        let start = Instant::now(rt)?;
        count = moved(alloc, way, body, &mut from, &mut to)?;
        best = best.min(start.elapsed(rt)?.as_micros());
        seen ^= to.look();
    }
    println!(rt; "bodies,{name},{},{},{count},{best},{seen}", body.chunk, body.blocks)
}

/// Writes the most memory that the program has had.
fn tell_memory(rt: &HostRuntime) -> io::Result<()> {
    let status = fs::read_to_string(rt, "/proc/self/status")?;
    for line in status.lines() {
        if line.starts_with("VmHWM:") {
            println!(rt; "bodies {line}")?;
        }
    }
    Ok(())
}

fn main(rt: HostRuntime) -> io::Result<()> {
    for blocks in [1024u32, 16384] {
        for chunk in [0usize, 1024, 65536] {
            let body = Body { chunk, blocks };
            time(&rt, "onward", Way::Onward, body)?;
            time(&rt, "back", Way::Back, body)?;
            time(&rt, "copied", Way::Copied, body)?;
        }
        tell_memory(&rt)?;
    }
    Ok(())
}
"""


FRAMINGS = {"0": "by a length", "1024": "in chunks of 1 KiB", "65536": "in chunks of 64 KiB"}


def main():
    for line in output_of("bodies", PROGRAM, ["line_base", "http_wire", "body_wire"]).splitlines():
        match line.replace(",", " ").split():
            case ["bodies", "VmHWM:", most, unit]:
                print(f"memory so far: {most} {unit} at most")
            case ["bodies", way, chunk, blocks, _, took, _]:
                print(
                    f"{way} {FRAMINGS[chunk]}, {int(blocks) // 16} MiB: "
                    f"{int(blocks) * 65536 / int(took) / 1000:.1f} GB a second"
                )


if __name__ == "__main__":
    main()
