#!/usr/bin/env python3
"""How long heads take: reading one of ten fields, many times; reading one of 65,533 bytes that
comes byte by byte; and reading and forwarding one that lists 16,300 names in a Connection field
beside 10,900 other fields, in 65,000 bytes.

It wants the toolchain's command rt, by which it proves, builds and runs a small program over the
crates of heads.

usage: bench/heads.py
"""
from over_crates import print_output_of

PROGRAM = r"""//! Times the reading of heads.
#![tactic(auto)]

use dtab_table::Dtab;
use forward::{Going, forward_head};
use http_wire::{Framing, Head, Rest, read_request_head};
use line_doubles::{MemPeer, MemSink, MemSource};
use name_tree::Path;
use std::alloc::{AllocError, Global};
use std::io;
use std::time::Instant;

const REQUEST: &str = "GET /x?y=1 HTTP/1.1\r\nHost: Web\r\nUser-Agent: curl/8.5.0\r\nAccept: */*\r\nl5d-dtab: /svc/web => /$/inet/127.0.0.1/9001\r\nConnection: x-gone, keep-alive\r\nX-Gone: 1\r\nX-Kept: 2\r\nAccept-Language: de\r\nAccept-Encoding: gzip, br\r\nCookie: a=b; c=d\r\n\r\n";

/// How often the head of ten fields is read.
const TIMES: u32 = 200000;

/// A peer that gives these bytes, at most so many at each read, and holds what it takes.
fn peer_of(alloc: Global, bytes: Vec<u8>, sizes: Vec<usize>) -> MemPeer {
    let source = MemSource::of(bytes, sizes, Vec::new(alloc));
    MemPeer::of(source, MemSink::of(alloc, Vec::new(alloc), Vec::new(alloc)))
}

/// Reads the head of ten fields so often, and gives how many fields were read.
fn read_often(alloc: Global, rest: &mut Rest) -> Result<usize, AllocError> {
    let mut peer = peer_of(alloc, Vec::new(alloc), Vec::new(alloc));
    let mut fields = 0usize;
    for _ in 0..TIMES {
        rest.add(REQUEST.as_bytes())?;
        match read_request_head(alloc, &mut peer, rest) {
            Ok(head) => fields = fields.wrapping_add(head.fields.items().len()),
            Err(_) => {}
        }
    }
    Ok(fields)
}

fn time_many(rt: &HostRuntime) -> io::Result<()> {
    let mut rest = Rest::room(rt.alloc())?;
    let start = Instant::now(rt)?;
    let fields = read_often(rt.alloc(), &mut rest)?;
    let took = start.elapsed(rt)?.as_millis();
    println!(rt; "heads: {TIMES} heads, {fields} fields, {took} ms")
}

/// A head with one long field.
fn long_head(alloc: Global) -> Result<Vec<u8>, AllocError> {
    let mut head = Vec::from_slice(alloc, b"GET / HTTP/1.1\r\nA: ")?;
    head.append(&mut Vec::from_elem(alloc, b'x', 65510)?)?;
    head.extend_from_slice(b"\r\n\r\n")?;
    Ok(head)
}

fn time_slow(rt: &HostRuntime) -> io::Result<()> {
    let alloc = rt.alloc();
    let head = long_head(alloc)?;
    let size = head.len();
    let mut peer = peer_of(alloc, head, Vec::from_elem(alloc, 1usize, size)?);
    let mut rest = Rest::room(alloc)?;
    let start = Instant::now(rt)?;
    let read = read_request_head(alloc, &mut peer, &mut rest).is_ok();
    let took = start.elapsed(rt)?.as_micros();
    println!(rt; "heads: one of {size} bytes by single bytes, {read}, {took} us")
}

/// A head that lists very many names beside very many fields.
fn hostile_head(alloc: Global) -> Result<Vec<u8>, AllocError> {
    let mut bytes = Vec::from_slice(alloc, b"GET / HTTP/1.1\r\nConnection: ")?;
    for n in 0..16300u32 {
        bytes.push(b'a' + (n % 13) as u8)?;
        bytes.push(b',')?;
    }
    bytes.push(b'\n')?;
    for n in 0..10900u32 {
        bytes.push(b'N' + (n % 13) as u8)?;
        bytes.extend_from_slice(b":\n")?;
    }
    bytes.push(b'\n')?;
    Ok(bytes)
}

/// Reads a head and writes it as it goes on: how many bytes that is.
fn sent_for(alloc: Global, bytes: &[u8]) -> Result<usize, AllocError> {
    let mut peer = peer_of(alloc, Vec::new(alloc), Vec::new(alloc));
    let mut rest = Rest::room(alloc)?;
    rest.add(bytes)?;
    match read_request_head(alloc, &mut peer, &mut rest) {
        Ok(head) => written(alloc, &head),
        Err(_) => Ok(0),
    }
}

/// How long a head is as it goes on.
fn written(alloc: Global, head: &Head) -> Result<usize, AllocError> {
    let to = Going {
        host: b"web",
        target: b"/",
        framing: Framing::Nothing,
        local: &Dtab::empty(alloc),
        service: &Path::new(alloc),
        client: b"/a",
        residual: b"/",
        closes: true,
    };
    let bytes = forward_head(alloc, head, &to)?;
    Ok(bytes.len())
}

fn time_hostile(rt: &HostRuntime) -> io::Result<()> {
    let hostile = hostile_head(rt.alloc())?;
    let size = hostile.len();
    let mut best = u128::MAX;
    let mut sent = 0usize;
    for _ in 0..20u32 {
        let start = Instant::now(rt)?;
        sent = sent_for(rt.alloc(), hostile.as_slice())?;
        best = best.min(start.elapsed(rt)?.as_micros());
    }
    println!(rt; "heads: a hostile one of {size} bytes read and forwarded as {sent} bytes, {best} us at best")
}

fn main(rt: HostRuntime) -> io::Result<()> {
    time_many(&rt)?;
    time_slow(&rt)?;
    time_hostile(&rt)
}
"""

if __name__ == "__main__":
    print_output_of(
        "heads",
        PROGRAM,
        ["line_base", "line_doubles", "http_wire", "name_tree", "dtab_table", "forward"],
    )
