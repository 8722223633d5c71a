#!/usr/bin/env python3
"""How long a change takes that the cache is told of, beside 1,024 kept delegations of 20 looked-up
paths each: one of 1,024 rules of a table changed, all of them, a service added or removed. And how
long a delegation takes to be found among them.

It wants the toolchain's command rt, by which it proves, builds and runs a small program over the
crates of the cache.

usage: bench/touches.py
"""
from over_crates import print_output_of

PROGRAM = r"""//! Times what a change costs the cache.
#![tactic(auto)]

use addr_book::Name;
use bind_cache::{Binding, Cache, MOST_COST};
use bind_core::{Delegated, Outcome, PathList, Trace};
use dtab_table::{Dtab, read_dtab};
use name_tree::{Path, read_path};
use std::alloc::{AllocError, Global};
use std::io;
use std::sync::Arc;
use std::time::Instant;

/// A table of 1,024 rules, of which those from one to before another say something else.
fn table(alloc: Global, from: u32, to: u32) -> Result<Dtab, AllocError> {
    let mut text = String::new(alloc);
    for i in 0..1024u32 {
        let tree = if i >= from && i < to { "b" } else { "a" };
        text.push_str(format!(in alloc; "/t{i}/service => /{tree};")?.as_str())?;
    }
    match read_dtab(alloc, text.as_str().as_bytes()) {
        Ok(dtab) => Ok(dtab),
        Err(_) => Ok(Dtab::empty(alloc)),
    }
}

/// The path of a text, and the empty one where it is none.
fn path(alloc: Global, text: &str) -> Result<Path, AllocError> {
    match read_path(alloc, text.as_bytes()) {
        Ok(path) => Ok(path),
        Err(_) => Ok(Path::new(alloc)),
    }
}

/// Twenty paths that were looked up.
fn asked(alloc: Global, i: u32) -> Result<PathList, AllocError> {
    let mut paths = Vec::new(alloc);
    for j in 0..20u32 {
        paths.push(path(alloc, format!(in alloc; "/t{i}x/service/{j}")?.as_str())?)?;
    }
    Ok(PathList::of(paths))
}

fn binding(alloc: Global, i: u32) -> Result<Arc<Binding>, AllocError> {
    let found = Delegated {
        outcome: Outcome::Neg,
        cost: 20,
        asked: asked(alloc, i)?,
        trace: Trace::of(Vec::new(alloc)),
    };
    let service = path(alloc, format!(in alloc; "/svc/p{i}")?.as_str())?;
    let binding = Binding::of(alloc, &service, &Dtab::empty(alloc), found, 0)?;
    Ok(Arc::new(alloc, binding)?)
}

fn fill(alloc: Global, cache: &mut Cache) -> Result<(), AllocError> {
    for i in 0..1024u32 {
        let entry = binding(alloc, i)?;
        if entry.cost() <= MOST_COST && cache.find(entry.path(), entry.local()).is_none() {
            cache.keep(entry);
        }
    }
    Ok(())
}

/// How often one is found, of a million times.
fn hits(alloc: Global, cache: &Cache) -> Result<u32, AllocError> {
    let none = Dtab::empty(alloc);
    let service = path(alloc, "/svc/p512")?;
    let mut count = 0u32;
    for _ in 0..1000000u32 {
        if cache.find(&service, &none).is_some() {
            count = count.saturating_add(1);
        }
    }
    Ok(count)
}

fn time_tables(
    rt: &HostRuntime,
    cache: &mut Cache,
    what: &str,
    old: &Dtab,
    new: &Dtab,
) -> io::Result<()> {
    let start = Instant::now(rt)?;
    cache.touch_table(old, new);
    let took = start.elapsed(rt)?.as_micros();
    println!(rt; "touches: {what} changed, {took} us")
}

fn time_service(rt: &HostRuntime, cache: &mut Cache) -> io::Result<()> {
    let Ok(web) = Name::of(rt.alloc(), b"web") else { return Ok(()) };
    let start = Instant::now(rt)?;
    cache.touch_service(&web);
    let took = start.elapsed(rt)?.as_micros();
    println!(rt; "touches: a service added or removed, {took} us")
}

fn time_finds(rt: &HostRuntime, cache: &Cache) -> io::Result<()> {
    let start = Instant::now(rt)?;
    let found = hits(rt.alloc(), cache)?;
    let took = start.elapsed(rt)?.as_micros();
    println!(rt; "touches: found {found} times of a million, {took} us")
}

fn main(rt: HostRuntime) -> io::Result<()> {
    let alloc = rt.alloc();
    let mut cache = Cache::start(alloc)?;
    fill(alloc, &mut cache)?;
    let old = table(alloc, 0, 0)?;
    let one = table(alloc, 512, 513)?;
    let all = table(alloc, 0, 1024)?;
    time_tables(&rt, &mut cache, "one of 1,024 rules", &old, &one)?;
    time_tables(&rt, &mut cache, "all 1,024 rules", &old, &all)?;
    time_service(&rt, &mut cache)?;
    time_finds(&rt, &cache)
}
"""

if __name__ == "__main__":
    print_output_of(
        "touches", PROGRAM, ["name_tree", "dtab_table", "addr_book", "bind_core", "bind_cache"]
    )
